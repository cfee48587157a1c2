//! A table by a record's name in plain Rust whose copies share pieces, where a piece is chosen by four bits of the number, and no names are compared. Its
//! rows ascend as those of a table that compares names. It has as many levels as its greatest number needs, at most eight.

use crate::names::Name;
use std::sync::Arc;

const BITS: u32 = 4;
const WIDE: usize = 1 << BITS;

#[derive(Clone)]
enum Piece<V> {
    Inner(Vec<Option<Arc<Piece<V>>>>),
    Rows(Vec<Option<V>>),
}

fn place_at(id: u32, level: u32) -> usize {
    (id >> (BITS * level)) as usize % WIDE
}

impl<V: Clone> Piece<V> {
    fn empty(level: u32) -> Piece<V> {
        if level == 0 { Piece::Rows(vec![None; WIDE]) } else { Piece::Inner(vec![None; WIDE]) }
    }

    fn put(piece: &mut Arc<Piece<V>>, level: u32, id: u32, value: V) {
        match Arc::make_mut(piece) {
            Piece::Rows(rows) => rows[place_at(id, level)] = Some(value),
            Piece::Inner(pieces) => {
                let below = pieces[place_at(id, level)].get_or_insert_with(|| Arc::new(Piece::empty(level - 1)));
                Piece::put(below, level - 1, id, value);
            }
        }
    }

    fn each(&self, visit: &mut impl FnMut(&V)) {
        match self {
            Piece::Rows(rows) => rows.iter().flatten().for_each(visit),
            Piece::Inner(pieces) => pieces.iter().flatten().for_each(|piece| piece.each(visit)),
        }
    }
}

/// The names of one kind.
#[derive(Clone)]
struct Numbers<V> {
    root: Arc<Piece<V>>,
    levels: u32,
}

impl<V: Clone> Numbers<V> {
    fn get(&self, id: u32) -> Option<&V> {
        if u64::from(id) >> (BITS * (self.levels + 1)) != 0 {
            return None;
        }
        let (mut piece, mut level) = (&self.root, self.levels);
        loop {
            match &**piece {
                Piece::Rows(rows) => return rows[place_at(id, 0)].as_ref(),
                Piece::Inner(pieces) => piece = pieces[place_at(id, level)].as_ref()?,
            }
            level -= 1;
        }
    }

    fn put(&mut self, id: u32, value: V) {
        while u64::from(id) >> (BITS * (self.levels + 1)) != 0 {
            let mut pieces = vec![None; WIDE];
            pieces[0] = Some(self.root.clone());
            self.root = Arc::new(Piece::Inner(pieces));
            self.levels += 1;
        }
        Piece::put(&mut self.root, self.levels, id, value);
    }
}

/// The table. A copy is five counts.
#[derive(Clone)]
pub struct ByNumber<V> {
    kinds: [Numbers<V>; 5],
}

impl<V: Clone> ByNumber<V> {
    pub fn empty() -> Self {
        ByNumber { kinds: [(); 5].map(|_| Numbers { root: Arc::new(Piece::empty(0)), levels: 0 }) }
    }

    pub fn get(&self, name: Name) -> Option<&V> {
        self.kinds[name.kind as usize].get(name.id)
    }

    pub fn put(&mut self, name: Name, value: V) {
        self.kinds[name.kind as usize].put(name.id, value);
    }

    pub fn each(&self, visit: &mut impl FnMut(&V)) {
        self.kinds.iter().for_each(|numbers| numbers.root.each(visit));
    }
}

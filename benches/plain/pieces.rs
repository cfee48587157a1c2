//! A table in plain Rust whose copies share pieces, as those of `SharedTable` do: at most 16 rows or pieces behind one count, each piece with its first
//! key and its number of rows, five levels, keys compared from the front. What it shows is what such a table costs at least.

use std::sync::Arc;

const PIECE: usize = 16;

pub struct Entry<K, P> {
    key: K,
    len: usize,
    piece: Arc<P>,
}

impl<K: Copy, P> Clone for Entry<K, P> {
    fn clone(&self) -> Self {
        Entry { key: self.key, len: self.len, piece: self.piece.clone() }
    }
}

pub trait Piece<K>: Sized {
    type Value: Clone;
    fn empty() -> Self;
    fn len(&self) -> usize;
    fn copy(&self) -> Self;
    fn get(&self, key: K) -> Option<&Self::Value>;
    fn halves(&self, at: usize) -> Option<(Self, K, Self)>;
    fn put(&mut self, key: K, value: Self::Value);
    fn each(&self, visit: &mut impl FnMut(K, &Self::Value));
    /// The bytes of its memory and of that of the pieces below it, without what rows point to.
    fn bytes(&self) -> usize;
}

/// The bytes that an allocator takes for so many: a length before them, in sixteens.
#[allow(dead_code)]
pub fn taken_for(bytes: usize) -> usize {
    if bytes == 0 { 0 } else { (bytes + 8).next_multiple_of(16).max(32) }
}

/// The bytes behind a count.
#[allow(dead_code)]
pub fn counted_bytes<T>() -> usize {
    taken_for(16 + size_of::<T>())
}

pub struct Run<K, V> {
    rows: Vec<(K, V)>,
}

impl<K: Ord + Copy, V: Clone> Run<K, V> {
    fn search(&self, key: K) -> Result<usize, usize> {
        for (place, row) in self.rows.iter().enumerate() {
            if row.0 == key {
                return Ok(place);
            }
            if row.0 > key {
                return Err(place);
            }
        }
        Err(self.rows.len())
    }
}

fn with_room<T: Clone>(items: &[T]) -> Vec<T> {
    let mut twins = Vec::with_capacity(items.len().max(PIECE));
    twins.extend_from_slice(items);
    twins
}

impl<K: Ord + Copy, V: Clone> Piece<K> for Run<K, V> {
    type Value = V;
    fn empty() -> Self {
        Run { rows: Vec::new() }
    }
    fn len(&self) -> usize {
        self.rows.len()
    }
    fn copy(&self) -> Self {
        Run { rows: with_room(&self.rows) }
    }
    fn get(&self, key: K) -> Option<&V> {
        self.search(key).ok().map(|place| &self.rows[place].1)
    }
    fn halves(&self, at: usize) -> Option<(Self, K, Self)> {
        if self.rows.len() < PIECE {
            return None;
        }
        Some((Run { rows: with_room(&self.rows[..at]) }, self.rows[at].0, Run { rows: with_room(&self.rows[at..]) }))
    }
    fn put(&mut self, key: K, value: V) {
        match self.search(key) {
            Ok(place) => self.rows[place] = (key, value),
            Err(place) => self.rows.insert(place, (key, value)),
        }
    }
    fn each(&self, visit: &mut impl FnMut(K, &V)) {
        for (key, value) in &self.rows {
            visit(*key, value);
        }
    }
    fn bytes(&self) -> usize {
        counted_bytes::<Self>() + taken_for(self.rows.capacity() * size_of::<(K, V)>())
    }
}

pub struct Layer<K, P> {
    entries: Vec<Entry<K, P>>,
    len: usize,
}

fn put_shared<K, P: Piece<K>>(piece: &mut Arc<P>, key: K, value: P::Value) {
    if let Some(own) = Arc::get_mut(piece) {
        return own.put(key, value);
    }
    let mut fresh = piece.copy();
    fresh.put(key, value);
    *piece = Arc::new(fresh);
}

impl<K: Ord + Copy, P: Piece<K>> Layer<K, P> {
    fn place_for(&self, key: K) -> usize {
        for (place, entry) in self.entries[1..].iter().enumerate() {
            if entry.key > key {
                return place;
            }
        }
        self.entries.len() - 1
    }
    fn of(entries: Vec<Entry<K, P>>) -> Self {
        let len = entries.iter().map(|entry| entry.len).sum();
        Layer { entries, len }
    }
}

impl<K: Ord + Copy, P: Piece<K>> Piece<K> for Layer<K, P> {
    type Value = P::Value;
    fn empty() -> Self {
        Layer { entries: Vec::new(), len: 0 }
    }
    fn len(&self) -> usize {
        self.len
    }
    fn copy(&self) -> Self {
        Layer { entries: with_room(&self.entries), len: self.len }
    }
    fn get(&self, key: K) -> Option<&P::Value> {
        if self.entries.is_empty() {
            return None;
        }
        self.entries[self.place_for(key)].piece.get(key)
    }
    fn halves(&self, at: usize) -> Option<(Self, K, Self)> {
        if self.entries.len() < PIECE {
            return None;
        }
        Some((Layer::of(with_room(&self.entries[..at])), self.entries[at].key, Layer::of(with_room(&self.entries[at..]))))
    }
    fn put(&mut self, key: K, value: P::Value) {
        if self.entries.is_empty() {
            let mut piece = P::empty();
            piece.put(key, value);
            self.entries.push(Entry { key, len: 1, piece: Arc::new(piece) });
            self.len = 1;
            return;
        }
        let place = self.place_for(key);
        let at = if self.entries.len() <= place + 1 { PIECE - 1 } else { PIECE / 2 };
        if let Some((lower, start, upper)) = self.entries[place].piece.halves(at) {
            let upper = Entry { key: start, len: upper.len(), piece: Arc::new(upper) };
            self.entries.insert(place + 1, upper);
            let entry = &mut self.entries[place];
            *entry = Entry { key: entry.key, len: lower.len(), piece: Arc::new(lower) };
        }
        let place = self.place_for(key);
        let entry = &mut self.entries[place];
        let before = entry.len;
        put_shared(&mut entry.piece, key, value);
        entry.key = entry.key.min(key);
        entry.len = entry.piece.len();
        self.len = self.len + entry.len - before;
    }
    fn each(&self, visit: &mut impl FnMut(K, &P::Value)) {
        for entry in &self.entries {
            entry.piece.each(visit);
        }
    }
    fn bytes(&self) -> usize {
        let below: usize = self.entries.iter().map(|entry| entry.piece.bytes()).sum();
        below + counted_bytes::<Self>() + taken_for(self.entries.capacity() * size_of::<Entry<K, P>>())
    }
}

type Root<K, V> = Layer<K, Layer<K, Layer<K, Layer<K, Run<K, V>>>>>;

/// The table. A copy is a count.
pub struct Table<K: Ord + Copy, V: Clone> {
    root: Option<Arc<Root<K, V>>>,
}

impl<K: Ord + Copy, V: Clone> Table<K, V> {
    pub fn empty() -> Self {
        Table { root: None }
    }

    pub fn share(&self) -> Self {
        Table { root: self.root.clone() }
    }

    pub fn put(&mut self, key: K, value: V) {
        match &mut self.root {
            Some(root) => put_shared(root, key, value),
            None => {
                let mut root = Root::empty();
                root.put(key, value);
                self.root = Some(Arc::new(root));
            }
        }
    }

    pub fn get(&self, key: K) -> Option<&V> {
        self.root.as_ref()?.get(key)
    }

    /// The bytes of its pieces.
    #[allow(dead_code)]
    pub fn bytes(&self) -> usize {
        self.root.as_ref().map_or(0, |root| root.bytes())
    }

    pub fn each(&self, visit: &mut impl FnMut(K, &V)) {
        if let Some(root) = &self.root {
            root.each(visit);
        }
    }
}

//! What the tables of `enc_cell replay` hold at least, in plain Rust of the same shape.
//!
//! `memory WORK FILE` prints, for each table of the cell of a file, how many rows it has, how many bytes a row takes in it, the bytes of its pieces and
//! those of what its rows hold, as the allocator takes them, their sum, and what the process takes. The works: `load`, the records, the tables of the
//! store, of tiles, and of read sets and who reads which key, which all go on being read; `end`, the store, with copies of the records and the bytes of a
//! file. What a load needs for a while, such as lists that tables are made of, isn't in the sums.

#[allow(dead_code)]
mod boxes;
#[allow(dead_code)]
mod frames;
#[allow(dead_code)]
mod look;
#[allow(dead_code)]
mod names;
#[allow(dead_code)]
mod pieces;
#[allow(dead_code)]
mod reading;
#[allow(dead_code)]
mod records;
#[allow(dead_code)]
mod segments;

use boxes::Extent;
use look::Look;
use names::{Identifier, Key, Kind, Name, Ref, Subject};
use pieces::{Table, counted_bytes, taken_for};
use reading::{Cell, read_cell};
use records::{Attribute, End, Feature, Partner, Rec, Spot, Vector};
use std::sync::Arc;

const TILE_SIDE: i32 = 65_536;

/// A record with its place in the file.
#[derive(Clone)]
struct Held {
    #[allow(dead_code)]
    place: u64,
    rec: Arc<Rec>,
}

/// The tiles under a node or an edge, from a row and a column to others, and the box around it.
struct Cover {
    ranges: Vec<(i32, i32, i32, i32)>,
    #[allow(dead_code)]
    around: Option<Extent>,
}

type Tile = (i32, i32);

/// What goes on being read of a cell.
struct Store {
    names: Table<Name, Held>,
    lists: [Table<u64, Arc<Rec>>; 4],
    pointers: Table<Name, Arc<Vec<Ref>>>,
    bearers: Table<Identifier, Arc<Vec<Name>>>,
}

/// What a commit's changes are found by.
struct Indexes {
    covers: Table<Name, Arc<Cover>>,
    tiles: Table<(Tile, Name), ()>,
    reads: Table<Subject, Arc<Vec<Key>>>,
    readers: Table<(Key, Subject), ()>,
}

/// How many kilobytes the process takes.
fn resident() -> u64 {
    let text = std::fs::read_to_string("/proc/self/statm").expect("what the process takes");
    text.split(' ').nth(1).and_then(|pages| pages.parse::<u64>().ok()).expect("pages") * 4
}

/// Adds up what is kept, and tells each part of it.
#[derive(Default)]
struct Sum {
    bytes: usize,
}

impl Sum {
    fn tell(&mut self, name: &str, rows: usize, row: usize, pieces: usize, held: usize) {
        println!("{name:<34} {rows:>7} rows of {row:>3} bytes, {:>5} kB with {:>5} kB that they hold", pieces / 1000, held / 1000);
        self.bytes += pieces + held;
    }

    fn tell_table<K: Ord + Copy, V: Clone>(&mut self, name: &str, table: &Table<K, V>, held: impl Fn(&V) -> usize) {
        let (mut rows, mut bytes) = (0, 0);
        table.each(&mut |_, value| {
            rows += 1;
            bytes += held(value);
        });
        self.tell(name, rows, size_of::<(K, V)>(), table.bytes(), bytes);
    }
}

fn table<K: Ord + Copy, V: Clone>(rows: impl IntoIterator<Item = (K, V)>) -> Table<K, V> {
    let mut table = Table::empty();
    for (key, value) in rows {
        table.put(key, value);
    }
    table
}

/// The bytes of a list behind a count.
fn list_bytes<T>(list: &Vec<T>) -> usize {
    counted_bytes::<Vec<T>>() + taken_for(list.capacity() * size_of::<T>())
}

fn attributes_bytes(attrs: &Vec<Attribute>) -> usize {
    taken_for(attrs.capacity() * size_of::<Attribute>()) + attrs.iter().map(|attr| taken_for(attr.value.capacity())).sum::<usize>()
}

/// The bytes of the lists of a record.
fn rows_bytes(rec: &Rec) -> usize {
    match rec {
        Rec::V(vector) => {
            attributes_bytes(&vector.attrs)
                + taken_for(vector.ends.capacity() * size_of::<End>())
                + taken_for(vector.plane.capacity() * 8)
                + taken_for(vector.deep.capacity() * 12)
        }
        Rec::F(feature) => {
            let partners = taken_for(feature.partners.capacity() * size_of::<Partner>());
            attributes_bytes(&feature.attf) + attributes_bytes(&feature.natf) + partners + taken_for(feature.places.capacity() * size_of::<Spot>())
        }
    }
}

// ---- the store

fn store_of(recs: Vec<Arc<Rec>>, pointers: Vec<(Name, Vec<Ref>)>, bearers: Vec<(Identifier, Name)>) -> Store {
    let places = (0u64..).zip(&recs);
    let lists = [Kind::Vi, Kind::Vc, Kind::Ve, Kind::Fe].map(|kind| {
        let those = recs.iter().filter(|rec| rec.name().kind == kind).zip(0u64..);
        table(those.map(|(rec, place)| (place, rec.clone())))
    });
    Store {
        names: table(places.map(|(place, rec)| (rec.name(), Held { place, rec: rec.clone() }))),
        lists,
        pointers: table(pointers.into_iter().map(|(name, refs)| (name, Arc::new(refs)))),
        bearers: table(bearers.into_iter().map(|(foid, name)| (foid, Arc::new(vec![name])))),
    }
}

fn tell_store(store: &Store, sum: &mut Sum) {
    sum.tell_table("records by name", &store.names, |held| counted_bytes::<Rec>() + rows_bytes(&held.rec));
    for (kind, list) in ["isolated nodes", "connected nodes", "edges", "features"].iter().zip(&store.lists) {
        sum.tell_table(&format!("{kind} in the order of the file"), list, |_| 0);
    }
    sum.tell_table("pointers by target", &store.pointers, |refs| list_bytes(refs));
    sum.tell_table("features by identifier", &store.bearers, |names| list_bytes(names));
}

/// The pointers to each record, in lists of their own.
fn pointer_lists(look: &Look) -> Vec<(Name, Vec<Ref>)> {
    let lists = look.records.iter().enumerate().map(|(place, rec)| (rec.name(), look.pointers_to(place).to_vec()));
    lists.filter(|(_, refs)| !refs.is_empty()).collect()
}

// ---- the indexes

fn box_of(look: &Look, rec: &Rec) -> Option<Extent> {
    let Rec::V(vector) = rec else { return None };
    let ends = vector.ends.iter().filter_map(|end| look.position(end.to));
    vector.plane.iter().copied().chain(ends).map(Extent::of_point).reduce(Extent::united)
}

fn cover_of(around: Extent) -> Cover {
    let tile = |coordinate: i32| coordinate.div_euclid(TILE_SIDE);
    let range = (tile(around.south), tile(around.west), tile(around.north), tile(around.east));
    Cover { ranges: vec![range], around: Some(around) }
}

fn tiles_of(name: Name, cover: &Cover) -> Vec<(Tile, Name)> {
    let mut tiles = Vec::new();
    for (south, west, north, east) in &cover.ranges {
        tiles.extend((*south..=*north).flat_map(|row| (*west..=*east).map(move |column| ((row, column), name))));
    }
    tiles
}

fn vector_keys(vector: &Vector, keys: &mut Vec<Key>) {
    keys.push(Key::Name(vector.name));
    keys.extend(vector.ends.iter().map(|end| Key::Name(end.to)));
}

/// What the findings about a record read: for a feature its name, the head, its records, and what bounds them.
fn record_keys(look: &Look, rec: &Rec) -> Vec<Key> {
    let mut keys = Vec::new();
    match rec {
        Rec::V(vector) => vector_keys(vector, &mut keys),
        Rec::F(feature) => {
            keys.extend([Key::Name(feature.name), Key::Name(Name { kind: Kind::Head, id: 0 })]);
            feature.places.iter().for_each(|spot| match look.vector(spot.to) {
                Some(vector) if feature.prim == 3 => vector_keys(vector, &mut keys),
                _ => keys.push(Key::Name(spot.to)),
            });
            keys.extend(feature.partners.iter().map(|partner| Key::Foid(partner.to)));
        }
    }
    in_order(keys)
}

/// What the findings about an edge and the areas on its sides read.
fn side_keys(name: Name, refs: &[Ref]) -> Vec<Key> {
    let mut keys = vec![Key::Name(name), Key::Refs(name)];
    keys.extend(refs.iter().map(|pointer| Key::Name(pointer.from)));
    in_order(keys)
}

fn in_order(mut keys: Vec<Key>) -> Vec<Key> {
    keys.sort_unstable();
    keys.dedup();
    keys.shrink_to_fit();
    keys
}

/// The read set of each record, side and identifier.
fn read_sets(look: &Look) -> Vec<(Subject, Vec<Key>)> {
    let mut sets: Vec<(Subject, Vec<Key>)> = look.records.iter().map(|rec| (Subject::Rec(rec.name()), record_keys(look, rec))).collect();
    for (place, rec) in look.records.iter().enumerate().filter(|(_, rec)| rec.name().kind == Kind::Ve) {
        sets.push((Subject::Side(rec.name()), side_keys(rec.name(), look.pointers_to(place))));
    }
    sets.extend(look.bearers.iter().map(|(foid, _)| (Subject::Ident(*foid), vec![Key::Foid(*foid)])));
    sets
}

fn indexes_of(covers: Vec<(Name, Cover)>, sets: Vec<(Subject, Vec<Key>)>) -> Indexes {
    let mut tiles: Vec<(Tile, Name)> = covers.iter().flat_map(|(name, cover)| tiles_of(*name, cover)).collect();
    tiles.sort_unstable();
    let mut readers: Vec<(Key, Subject)> = sets.iter().flat_map(|(subject, keys)| keys.iter().map(move |key| (*key, *subject))).collect();
    readers.sort_unstable();
    Indexes {
        covers: table(covers.into_iter().map(|(name, cover)| (name, Arc::new(cover)))),
        tiles: table(tiles.into_iter().map(|row| (row, ()))),
        reads: table(sets.into_iter().map(|(subject, keys)| (subject, Arc::new(keys)))),
        readers: table(readers.into_iter().map(|row| (row, ()))),
    }
}

fn tell_indexes(indexes: &Indexes, sum: &mut Sum) {
    let cover_bytes = |cover: &Cover| counted_bytes::<Cover>() + taken_for(cover.ranges.capacity() * 16);
    sum.tell_table("nodes and edges with their tiles", &indexes.covers, |cover| cover_bytes(cover));
    sum.tell_table("names by tile", &indexes.tiles, |_| 0);
    sum.tell_table("read sets by subject", &indexes.reads, |keys| list_bytes(keys));
    sum.tell_table("who reads which key", &indexes.readers, |_| 0);
}

// ---- the end

fn attributes_again(attrs: &[Attribute]) -> Vec<Attribute> {
    attrs.iter().map(|attr| Attribute { code: attr.code, value: attr.value.clone() }).collect()
}

fn again(rec: &Rec) -> Rec {
    match rec {
        Rec::V(vector) => {
            let Vector { name, rver, ref attrs, ref ends, ref plane, ref deep } = *vector;
            Rec::V(Vector { name, rver, attrs: attributes_again(attrs), ends: ends.clone(), plane: plane.clone(), deep: deep.clone() })
        }
        Rec::F(feature) => {
            let Feature { name, prim, grup, objl, rver, foid, ref attf, ref natf, partners: _, ref places } = *feature;
            let (attf, natf) = (attributes_again(attf), attributes_again(natf));
            Rec::F(Feature { name, prim, grup, objl, rver, foid, attf, natf, partners: Vec::new(), places: places.clone() })
        }
    }
}

fn records_in(cell: Cell) -> Vec<Arc<Rec>> {
    let mut recs = Vec::with_capacity(cell.len());
    for list in [cell.vi, cell.vc, cell.ve, cell.fe] {
        recs.extend(list.into_iter().map(Arc::new));
    }
    recs
}

fn tell_end(store: &Store, size: usize, sum: &mut Sum) {
    let mut copies = Vec::new();
    store.names.each(&mut |_, held| copies.push(again(&held.rec)));
    copies.shrink_to_fit();
    sum.tell("copies of the records", copies.len(), size_of::<Rec>(), copies.len() * size_of::<Rec>(), copies.iter().map(rows_bytes).sum());
    sum.tell("the bytes of the file", size, 1, size, 0);
}

fn covers(look: &Look) -> Vec<(Name, Cover)> {
    let placed = look.records.iter().filter(|rec| matches!(rec.name().kind, Kind::Vc | Kind::Ve));
    placed.filter_map(|rec| Some((rec.name(), cover_of(box_of(look, rec)?)))).collect()
}

fn main() {
    let words: Vec<String> = std::env::args().collect();
    let bytes = std::fs::read(&words[2]).expect("a file");
    let cell = read_cell(&bytes).unwrap_or_else(|refusal| panic!("{:?}", refusal));
    let size = bytes.len();
    drop(bytes);
    let is_load = words[1] == "load";
    let look = Look::of(&cell);
    let (pointers, bearers) = (pointer_lists(&look), look.bearers.clone());
    let indexes = is_load.then(|| indexes_of(covers(&look), read_sets(&look)));
    drop(look);
    let store = store_of(records_in(cell), pointers, bearers);
    let mut sum = Sum::default();
    tell_store(&store, &mut sum);
    match &indexes {
        Some(indexes) => tell_indexes(indexes, &mut sum),
        None => tell_end(&store, size, &mut sum),
    }
    println!("kept: {} kB; the process takes {} kB", sum.bytes / 1000, resident());
}

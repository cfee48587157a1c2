//! Numbers of records that meet in a hash table of subjects: hostile KIND COUNT BITS
//!
//! It prints COUNT numbers of records of a kind (0 to 3: isolated node, connected node, edge, feature) whose hashes have BITS last bits of 0. The hash is that
//! of the kit's `indexmap`, whose seed is fixed, of a subject that is a record.

const MULTIPLIER: u64 = 0x9e37_79b9_7f4a_7c15;

fn folded(a: u64, b: u64) -> u64 {
    let product = a as u128 * b as u128;
    product as u64 ^ (product >> 64) as u64
}

/// The state after 8 bytes of a number: which variant it is.
fn with_variant(state: u64, variant: u64) -> u64 {
    folded(state ^ variant, MULTIPLIER ^ 16)
}

/// The hash after the 4 bytes of a record's number, as the table takes it.
fn hash_of(state: u64, number: u32) -> u32 {
    let hash = folded(state ^ (number as u64 | (number as u64) << 32), MULTIPLIER ^ 8);
    (hash ^ (hash >> 32)) as u32
}

fn main() {
    let numbers: Vec<u64> = std::env::args().skip(1).map(|word| word.parse().unwrap()).collect();
    let [kind, count, bits] = numbers[..] else { panic!("hostile KIND COUNT BITS") };
    let state = with_variant(with_variant(0x243f_6a88_85a3_08d3, 0), kind);
    let mask = (1u32 << bits) - 1;
    let met: Vec<String> =
        (1..u32::MAX).filter(|&number| hash_of(state, number) & mask == 0).take(count as usize).map(|it| it.to_string()).collect();
    println!("{}", met.join("\n"));
}

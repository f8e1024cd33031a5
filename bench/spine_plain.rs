//! The plain baseline of `bench/spine.sh`: a list of cells, each set once (`OnceLock`), with entries of the same parts. It sets each, sees all,
//! reads each again, and prints what `spine_bench` prints.
//!
//! Build it by `rustc -O`, and run it with the number of cells.

use std::sync::OnceLock;
use std::time::Instant;

struct Entry {
    origin: u32,
    number: u64,
    body: Vec<u8>,
}

const INSERT: [u8; 23] = [
    0, 0x54, 2, 1, 0, 0x74, 0x31, 0, 18, 0, 1, 0, 0, 0, 0, 0, 0, 0, 1, 3, 2, 0x76, 0x31,
];

fn sum(cells: &[OnceLock<Box<Entry>>]) -> u64 {
    cells.iter().map_while(OnceLock::get).map(|entry| entry.number).sum()
}

fn main() {
    let count: usize = std::env::args().nth(1).and_then(|word| word.parse().ok()).unwrap_or(0);
    let mut cells = Vec::with_capacity(count);
    cells.resize_with(count, OnceLock::new);
    let start = Instant::now();
    for cell in &cells {
        let set = cell.set(Box::new(Entry { origin: 1, number: 1, body: INSERT.to_vec() }));
        assert!(set.is_ok());
    }
    let offered = start.elapsed().as_nanos();
    let start = Instant::now();
    let seen = sum(&cells);
    let see = start.elapsed().as_nanos();
    let start = Instant::now();
    let read = (0..count).map(|at| cells[at].get().map_or(0, |entry| entry.number)).sum::<u64>();
    let again = start.elapsed().as_nanos();
    assert_eq!(seen, read);
    assert!(cells.iter().flat_map(OnceLock::get).all(|entry| entry.origin == 1 && entry.body.len() == 23));
    println!("{offered} {see} {again} {seen}");
}

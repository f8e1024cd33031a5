//! The plain baseline of `bench/store.sh`: the same rows in std's `BTreeMap`, by single inserts, removals and lookups, with no
//! batch, nothing staged and no refusal.
//!
//! Build it by `rustc -O`. A line is the number of rows, what was timed, and the nanoseconds that one took.

use std::collections::BTreeMap;
use std::hint::black_box;
use std::time::Instant;

type Rows = BTreeMap<(u32, Vec<u8>), Vec<u8>>;

fn mix(x: u64) -> u64 {
    let a = (x ^ (x >> 30)).wrapping_mul(0xbf58476d1ce4e5b9);
    let b = (a ^ (a >> 27)).wrapping_mul(0x94d049bb133111eb);
    b ^ (b >> 31)
}

fn key_of(number: u64) -> (u32, Vec<u8>) {
    let mut key = vec![1];
    key.extend_from_slice(&mix(number).to_be_bytes());
    ((number % 8) as u32, key)
}

fn row_of(number: u64) -> Vec<u8> {
    vec![number as u8; 24]
}

fn time(rows: u64, what: &str, times: u64, mut run: impl FnMut()) {
    let start = Instant::now();
    run();
    println!("{rows} {what} {}", start.elapsed().as_nanos() / u128::from(times));
}

fn main() {
    for rows in [1000u64, 10000, 100000, 1000000] {
        let rounds = (rows / 5).min(20000);
        let scattered = |round: u64| round.wrapping_mul(7919) % rows;
        let mut map: Rows = (0..rows).map(|number| (key_of(number), row_of(number))).collect();
        for _ in 0..3 {
            time(rows, "new", rounds, || {
                for round in rows..rows + rounds {
                    map.insert(key_of(round), row_of(round));
                }
            });
            time(rows, "removed", rounds, || {
                for round in rows..rows + rounds {
                    map.remove(&key_of(round));
                }
            });
            time(rows, "replaced", rounds, || {
                for round in 0..rounds {
                    map.insert(key_of(scattered(round)), row_of(round));
                }
            });
            time(rows, "got", rounds, || {
                for round in 0..rounds {
                    black_box(map.get(&key_of(scattered(round))).cloned());
                }
            });
            time(rows, "listed", rows, || {
                for table in 0..8 {
                    let range = map.range((table, Vec::new())..(table + 1, Vec::new()));
                    black_box(range.map(|(key, row)| (key.1.clone(), row.clone())).collect::<Vec<_>>());
                }
            });
        }
    }
}

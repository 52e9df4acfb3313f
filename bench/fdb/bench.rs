// Times the forwarding database beside BTreeMap and HashMap: look-ups, refreshes, and new stations in a full table.
use std::collections::{BTreeMap, HashMap};
use std::time::Instant;

unsafe extern "C" {
    safe fn fdb_lookups(entries: u32, rounds: u64) -> u64;
    safe fn fdb_refreshes(entries: u32, rounds: u64) -> u64;
    safe fn fdb_arrivals(rounds: u32) -> u64;
}

const ROUNDS: u64 = 20_000_000;
const ARRIVALS: u32 = 200_000;

// The station's number as the table has it: the address 2, 0 and four scattered bytes, and the VLAN 7.
fn station(i: u32) -> u64 {
    ((2 << 40) | u64::from(i.wrapping_mul(2654435761))) * 4096 + 7
}

fn scattered(entries: u32, rounds: u64, mut f: impl FnMut(u32, u64)) {
    let mut x: u32 = 1;
    for round in 0..rounds {
        x = x.wrapping_mul(1664525).wrapping_add(1013904223);
        f((x / 65536) % entries, round);
    }
}

fn timed(name: &str, entries: u32, rounds: u64, f: impl FnOnce() -> u64) -> u64 {
    let start = Instant::now();
    let sum = f();
    let seconds = start.elapsed().as_secs_f64();
    println!("{name:<28} {entries:>5} entries {:>8.1} million/s", rounds as f64 / seconds / 1e6);
    sum
}

fn main() {
    for entries in [16, 256, 4096] {
        let pairs = (0..entries).map(|i| (station(i), (i % 16, 0u64)));
        let tree: BTreeMap<u64, (u32, u64)> = pairs.clone().collect();
        let hash: HashMap<u64, (u32, u64)> = pairs.collect();
        let a = timed("look-up, fdb", entries, ROUNDS, || fdb_lookups(entries, ROUNDS));
        let b = timed("look-up, BTreeMap", entries, ROUNDS, || {
            let mut sum = 0;
            scattered(entries, ROUNDS, |i, _| sum += tree.get(&station(i)).map_or(0, |e| u64::from(e.0)));
            sum
        });
        let c = timed("look-up, HashMap", entries, ROUNDS, || {
            let mut sum = 0;
            scattered(entries, ROUNDS, |i, _| sum += hash.get(&station(i)).map_or(0, |e| u64::from(e.0)));
            sum
        });
        assert!(a == b && b == c);
        timed("refresh, fdb", entries, ROUNDS, || fdb_refreshes(entries, ROUNDS));
        let (mut tree, mut hash) = (tree, hash);
        timed("refresh, BTreeMap", entries, ROUNDS, || {
            scattered(entries, ROUNDS, |i, tick| _ = tree.insert(station(i), (i % 16, tick)));
            0
        });
        timed("refresh, HashMap", entries, ROUNDS, || {
            scattered(entries, ROUNDS, |i, tick| _ = hash.insert(station(i), (i % 16, tick)));
            0
        });
    }
    timed("new station in a full table", 4096, u64::from(ARRIVALS), || fdb_arrivals(ARRIVALS));
}

//! What `perf/crates/bench_bulk` times, over Rust's B-tree.
use std::collections::{BTreeMap, BTreeSet};
use std::io::Read;

type Key = [u8; 8];

#[repr(C)]
struct Time {
    seconds: i64,
    nanos: i64,
}

extern "C" {
    fn clock_gettime(clock: i32, time: *mut Time) -> i32;
}

/// Nanoseconds of processor time that the process has used.
fn now() -> u64 {
    let mut time = Time { seconds: 0, nanos: 0 };
    unsafe { clock_gettime(2, &mut time) };
    time.seconds as u64 * 1_000_000_000 + time.nanos as u64
}

fn pairs_of(from: u64, below: u64, step: usize) -> Vec<(Key, u64)> {
    (from..below).step_by(step).map(|it| (it.to_be_bytes(), it)).collect()
}

fn map_of(from: u64, below: u64, step: usize) -> BTreeMap<Key, u64> {
    pairs_of(from, below, step).into_iter().collect()
}

fn set_of(from: u64, below: u64, step: usize) -> BTreeSet<Key> {
    (from..below).step_by(step).map(|it| it.to_be_bytes()).collect()
}

fn tell(step: &str, start: u64, answer: usize) {
    println!("{step} {} {answer}", now() - start);
}

fn shuffled_below(below: u64) -> Vec<(Key, u64)> {
    let by = below / 1000 * 618 + 1;
    (0..below).map(|at| at.wrapping_mul(by) % below).map(|it| (it.to_be_bytes(), it)).collect()
}

fn load(order: &str, pairs_of: impl Fn() -> Vec<(Key, u64)>) {
    let pairs = pairs_of();
    let start = now();
    let map: BTreeMap<Key, u64> = pairs.into_iter().collect();
    tell(&format!("from_vec,{order}"), start, map.len());
    let pairs = pairs_of();
    let start = now();
    let mut map = BTreeMap::new();
    for (key, value) in pairs {
        map.insert(key, value);
    }
    tell(&format!("insert,{order}"), start, map.len());
}

fn append(step: &str, map: &mut BTreeMap<Key, u64>, other: &mut BTreeMap<Key, u64>) {
    let start = now();
    map.append(other);
    tell(step, start, map.len());
}

fn split(step: &str, size: u64, at: u64) {
    let mut map = map_of(0, size, 1);
    let start = now();
    let off = map.split_off(&at.to_be_bytes());
    tell(step, start, off.len());
}

fn walk(step: &str, map: &BTreeMap<Key, u64>) {
    let start = now();
    let sum = map.iter().fold(0, |sum, (key, _)| sum + usize::from(key[7]) + 1);
    tell(step, start, sum);
}

fn main() {
    let mut text = String::new();
    std::io::stdin().read_to_string(&mut text).unwrap();
    let size: u64 = text.trim().parse().unwrap();
    load("ascending", || pairs_of(0, size, 1));
    load("shuffled", || shuffled_below(size));
    let (mut low, high) = (map_of(0, size / 2, 1), pairs_of(size / 2, size, 1));
    let start = now();
    low.extend(high);
    tell("extend,after", start, low.len());
    let (mut low, mut high) = (map_of(0, size / 2, 1), map_of(size / 2, size, 1));
    append("append,after", &mut low, &mut high);
    let (mut even, mut odd) = (map_of(0, size, 2), map_of(1, size, 2));
    append("append,between", &mut even, &mut odd);
    append("append,few", &mut low, &mut map_of(0, size, 1000));
    split("split_off,middle", size, size / 2);
    split("split_off,few", size, size - size / 1000);
    let mut map = BTreeMap::new();
    for (key, number) in shuffled_below(size) {
        map.insert(key, number);
    }
    walk("walk,shuffled", &map);
    // (the B-tree has no `compact`: one of sorted pairs stands in its place)
    let pairs = map.into_iter();
    let start = now();
    let map: BTreeMap<Key, u64> = pairs.collect();
    tell("compact", start, map.len());
    walk("walk,compacted", &map);
    let (first, second) = (set_of(0, 2 * size, 2), set_of(0, 3 * size, 3));
    let start = now();
    let sum = first.union(&second).fold(0, |sum, key| sum + usize::from(key[7]) + 1);
    tell("union", start, sum);
    let start = now();
    let sum = first.intersection(&second).fold(0, |sum, key| sum + usize::from(key[7]) + 1);
    tell("intersection", start, sum);
    let start = now();
    let both = &first | &second;
    tell("or", start, both.len());
}

//! Needs a folder of yardsticks (../Cargo.toml), for ./bench --perf alone: unproved maps under the call that perf/drive.c makes. The tree
//! with a `Vec` for each key (`art-vec`), with linked leaves too (`art-list`, feature `list`), or Rust's own `BTreeMap`
//! (`btree`, feature `btree`). Only the latter two can be walked from both ends.
use std::slice::from_raw_parts;

#[cfg(feature = "btree")]
mod map {
    use std::collections::BTreeMap;
    use std::ops::Bound;

    #[derive(Clone, Default)]
    pub struct Map(BTreeMap<Vec<u8>, u64>);

    impl Map {
        pub fn insert(&mut self, key: &[u8], value: u64) {
            self.0.insert(key.to_vec(), value);
        }
        pub fn has(&self, key: &[u8]) -> bool {
            self.0.contains_key(key)
        }
        /// Counts the value once more, or puts it in.
        pub fn enter(&mut self, key: &[u8], value: u64) {
            self.0.entry(key.to_vec()).and_modify(|old| *old = old.wrapping_add(1)).or_insert(value);
        }
        /// Counts the value once more, where the key is stored.
        pub fn raise(&mut self, key: &[u8]) -> bool {
            self.0.get_mut(key).map(|old| *old = old.wrapping_add(1)).is_some()
        }
        pub fn len(&self) -> usize {
            self.0.len()
        }
        pub fn walk(&self) -> u64 {
            self.0.iter().fold(0, |sum: u64, (key, value)| sum.wrapping_add(*value).wrapping_add(key.len() as u64))
        }
        pub fn walk_between(&self, low: &[u8], high: &[u8]) -> u64 {
            let bounds = (Bound::Included(low), Bound::Excluded(high));
            let pairs = self.0.range::<[u8], _>(bounds);
            pairs.fold(0, |sum: u64, (key, value)| sum.wrapping_add(*value).wrapping_add(key.len() as u64))
        }
        pub fn walk_with_prefix(&self, front: &[u8]) -> u64 {
            let pairs = self.0.range::<[u8], _>((Bound::Included(front), Bound::Unbounded));
            let pairs = pairs.take_while(|(key, _)| key.starts_with(front));
            pairs.fold(0, |sum: u64, (key, value)| sum.wrapping_add(*value).wrapping_add(key.len() as u64))
        }
        pub fn ends(&self) -> (usize, usize) {
            (0, 0)
        }
        pub fn walk_from_both_ends(&self, _: (usize, usize)) -> u64 {
            let (mut pairs, mut sum) = (self.0.iter(), 0u64);
            for i in 0..self.len() {
                if let Some((key, value)) = if i % 2 == 0 { pairs.next() } else { pairs.next_back() } {
                    sum = sum.wrapping_add(*value).wrapping_add(key.len() as u64);
                }
            }
            sum
        }
    }
}
#[cfg(not(feature = "btree"))]
mod map {
    use peers::art::{Art, Leaf as _};

    #[cfg(not(feature = "list"))]
    mod leaf {
        pub type Leaf = Box<(Vec<u8>, u64)>;
        pub fn of(key: &[u8], value: u64) -> Leaf {
            Box::new((key.to_vec(), value))
        }
        pub fn value(leaf: &Leaf) -> u64 {
            leaf.1
        }
        pub fn value_at(leaf: &Leaf) -> *const u64 {
            &leaf.1
        }
    }
    #[cfg(feature = "list")]
    mod leaf {
        use peers::art::Listed;
        pub type Leaf = Box<Listed<Vec<u8>, u64>>;
        pub fn of(key: &[u8], value: u64) -> Leaf {
            Box::new(Listed::new(key.to_vec(), value))
        }
        pub fn value(leaf: &Leaf) -> u64 {
            leaf.value
        }
        pub fn value_at(leaf: &Leaf) -> *const u64 {
            &leaf.value
        }
    }

    #[derive(Clone, Default)]
    pub struct Map(Art<leaf::Leaf>);

    impl Map {
        pub fn insert(&mut self, key: &[u8], value: u64) {
            self.0.insert(leaf::of(key, value));
        }
        pub fn has(&self, key: &[u8]) -> bool {
            self.0.get(key).is_some()
        }
        /// This tree has no entries.
        pub fn enter(&mut self, _: &[u8], _: u64) {}
        /// Counts the value once more, where the key is stored. The tree lends no value for writing, so this goes by its
        /// address.
        pub fn raise(&mut self, key: &[u8]) -> bool {
            let Some(leaf) = self.0.get(key) else { return false };
            let value = leaf::value_at(leaf) as *mut u64;
            unsafe { value.write_volatile(value.read().wrapping_add(1)) };
            true
        }
        pub fn len(&self) -> usize {
            self.0.len()
        }
        pub fn walk(&self) -> u64 {
            let mut sum = 0u64;
            self.0.for_each(&mut |it| sum = sum.wrapping_add(leaf::value(it)).wrapping_add(it.key().len() as u64));
            sum
        }
        pub fn walk_between(&self, low: &[u8], high: &[u8]) -> u64 {
            let mut sum = 0u64;
            self.0.range_each(low, high, &mut |it| {
                sum = sum.wrapping_add(leaf::value(it)).wrapping_add(it.key().len() as u64)
            });
            sum
        }
        pub fn walk_with_prefix(&self, front: &[u8]) -> u64 {
            let mut sum = 0u64;
            self.0.prefix_each(front, &mut |it| {
                sum = sum.wrapping_add(leaf::value(it)).wrapping_add(it.key().len() as u64)
            });
            sum
        }
        /// The words of the first leaf and of the last: to find them is no part of the walk between them.
        pub fn ends(&self) -> (usize, usize) {
            let (mut first, mut last) = (0, 0);
            self.0.for_each(&mut |it| {
                last = unsafe { *(it as *const leaf::Leaf as *const usize) };
                first = if first == 0 { last } else { first };
            });
            (first, last)
        }
        #[cfg(not(feature = "list"))]
        pub fn walk_from_both_ends(&self, _: (usize, usize)) -> u64 {
            0
        }
        /// By the links. They can't be named outside of their crate, so this reads the two words of a leaf's links.
        #[cfg(feature = "list")]
        pub fn walk_from_both_ends(&self, (mut from, mut to): (usize, usize)) -> u64 {
            fn words(word: &usize) -> [usize; 2] {
                unsafe { *(leaf_of(word).links() as *const _ as *const [usize; 2]) }
            }
            fn leaf_of(word: &usize) -> &leaf::Leaf {
                unsafe { &*(word as *const usize as *const leaf::Leaf) }
            }
            if self.len() == 0 {
                return 0;
            }
            // The first leaf has none before it: which of its two words leads there?
            let back = usize::from(words(&from)[0] != 0);
            let mut sum = 0u64;
            let mut add = |it: &leaf::Leaf| sum = sum.wrapping_add(leaf::value(it)).wrapping_add(it.key().len() as u64);
            for i in 0..self.len() {
                if i % 2 == 0 {
                    add(leaf_of(&from));
                    from = words(&from)[1 - back];
                } else {
                    add(leaf_of(&to));
                    to = words(&to)[back];
                }
            }
            sum
        }
    }
}
use map::Map;

#[repr(C)]
struct Time {
    seconds: i64,
    nanos: i64,
}
extern "C" {
    fn clock_gettime(clock: i32, time: *mut Time) -> i32;
}
const PROCESS_CPU: i32 = 2;

fn now() -> u64 {
    let mut time = Time { seconds: 0, nanos: 0 };
    unsafe { clock_gettime(PROCESS_CPU, &mut time) };
    time.seconds as u64 * 1_000_000_000 + time.nanos as u64
}

fn string<'a>(bytes: &'a [u8], ends: &[u64], i: usize) -> &'a [u8] {
    let start = if i == 0 { 0 } else { ends[i - 1] as usize };
    &bytes[start..ends[i] as usize]
}

#[inline(never)]
fn insert_all(map: &mut Map, keys: &[u8], ends: &[u64]) -> u64 {
    for i in 0..ends.len() {
        map.insert(string(keys, ends, i), i as u64);
    }
    0
}

#[inline(never)]
fn look_all_up(map: &Map, queries: &[u8], ends: &[u64]) -> u64 {
    (0..ends.len()).filter(|&i| map.has(string(queries, ends, i))).count() as u64
}

/// The pairs of each range, whose bounds are two queries in turn.
#[inline(never)]
fn walk_ranges(map: &Map, queries: &[u8], ends: &[u64]) -> u64 {
    let one = |i| map.walk_between(string(queries, ends, 2 * i), string(queries, ends, 2 * i + 1));
    (0..ends.len() / 2).fold(0, |sum: u64, i| sum.wrapping_add(one(i)))
}

/// The pairs with each query.
#[inline(never)]
fn walk_fronts(map: &Map, queries: &[u8], ends: &[u64]) -> u64 {
    (0..ends.len()).fold(0, |sum: u64, i| sum.wrapping_add(map.walk_with_prefix(string(queries, ends, i))))
}

/// How many pairs there are once each query is inserted, entered, or looked up for writing and inserted where it isn't
/// there.
#[inline(never)]
fn put_all(map: &mut Map, step: u8, queries: &[u8], ends: &[u64]) -> u64 {
    for i in 0..ends.len() {
        let key = string(queries, ends, i);
        match step {
            12 => map.insert(key, i as u64),
            13 => map.enter(key, i as u64),
            _ if map.raise(key) => {}
            _ => map.insert(key, i as u64),
        }
    }
    map.len() as u64
}

/// What a step answers, and how long it took. A clone is dropped after the last reading of the clock.
fn time(map: &mut Map, step: u8, keys: (&[u8], &[u64]), queries: (&[u8], &[u64])) -> (u64, u64) {
    let ends = if step == 8 { map.ends() } else { (0, 0) };
    let old = if step == 11 { std::mem::take(map) } else { Map::default() };
    let count = map.len().max(old.len()) as u64;
    let start = now();
    match step {
        1 => (insert_all(map, keys.0, keys.1), now() - start),
        2 => (look_all_up(map, queries.0, queries.1), now() - start),
        4 => (map.walk(), now() - start),
        5 => (walk_fronts(map, queries.0, queries.1), now() - start),
        6 => (walk_ranges(map, queries.0, queries.1), now() - start),
        7 => {
            let _copy = map.clone();
            (count, now() - start)
        }
        8 => (map.walk_from_both_ends(ends), now() - start),
        12..=14 => (put_all(map, step, queries.0, queries.1), now() - start),
        11 => {
            drop(old);
            (count, now() - start)
        }
        _ => (0, now() - start),
    }
}

/// Carries the steps out in turn.
///
/// # Safety
/// Each pointer comes with its length.
#[no_mangle]
pub unsafe extern "C" fn art_bench_run(
    keys: *const u8, keys_len: usize, ends: *const u64, count: usize, queries: *const u8, queries_len: usize,
    query_ends: *const u64, query_count: usize, steps: *const u8, step_count: usize, nanos: *mut u64, _nanos_count: usize,
) -> u64 {
    let keys = (from_raw_parts(keys, keys_len), from_raw_parts(ends, count));
    let queries = (from_raw_parts(queries, queries_len), from_raw_parts(query_ends, query_count));
    let mut map = Map::default();
    let mut sum = 0u64;
    for (i, step) in from_raw_parts(steps, step_count).iter().enumerate() {
        let (answer, took) = time(&mut map, *step, keys, queries);
        sum = sum.wrapping_add(answer);
        *nanos.add(i) = took;
    }
    sum
}

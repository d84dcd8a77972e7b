//! How long calls take, in nanoseconds a pair, beside `BTreeMap`, and beside `HashMap` where order is not asked.
//!
//!     cargo bench --offline [-- SIZE .. KEYS .. rounds=N]   1000, 100000 and 1000000 pairs of all keys, if none are told
//!
//! A line tells the keys, how many, the map, the nanoseconds of a pair, and the step; a last one the ratios.
//! All maps have keys of the same type and `u64` values, and lend what they lend. `perf/bindings.py` has unproved radix
//! trees beside them. Keys are looked up, missed and taken out in another order than they went in. Each map runs in turn,
//! several rounds, which are `rounds` at least; the least time of each counts: of the processor by `perf/bindings.py`, else
//! by the wall clock. Keys:
//!
//! - `rand8`: `Vec<u8>` of eight random bytes; `url`: `Vec<u8>` of some 60 bytes, of hosts and paths;
//! - `u64`: random numbers; `dense`: the numbers from 0 on; `text`: `String`s as the urls.
//!
//! Half of the pairs are appended to the other half: those after it, and each second one.
//! Some hundred of the urls are with a prefix, 256 of the dense numbers, and of random keys those of the first byte, or
//! of the first two from 10^6 on.
#[cfg(peer)]
mod peer;

use artmap::{ArtMap, Key, NoPrefixes};
use std::collections::{BTreeMap, HashMap};
use std::env;
use std::fs;
use std::hash::Hash;
use std::hint::black_box;
use std::process::Command;
#[cfg(not(peer))]
use std::{sync::LazyLock, time::Instant};

/// A step of a map, and the nanoseconds that a pair takes in it.
type Times = Vec<(&'static str, f64)>;

/// xorshift64*
struct Random(u64);

impl Random {
    fn next(&mut self) -> u64 {
        self.0 ^= self.0 >> 12;
        self.0 ^= self.0 << 25;
        self.0 ^= self.0 >> 27;
        self.0.wrapping_mul(0x2545_f491_4f6c_dd1d)
    }

    fn shuffle<T>(&mut self, of: &mut [T]) {
        for at in (1..of.len()).rev() {
            let with = self.next() % (at as u64 + 1);
            of.swap(at, usize::try_from(with).unwrap());
        }
    }
}

/// A type of keys, and those of a bench: the one of a number.
trait Made: Clone + Ord + Hash + Key {
    fn of(number: u64) -> Self;

    /// What some keys of a map of this size begin with, this one too, and the least key that may begin so.
    fn front(&self, size: usize) -> (Vec<u8>, Self);

    fn is_under(&self, front: &[u8]) -> bool;
}

/// What unproved trees ask of keys.
#[cfg(peer)]
use peer::Coded;
#[cfg(not(peer))]
trait Coded {}
#[cfg(not(peer))]
impl<K> Coded for K {}

fn mixed(number: u64) -> u64 {
    let number = (number ^ (number >> 31)).wrapping_mul(0x7fb5_d329_728e_a185);
    let number = (number ^ (number >> 27)).wrapping_mul(0x81da_def4_bc2d_d44d);
    number ^ (number >> 33)
}

fn url(number: u64) -> String {
    let it = mixed(number);
    let (host, path) = (it % 997, it / 997 % 9_973);
    format!("https://www.host-{host:03}.example/articles/{path:05}/read-{it:016x}")
}

/// How many bytes of an url are those of a prefix, and how many of eight random ones.
fn front_of_url(size: usize) -> usize {
    match size {
        0..10_000 => "https://www.host-0".len(),
        10_000..1_000_000 => "https://www.host-000.".len(),
        _ => "https://www.host-000.example/articles/00".len(),
    }
}

fn front_of_8(size: usize) -> usize {
    if size < 1_000_000 { 1 } else { 2 }
}

fn front_of_number(number: u64, len: usize) -> (Vec<u8>, u64) {
    (number.to_be_bytes()[..len].to_vec(), number & !(u64::MAX >> (8 * len)))
}

impl Made for u64 {
    fn of(number: u64) -> u64 {
        mixed(number)
    }

    fn front(&self, size: usize) -> (Vec<u8>, u64) {
        front_of_number(*self, front_of_8(size))
    }

    fn is_under(&self, front: &[u8]) -> bool {
        self.to_be_bytes().starts_with(front)
    }
}

impl Made for String {
    fn of(number: u64) -> String {
        url(number)
    }

    fn front(&self, size: usize) -> (Vec<u8>, String) {
        let front = &self[..front_of_url(size)];
        (front.into(), front.into())
    }

    fn is_under(&self, front: &[u8]) -> bool {
        self.as_bytes().starts_with(front)
    }
}

/// The numbers themselves.
#[derive(Clone, PartialEq, Eq, PartialOrd, Ord, Hash)]
struct Dense(u64);

impl Key for Dense {
    type Bytes<'a> = [u8; 8];

    fn to_bytes(&self) -> Result<[u8; 8], artmap::AllocError> {
        self.0.to_bytes()
    }
}

impl NoPrefixes for Dense {}

impl Made for Dense {
    fn of(number: u64) -> Dense {
        Dense(number)
    }

    fn front(&self, _: usize) -> (Vec<u8>, Dense) {
        let (front, least) = front_of_number(self.0, 7);
        (front, Dense(least))
    }

    fn is_under(&self, front: &[u8]) -> bool {
        self.0.to_be_bytes().starts_with(front)
    }
}

/// Bytes of a fixed length, by which none begins another.
macro_rules! bytes {
    ($of:ident, $number:ident, $bytes:expr, $front:expr) => {
        #[derive(Clone, PartialEq, Eq, PartialOrd, Ord, Hash)]
        struct $of(Vec<u8>);

        impl Key for $of {
            type Bytes<'a> = &'a [u8];

            fn to_bytes(&self) -> Result<&[u8], artmap::AllocError> {
                Ok(&self.0)
            }
        }

        impl NoPrefixes for $of {}

        impl Made for $of {
            fn of($number: u64) -> Self {
                $of($bytes)
            }

            fn front(&self, size: usize) -> (Vec<u8>, Self) {
                let front = &self.0[..$front(size)];
                (front.into(), $of(front.into()))
            }

            fn is_under(&self, front: &[u8]) -> bool {
                self.0.starts_with(front)
            }
        }
    };
}

bytes!(Rand8, number, mixed(number).to_be_bytes().to_vec(), front_of_8);
bytes!(Url, number, url(number).into_bytes(), front_of_url);

/// Nanoseconds, whose differences count; and what has malloc join the blocks that are free.
#[cfg(peer)]
use timing::{now, settle};
#[cfg(not(peer))]
fn settle() {}
#[cfg(not(peer))]
fn now() -> f64 {
    static BEGAN: LazyLock<Instant> = LazyLock::new(Instant::now);
    BEGAN.elapsed().as_secs_f64() * 1e9
}

#[allow(clippy::cast_precision_loss, reason = "a time is told in three digits")]
fn timed(times: &mut Times, what: &'static str, pairs: usize, run: impl FnOnce() -> u64) {
    let began = now();
    black_box(run());
    times.push((what, (now() - began) / pairs as f64));
}

/// The keys of a bench, in the orders that they are used in.
struct Keys<K> {
    going_in: Vec<K>,
    asked: Vec<K>,
    missed: Vec<K>,
    going_out: Vec<K>,
    sorted: Vec<K>,
    fronts: Vec<(Vec<u8>, K)>,
}

fn keys<K: Made>(size: usize) -> Keys<K> {
    let mut random = Random(42);
    let mut going_in: Vec<K> = (0..size as u64).map(K::of).collect();
    random.shuffle(&mut going_in);
    let mut asked = going_in.clone();
    random.shuffle(&mut asked);
    let mut going_out = going_in.clone();
    random.shuffle(&mut going_out);
    let mut missed: Vec<K> = (size as u64..2 * size as u64).map(K::of).collect();
    random.shuffle(&mut missed);
    let mut sorted = going_in.clone();
    sorted.sort();
    let fronts = asked.iter().step_by(100).map(|key| key.front(size)).collect();
    Keys { going_in, asked, missed, going_out, sorted, fronts }
}

fn sum<'a, K: 'a>(pairs: impl Iterator<Item = (&'a K, &'a u64)>) -> u64 {
    pairs.fold(0, |sum, (key, value)| sum.wrapping_add(*value).wrapping_add(std::ptr::from_ref(key) as u64 & 1))
}

/// As `next`, from the other end.
macro_rules! back {
    () => {
        |map| sum(map.iter().rev())
    };
}

/// Times ranges of 1, 10 and 100 pairs.
type Ranges<M, K> = fn(&M, &Keys<K>, &mut Times, [&'static str; 3]);

/// Goes through the pairs with a prefix, by the map's own call or from the least key on, and counts them.
type Prefix<M, K> = fn(&M, &(Vec<u8>, K), &mut u64) -> usize;

fn counted<'a, K: 'a>(pairs: impl Iterator<Item = (&'a K, &'a u64)>, all: &mut u64) -> usize {
    let mut count = 0;
    *all ^= sum(pairs.inspect(|_| count += 1));
    count
}

/// Times walks after prefixes, for each pair that is met.
#[allow(clippy::cast_precision_loss, reason = "a time is told in three digits")]
fn with_prefix<M, K>(map: &M, keys: &Keys<K>, times: &mut Times, prefix: Prefix<M, K>) {
    let (mut all, mut count) = (0, 0);
    let began = now();
    keys.fronts.iter().for_each(|front| count += prefix(map, front, &mut all));
    let nanos = now() - began;
    black_box(all);
    times.push(("prefix", nanos / count.max(1) as f64));
}

/// Times a `collect` of pairs with keys in some order.
fn collected<K: Clone, M: FromIterator<(K, u64)>>(times: &mut Times, what: &'static str, keys: &[K]) -> M {
    settle();
    let (pairs, mut made): (Vec<(K, u64)>, _) = (keys.iter().cloned().zip(0..).collect(), None);
    timed(times, what, keys.len(), || {
        made = Some(pairs.into_iter().collect());
        0
    });
    made.expect("a map")
}

/// The steps of a map, which all maps spell alike.
macro_rules! steps {
    (
        $name:ident, $map:ident, [$($bound:tt)*], $is_ordered:literal, $ranges:expr, $back:expr, $append:expr, $prefix:expr
    ) => {
        fn $name<K: Made + $($bound)*>(keys: &Keys<K>) -> Times {
            let size = keys.going_in.len();
            let mut times = Vec::new();
            let given = keys.going_in.clone();
            let mut map = $map::<K, u64>::new();
            timed(&mut times, "put", size, || {
                given.into_iter().zip(0..).filter_map(|(key, value)| map.insert(key, value)).count() as u64
            });
            timed(&mut times, "get", size, || {
                keys.asked.iter().filter_map(|key| map.get(key)).fold(0, |sum, it| sum.wrapping_add(*it))
            });
            timed(&mut times, "miss", size, || keys.missed.iter().filter(|key| map.get(*key).is_none()).count() as u64);
            if $is_ordered {
                timed(&mut times, "next", size, || sum(map.iter()));
                let back: fn(&$map<K, u64>) -> u64 = $back;
                timed(&mut times, "back", size, || back(&map));
                let ranges: Ranges<$map<K, u64>, K> = $ranges;
                ranges(&map, keys, &mut times, ["range of 1", "range of 10", "range of 100"]);
                with_prefix(&map, keys, &mut times, $prefix);
            }
            let mut copy = None;
            timed(&mut times, "clone", size, || {
                copy = Some(map.clone());
                0
            });
            drop(copy);
            timed(&mut times, "remove", size, || {
                keys.going_out.iter().filter_map(|key| map.remove(key)).fold(0, u64::wrapping_add)
            });
            drop(map);
            let made: $map<K, u64> = collected(&mut times, "load", &keys.sorted);
            if $is_ordered {
                timed(&mut times, "next of these", size, || sum(made.iter()));
                let ranges: Ranges<$map<K, u64>, K> = $ranges;
                ranges(&made, keys, &mut times, ["1 of these", "10 of these", "100 of these"]);
            }
            drop(made);
            drop::<$map<K, u64>>(collected(&mut times, "shuffled", &keys.going_in));
            if $is_ordered {
                for (what, parts) in [("append after", 2), ("append between", size)] {
                    // (each second one of so many parts)
                    let pairs = keys.sorted.iter().cloned().zip(0u64..).enumerate();
                    let (other, one): (Vec<_>, Vec<_>) = pairs.partition(|it| it.0 * parts / size % 2 == 1);
                    let mut one: $map<K, u64> = one.into_iter().map(|it| it.1).collect();
                    let mut other: $map<K, u64> = other.into_iter().map(|it| it.1).collect();
                    settle();
                    timed(&mut times, what, other.len(), || {
                        $append(&mut one, &mut other);
                        0
                    });
                    assert!(other.is_empty() && one.len() == size);
                }
            }
            times
        }
    };
}

macro_rules! ranges {
    () => {
        |map, keys, times, names| {
            for (what, (wanted, every)) in names.into_iter().zip([(1, 2), (10, 4), (100, 40)]) {
                let starts: Vec<&K> = keys.asked.iter().step_by(every).collect();
                timed(times, what, wanted * starts.len(), || {
                    starts.iter().fold(0, |all, key| all ^ sum(map.range::<K, _>((*key).clone()..).take(wanted)))
                });
            }
        }
    };
}

steps!(art, ArtMap, [NoPrefixes], true, ranges!(), back!(), ArtMap::append, |map, front, all| counted(
    map.prefix(&front.0[..]),
    all
));
steps!(tree, BTreeMap, [], true, ranges!(), back!(), BTreeMap::append, |map, front, all| {
    counted(map.range::<K, _>(&front.1..).take_while(|it| it.0.is_under(&front.0)), all)
});
steps!(hash, HashMap, [], false, |_, _, _, _| {}, |_| 0, |_: &mut _, _: &mut _| {}, |_, _, _| 0);

/// The bytes that the process has in memory.
fn resident() -> usize {
    let pages = fs::read_to_string("/proc/self/statm").unwrap_or_default();
    pages.split(' ').nth(1).and_then(|it| it.parse::<usize>().ok()).unwrap_or(0) * 4096
}

/// The bytes a pair of maps of this size: of one, or of as many as have 200,000 pairs.
fn weight<M>(size: usize, filled: impl Fn(&[u64]) -> M) -> usize {
    let (mut random, mut order) = (Random(7), (0..size as u64).collect::<Vec<_>>());
    random.shuffle(&mut order);
    let count = (200_000 / size).max(1);
    let mut held = Vec::with_capacity(count);
    let before = resident();
    held.extend((0..count).map(|_| filled(&order)));
    let after = resident();
    black_box(&held);
    after.saturating_sub(before) / (size * count)
}

/// Puts in the keys of some numbers.
macro_rules! filled {
    ($map:ident) => {
        |order| {
            let mut made = $map::new();
            let keys = order.iter().map(|it| K::of(*it)).zip(0u64..);
            assert_eq!(keys.filter_map(|(key, value)| made.insert(key, value)).count(), 0);
            made
        }
    };
}

/// Makes maps alone, and prints the bytes a pair.
fn weigh<K: Made + NoPrefixes + Coded>(map: &str, size: usize) {
    let bytes = match map {
        "ArtMap" => weight(size, filled!(ArtMap)),
        "BTreeMap" => weight(size, filled!(BTreeMap)),
        "HashMap" => weight(size, filled!(HashMap)),
        #[cfg(peer)]
        "art-vec" => weight(size, peer::filled_vec::<K>),
        #[cfg(peer)]
        "art-list" => weight(size, peer::filled_list::<K>),
        _ => return,
    };
    println!("{bytes}");
}

fn weighed(kind: &str, map: &str, size: usize) -> String {
    let program = env::current_exe().expect("a program");
    let ran = Command::new(program).args(["--weigh", kind, map, &size.to_string()]).output().expect("a process");
    String::from_utf8_lossy(&ran.stdout).trim().to_string()
}

/// Goes through the steps of a map.
type Steps<K> = fn(&Keys<K>) -> Times;

fn least(best: &mut Times, again: Times) {
    if best.is_empty() {
        *best = again;
    } else {
        best.iter_mut().zip(again).for_each(|(one, other)| one.1 = one.1.min(other.1));
    }
}

fn bench<K: Made + NoPrefixes + Coded>(kind: &str, size: usize, rounds: usize) {
    let keys = keys::<K>(size);
    let maps: [(&str, Steps<K>); _] = [
        ("ArtMap", art),
        ("BTreeMap", tree),
        ("HashMap", hash),
        #[cfg(peer)]
        ("art-vec", peer::vec),
        #[cfg(peer)]
        ("art-list", peer::list),
    ];
    let mut best = maps.map(|_| Vec::new());
    for round in 0..rounds {
        for at in (0..maps.len()).map(|at| (at + round) % maps.len()) {
            settle();
            least(&mut best[at], maps[at].1(&keys));
        }
    }
    for (times, (name, _)) in best.iter().zip(maps) {
        for (what, ns) in times {
            println!("{kind} {size} {name} {ns:.1} {what}");
        }
    }
    let ratios = best[0].iter().zip(&best[1]).map(|((step, mine), (_, other))| format!("{step} {:.2}", mine / other));
    println!("{kind} {size}, ArtMap to BTreeMap: {}", ratios.collect::<Vec<_>>().join(", "));
    for (map, _) in maps {
        println!("{kind} {size} {map} {} bytes a pair", weighed(kind, map, size));
    }
}

fn main() {
    let words: Vec<String> = env::args().skip(1).collect();
    if let [weigh_word, kind, map, size] = &words[..]
        && weigh_word == "--weigh"
    {
        let size = size.parse().expect("a size");
        match kind.as_str() {
            "rand8" => weigh::<Rand8>(map, size),
            "url" => weigh::<Url>(map, size),
            "u64" => weigh::<u64>(map, size),
            "dense" => weigh::<Dense>(map, size),
            _ => weigh::<String>(map, size),
        }
        return;
    }
    let kinds: Vec<&String> =
        words.iter().filter(|it| ["rand8", "url", "u64", "dense", "text"].contains(&it.as_str())).collect();
    let is_wanted = |kind: &str| kinds.is_empty() || kinds.iter().any(|it| *it == kind);
    let rounds = words.iter().find_map(|it| it.strip_prefix("rounds=")?.parse().ok());
    let told: Vec<usize> = words.iter().filter_map(|it| it.parse().ok()).collect();
    for size in if told.is_empty() { vec![1_000, 100_000, 1_000_000] } else { told } {
        let rounds = (1_000_000 / size).clamp(rounds.unwrap_or(3), 30);
        if is_wanted("rand8") {
            bench::<Rand8>("rand8", size, rounds);
        }
        if is_wanted("url") {
            bench::<Url>("url", size, rounds);
        }
        if is_wanted("u64") {
            bench::<u64>("u64", size, rounds);
        }
        if is_wanted("dense") {
            bench::<Dense>("dense", size, rounds);
        }
        if is_wanted("text") {
            bench::<String>("text", size, rounds);
        }
    }
}

//! Times maps from byte strings to words side by side: those of shared objects by calls of C (art_bench.h of the
//! yardsticks, and perf/bindings.c), and the unproved trees of the yardsticks. perf/bindings.py builds it.
//!
//!     through_c SIZE,.. KEYS,.. ROUNDS NAME=LIB.so ..
//! Prints lines: the keys, how many, the map, a number, and the step that took so many nanoseconds for each pair;
//! `bytes` are those of a pair. Times are processor time, the least of the rounds, in which each map runs in turn.
#[path = "../timing.rs"]
mod timing;

use peers::art::{Art, Leaf, Listed};
use peers::keys::{record, shuffled, Rng};
use std::ffi::{c_char, c_int, c_void, CString};
use std::hint::black_box;
use std::mem::transmute;
use std::ptr::null_mut;
use timing::{now, settle};

/// The length of a key, and its word: as artmap_words_pair.
#[repr(C)]
struct Pair {
    len: usize,
    word: u64,
}

/// The calls that a map has. A walk answers how many pairs it met.
trait Map {
    fn put(&mut self, key: &[u8], word: u64);
    fn get(&self, key: &[u8]) -> Option<u64>;
    fn remove(&mut self, key: &[u8]) -> Option<u64>;
    /// The sum of all words and of the lengths of keys.
    fn walk(&self, by_next: bool) -> Option<u64>;
    fn prefix(&self, front: &[u8], by_next: bool) -> Option<usize>;
    fn range(&self, from: &[u8], to: &[u8]) -> usize;
    fn load(&mut self, keys: &[u8], pairs: &[Pair]) {
        let mut at = 0;
        for pair in pairs {
            self.put(&keys[at..at + pair.len], pair.word);
            at += pair.len;
        }
    }
    fn copy(&self) -> Box<dyn Map>;
}

trait Record: Leaf + Clone + 'static {
    fn of(key: &[u8], word: u64) -> Self;
    fn word(&self) -> u64;
}

/// A block with the key as a `Vec` and the word.
impl Record for Box<(Vec<u8>, u64)> {
    fn of(key: &[u8], word: u64) -> Self {
        Box::new((key.to_vec(), word))
    }
    fn word(&self) -> u64 {
        self.1
    }
}

/// The same with its neighbours, as in blart.
impl Record for Box<Listed<Vec<u8>, u64>> {
    fn of(key: &[u8], word: u64) -> Self {
        Box::new(Listed::new(key.to_vec(), word))
    }
    fn word(&self) -> u64 {
        self.value
    }
}

impl<L: Record> Map for Art<L> {
    fn put(&mut self, key: &[u8], word: u64) {
        self.insert(L::of(key, word));
    }
    fn get(&self, key: &[u8]) -> Option<u64> {
        self.get(key).map(L::word)
    }
    fn remove(&mut self, key: &[u8]) -> Option<u64> {
        self.remove(key).map(|it| it.word())
    }
    fn walk(&self, by_next: bool) -> Option<u64> {
        let mut sum = 0u64;
        if by_next {
            return None;
        }
        self.for_each(&mut |it: &L| sum = sum.wrapping_add(it.word() + it.key().len() as u64));
        Some(sum)
    }
    fn prefix(&self, front: &[u8], by_next: bool) -> Option<usize> {
        let mut count = 0;
        if by_next {
            return None;
        }
        self.prefix_each(front, &mut |it: &L| count += black_box(it.word() != u64::MAX) as usize);
        Some(count)
    }
    fn range(&self, from: &[u8], to: &[u8]) -> usize {
        let mut count = 0;
        self.range_each(from, to, &mut |it: &L| count += black_box(it.word() != u64::MAX) as usize);
        count
    }
    fn copy(&self) -> Box<dyn Map> {
        Box::new(self.clone())
    }
}

type Handle = *mut c_void;
type Walk = extern "C" fn(Handle) -> u64;
type Prefix = extern "C" fn(Handle, *const u8, usize) -> usize;

/// The calls of a shared object. Those that may be missing are an `Option`.
#[derive(Clone, Copy)]
struct Calls {
    new: extern "C" fn(*mut Handle) -> bool,
    put: extern "C" fn(Handle, *const u8, usize, u64) -> bool,
    get: extern "C" fn(Handle, *const u8, usize, *mut u64) -> bool,
    remove: extern "C" fn(Handle, *const u8, usize, *mut u64) -> bool,
    walk: Walk,
    prefix: Prefix,
    range: extern "C" fn(Handle, *const u8, usize, *const u8, usize) -> usize,
    clone: extern "C" fn(Handle, *mut Handle) -> bool,
    free: extern "C" fn(Handle),
    load: Option<extern "C" fn(Handle, *const u8, usize, *const Pair, usize) -> bool>,
    walk_by_next: Option<Walk>,
    prefix_by_next: Option<Prefix>,
}

struct Foreign(Calls, Handle);

impl Foreign {
    fn new(calls: Calls) -> Foreign {
        let mut handle = null_mut();
        assert!((calls.new)(&mut handle), "no memory");
        Foreign(calls, handle)
    }
}

impl Drop for Foreign {
    fn drop(&mut self) {
        (self.0.free)(self.1)
    }
}

impl Map for Foreign {
    fn put(&mut self, key: &[u8], word: u64) {
        (self.0.put)(self.1, key.as_ptr(), key.len(), word);
    }
    fn get(&self, key: &[u8]) -> Option<u64> {
        let mut word = 0;
        (self.0.get)(self.1, key.as_ptr(), key.len(), &mut word).then_some(word)
    }
    fn remove(&mut self, key: &[u8]) -> Option<u64> {
        let mut word = 0;
        (self.0.remove)(self.1, key.as_ptr(), key.len(), &mut word).then_some(word)
    }
    fn walk(&self, by_next: bool) -> Option<u64> {
        let walk = if by_next { self.0.walk_by_next? } else { self.0.walk };
        Some(walk(self.1))
    }
    fn prefix(&self, front: &[u8], by_next: bool) -> Option<usize> {
        let prefix = if by_next { self.0.prefix_by_next? } else { self.0.prefix };
        Some(prefix(self.1, front.as_ptr(), front.len()))
    }
    fn range(&self, from: &[u8], to: &[u8]) -> usize {
        (self.0.range)(self.1, from.as_ptr(), from.len(), to.as_ptr(), to.len())
    }
    fn load(&mut self, keys: &[u8], pairs: &[Pair]) {
        if let Some(load) = self.0.load {
            assert!(load(self.1, keys.as_ptr(), keys.len(), pairs.as_ptr(), pairs.len()), "a load failed");
            return;
        }
        let mut at = 0;
        for pair in pairs {
            (self.0.put)(self.1, keys[at..].as_ptr(), pair.len, pair.word);
            at += pair.len;
        }
    }
    fn copy(&self) -> Box<dyn Map> {
        let mut handle = null_mut();
        assert!((self.0.clone)(self.1, &mut handle), "no memory");
        Box::new(Foreign(self.0, handle))
    }
}

#[repr(C)]
struct Mallinfo2([usize; 10]);

extern "C" {
    fn dlopen(file: *const c_char, flags: c_int) -> *mut c_void;
    fn dlsym(lib: *mut c_void, name: *const c_char) -> *mut c_void;
    fn mallinfo2() -> Mallinfo2;
}

/// The bytes that malloc has lent, its own overhead with them: those mapped one by one, and those of its arenas.
fn lent() -> usize {
    let told = unsafe { mallinfo2() };
    told.0[4] + told.0[7]
}

fn opened(path: &str) -> Calls {
    let path = CString::new(path).unwrap();
    let lib = unsafe { dlopen(path.as_ptr(), 2) };
    assert!(!lib.is_null(), "cannot open {path:?}");
    let may = |name: &str| unsafe { dlsym(lib, CString::new(format!("art_bench_{name}")).unwrap().as_ptr()) };
    let at = |name: &str| {
        let found = may(name);
        assert!(!found.is_null(), "{path:?} has no {name}");
        found
    };
    // (a call is as wide as a pointer, and an `Option` of one is null where there is none)
    unsafe {
        Calls {
            new: transmute(at("new")),
            put: transmute(at("insert")),
            get: transmute(at("get")),
            remove: transmute(at("remove")),
            walk: transmute(at("sum")),
            prefix: transmute(at("prefix")),
            range: transmute(at("range")),
            clone: transmute(at("clone")),
            free: transmute(at("free")),
            load: transmute(may("load")),
            walk_by_next: transmute(may("sum_by_next")),
            prefix_by_next: transmute(may("prefix_by_next")),
        }
    }
}

/// Byte strings end to end, so that to read them costs alike for all.
struct Strings {
    bytes: Vec<u8>,
    ends: Vec<usize>,
}

impl Strings {
    fn of<T: AsRef<[u8]>>(all: impl Iterator<Item = T>) -> Strings {
        let mut made = Strings { bytes: Vec::new(), ends: Vec::new() };
        for key in all {
            made.bytes.extend_from_slice(key.as_ref());
            made.ends.push(made.bytes.len());
        }
        made
    }

    fn iter(&self) -> impl Iterator<Item = &[u8]> {
        let mut start = 0;
        self.ends.iter().map(move |end| &self.bytes[std::mem::replace(&mut start, *end)..*end])
    }
}

/// The keys of a bench, in the orders that they are used in. Each is another one.
struct Keys {
    going_in: Strings,
    asked: Strings,
    missed: Strings,
    going_out: Strings,
    fronts: Strings,
    /// From a key to the one ten places after it.
    bounds: Strings,
    sorted: Vec<u8>,
    pairs: Vec<Pair>,
}

/// How many bytes the keys of a prefix have in common, for about a hundred of them where there is such a length.
fn front_len(kind: &str, size: usize, key: &[u8]) -> usize {
    match kind {
        "url" => key.len() - 13,
        "tenants" => 4,
        "dense" => 7,
        _ if size < 1_000_000 => 1,
        _ => 2,
    }
}

fn keys(kind: &str, size: usize) -> Keys {
    let mut random = Rng(7);
    let mut order = || shuffled(size, &mut random);
    // (those from `size` on are made alike, and go in nowhere)
    let key = |i: usize| {
        let (tenant, key) = record(kind, size, 1, i);
        if kind == "tenants" { [&(tenant as u32).to_be_bytes()[..], &key].concat() } else { key }
    };
    let all = |order: Vec<usize>| Strings::of(order.into_iter().map(key));
    let mut sorted: Vec<Vec<u8>> = (0..size).map(key).collect();
    sorted.sort();
    let fronts = order().into_iter().take(size / 100).map(key);
    let starts = order().into_iter().filter(|at| at + 10 < size).take(size / 10);
    Keys {
        going_in: all(order()),
        asked: all(order()),
        missed: Strings::of(order().into_iter().map(|i| key(size + i))),
        going_out: all(order()),
        fronts: Strings::of(fronts.map(|key| key[..front_len(kind, size, &key)].to_vec())),
        bounds: Strings::of(starts.flat_map(|at| [&sorted[at], &sorted[at + 10]])),
        pairs: sorted.iter().zip(0..).map(|(key, word)| Pair { len: key.len(), word }).collect(),
        sorted: sorted.concat(),
    }
}

/// What a step is called, how many pairs it met, what it took for each, and what it answered.
type Told = Vec<(&'static str, f64, u64)>;

/// Times a step. It answers how many pairs it met, and a sum that all maps have alike.
fn timed(told: &mut Told, step: &'static str, run: impl FnOnce() -> Option<(usize, u64)>) {
    let began = now();
    if let Some((pairs, sum)) = black_box(run()) {
        told.push((step, (now() - began) / pairs.max(1) as f64, sum));
    }
}

fn walks(map: &dyn Map, size: usize, keys: &Keys, told: &mut Told) {
    for (by_next, walk, prefix) in [(false, "walk", "prefix"), (true, "walk by next", "prefix by next")] {
        timed(told, walk, || map.walk(by_next).map(|sum| (size, sum)));
        timed(told, prefix, || {
            let met: usize = keys.fronts.iter().map(|front| map.prefix(front, by_next)).sum::<Option<usize>>()?;
            Some((met, met as u64))
        });
    }
    timed(told, "range", || {
        let (mut ends, mut met) = (keys.bounds.iter(), 0);
        while let (Some(from), Some(to)) = (ends.next(), ends.next()) {
            met += map.range(from, to);
        }
        Some((met, met as u64))
    });
}

/// Goes through the steps of a map.
fn steps(make: &dyn Fn() -> Box<dyn Map>, keys: &Keys) -> Told {
    settle();
    let (size, mut told, before) = (keys.pairs.len(), Vec::new(), lent());
    let mut map = make();
    timed(&mut told, "put", || {
        keys.going_in.iter().zip(0..).for_each(|(key, word)| map.put(key, word));
        Some((size, 0))
    });
    let bytes = lent() - before;
    let found = |map: &dyn Map, keys: &Strings| keys.iter().filter_map(|key| map.get(key)).fold(0, u64::wrapping_add);
    timed(&mut told, "get", || Some((size, found(&*map, &keys.asked))));
    timed(&mut told, "miss", || Some((size, found(&*map, &keys.missed))));
    walks(&*map, size, keys, &mut told);
    let mut copy = None;
    timed(&mut told, "clone", || {
        copy = Some(map.copy());
        Some((size, 0))
    });
    drop(copy);
    timed(&mut told, "remove", || {
        Some((size, keys.going_out.iter().filter_map(|key| map.remove(key)).fold(0, u64::wrapping_add)))
    });
    drop(map);
    settle();
    let mut loaded = make();
    timed(&mut told, "load", || {
        loaded.load(&keys.sorted, &keys.pairs);
        Some((size, 0))
    });
    assert_eq!(loaded.walk(false), Some(keys.pairs.iter().map(|it| it.word + it.len as u64).sum()), "a load is wrong");
    told.push(("bytes", bytes as f64 / size as f64, 0));
    told
}

type Make = Box<dyn Fn() -> Box<dyn Map>>;

fn bench(kind: &str, size: usize, rounds: usize, maps: &[(String, Make)]) {
    let (keys, mut best) = (keys(kind, size), vec![Told::new(); maps.len()]);
    let met = steps(&*maps[0].1, &keys).iter().find(|it| it.0 == "prefix").map_or(0, |it| it.2) as usize;
    eprintln!("{kind} {size}: {} pairs with a prefix", met / keys.fronts.ends.len());
    for round in 0..rounds {
        for at in (0..maps.len()).map(|at| (at + round) % maps.len()) {
            let told = steps(&*maps[at].1, &keys);
            if best[at].is_empty() {
                best[at] = told;
            } else {
                best[at].iter_mut().zip(told).for_each(|(one, other)| one.1 = one.1.min(other.1));
            }
        }
    }
    for (told, (name, _)) in best.iter().zip(maps) {
        for (step, number, sum) in told {
            if let Some(other) = best[0].iter().find(|it| it.0 == *step) {
                assert_eq!(*sum, other.2, "{kind} {size}: {name} answers otherwise for {step}");
            }
            println!("{kind} {size} {name} {number:.1} {step}");
        }
    }
}

fn main() {
    let words: Vec<String> = std::env::args().skip(1).collect();
    let [sizes, kinds, rounds, libs @ ..] = &words[..] else { panic!("the head of this file says how") };
    let mut maps: Vec<(String, Make)> = Vec::new();
    for lib in libs {
        let (name, path) = lib.split_once('=').expect("NAME=LIB.so");
        let calls = opened(path);
        maps.push((name.into(), Box::new(move || Box::new(Foreign::new(calls)))));
    }
    maps.push(("art-vec".into(), Box::new(|| Box::new(Art::<Box<(Vec<u8>, u64)>>::new()))));
    maps.push(("art-list".into(), Box::new(|| Box::new(Art::<Box<Listed<Vec<u8>, u64>>>::new()))));
    let rounds: usize = rounds.parse().expect("ROUNDS");
    for size in sizes.split(',').map(|it| it.parse::<usize>().expect("SIZE")) {
        for kind in kinds.split(',') {
            bench(kind, size, rounds.max((1_000_000 / size).min(10)), &maps);
        }
    }
}

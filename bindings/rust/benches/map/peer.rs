//! Radix trees of raw pointers, beside which `perf/bindings.py` has this bench built: a leaf is a block with its key and value,
//! and that of `art-list` has its neighbours in it, too. Keys are those bytes that no map codes: texts have no end mark.
use super::{Dense, Keys, Made, Rand8, Times, Url, settle, timed, with_prefix};
use peers::art::{Art, Insert, Leaf, Listed};
use std::hint::black_box;

/// A key's bytes.
pub(crate) trait Coded {
    type Code: AsRef<[u8]> + Clone;

    fn coded(self) -> Self::Code;
    fn code(&self) -> impl AsRef<[u8]>;
}

macro_rules! coded {
    ($($of:ty, $code:ty, $it:ident, $moved:expr, $lent:expr;)*) => {$(
        impl Coded for $of {
            type Code = $code;

            fn coded(self) -> $code {
                let $it = self;
                $moved
            }

            fn code(&self) -> impl AsRef<[u8]> {
                let $it = self;
                $lent
            }
        }
    )*};
}

coded! {
    Rand8, Vec<u8>, it, it.0, &it.0;
    Url, Vec<u8>, it, it.0, &it.0;
    String, Vec<u8>, it, it.into_bytes(), it.as_bytes();
    u64, [u8; 8], it, it.to_be_bytes(), it.to_be_bytes();
    Dense, [u8; 8], it, it.0.to_be_bytes(), it.0.to_be_bytes();
}

trait Record<C>: Leaf + Clone {
    fn of(key: C, value: u64) -> Self;
    fn value(&self) -> u64;
}

impl<C: AsRef<[u8]> + Clone> Record<C> for Box<(C, u64)> {
    fn of(key: C, value: u64) -> Self {
        Box::new((key, value))
    }

    fn value(&self) -> u64 {
        self.1
    }
}

impl<C: AsRef<[u8]> + Clone> Record<C> for Box<Listed<C, u64>> {
    fn of(key: C, value: u64) -> Self {
        Box::new(Listed::new(key, value))
    }

    fn value(&self) -> u64 {
        self.value
    }
}

pub(crate) fn vec<K: Made + Coded>(keys: &Keys<K>) -> Times {
    run::<K, Box<(K::Code, u64)>>(keys)
}

pub(crate) fn list<K: Made + Coded>(keys: &Keys<K>) -> Times {
    run::<K, Box<Listed<K::Code, u64>>>(keys)
}

/// The steps that such a tree has.
fn run<K: Made + Coded, L: Record<K::Code>>(keys: &Keys<K>) -> Times {
    let size = keys.going_in.len();
    let mut times = Vec::new();
    let given = keys.going_in.clone();
    let mut map = Art::<L>::new();
    timed(&mut times, "put", size, || {
        let leaves = given.into_iter().zip(0..).map(|(key, value)| L::of(key.coded(), value));
        leaves.map(|leaf| map.insert(leaf)).filter(|it| !matches!(it, Insert::New)).count() as u64
    });
    timed(&mut times, "get", size, || {
        keys.asked.iter().filter_map(|key| map.get(key.code().as_ref())).fold(0, |sum, it| sum.wrapping_add(it.value()))
    });
    timed(&mut times, "miss", size, || {
        keys.missed.iter().filter(|key| map.get(key.code().as_ref()).is_none()).count() as u64
    });
    timed(&mut times, "next", size, || {
        let mut sum = 0u64;
        map.for_each(&mut |leaf: &L| sum = sum.wrapping_add(leaf.value()).wrapping_add(leaf.key().as_ptr() as u64 & 1));
        sum
    });
    ranges(&map, keys, &mut times);
    with_prefix(&map, keys, &mut times, |map, front, all| {
        let mut count = 0;
        map.prefix_each(&front.0, &mut |leaf: &L| (*all, count) = (*all ^ leaf.value(), count + 1));
        count
    });
    let mut copy = None;
    timed(&mut times, "clone", size, || {
        copy = Some(map.clone());
        0
    });
    drop(copy);
    timed(&mut times, "remove", size, || {
        let values = keys.going_out.iter().filter_map(|key| map.remove(key.code().as_ref()));
        values.fold(0, |sum, it| sum.wrapping_add(it.value()))
    });
    drop(map);
    for (step, order) in [("load", &keys.sorted), ("shuffled", &keys.going_in)] {
        settle();
        let pairs: Vec<(K, u64)> = order.iter().cloned().zip(0..).collect();
        let mut made = Art::<L>::new();
        timed(&mut times, step, size, || {
            pairs.into_iter().for_each(|(key, value)| drop(made.insert(L::of(key.coded(), value))));
            0
        });
        black_box(&made);
    }
    times
}

/// A tree with the keys of some numbers.
fn filled<K: Made + Coded, L: Record<K::Code>>(order: &[u64]) -> Art<L> {
    let mut made = Art::new();
    for (number, value) in order.iter().zip(0..) {
        made.insert(L::of(K::of(*number).coded(), value));
    }
    made
}

pub(crate) fn filled_vec<K: Made + Coded>(order: &[u64]) -> Art<Box<(K::Code, u64)>> {
    filled::<K, _>(order)
}

pub(crate) fn filled_list<K: Made + Coded>(order: &[u64]) -> Art<Box<Listed<K::Code, u64>>> {
    filled::<K, _>(order)
}

/// Times ranges of 10 and 100 pairs, whose ends are known: such a tree has no other walk.
fn ranges<K: Made + Coded, L: Record<K::Code>>(map: &Art<L>, keys: &Keys<K>, times: &mut Times) {
    for (what, wanted, every) in [("range of 10", 10, 4), ("range of 100", 100, 40)] {
        let place = |key| keys.sorted.binary_search(key).expect("a key that went in");
        let ends = keys.asked.iter().step_by(every).map(|key| (key, keys.sorted.get(place(key) + wanted)));
        let ends: Vec<(&K, &K)> = ends.filter_map(|(from, to)| Some((from, to?))).collect();
        timed(times, what, wanted * ends.len(), || {
            let mut sum = 0u64;
            for (from, to) in &ends {
                map.range_each(from.code().as_ref(), to.code().as_ref(), &mut |leaf: &L| sum ^= leaf.value());
            }
            sum
        });
    }
}

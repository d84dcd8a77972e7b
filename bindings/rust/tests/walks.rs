//! Ranges with all kinds of bounds, so many steps from one end and then from the other, beside those of a `BTreeMap`.
use artmap::{ArtMap, ArtSet, NoPrefixes};
use std::collections::BTreeMap;
use std::fmt::Debug;
use std::ops::Bound::{self, Excluded, Included, Unbounded};

/// Steps around those at which words are asked for anew.
const STEPS: [usize; 12] = [0, 1, 2, 9, 10, 11, 12, 42, 43, 44, 107, 500];

/// Whether std has a range with these bounds.
fn is_range<K: Ord>(from: Bound<&K>, to: Bound<&K>) -> bool {
    match (from, to) {
        (Excluded(from), Excluded(to)) => from < to,
        (Included(from) | Excluded(from), Included(to) | Excluded(to)) => from <= to,
        _ => true,
    }
}

/// What is left of a walk, by the call that takes it to its end.
fn at_once<T>(walk: impl Iterator<Item = T>) -> Vec<T> {
    let mut all = Vec::new();
    walk.for_each(|it| all.push(it));
    all
}

fn ranges_are_as_in_std<K: Ord + Clone + Debug + NoPrefixes>(key_of: impl Fn(usize) -> K) {
    // (the pairs don't go in ascending, so they don't lie in order)
    let numbers = (0..300).map(|at| at * 131 % 300);
    let (mut map, mut peer) = (ArtMap::new(), BTreeMap::new());
    for at in numbers.filter(|at| at % 3 != 0) {
        map.insert(key_of(at), at);
        peer.insert(key_of(at), at);
    }
    // (of each three one is not stored)
    let ends: Vec<K> = [0, 1, 2, 150, 151, 152, 297, 299].map(&key_of).into();
    let bounds = || [Unbounded].into_iter().chain(ends.iter().flat_map(|key| [Included(key), Excluded(key)]));
    for (from, to) in bounds().flat_map(|from| bounds().map(move |to| (from, to))).filter(|it| is_range(it.0, it.1)) {
        for steps in STEPS {
            let (mut one, mut other) = (map.range::<K, _>((from, to)), peer.range::<K, _>((from, to)));
            for _ in 0..steps {
                assert_eq!(one.next(), other.next(), "{from:?} {to:?} {steps}");
            }
            assert_eq!(one.next_back(), other.next_back(), "{from:?} {to:?} {steps}");
            assert_eq!(at_once(one.clone()), at_once(other.clone()), "{from:?} {to:?} {steps}");
            assert!(one.eq(other), "{from:?} {to:?} {steps}");
            let (mut one, mut other) = (map.range::<K, _>((from, to)), peer.range::<K, _>((from, to)));
            for _ in 0..steps {
                assert_eq!(one.next_back(), other.next_back(), "{from:?} {to:?} {steps}");
            }
            assert_eq!(one.next(), other.next(), "{from:?} {to:?} {steps}");
            assert_eq!(at_once(one.clone()), at_once(other.clone()), "{from:?} {to:?} {steps}");
            assert!(one.rev().eq(other.rev()), "{from:?} {to:?} {steps}");
        }
        assert!(map.range_mut::<K, _>((from, to)).eq(peer.range_mut::<K, _>((from, to))), "{from:?} {to:?}");
        assert!(
            map.range_mut::<K, _>((from, to)).rev().eq(peer.range_mut::<K, _>((from, to)).rev()),
            "{from:?} {to:?}"
        );
    }
}

#[test]
fn ranges_of_numbers() {
    ranges_are_as_in_std(|at| at as u64);
}

#[test]
fn ranges_of_texts() {
    ranges_are_as_in_std(|at| format!("{at:04}\0"));
}

#[test]
fn ranges_of_long_texts() {
    ranges_are_as_in_std(|at| format!("{}{at:04}", "long ".repeat(30)));
}

/// Walks of many calls, between whose calls pairs go, come back and take one another's places.
fn walks_go_on<K: NoPrefixes + Ord + Clone + Debug>(key: impl Fn(u64) -> K) {
    let pairs = |count: u64| (0..count).map(|it| (key(it.wrapping_mul(0x9e37_79b9_7f4a_7c15) >> 20), it));
    let (mut map, mut tree): (ArtMap<_, _>, BTreeMap<_, _>) = (ArtMap::new(), BTreeMap::new());
    for round in 1..6 {
        for (key, value) in pairs(700 * round) {
            assert_eq!(map.insert(key.clone(), value), tree.insert(key, value));
        }
        let goes = |value: &u64| value % (round + 2) < 2;
        let middle = tree.keys().nth(300).cloned().unwrap();
        let gone: Vec<_> = map.extract_if(middle.clone().., |_, value| goes(value)).collect();
        let (mut wanted, mut stays) = (Vec::new(), BTreeMap::new());
        for (key, value) in std::mem::take(&mut tree) {
            if key >= middle && goes(&value) { wanted.push((key, value)) } else { stays.extend([(key, value)]) }
        }
        (tree, map) = (stays, map);
        assert_eq!(gone, wanted);
        assert!(map.iter().eq(&tree) && map.iter().rev().eq(tree.iter().rev()));
        for count in [1, 2, 10, 11, 12, 42, 43, 44, 107, 300] {
            assert!(map.range(&middle..).take(count).eq(tree.range(&middle..).take(count)));
            assert!(map.range(..&middle).rev().take(count).eq(tree.range(..&middle).rev().take(count)));
        }
        map.retain(|_, value| *value % 5 != round % 5);
        tree.retain(|_, value| *value % 5 != round % 5);
        // (from both ends in turn, and values are written between)
        let mut walk = map.iter_mut();
        while let (Some((_, one)), Some((_, other))) = (walk.next(), walk.next_back()) {
            (*one, *other) = (*one + 1, *other + 1);
        }
        drop(walk);
        let odd = (tree.len() % 2 == 1).then(|| tree.keys().nth(tree.len() / 2).cloned().unwrap());
        tree.iter_mut().filter(|it| Some(it.0) != odd.as_ref()).for_each(|(_, value)| *value += 1);
        for way in 0..40 {
            let ends =
                if way % 3 == 0 { (map.pop_last(), tree.pop_last()) } else { (map.pop_first(), tree.pop_first()) };
            assert_eq!(ends.0, ends.1);
        }
        assert!(map.iter().eq(&tree));
    }
}

#[test]
fn a_walk_goes_on_where_pairs_went() {
    walks_go_on(|it| it);
    walks_go_on(|it| it.to_string());
    walks_go_on(|it| format!("{}{it}", "long".repeat(50)));
}

#[test]
fn walks_over_all_go_to_their_end_at_once() {
    for size in [0, 1, 9, 10, 11, 50, 3000] {
        let numbers: Vec<u32> = (0..size).map(|at| at * 7919 % size.max(1)).collect();
        let mut map = ArtMap::new();
        assert!(numbers.iter().all(|it| map.insert(*it, it * 2).is_none()));
        let peer: BTreeMap<u32, u32> = numbers.iter().map(|it| (*it, it * 2)).collect();
        let set: ArtSet<u32> = numbers.iter().copied().collect();
        for (front, back) in STEPS.iter().flat_map(|front| STEPS.map(|back| (*front, back))) {
            let (mut one, mut other) = (map.iter(), peer.iter());
            for (steps, is_up) in [(front, true), (back, false), (front / 2, true)] {
                for _ in 0..steps {
                    let both = if is_up { (one.next(), other.next()) } else { (one.next_back(), other.next_back()) };
                    assert_eq!(both.0, both.1);
                }
            }
            assert_eq!(at_once(one.clone()), at_once(other.clone()), "{size} {front} {back}");
            assert!(one.eq(other), "{size} {front} {back}");
        }
        assert_eq!(at_once(map.keys()), at_once(peer.keys()));
        assert_eq!(at_once(map.values()), at_once(peer.values()));
        assert_eq!(at_once(map.prefix(&[])), at_once(peer.iter()));
        let bytes = peer.iter().map(|(key, value)| (key.to_be_bytes(), value));
        assert_eq!(at_once(map.iter_bytes()), at_once(bytes));
        assert_eq!(at_once(set.iter()), at_once(peer.keys()));
        assert_eq!(at_once(set.range(3..)), at_once(peer.range(3..).map(|it| it.0)));
        assert_eq!(at_once(set.into_iter()), at_once(peer.into_keys()));
    }
}

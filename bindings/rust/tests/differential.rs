//! Calls at random beside `BTreeMap` and `BTreeSet`: a million in all, over ten kinds of keys, with values whose `Drop` is
//! counted. `ARTMAP_CALLS` tells another number.
use artmap::{ArtMap, ArtSet, Ended, Entry, Key, NoPrefixes, Ordered, TryInsertError};
use std::cell::Cell;
use std::collections::{BTreeMap, BTreeSet, btree_map};
use std::fmt::Debug;
use std::net::Ipv4Addr;
use std::ops::Bound;
use std::rc::Rc;
use std::time::Duration;

/// xorshift64*
struct Random(u64);

impl Random {
    fn next(&mut self) -> u64 {
        self.0 ^= self.0 >> 12;
        self.0 ^= self.0 << 25;
        self.0 ^= self.0 >> 27;
        self.0.wrapping_mul(0x2545_f491_4f6c_dd1d) >> 16
    }

    fn below(&mut self, most: u64) -> u64 {
        self.next() % most
    }

    fn byte(&mut self, most: u64) -> u8 {
        u8::try_from(self.below(most)).unwrap()
    }
}

/// A value that is counted while it lives.
struct Counted(u64, Rc<Cell<i64>>);

impl Counted {
    fn new(number: u64, alive: &Rc<Cell<i64>>) -> Self {
        alive.set(alive.get() + 1);
        Counted(number, alive.clone())
    }
}

impl Clone for Counted {
    fn clone(&self) -> Self {
        Counted::new(self.0, &self.1)
    }
}

impl Drop for Counted {
    fn drop(&mut self) {
        self.1.set(self.1.get() - 1);
    }
}

fn all_calls() -> u64 {
    std::env::var("ARTMAP_CALLS").ok().and_then(|it| it.parse().ok()).unwrap_or(1_000_000)
}

const KINDS: u64 = 10;

type Model<K> = BTreeMap<K, u64>;

/// A map and its model.
struct Both<K> {
    map: ArtMap<K, Counted>,
    model: Model<K>,
    alive: Rc<Cell<i64>>,
    random: Random,
    made: fn(&mut Random) -> K,
}

fn seen<'a, K>(pair: Option<(&'a K, &Counted)>) -> Option<(&'a K, u64)> {
    pair.map(|(key, value)| (key, value.0))
}

fn plain<'a, K>(pair: Option<(&'a K, &u64)>) -> Option<(&'a K, u64)> {
    pair.map(|(key, value)| (key, *value))
}

/// Two walks give the same from both ends, in a mixture.
fn same_walks<'a, K: Ord + Debug + 'a>(
    random: &mut Random,
    mut mine: impl DoubleEndedIterator<Item = (&'a K, u64)>,
    mut other: impl DoubleEndedIterator<Item = (&'a K, u64)>,
    most: u64,
) {
    for _ in 0..most {
        let (one, two) =
            if random.below(3) == 0 { (mine.next_back(), other.next_back()) } else { (mine.next(), other.next()) };
        assert_eq!(one, two);
        if one.is_none() {
            assert_eq!((mine.next(), mine.next_back()), (None, None));
            break;
        }
    }
}

impl<K: Key + Ord + Clone + Debug> Both<K> {
    fn new(seed: u64, made: fn(&mut Random) -> K) -> Self {
        let alive = Rc::new(Cell::new(0));
        Both { map: ArtMap::new(), model: BTreeMap::new(), alive, random: Random(seed), made }
    }

    fn key(&mut self) -> K {
        (self.made)(&mut self.random)
    }

    fn value(&mut self) -> (u64, Counted) {
        let number = self.random.next();
        (number, Counted::new(number, &self.alive))
    }

    fn bounds(&mut self) -> (Bound<K>, Bound<K>) {
        let (one, other) = (self.key(), self.key());
        let (low, high) = if one <= other { (one, other) } else { (other, one) };
        let is_one = low == high;
        let low = match self.random.below(5) {
            0 => Bound::Unbounded,
            1 if !is_one => Bound::Excluded(low),
            _ => Bound::Included(low),
        };
        let high = match self.random.below(4) {
            0 => Bound::Unbounded,
            1 => Bound::Excluded(high),
            _ => Bound::Included(high),
        };
        (low, high)
    }

    /// Calls that need no key without prefixes.
    fn any_call(&mut self) {
        let key = self.key();
        match self.random.below(40) {
            0..=7 => assert_eq!(self.map.remove(&key).map(|it| it.0), self.model.remove(&key)),
            8..=11 => {
                assert_eq!(self.map.get(&key).map(|it| it.0), self.model.get(&key).copied());
                assert_eq!(self.map.contains_key(&key), self.model.contains_key(&key));
            }
            12 => assert_eq!(seen(self.map.get_key_value(&key)), plain(self.model.get_key_value(&key))),
            13..=14 => {
                let (one, two) = (self.map.get_mut(&key), self.model.get_mut(&key));
                assert_eq!(one.is_some(), two.is_some());
                if let (Some(one), Some(two)) = (one, two) {
                    one.0 += 1;
                    *two += 1;
                }
            }
            15 => assert_eq!(seen(self.map.first_key_value()), plain(self.model.first_key_value())),
            16 => assert_eq!(seen(self.map.last_key_value()), plain(self.model.last_key_value())),
            17 => {
                let popped = self.map.pop_first();
                assert_eq!(popped.map(|it| (it.0, it.1.0)), self.model.pop_first());
            }
            18 => {
                let popped = self.map.pop_last();
                assert_eq!(popped.map(|it| (it.0, it.1.0)), self.model.pop_last());
            }
            19..=26 => {
                let (bounds, most) = (self.bounds(), self.random.below(60));
                let mine = self.map.range(bounds.clone()).map(|(key, value)| (key, value.0));
                let other = self.model.range(bounds).map(|(key, value)| (key, *value));
                same_walks(&mut self.random, mine, other, most);
            }
            27..=28 => {
                let most = self.random.below(200);
                let mine = self.map.iter().map(|(key, value)| (key, value.0));
                same_walks(&mut self.random, mine, self.model.iter().map(|(key, value)| (key, *value)), most);
            }
            29..=30 => {
                let (bounds, most) = (self.bounds(), self.random.below(40));
                let mine =
                    self.map.range_mut(bounds.clone()).map(|(key, value)| (key, std::mem::replace(&mut value.0, 7)));
                let other = self.model.range_mut(bounds).map(|(key, value)| (key, std::mem::replace(value, 7)));
                same_walks(&mut self.random, mine, other, most);
            }
            31 => {
                let most = self.random.below(300);
                let mine = self.map.iter_mut().map(|(key, value)| (key, std::mem::replace(&mut value.0, 8)));
                let other = self.model.iter_mut().map(|(key, value)| (key, std::mem::replace(value, 8)));
                same_walks(&mut self.random, mine, other, most);
            }
            32 => {
                let bytes = key.to_bytes().unwrap().as_ref().to_vec();
                let cut = bytes.len().min(usize::try_from(self.random.below(3)).unwrap());
                let is_under = |key: &K| key.to_bytes().unwrap().as_ref().starts_with(&bytes[..cut]);
                let mine = self.map.prefix(&bytes[..cut]).map(|(key, value)| (key, value.0));
                let other = self.model.iter().filter(|it| is_under(it.0)).map(|(key, value)| (key, *value));
                same_walks(&mut self.random, mine, other, 50);
            }
            33 if self.random.below(8) == 0 => {
                let bytes = key.to_bytes().unwrap().as_ref().to_vec();
                let cut = bytes.len().min(1 + usize::try_from(self.random.below(2)).unwrap());
                let before = self.model.len();
                self.model.retain(|key, _| !key.to_bytes().unwrap().as_ref().starts_with(&bytes[..cut]));
                assert_eq!(self.map.remove_prefix(&bytes[..cut]), before - self.model.len());
            }
            34 => {
                let one = self.map.first_entry().map(|mut it| it.insert(Counted::new(1, &self.alive)).0);
                assert_eq!(one, self.model.first_entry().map(|mut it| it.insert(1)));
                let one = self.map.last_entry().map(artmap::OccupiedEntry::remove_entry);
                let other = self.model.last_entry().map(btree_map::OccupiedEntry::remove_entry);
                assert_eq!(one.map(|it| (it.0, it.1.0)), other);
            }
            35 if self.random.below(10) == 0 => self.whole(),
            _ => {
                let bounds = self.bounds();
                let (limit, most) = (self.random.next() / 4, usize::try_from(self.random.below(4)).unwrap());
                let mine = self.map.extract_if(bounds.clone(), |_, it| it.0 < limit).take(most);
                let mine: Vec<_> = mine.map(|(key, value)| (key, value.0)).collect();
                let gone: Vec<K> =
                    self.model.range(bounds).filter(|it| *it.1 < limit).map(|it| it.0.clone()).take(most).collect();
                assert_eq!(
                    mine,
                    gone.into_iter().map(|key| self.model.remove_entry(&key).unwrap()).collect::<Vec<_>>()
                );
            }
        }
    }

    /// A call on the whole map.
    fn whole(&mut self) {
        match self.random.below(6) {
            0 => {
                let limit = self.random.next() / 2;
                self.map.retain(|_, it| it.0 < limit);
                self.model.retain(|_, it| *it < limit);
            }
            1 => {
                let key = self.key();
                let (mine, other) = (self.map.split_off(&key), self.model.split_off(&key));
                assert!(mine.iter().map(|it| (it.0, it.1.0)).eq(other.iter().map(|it| (it.0, *it.1))));
            }
            2 => {
                let copy = self.map.clone();
                let most = usize::try_from(self.random.below(50)).unwrap();
                let mut walk = copy.into_iter();
                let other = self.model.iter();
                assert!(
                    walk.by_ref()
                        .take(most)
                        .map(|it| (it.0, it.1.0))
                        .eq(other.take(most).map(|it| (it.0.clone(), *it.1)))
                );
                let back = walk.next_back().map(|it| it.0);
                assert_eq!(back.as_ref(), self.model.keys().skip(most).last());
            }
            3 if self.random.below(2) == 0 => self.map.compact(),
            3 => self.map.shrink_to_fit(),
            4 if self.random.below(20) == 0 => {
                self.map.clear();
                self.model.clear();
            }
            _ => {
                let key = self.key();
                let (mut mine, mut other) = (self.map.split_off(&key), self.model.split_off(&key));
                mine.try_append(&mut self.map).unwrap();
                other.append(&mut self.model);
                (self.map, self.model) = (mine, other);
            }
        }
    }

    fn end(self) {
        assert!(self.map.keys().eq(self.model.keys()));
        assert!(self.map.values().map(|it| it.0).eq(self.model.values().copied()));
        assert_eq!(usize::try_from(self.alive.get()), Ok(self.map.len()));
        drop(self.map);
        assert_eq!(self.alive.get(), 0);
    }
}

fn play<K: NoPrefixes + Ordered + Clone + Debug>(seed: u64, made: fn(&mut Random) -> K) {
    let mut both = Both::new(seed, made);
    for call in 0..all_calls() / KINDS {
        let (key, (number, value)) = (both.key(), both.value());
        match both.random.below(8) {
            0..=1 => assert_eq!(both.map.insert(key.clone(), value).map(|it| it.0), both.model.insert(key, number)),
            2 => assert_eq!(both.map.entry(key.clone()).or_insert(value).0, *both.model.entry(key).or_insert(number)),
            3 => match (both.map.entry(key.clone()), both.model.entry(key)) {
                (Entry::Occupied(one), btree_map::Entry::Occupied(other)) => {
                    assert_eq!(one.remove().0, other.remove());
                }
                (Entry::Vacant(one), btree_map::Entry::Vacant(other)) => {
                    one.insert(value);
                    other.insert(number);
                }
                _ => panic!("one entry is vacant"),
            },
            4 if both.random.below(50) == 0 => {
                let most = both.random.below(600);
                let mut pairs: Vec<(K, u64)> = (0..most).map(|at| (both.key(), at)).collect();
                if both.random.below(2) == 0 {
                    pairs.sort();
                }
                let alive = both.alive.clone();
                let given = pairs.iter().map(|it| (it.0.clone(), Counted::new(it.1, &alive)));
                if both.random.below(2) == 0 {
                    both.map.extend(given);
                } else {
                    both.map.append(&mut given.collect());
                }
                both.model.extend(pairs);
            }
            _ => {
                drop(value);
                both.any_call();
            }
        }
        assert_eq!(both.map.len(), both.model.len(), "call {call}");
    }
    both.end();
}

#[test]
fn numbers() {
    play(1, |random| random.below(700) * 0x0101_0000_0101);
}

#[test]
fn signed_numbers() {
    play(2, |random| i32::try_from(random.below(900)).unwrap() - 450);
}

#[test]
fn arrays() {
    play(3, |random| [random.byte(3), random.byte(60), random.byte(5)]);
}

#[test]
fn texts() {
    play(4, |random| {
        let chars = ['\0', '\u{1}', '\u{2}', 'a', 'é', '漢'];
        (0..random.below(6)).map(|_| chars[usize::from(random.byte(6))]).collect::<String>()
    });
}

#[test]
fn long_texts() {
    play(5, |random| "k".repeat(usize::from(random.byte(3)) * 60) + &random.below(300).to_string());
}

#[test]
fn tuples() {
    play(6, |random| (random.byte(4), random.below(50).to_string(), i64::try_from(random.below(9)).unwrap() - 4));
}

#[test]
fn options() {
    play(7, |random| if random.below(9) == 0 { None } else { Some(u16::try_from(random.below(800)).unwrap()) });
}

#[test]
fn ended_bytes() {
    play(8, |random| Ended((0..random.below(5)).map(|_| random.byte(4)).collect::<Vec<u8>>()));
}

#[test]
fn addresses_and_times() {
    play(9, |random| {
        (Ipv4Addr::from([10, 0, random.byte(3), random.byte(30)]), Duration::from_millis(random.below(9) * 300))
    });
}

/// Bytes as they are, which conflict: the model says when.
#[test]
fn bytes_in_conflict() {
    let mut both = Both::<Vec<u8>>::new(10, |random| (0..random.below(7)).map(|_| random.byte(3)).collect());
    for call in 0..all_calls() / KINDS {
        let (key, (number, value)) = (both.key(), both.value());
        let begins = |one: &Vec<u8>| one != &key && (one.starts_with(&key) || key.starts_with(one));
        let is_free = !both.model.keys().any(begins);
        match both.random.below(4) {
            0 if is_free => {
                let old = both.map.try_insert(key.clone(), value).ok().expect("it is free");
                assert_eq!(old.map(|it| it.0), both.model.insert(key, number));
            }
            0 => assert!(
                matches!(both.map.try_insert(key.clone(), value), Err(TryInsertError::Prefix { key: it, .. }) if it == key)
            ),
            1 => {
                drop(value);
                assert_eq!(both.map.try_entry(key.clone()).is_ok(), is_free);
                let front = both.model.iter().find(|it| key.starts_with(it.0));
                assert_eq!(seen(both.map.prefix_get_key_value(&key)), plain(front));
                if let Ok(entry) = both.map.try_entry(key.clone()) {
                    entry.or_insert_with(|| Counted::new(number, &both.alive));
                    both.model.entry(key).or_insert(number);
                }
            }
            2 if both.random.below(20) == 0 => {
                let before = both.model.len();
                both.model.retain(|it, _| !(it.starts_with(&key) || key.starts_with(it)));
                assert_eq!(both.map.prefix_insert(key.clone(), value), before - both.model.len());
                both.model.insert(key, number);
            }
            _ => {
                drop(value);
                both.any_call();
            }
        }
        assert_eq!(both.map.len(), both.model.len(), "call {call}");
    }
    both.end();
}

/// Pairs that lie in the order of their keys, and a few calls that may change that.
#[test]
fn pairs_in_order() {
    let mut random = Random(12);
    for round in 0..all_calls() / 2_000 {
        let len = random.below(40);
        let mut model: BTreeMap<u64, u64> = (0..len).map(|at| (at * 10 + 100, at)).collect();
        let mut map: ArtMap<u64, u64> = model.clone().into_iter().collect();
        for _ in 0..random.below(4) {
            let (key, greatest) = (random.below(600), model.keys().last().copied().unwrap_or(0));
            match random.below(12) {
                0 => assert_eq!(map.insert(key, 1), model.insert(key, 1)),
                1 => assert_eq!(map.insert(greatest + 1, 2), model.insert(greatest + 1, 2)),
                2 => assert_eq!(map.remove(&greatest), model.remove(&greatest)),
                3 => assert_eq!(map.pop_first(), model.pop_first()),
                4 => {
                    let more = (0..3).map(|at| (greatest + 5 + at, at));
                    map.extend(more.clone());
                    model.extend(more);
                }
                5 => (map, model) = (map.split_off(&key), model.split_off(&key)),
                6 => drop((map.split_off(&key), model.split_off(&key))),
                7 => {
                    map.append(&mut ArtMap::from([(key, 3), (greatest + 9, 4)]));
                    model.extend([(key, 3), (greatest + 9, 4)]);
                }
                8 => {
                    map.retain(|key, _| key % 3 != 0);
                    model.retain(|key, _| key % 3 != 0);
                }
                9 if round % 2 == 0 => map.compact(),
                9 => map.shrink_to_fit(),
                10 => map = map.clone().freeze().thaw().unwrap(),
                _ => assert_eq!(*map.entry(key).or_insert(6), *model.entry(key).or_insert(6)),
            }
        }
        assert!(map.iter().eq(&model) && map.iter().rev().eq(model.iter().rev()), "round {round}");
        let mine = map.iter().map(|(key, value)| (key, *value));
        same_walks(&mut random, mine, model.iter().map(|(key, value)| (key, *value)), 50);
        let bounds = [random.below(600), random.below(600)];
        let (low, high) = (bounds[0].min(bounds[1]), bounds[0].max(bounds[1]));
        let ends = |key| [Bound::Included(key), Bound::Excluded(key), Bound::Unbounded];
        for range in ends(low).into_iter().flat_map(|from| ends(high).map(|to| (from, to))) {
            if low != high || !matches!(range, (Bound::Excluded(_), Bound::Excluded(_))) {
                assert!(map.range(range).eq(model.range(range)), "{range:?}");
                assert!(map.range(range).rev().eq(model.range(range).rev()), "{range:?}");
            }
        }
        for prefix in [0, 1, 2, 7] {
            let under = model.range(prefix << 8..(prefix + 1) << 8);
            assert!(map.prefix(&(prefix << 8).to_be_bytes()[..7]).eq(under));
        }
        assert!(map.into_iter().eq(model));
    }
}

#[test]
fn sets() {
    let mut random = Random(11);
    let (mut sets, mut models) = ([ArtSet::new(), ArtSet::new()], [BTreeSet::new(), BTreeSet::new()]);
    for _ in 0..all_calls() / 50 {
        let (key, at) = (u32::from(random.byte(250)), usize::from(random.byte(2)));
        let (set, model) = (&mut sets[at], &mut models[at]);
        match random.below(8) {
            0..=2 => assert_eq!(set.insert(key), model.insert(key)),
            3 => assert_eq!(set.replace(key), model.replace(key)),
            4 => assert_eq!(set.take(&key), model.take(&key)),
            5 => assert_eq!(set.remove(&key), model.remove(&key)),
            6 => assert_eq!(
                (set.contains(&key), set.first(), set.last()),
                (model.contains(&key), model.first(), model.last())
            ),
            _ if random.below(20) == 0 => {
                let ([one, other], [left, right]) = (&sets, &models);
                assert!(one.union(other).eq(left.union(right)));
                assert!(one.intersection(other).eq(left.intersection(right)));
                assert!(one.difference(other).eq(left.difference(right)));
                assert!(one.symmetric_difference(other).eq(left.symmetric_difference(right)));
                assert!((one ^ other).iter().eq((left ^ right).iter()));
                let told = (one.is_subset(other), one.is_disjoint(other));
                assert_eq!(told, (left.is_subset(right), left.is_disjoint(right)));
                assert!((one & other).is_subset(one) && (one | other).is_superset(other));
                assert!((one - other).range(..key).eq((left - right).range(..key)));
            }
            _ => {
                let (mut rest, mut gone) = (set.split_off(&key), model.split_off(&key));
                if random.below(4) > 0 {
                    set.append(&mut rest);
                    model.append(&mut gone);
                }
            }
        }
        assert_eq!(sets[at].len(), models[at].len());
    }
    assert!(sets.into_iter().flatten().eq(models.into_iter().flatten()));
}

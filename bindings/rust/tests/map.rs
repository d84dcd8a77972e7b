//! What a user looks for beside std's examples: conflicts, ranges in all bounds, prefixes, both ends, many pairs at once, errors
//! that hand pairs back, traits of std, threads.
use artmap::{AllocError, AppendError, ArtMap, ArtSet, Ended, Front, Key, NoPrefixes, TryInsertError, TryKeyError};
use std::cmp::Ordering::{Equal, Greater, Less};
use std::collections::BTreeMap;
use std::hash::{DefaultHasher, Hash, Hasher};
use std::ops::Bound::{Excluded, Included, Unbounded};
use std::panic::{RefUnwindSafe, UnwindSafe};
use std::thread;

fn squares() -> ArtMap<u64, u64> {
    (0..1000).map(|it| (it, it * it)).collect()
}

fn keys<'a, K: Copy + 'a, V: 'a>(pairs: impl Iterator<Item = (&'a K, &'a V)>) -> Vec<K> {
    pairs.map(|pair| *pair.0).collect()
}

#[test]
fn an_empty_map_has_nothing() {
    let mut map = ArtMap::<u32, u32>::new();
    assert!(map.is_empty() && !map.contains_key(&0));
    assert_eq!((map.get(&0), map.first_key_value(), map.last_key_value()), (None, None, None));
    assert_eq!((map.remove(&0), map.pop_first(), map.pop_last()), (None, None, None));
    assert_eq!((map.iter().next(), map.iter().next_back(), map.range(..5).next()), (None, None, None));
    assert_eq!((map.prefix(b"").count(), map.remove_prefix(b""), map.prefix_get(b"")), (0, 0, None));
    assert!(map.iter_mut().next().is_none() && map.range_mut(..).next_back().is_none() && map.first_entry().is_none());
    assert_eq!((map.split_off(&0).len(), map.extract_if(.., |_, _| true).count()), (0, 0));
    map.clear();
    map.shrink_to_fit();
    map.compact();
    map.retain(|_, _| false);
    assert_eq!(map, ArtMap::default());
    assert_eq!(format!("{map:?}"), "{}");
    assert_eq!(map.clone().freeze().thaw().unwrap(), map);
    assert_eq!(map.into_iter().next(), None);
}

#[test]
fn keys_that_begin_others_conflict() {
    let mut map = ArtMap::<Vec<u8>, u32>::new();
    map.try_insert(vec![1, 2, 3], 1).unwrap();
    map.try_insert(vec![1, 2, 4], 2).unwrap();
    for key in [vec![1, 2], vec![1, 2, 3, 4], vec![1], vec![]] {
        let refused = map.try_insert(key.clone(), 9);
        assert_eq!(refused, Err(TryInsertError::Prefix { key: key.clone(), value: 9 }));
        assert_eq!(map.try_entry(key.clone()).unwrap_err(), TryKeyError::Prefix { key });
    }
    assert_eq!(map.len(), 2);
    assert_eq!(map.try_insert(vec![1, 2, 3], 3), Ok(Some(1)));
    assert_eq!(map.remove(&[1, 2, 3][..]), Some(3));
    assert_eq!(map.try_insert(vec![1, 2, 3, 4], 4), Ok(None));
    let why = map.try_insert(vec![1], 5).unwrap_err();
    assert_eq!(why.to_string(), "the key begins a stored one, or a stored one begins it");
    assert_eq!(why.into_pair(), (vec![1], 5));
    assert_eq!(TryKeyError::Memory { key: 'a' }.to_string(), "there is no memory");
    assert_eq!(map.prefix_insert(vec![1], 5), 2);
    assert!(map.iter().eq([(&vec![1], &5)]));
}

#[test]
fn the_empty_key_stands_alone() {
    let mut map = ArtMap::<Vec<u8>, ()>::new();
    assert_eq!(map.try_insert(vec![], ()), Ok(None));
    assert!(map.try_insert(vec![0], ()).is_err());
    assert_eq!(map.first_key_value(), Some((&vec![], &())));
    assert_eq!(map.range(vec![]..).count(), 1);
    assert_eq!(map.remove(&vec![]), Some(()));
    assert_eq!(map.try_insert(vec![0], ()), Ok(None));
    assert_eq!(ArtMap::from([((), 1)]).insert((), 2), Some(1));
}

#[test]
fn a_key_that_is_stored_stays() {
    let (one, other) = (String::with_capacity(100), String::new());
    let mut map = ArtMap::from([(one, 1)]);
    assert_eq!(map.insert(other.clone(), 2), Some(1));
    map.entry(other.clone()).and_modify(|value| *value += 1).or_insert(9);
    assert!(map.first_key_value().is_some_and(|(key, value)| key.capacity() == 100 && *value == 3));
    let mut set = ArtSet::from([other]);
    assert!(!set.insert(String::with_capacity(100)));
    assert_eq!(set.first().map(String::capacity), Some(0));
    assert_eq!(set.replace(String::with_capacity(100)).map(|it| it.capacity()), Some(0));
    assert_eq!((set.len(), set.first().map(String::capacity)), (1, Some(100)));
}

#[test]
fn of_two_equal_keys_that_of_this_set_is_lent() {
    let (mine, other) = (ArtSet::from([String::with_capacity(100)]), ArtSet::from([String::new()]));
    assert!(mine.intersection(&other).chain(mine.union(&other)).all(|key| key.capacity() == 100));
    assert!(other.intersection(&mine).chain(other.union(&mine)).all(|key| key.capacity() == 0));
}

#[test]
fn ranges_have_all_bounds() {
    let map = ArtMap::from([10u8, 20, 30, 40].map(|it| (it, ())));
    assert_eq!(keys(map.range(..20)), [10]);
    assert_eq!(keys(map.range(..=20)), [10, 20]);
    assert_eq!(keys(map.range(20..40)), [20, 30]);
    assert_eq!(keys(map.range((Excluded(20), Unbounded))), [30, 40]);
    assert_eq!(keys(map.range((Excluded(20), Excluded(40)))), [30]);
    assert_eq!(keys(map.range((Excluded(10), Included(10)))), [0u8; 0]);
    assert_eq!(keys(map.range(20..20)), [0u8; 0]);
    assert_eq!(keys(map.range::<u8, _>(..)), [10, 20, 30, 40]);
    assert_eq!(keys(map.range((Excluded(10), Excluded(40))).rev()), [30, 20]);
    assert_eq!((map.range(20..).size_hint(), map.range(20..).last()), ((0, Some(4)), Some((&40, &()))));
}

#[test]
fn ranges_of_every_two_bounds_are_as_in_a_btree_map() {
    let mut map = ArtMap::from([1i8, 3, 5, -7].map(|it| (it, it)));
    let model: BTreeMap<i8, i8> = map.iter().map(|it| (*it.0, *it.1)).collect();
    let bounds = |it| [Included(it), Excluded(it), Unbounded];
    for (from, to) in (-8..7).flat_map(|from| (from..7).map(move |to| (from, to))) {
        for (from, to) in bounds(from).into_iter().flat_map(|from| bounds(to).map(|to| (from, to))) {
            if matches!((from, to), (Excluded(a), Excluded(b)) if a == b) {
                continue;
            }
            assert!(map.range((from, to)).eq(model.range((from, to))), "{from:?} {to:?}");
            assert!(map.range((from, to)).rev().eq(model.range((from, to)).rev()), "{from:?} {to:?}");
            let mine = map.range_mut((from, to)).map(|it| (it.0, &*it.1));
            assert!(mine.eq(model.range((from, to))), "{from:?} {to:?}");
        }
    }
}

#[test]
#[should_panic(expected = "range start is greater than range end in ArtMap")]
#[allow(clippy::reversed_empty_ranges)]
fn a_range_that_begins_after_its_end_panics() {
    let _ = ArtMap::<u32, ()>::new().range(5..4);
}

#[test]
#[should_panic(expected = "range start and end are equal and excluded in ArtMap")]
fn a_range_of_one_key_excluded_twice_panics() {
    let _ = ArtMap::<u32, ()>::new().range_mut((Excluded(5), Excluded(5)));
}

#[test]
#[should_panic(expected = "no entry found for key")]
fn an_index_that_is_not_there_panics() {
    let _ = ArtMap::from([(1, 2)])[&2];
}

#[test]
fn prefixes_of_all_kinds() {
    let mut map = ArtMap::<[u8; 2], u8>::new();
    for it in [[0, 0], [0, 0xff], [1, 0], [0xfe, 0xff], [0xff, 0], [0xff, 0xff]] {
        map.insert(it, it[1]);
    }
    assert_eq!(keys(map.prefix(&[0])), [[0, 0], [0, 0xff]]);
    assert_eq!(keys(map.prefix(&[0xff])), [[0xff, 0], [0xff, 0xff]]);
    assert_eq!(keys(map.prefix(&[0xff]).rev()), [[0xff, 0xff], [0xff, 0]]);
    assert_eq!(map.prefix(&[2]).count() + map.prefix(&[0, 0, 0]).count(), 0);
    assert_eq!((map.prefix(b"").count(), map.prefix(&[0]).last()), (6, Some((&[0, 0xff], &0xff))));
    map.prefix_mut(&[0xff]).rev().for_each(|(_, value)| *value = 9);
    assert!(map.values().eq(&[0, 0xff, 0, 0xff, 9, 9]));
    assert_eq!((map.remove_prefix(&[0xff]), map.remove_prefix(&[3]), map.remove_prefix(b"")), (2, 0, 4));
    let mut texts = ArtMap::from(["", "a", "ab", "abc", "a\0", "a\0b", "b", "漢", "漢字"].map(|it| (it, it.len())));
    assert_eq!(keys(texts.iter()), ["", "a", "a\0", "a\0b", "ab", "abc", "b", "漢", "漢字"]);
    assert_eq!(["ab", "漢", "a\0", "a", "c"].map(|it| texts.prefix(it).count()), [2, 2, 2, 5, 0]);
    assert_eq!((texts.get("ab"), texts.get("abcd")), (Some(&2), None));
    assert_eq!(texts.remove_prefix("a"), 5);
    let pairs = ArtMap::from([((7u8, "a"), 1), ((7, "b"), 2), ((8, "a"), 3)]);
    assert_eq!((pairs.prefix(&Front(7u8)).count(), pairs.prefix(&Front((8u8, "a"))).count()), (2, 1));
    let numbers = ArtMap::from([([1, 2], 'a'), ([1, -3], 'b'), ([2, 0], 'c')]);
    assert!(numbers.prefix(&[1]).map(|it| it.1).eq(&['b', 'a']));
    assert_eq!(ArtMap::from([(Ended(b"a\0".to_vec()), 1)]).prefix(&Ended(b"a\0")).count(), 1);
}

/// More than a block of the library's call, at both ends and in a mixture.
#[test]
fn both_ends_meet() {
    let mut map: ArtMap<u64, u64> = (0..5000).map(|it| (it, it)).collect();
    for most in [0, 1, 15, 16, 17, 47, 48, 49, 800, 2500] {
        let mut walk = map.iter();
        assert!(walk.by_ref().take(most).map(|it| it.0).eq(&(0..most as u64).collect::<Vec<_>>()));
        assert_eq!(walk.len(), 5000 - most);
        assert!(walk.by_ref().rev().map(|it| *it.0).eq((most as u64..5000).rev()));
        assert_eq!((walk.next(), walk.next_back()), (None, None));
        let mut range = map.range(7..4993);
        assert_eq!(range.by_ref().take(most).count(), most.min(4986));
        assert_eq!(range.clone().rev().count(), 4986 - most);
        let mut lent: Vec<&mut u64> = Vec::new();
        let mut walk = map.range_mut(..);
        while let (Some(one), Some(other)) = (walk.next(), walk.next_back()) {
            lent.extend([one.1, other.1]);
        }
        assert_eq!(lent.len(), 5000);
        for value in lent {
            *value += 1;
        }
    }
    assert!(map.iter().all(|(key, value)| *value == key + 10));
    let mut owned = map.into_iter();
    assert_eq!((owned.next(), owned.next_back(), owned.len()), (Some((0, 10)), Some((4999, 5009)), 4998));
    assert!(owned.by_ref().take(3000).map(|it| it.0).eq(1..3001));
    assert_eq!(format!("{owned:?}").len(), owned.map(|it| format!("{it:?}, ").len()).sum::<usize>());
}

#[test]
fn long_keys_and_values() {
    let key = |at: u8, len| [vec![b'k'; len], vec![at]].concat();
    let map: BTreeMap<Vec<u8>, Vec<u8>> = (0..50).map(|at| (key(at, 1000), vec![at; 97 * usize::from(at)])).collect();
    let mut made = ArtMap::try_from_iter(map.clone()).unwrap();
    made.try_extend([(vec![b'k'; 20_000], vec![1; 300_000]), (b"z".to_vec(), vec![])]).unwrap();
    assert_eq!(made.iter().rev().nth(1).map(|it| it.0.len()), Some(20_000));
    assert_eq!(made.remove(&vec![b'k'; 20_000]).map(|it| it.len()), Some(300_000));
    made.remove(&b"z".to_vec()).unwrap();
    assert!(made.iter().eq(&map) && made.iter_bytes().map(|it| it.0).eq(map.keys()));
}

#[test]
fn traits_of_std() {
    let map = ArtMap::from([(2, "b"), (1, "a")]);
    assert_eq!(format!("{map:?} {:?} {:?}", map.keys(), map.range(2..)), r#"{1: "a", 2: "b"} [1, 2] [(2, "b")]"#);
    let mut copy = map.clone();
    assert_eq!(map, copy);
    copy.extend([(3, "c"), (1, "A")]);
    let mut numbers = ArtMap::from([(1u8, 2i8)]);
    numbers.extend(&BTreeMap::from([(1, 3), (2, 4)]));
    assert_eq!(numbers, ArtMap::from([(1, 3), (2, 4)]));
    assert!(copy < map && map.len() == 2 && copy.len() == 3);
    assert_eq!((map.cmp(&map.clone()), copy.cmp(&map), map.cmp(&copy)), (Equal, Less, Greater));
    assert_ne!(map, ArtMap::from([(2, "b"), (1, "A")]));
    assert_ne!(map, ArtMap::from([(2, "b"), (0, "a")]));
    let hash = |map: &ArtMap<i32, &str>| {
        let mut hasher = DefaultHasher::new();
        map.hash(&mut hasher);
        hasher.finish()
    };
    assert_eq!(hash(&map), hash(&map.clone()));
    assert_ne!(hash(&map), hash(&copy));
    for (_, value) in &mut copy {
        *value = "x";
    }
    assert_eq!(copy.iter().fold(0, |sum, (key, _)| sum + key), 6);
    assert_eq!((map.iter().last(), map.iter().count(), map.keys().len()), (Some((&2, &"b")), 2, 2));
    let back: ArtMap<i32, &str> = map.into_iter().rev().collect();
    assert_eq!(back.into_keys().rev().collect::<Vec<_>>(), [2, 1]);
    let set = ArtSet::from(["b", "a"]);
    assert_eq!(format!("{set:?} {:?}", set.union(&set)), r#"{"a", "b"} ["a", "b"]"#);
    assert!(set < ArtSet::from(["b"]) && set == set.clone());
}

/// Bytes whose type says what is not so.
#[derive(Clone, Debug, PartialEq)]
struct Liar(Vec<u8>);

impl Key for Liar {
    type Bytes<'a> = &'a [u8];

    fn to_bytes(&self) -> Result<&[u8], AllocError> {
        if self.0 == [9] { Err(AllocError) } else { Ok(&self.0) }
    }
}

impl NoPrefixes for Liar {}

#[test]
#[should_panic(expected = "the type of the keys says NoPrefixes, and a key begins another one")]
fn a_type_that_says_what_is_not_so_panics() {
    ArtMap::from([(Liar(vec![1, 2]), ())]).insert(Liar(vec![1]), ());
}

#[test]
fn a_key_that_finds_no_memory_is_handed_back() {
    let mut map = ArtMap::from([(Liar(vec![1]), 'a')]);
    assert_eq!(map.try_insert(Liar(vec![9]), 'b'), Err(TryInsertError::Memory { key: Liar(vec![9]), value: 'b' }));
    assert_eq!(map.try_entry(Liar(vec![9])).unwrap_err(), TryKeyError::Memory { key: Liar(vec![9]) });
    assert_eq!(map.try_remove(&Liar(vec![9])), Err(AllocError));
    let pairs = [2, 3, 9, 10].map(|it| (Liar(vec![it]), 'c'));
    assert_eq!(map.try_extend(pairs).unwrap_err().into_pair().0, Liar(vec![9]));
    assert_eq!(map.len(), 3);
}

#[test]
fn an_extension_stops_at_a_conflict() {
    for stop in [1u8, 63, 64, 65, 200] {
        for (old, new) in [(vec![stop - 1], vec![stop - 1, 0]), (vec![stop - 1, 7], vec![stop - 1])] {
            let mut map = ArtMap::<Vec<u8>, u8>::new();
            map.try_insert(old, 0).unwrap();
            let pairs = (0..=255).map(|it| (if it == stop - 1 { new.clone() } else { vec![it, 1] }, it));
            assert_eq!(map.try_extend(pairs).unwrap_err().into_pair(), (new, stop - 1));
            assert!(
                map.len() == usize::from(stop) && map.values().eq((0..stop - 1).chain([0]).collect::<Vec<_>>().iter())
            );
        }
    }
    let ascending = [vec![1], vec![2], vec![2, 5], vec![3]].map(|it| (it, ()));
    let mut map = ArtMap::new();
    let mut pairs = ascending.into_iter();
    assert_eq!(map.try_extend(pairs.by_ref()), Err(TryInsertError::Prefix { key: vec![2, 5], value: () }));
    assert_eq!((map.len(), pairs.next()), (2, Some((vec![3], ()))));
}

#[test]
fn extensions_of_any_order() {
    let order = || (0..3000u64).map(|it| it * 7919 % 1009);
    let model: BTreeMap<u64, u64> = order().zip(0..).collect();
    assert!(order().zip(0..).collect::<ArtMap<_, _>>().iter().eq(&model));
    for start in [0, 500, 999, 1000, 5000] {
        let mut map = squares();
        map.extend((start..start + 2000).step_by(3).map(|it| (it, 1)));
        let mut model: BTreeMap<u64, u64> = (0..1000).map(|it| (it, it * it)).collect();
        model.extend((start..start + 2000).step_by(3).map(|it| (it, 1)));
        assert!(map.iter().eq(&model) && map.len() == model.len());
    }
}

#[test]
fn what_is_not_appended_stays() {
    let of = |keys: &[&[u8]]| ArtMap::try_from_iter(keys.iter().map(|it| (it.to_vec(), it.len()))).unwrap();
    let (mut one, mut other) = (of(&[&[1], &[3, 1]]), of(&[&[2], &[3]]));
    let (copy, twin) = (one.clone(), other.clone());
    assert_eq!(one.try_append(&mut other), Err(AppendError::Prefix));
    assert_eq!((&one, &other), (&copy, &twin));
    other.remove(&vec![3]);
    other.try_insert(vec![1], 7).unwrap();
    assert_eq!(one.try_append(&mut other), Ok(()));
    assert!(other.is_empty() && one.values().eq(&[7, 1, 2]));
}

/// A key with a name that is none of its bytes.
#[derive(Clone, Copy, Debug)]
struct Named(u32, char);

impl Key for Named {
    type Bytes<'a> = [u8; 4];

    fn to_bytes(&self) -> Result<[u8; 4], AllocError> {
        self.0.to_bytes()
    }
}

impl NoPrefixes for Named {}

#[test]
fn maps_of_all_shapes_are_appended() {
    fn made(numbers: &[u32], name: char, is_mixed: bool) -> ArtMap<Named, (u32, char)> {
        let mut map: ArtMap<_, _> = numbers.iter().map(|it| (Named(*it, name), (*it, name))).collect();
        if is_mixed {
            // (its slots are not in the order of the keys, and one is free)
            for it in [1, 2, 0].map(|at| Named(numbers[at * (numbers.len() - 1) / 2], name)) {
                map.remove(&it);
                map.insert(it, (it.0, name));
            }
            map.insert(Named(7000, name), (7000, name));
            map.remove(&Named(7000, name));
        }
        map
    }
    let parts: [fn(u32, u32) -> u32; 4] =
        [|at, _| at, |at, many| at + many, |at, _| at * 3 + 1, |at, many| at * 5 % many];
    for (mine, theirs) in [(3, 300), (300, 3), (100, 150), (150, 100), (60, 60), (1, 1)] {
        for (one, other) in parts.iter().flat_map(|one| parts.iter().map(move |other| (one, other))) {
            let numbers = |part: &fn(u32, u32) -> u32, many| (0..many).map(|at| part(at, 200)).collect::<Vec<_>>();
            let (mine, theirs) = (numbers(one, mine), numbers(other, theirs));
            let mut model: BTreeMap<u32, (char, char)> = mine.iter().map(|it| (*it, ('a', 'a'))).collect();
            for it in &theirs {
                model.entry(*it).and_modify(|it| it.1 = 'b').or_insert(('b', 'b'));
            }
            for (is_mixed, is_tried) in [(false, false), (false, true), (true, false), (true, true)] {
                let (mut map, mut rest) = (made(&mine, 'a', is_mixed), made(&theirs, 'b', is_mixed));
                if is_tried {
                    assert_eq!(map.try_append(&mut rest), Ok(()));
                } else {
                    map.append(&mut rest);
                }
                let names = map.iter().map(|(key, value)| (key.0, (key.1, value.1)));
                assert!(names.eq(model.iter().map(|it| (*it.0, *it.1))) && map.len() == model.len());
                assert!(map.iter().all(|(key, value)| key.0 == value.0 && map.get(key).is_some()));
                assert!(rest.is_empty() && rest.iter().next().is_none());
                rest.insert(Named(1, 'c'), (1, 'c'));
                assert_eq!((rest.len(), map.remove(&Named(mine[0], 'c')).map(|it| it.0)), (1, Some(mine[0])));
            }
        }
    }
}

#[test]
fn pairs_in_no_order_are_collected() {
    for size in [2u32, 3, 50, 700, 9000] {
        for many in [1, size / 2 + 1, 3 * size] {
            let number = |at: u32| at * 7919 % many;
            let letter = |at: u32| if at % 2 == 0 { 'a' } else { 'b' };
            let map: ArtMap<_, _> = (0..size).map(|at| (Named(number(at), letter(at)), at)).collect();
            let mut model = BTreeMap::new();
            for at in 0..size {
                model.entry(number(at)).and_modify(|it: &mut (char, u32)| it.1 = at).or_insert((letter(at), at));
            }
            let told = map.iter().map(|(key, value)| (key.0, (key.1, *value)));
            assert!(told.eq(model.iter().map(|it| (*it.0, *it.1))), "{size} {many}");
            assert!(model.keys().all(|it| map.contains_key(&Named(*it, 'c'))) && map.len() == model.len());
        }
    }
    // (texts of all lengths, of which many begin others)
    let ends = [0, 1, 2, 3, 4, 6, 9, 13];
    let texts = || (0..3000).map(|at: usize| "ab\0\x01\u{ff}zzzzzzz"[..ends[at % 8]].repeat(at % 5));
    let map: ArtMap<String, usize> = texts().zip(0..).collect();
    assert!(map.iter().eq(&texts().zip(0..).collect::<BTreeMap<_, _>>()));
    let set: ArtSet<Ended<String>> = texts().map(Ended).collect();
    assert!(set.iter().map(|it| &it.0).eq(map.keys()));
}

#[test]
fn one_map_is_read_by_many_threads() {
    let frozen = squares().freeze();
    let readers: Vec<_> = (0..8)
        .map(|at| {
            let mine = frozen.clone();
            thread::spawn(move || {
                for round in 0..300 {
                    let key = (at * 131 + round * 7) % 1000;
                    assert_eq!(mine.get(&key), Some(&(key * key)));
                    assert_eq!(
                        mine.range(key..).take(20).map(|it| *it.0).sum::<u64>(),
                        (key..(key + 20).min(1000)).sum()
                    );
                    assert_eq!(mine.prefix(&[0, 0, 0, 0, 0, 0, 1]).count(), 256);
                }
                mine.iter().map(|it| *it.0).sum::<u64>()
            })
        })
        .collect();
    assert!(readers.into_iter().all(|it| it.join().unwrap() == 499_500));
    let mut map = frozen.thaw().expect("no other handle is left");
    assert_eq!(map.insert(5, 0), Some(25));
    let sent = thread::spawn(move || map.len()).join();
    assert_eq!(sent.unwrap(), 1000);
}

#[test]
fn maps_move_and_are_dropped() {
    let mut maps: Vec<ArtMap<u32, Vec<u8>>> = (0..100).map(|it| ArtMap::from([(it, vec![7; 1000])])).collect();
    maps.reverse();
    maps.truncate(50);
    let moved = maps.remove(0);
    assert_eq!(moved.first_key_value(), Some((&99, &vec![7; 1000])));
    let mut half = moved.into_iter();
    assert!(half.next().is_some());
    drop(half);
    assert_eq!(maps.iter().map(ArtMap::len).sum::<usize>(), 49);
}

/// Its types vary as those of std do.
#[allow(dead_code)]
fn covariant<'a>(
    map: ArtMap<&'static str, &'static str>,
    set: ArtSet<&'static str>,
) -> (ArtMap<&'a str, &'a str>, ArtSet<&'a str>) {
    (map, set)
}

/// They may go where std's go.
#[test]
fn what_is_sent_and_unwound() {
    fn sent<T: Send>(_: T) {}
    fn unwound<T: UnwindSafe + RefUnwindSafe>(_: &T) {}
    let mut map = squares();
    unwound(&map);
    sent(map.iter_mut());
    sent(map.range_mut(5..));
    sent(map.entry(7));
    sent(map.extract_if(.., |_, _| true));
    sent(map.clone().into_iter());
    sent(map.freeze());
    sent(ArtSet::from([1]));
    sent(ArtSet::from([1]).freeze());
}

#[test]
fn what_makes_way_for_a_prefix() {
    let keys = |map: &ArtMap<Vec<u8>, u32>| map.keys().cloned().collect::<Vec<_>>();
    for is_tried in [false, true] {
        let mut map = ArtMap::try_from_iter([(vec![1, 1], 1), (vec![1, 2], 2), (vec![2], 3)]).unwrap();
        let mut put = |key: Vec<u8>| {
            let count = if is_tried { map.try_prefix_insert(key, 9).unwrap() } else { map.prefix_insert(key, 9) };
            (count, keys(&map))
        };
        assert_eq!(put(vec![3]), (0, vec![vec![1, 1], vec![1, 2], vec![2], vec![3]]));
        assert_eq!(put(vec![3]), (1, vec![vec![1, 1], vec![1, 2], vec![2], vec![3]]));
        assert_eq!(put(vec![1]), (2, vec![vec![1], vec![2], vec![3]]));
        assert_eq!(put(vec![2, 0, 5]), (1, vec![vec![1], vec![2, 0, 5], vec![3]]));
        assert_eq!(put(vec![]), (3, vec![vec![]]));
        assert_eq!(put(vec![4]), (1, vec![vec![4]]));
    }
}

//! What std's maps and sets have, called as they are called, beside them.
use artmap::{ArtMap, ArtSet, FrozenMap, FrozenSet, SetIntoIter};
use std::collections::{BTreeMap, BTreeSet};
use std::hash::{BuildHasher, Hash, RandomState};
use std::panic::catch_unwind;
use std::sync::{LazyLock, RwLock};
use std::thread;

type Texts = ArtMap<String, u32>;

const WORDS: [&str; 6] = ["ada", "bob", "cy", "dora", "eve", "fred"];

fn texts() -> (Texts, BTreeMap<String, u32>) {
    let pairs = || (0..6).zip(WORDS).map(|(at, word)| (word.to_string(), at));
    (pairs().rev().collect(), pairs().collect())
}

fn same(mine: &Texts, other: &BTreeMap<String, u32>) {
    assert!(mine.iter().eq(other));
}

#[test]
fn extract_if_takes_ranges_of_keys() {
    let (mut mine, _) = texts();
    assert!(mine.extract_if(.., |_, value| *value % 2 == 0).map(|it| it.0).eq(["ada", "cy", "eve"]));
    assert!(mine.extract_if("c".to_string()..="e".to_string(), |_, _| true).eq([("dora".to_string(), 3)]));
    let mut lent = ArtMap::from([("a", 1), ("b", 2), ("c", 3)]);
    assert!(lent.extract_if("b".., |_, _| true).eq([("b", 2), ("c", 3)]));
    let mut set = ArtSet::from(["a", "b", "c"]);
    assert!(set.extract_if(.., |key| *key != "b").eq(["a", "c"]) && set.iter().eq(&["b"]));
}

#[test]
#[allow(clippy::reversed_empty_ranges, reason = "they are asked for")]
fn extract_if_of_crossed_bounds_gives_nothing() {
    use std::ops::Bound::Excluded;
    let mut map: ArtMap<u32, u32> = (0..9).map(|it| (it, it)).collect();
    let mut set: ArtSet<u32> = (0..9).collect();
    assert_eq!(map.extract_if(5..2, |_, _| true).count() + map.extract_if(4..4, |_, _| true).count(), 0);
    assert_eq!(map.extract_if((Excluded(4), Excluded(4)), |_, _| true).count(), 0);
    assert_eq!(map.try_extract_if(5..2, |_, _| true).count() + set.extract_if(5..2, |_| true).count(), 0);
    assert_eq!(set.try_extract_if((Excluded(4), Excluded(4)), |_| true).count() + map.len() + set.len(), 18);
}

#[test]
fn walks_that_write_show_what_is_left() {
    let (mut mine, mut other) = texts();
    for (taken, back) in [(0, 0), (1, 0), (2, 1), (3, 3)] {
        let (mut one, mut two) = (mine.iter_mut(), other.iter_mut());
        for _ in 0..taken {
            assert_eq!(one.next(), two.next());
        }
        for _ in 0..back {
            assert_eq!(one.next_back(), two.next_back());
        }
        assert_eq!(format!("{one:?}"), format!("{two:?}"));
    }
    let (mut one, mut two) = (mine.values_mut(), other.values_mut());
    assert_eq!((one.next(), format!("{one:?}")), (two.next(), format!("{two:?}")));
    let from = "bob".to_string();
    let (mut one, mut two) = (mine.range_mut(from.clone()..), other.range_mut(from..));
    assert_eq!((one.next_back(), format!("{one:?}")), (two.next_back(), format!("{two:?}")));
    assert_eq!(format!("{:?}", mine.prefix_mut("d")), r#"[("dora", 3)]"#);
    // (more than a walk asks for at once, out of order)
    let mut many: ArtMap<u32, u32> = ArtMap::new();
    for at in 0..500 {
        many.insert(at * 7 % 501, at);
    }
    let (want, mut walk) = (format!("{:?}", many.iter().skip(20).collect::<Vec<_>>()), many.iter_mut());
    assert!(walk.nth(19).is_some() && format!("{walk:?}") == want);
}

#[test]
fn hints_of_merges_are_those_of_std() {
    let sets = [vec![], vec![1], vec![1, 2, 3], vec![2, 3, 4, 9], (0..40).collect::<Vec<u32>>()];
    for one in &sets {
        for other in &sets {
            let (mine, also): (ArtSet<u32>, ArtSet<u32>) =
                (one.iter().copied().collect(), other.iter().copied().collect());
            let (std, too): (BTreeSet<u32>, BTreeSet<u32>) =
                (one.iter().copied().collect(), other.iter().copied().collect());
            let hints = [mine.union(&also).size_hint(), mine.symmetric_difference(&also).size_hint()];
            assert_eq!(hints, [std.union(&too).size_hint(), std.symmetric_difference(&too).size_hint()]);
            for hint in [mine.difference(&also).size_hint(), mine.intersection(&also).size_hint()] {
                let most = hint.1.unwrap();
                assert!(hint.0 <= most && most <= one.len());
            }
            let (least, _) = mine.difference(&also).size_hint();
            assert_eq!(least, one.len().saturating_sub(other.len()));
            let (frozen, its) = (mine.freeze(), also.freeze());
            assert!(frozen.union(&its).eq(std.union(&too)) && frozen.difference(&its).eq(std.difference(&too)));
            assert!(frozen.intersection(&its).eq(std.intersection(&too)));
            assert!(frozen.symmetric_difference(&its).eq(std.symmetric_difference(&too)));
            assert_eq!(frozen.is_subset(&its), std.is_subset(&too));
            assert_eq!(frozen.is_superset(&its), std.is_superset(&too));
            assert_eq!(frozen.is_disjoint(&its), std.is_disjoint(&too));
            assert_eq!(frozen.cmp(&its), std.cmp(&too));
        }
    }
}

fn said(call: impl FnOnce() + std::panic::UnwindSafe) -> String {
    let why = catch_unwind(call).unwrap_err();
    why.downcast_ref::<String>().cloned().unwrap_or_default()
}

#[test]
#[allow(clippy::reversed_empty_ranges, reason = "they are asked for")]
fn a_panic_names_the_collection() {
    let names =
        ["ArtMap", "ArtSet", "ArtMap", "ArtSet"].map(|it| format!("range start is greater than range end in {it}"));
    let said = [
        said(|| assert!(ArtMap::from([(1, 1)]).range(3..1).next().is_none())),
        said(|| assert!(ArtSet::from([1]).range(3..1).next().is_none())),
        said(|| assert!(ArtMap::from([(1, 1)]).freeze().range(3..1).next().is_none())),
        said(|| assert!(ArtSet::from([1]).freeze().range(3..1).next().is_none())),
    ];
    assert_eq!(said, names);
}

fn is_key<T: Hash + Ord>(_: &T) {}

#[test]
fn frozen_ones_are_compared_and_hashed() {
    let frozen =
        |pairs: &[(u32, char)]| -> FrozenMap<u32, char> { pairs.iter().copied().collect::<ArtMap<_, _>>().freeze() };
    let (one, other) = (frozen(&[(1, 'a'), (2, 'b')]), frozen(&[(2, 'b'), (1, 'a')]));
    let hasher = RandomState::new();
    assert!(one == other && hasher.hash_one(&one) == hasher.hash_one(&other) && one < frozen(&[(1, 'a'), (2, 'c')]));
    let set: FrozenSet<u32> = ArtSet::from([1, 2]).freeze();
    is_key(&set);
    assert!(hasher.hash_one(&set) == hasher.hash_one(set.clone()) && set < ArtSet::from([1, 3]).freeze());
    assert_eq!(SetIntoIter::<u32>::default().next(), None);
}

#[test]
fn a_snapshot_stays_as_it_was() {
    let (mut mine, other) = texts();
    mine.remove("eve");
    mine.insert("eve".to_string(), 4);
    let frozen = mine.freeze_clone();
    mine.clear();
    assert!(frozen.iter().eq(&other) && frozen.get("eve") == Some(&4) && frozen.range("e".to_string()..).count() == 2);
    same(&frozen.thaw().unwrap(), &other);
    assert!(ArtSet::from([2, 1]).freeze_clone().iter().eq(&[1, 2]));
    assert!(ArtMap::<u32, u32>::new().freeze_clone().is_empty());
}

/// A frozen map for all threads.
static SHARED: LazyLock<FrozenMap<String, u32>> = LazyLock::new(|| texts().0.freeze());

#[test]
fn a_frozen_map_stands_in_a_static() {
    let reads = WORDS.map(|word| thread::spawn(move || SHARED.get(word).copied()));
    assert_eq!(reads.map(|it| it.join().unwrap()), [0, 1, 2, 3, 4, 5].map(Some));
}

/// More threads than there are handles read one frozen map, by look-ups and walks that other calls come between.
#[test]
fn a_frozen_map_is_read_by_many_threads_at_once() {
    fn is_shared<T: Send + Sync>(_: &T) {}
    let mut map = ArtMap::new();
    for at in 0..3000u32 {
        map.insert(at * 7 % 3001, at);
    }
    let (frozen, all) = (map.freeze(), RwLock::new(0));
    is_shared(&(&frozen, ArtSet::from([1]).freeze()));
    thread::scope(|scope| {
        for thread in 0..24u32 {
            let (frozen, all) = (&frozen, &all);
            scope.spawn(move || {
                let mut walk = frozen.range(thread * 7..);
                for at in thread..600 {
                    assert_eq!(frozen.get(&(at * 7 % 3001)), Some(&at));
                    assert_eq!(walk.next().map(|it| *it.0), frozen.range(thread * 6 + at..).next().map(|it| *it.0));
                }
                *all.write().unwrap() += frozen.clone().iter().count();
            });
        }
    });
    assert_eq!((*all.read().unwrap(), frozen.thaw().unwrap().remove(&7)), (24 * 3000, Some(1)));
}

//! A map is told and read as `BTreeMap` is, a set as `BTreeSet` is.
use artmap::{ArtMap, ArtSet, Ended};
use serde::Serialize;
use serde_json::{from_str, json, to_string, to_value};
use std::collections::{BTreeMap, BTreeSet};

fn text(of: &impl Serialize) -> String {
    to_string(of).unwrap()
}

#[test]
fn a_map_is_told_as_a_map() {
    let pairs = || (0..3000u32).map(|it| (it.wrapping_mul(2_654_435_769).to_string(), it));
    let (map, tree) = (pairs().collect::<ArtMap<_, _>>(), pairs().collect::<BTreeMap<_, _>>());
    assert_eq!(text(&map), text(&tree));
    assert_eq!(from_str::<ArtMap<String, u32>>(&text(&tree)).unwrap(), map);
    assert_eq!(text(&map.freeze()), text(&tree));
    assert_eq!(text(&ArtMap::<String, u32>::new()), "{}");
    assert!(from_str::<ArtMap<String, u32>>("{}").unwrap().is_empty());
}

#[test]
fn a_set_is_told_as_a_sequence() {
    let keys = || (0..3000u32).map(|it| it.wrapping_mul(2_654_435_769));
    let (set, tree) = (keys().collect::<ArtSet<_>>(), keys().collect::<BTreeSet<_>>());
    assert_eq!(text(&set), text(&tree));
    assert_eq!(from_str::<ArtSet<u32>>(&text(&tree)).unwrap(), set);
    assert_eq!(text(&set.freeze()), text(&tree));
    assert!(from_str::<ArtSet<u32>>("[]").unwrap().is_empty());
}

#[test]
fn keys_are_read_by_their_own_types() {
    let map = ArtMap::from([(-1i64, vec![Some(1)]), (300, vec![]), (-70_000, vec![None])]);
    assert_eq!(text(&map), r#"{"-70000":[null],"-1":[1],"300":[]}"#);
    assert_eq!(from_str::<ArtMap<i64, Vec<Option<u8>>>>(&text(&map)).unwrap(), map);
    let nested = ArtMap::from([('b', ArtSet::from([(2u8, "x".to_string())])), ('a', ArtSet::new())]);
    assert_eq!(to_value(&nested).unwrap(), json!({"a": [], "b": [[2, "x"]]}));
    assert_eq!(from_str::<ArtMap<char, ArtSet<(u8, String)>>>(&text(&nested)).unwrap(), nested);
    let ended = ArtSet::from([Ended(vec![1u8, 2]), Ended(vec![1])]);
    assert_eq!(text(&ended), "[[1],[1,2]]");
    assert_eq!(from_str::<ArtSet<Ended<Vec<u8>>>>("[[1,2],[1]]").unwrap(), ended);
}

#[test]
fn the_later_of_two_values_stays() {
    let text = r#"{"b":1,"a":2,"b":3}"#;
    assert_eq!(from_str::<ArtMap<String, u8>>(text).unwrap(), ArtMap::from([("a", 2), ("b", 3)].map(owned)));
    assert_eq!(from_str::<BTreeMap<String, u8>>(text).unwrap(), BTreeMap::from([("a", 2), ("b", 3)].map(owned)));
}

fn owned(pair: (&str, u8)) -> (String, u8) {
    (pair.0.to_string(), pair.1)
}

#[test]
fn what_is_refused_is_an_error() {
    let refused = "the key begins a stored one, or a stored one begins it";
    for text in ["[[1,2],[3],[1]]", "[[1],[1,2],[3]]"] {
        let why = from_str::<ArtSet<Vec<u8>>>(text).unwrap_err();
        assert!(why.to_string().starts_with(refused), "{why}");
    }
    assert_eq!(from_str::<ArtSet<Vec<u8>>>("[[1,2],[3],[1,2]]").unwrap().len(), 2);
    // (what was read so far is freed, and the reader's error is told)
    let why = from_str::<ArtMap<String, Vec<u8>>>(r#"{"a":[1],"b":[2],"c":3}"#).unwrap_err();
    assert!(why.to_string().starts_with("invalid type: integer `3`, expected a sequence"), "{why}");
    let why = from_str::<ArtMap<String, u8>>("[1]").unwrap_err();
    assert!(why.to_string().starts_with("invalid type: sequence, expected a map"), "{why}");
    let why = from_str::<ArtSet<u8>>("{}").unwrap_err();
    assert!(why.to_string().starts_with("invalid type: map, expected a sequence"), "{why}");
}

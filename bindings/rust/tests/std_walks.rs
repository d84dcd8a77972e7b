//! std's documented examples of the walks of `BTreeMap`, with the names of this crate.
#![allow(
    clippy::pedantic,
    clippy::non_canonical_partial_ord_impl,
    clippy::bool_assert_comparison,
    unused,
    reason = "they stand as in the pages of std"
)]

#[test]
fn range() {
    use artmap::ArtMap;
    use std::ops::Bound::Included;

    let mut map = ArtMap::new();
    map.insert(3, "a");
    map.insert(5, "b");
    map.insert(8, "c");
    for (&key, &value) in map.range((Included(&4), Included(&8))) {
        println!("{key}: {value}");
    }
    assert_eq!(Some((&5, &"b")), map.range(4..).next());
}

#[test]
fn range_mut() {
    use artmap::ArtMap;

    let mut map: ArtMap<&str, i32> = [("Alice", 0), ("Bob", 0), ("Carol", 0), ("Cheryl", 0)].into();
    for (_, balance) in map.range_mut("B".."Cheryl") {
        *balance += 100;
    }
    for (name, balance) in &map {
        println!("{name} => {balance}");
    }
}

#[test]
fn into_keys() {
    use artmap::ArtMap;

    let mut a = ArtMap::new();
    a.insert(2, "b");
    a.insert(1, "a");

    let keys: Vec<i32> = a.into_keys().collect();
    assert_eq!(keys, [1, 2]);
}

#[test]
fn into_values() {
    use artmap::ArtMap;

    let mut a = ArtMap::new();
    a.insert(1, "hello");
    a.insert(2, "goodbye");

    let values: Vec<&str> = a.into_values().collect();
    assert_eq!(values, ["hello", "goodbye"]);
}

#[test]
fn iter() {
    use artmap::ArtMap;

    let mut map = ArtMap::new();
    map.insert(3, "c");
    map.insert(2, "b");
    map.insert(1, "a");

    for (key, value) in map.iter() {
        println!("{key}: {value}");
    }

    let (first_key, first_value) = map.iter().next().unwrap();
    assert_eq!((*first_key, *first_value), (1, "a"));
}

#[test]
fn iter_mut() {
    use artmap::ArtMap;

    let mut map = ArtMap::from([("a", 1), ("b", 2), ("c", 3)]);

    // add 10 to the value if the key isn't "a"
    for (key, value) in map.iter_mut() {
        if key != &"a" {
            *value += 10;
        }
    }
}

#[test]
fn keys() {
    use artmap::ArtMap;

    let mut a = ArtMap::new();
    a.insert(2, "b");
    a.insert(1, "a");

    let keys: Vec<_> = a.keys().cloned().collect();
    assert_eq!(keys, [1, 2]);
}

#[test]
fn values() {
    use artmap::ArtMap;

    let mut a = ArtMap::new();
    a.insert(1, "hello");
    a.insert(2, "goodbye");

    let values: Vec<&str> = a.values().cloned().collect();
    assert_eq!(values, ["hello", "goodbye"]);
}

#[test]
fn values_mut() {
    use artmap::ArtMap;

    let mut a = ArtMap::new();
    a.insert(1, String::from("hello"));
    a.insert(2, String::from("goodbye"));

    for value in a.values_mut() {
        value.push('!');
    }

    let values: Vec<String> = a.values().cloned().collect();
    assert_eq!(values, [String::from("hello!"), String::from("goodbye!")]);
}

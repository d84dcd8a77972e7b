//! std's documented examples of the entries of `BTreeMap`, with the names of this crate.
#![allow(
    clippy::pedantic,
    clippy::non_canonical_partial_ord_impl,
    clippy::bool_assert_comparison,
    unused,
    reason = "they stand as in the pages of std"
)]

#[test]
fn entry_or_insert() {
    use artmap::ArtMap;

    let mut map: ArtMap<&str, usize> = ArtMap::new();
    map.entry("poneyland").or_insert(12);

    assert_eq!(map["poneyland"], 12);
}

#[test]
fn entry_or_insert_with() {
    use artmap::ArtMap;

    let mut map: ArtMap<&str, String> = ArtMap::new();
    let s = "hoho".to_string();

    map.entry("poneyland").or_insert_with(|| s);

    assert_eq!(map["poneyland"], "hoho".to_string());
}

#[test]
fn entry_or_insert_with_key() {
    use artmap::ArtMap;

    let mut map: ArtMap<&str, usize> = ArtMap::new();

    map.entry("poneyland").or_insert_with_key(|key| key.chars().count());

    assert_eq!(map["poneyland"], 9);
}

#[test]
fn entry_key() {
    use artmap::ArtMap;

    let mut map: ArtMap<&str, usize> = ArtMap::new();
    assert_eq!(map.entry("poneyland").key(), &"poneyland");
}

#[test]
fn entry_and_modify() {
    use artmap::ArtMap;

    let mut map: ArtMap<&str, usize> = ArtMap::new();

    map.entry("poneyland").and_modify(|e| *e += 1).or_insert(42);
    assert_eq!(map["poneyland"], 42);

    map.entry("poneyland").and_modify(|e| *e += 1).or_insert(42);
    assert_eq!(map["poneyland"], 43);
}

#[test]
fn entry_insert_entry() {
    use artmap::ArtMap;

    let mut map: ArtMap<&str, String> = ArtMap::new();
    let entry = map.entry("poneyland").insert_entry("hoho".to_string());

    assert_eq!(entry.key(), &"poneyland");
}

#[test]
fn entry_or_default() {
    use artmap::ArtMap;

    let mut map: ArtMap<&str, Option<usize>> = ArtMap::new();
    map.entry("poneyland").or_default();

    assert_eq!(map["poneyland"], None);
}

#[test]
fn occupiedentry_key() {
    use artmap::ArtMap;

    let mut map: ArtMap<&str, usize> = ArtMap::new();
    map.entry("poneyland").or_insert(12);
    assert_eq!(map.entry("poneyland").key(), &"poneyland");
}

#[test]
fn occupiedentry_remove_entry() {
    use artmap::ArtMap;
    use artmap::Entry;

    let mut map: ArtMap<&str, usize> = ArtMap::new();
    map.entry("poneyland").or_insert(12);

    if let Entry::Occupied(o) = map.entry("poneyland") {
        // We delete the entry from the map.
        o.remove_entry();
    }

    // If now try to get the value, it will panic:
    // println!("{}", map["poneyland"]);
}

#[test]
fn occupiedentry_get() {
    use artmap::ArtMap;
    use artmap::Entry;

    let mut map: ArtMap<&str, usize> = ArtMap::new();
    map.entry("poneyland").or_insert(12);

    if let Entry::Occupied(o) = map.entry("poneyland") {
        assert_eq!(o.get(), &12);
    }
}

#[test]
fn occupiedentry_get_mut() {
    use artmap::ArtMap;
    use artmap::Entry;

    let mut map: ArtMap<&str, usize> = ArtMap::new();
    map.entry("poneyland").or_insert(12);

    assert_eq!(map["poneyland"], 12);
    if let Entry::Occupied(mut o) = map.entry("poneyland") {
        *o.get_mut() += 10;
        assert_eq!(*o.get(), 22);

        // We can use the same Entry multiple times.
        *o.get_mut() += 2;
    }
    assert_eq!(map["poneyland"], 24);
}

#[test]
fn occupiedentry_into_mut() {
    use artmap::ArtMap;
    use artmap::Entry;

    let mut map: ArtMap<&str, usize> = ArtMap::new();
    map.entry("poneyland").or_insert(12);

    assert_eq!(map["poneyland"], 12);
    if let Entry::Occupied(o) = map.entry("poneyland") {
        *o.into_mut() += 10;
    }
    assert_eq!(map["poneyland"], 22);
}

#[test]
fn occupiedentry_insert() {
    use artmap::ArtMap;
    use artmap::Entry;

    let mut map: ArtMap<&str, usize> = ArtMap::new();
    map.entry("poneyland").or_insert(12);

    if let Entry::Occupied(mut o) = map.entry("poneyland") {
        assert_eq!(o.insert(15), 12);
    }
    assert_eq!(map["poneyland"], 15);
}

#[test]
fn occupiedentry_remove() {
    use artmap::ArtMap;
    use artmap::Entry;

    let mut map: ArtMap<&str, usize> = ArtMap::new();
    map.entry("poneyland").or_insert(12);

    if let Entry::Occupied(o) = map.entry("poneyland") {
        assert_eq!(o.remove(), 12);
    }
    // If we try to get "poneyland"'s value, it'll panic:
    // println!("{}", map["poneyland"]);
}

#[test]
fn vacantentry_into_key() {
    use artmap::ArtMap;
    use artmap::Entry;

    let mut map: ArtMap<&str, usize> = ArtMap::new();

    if let Entry::Vacant(v) = map.entry("poneyland") {
        v.into_key();
    }
}

#[test]
fn vacantentry_insert() {
    use artmap::ArtMap;
    use artmap::Entry;

    let mut map: ArtMap<&str, u32> = ArtMap::new();

    if let Entry::Vacant(o) = map.entry("poneyland") {
        o.insert(37);
    }
    assert_eq!(map["poneyland"], 37);
}

#[test]
fn vacantentry_insert_entry() {
    use artmap::ArtMap;
    use artmap::Entry;

    let mut map: ArtMap<&str, u32> = ArtMap::new();

    if let Entry::Vacant(o) = map.entry("poneyland") {
        let entry = o.insert_entry(37);
        assert_eq!(entry.get(), &37);
    }
    assert_eq!(map["poneyland"], 37);
}

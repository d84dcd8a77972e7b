//! std's documented examples of `BTreeMap`, with the names of this crate.
#![allow(
    clippy::pedantic,
    clippy::non_canonical_partial_ord_impl,
    clippy::bool_assert_comparison,
    unused,
    reason = "they stand as in the pages of std"
)]

#[test]
fn the_page() {
    use artmap::ArtMap;

    // type inference lets us omit an explicit type signature (which
    // would be `ArtMap<&str, &str>` in this example).
    let mut movie_reviews = ArtMap::new();

    // review some movies.
    movie_reviews.insert("Office Space", "Deals with real issues in the workplace.");
    movie_reviews.insert("Pulp Fiction", "Masterpiece.");
    movie_reviews.insert("The Godfather", "Very enjoyable.");
    movie_reviews.insert("The Blues Brothers", "Eye lyked it a lot.");

    // check for a specific one.
    if !movie_reviews.contains_key("Les Misérables") {
        println!("We've got {} reviews, but Les Misérables ain't one.", movie_reviews.len());
    }

    // oops, this review has a lot of spelling mistakes, let's delete it.
    movie_reviews.remove("The Blues Brothers");

    // look up the values associated with some keys.
    let to_find = ["Up!", "Office Space"];
    for movie in &to_find {
        match movie_reviews.get(movie) {
            Some(review) => println!("{movie}: {review}"),
            None => println!("{movie} is unreviewed."),
        }
    }

    // Look up the value for a key (will panic if the key is not found).
    println!("Movie review: {}", movie_reviews["Office Space"]);

    // iterate over everything.
    for (movie, review) in &movie_reviews {
        println!("{movie}: \"{review}\"");
    }
}

#[test]
fn the_page_2() {
    use artmap::ArtMap;

    let solar_distance = ArtMap::from([("Mercury", 0.4), ("Venus", 0.7), ("Earth", 1.0), ("Mars", 1.5)]);
}

#[test]
fn the_page_3() {
    use artmap::ArtMap;

    // type inference lets us omit an explicit type signature (which
    // would be `ArtMap<&str, u8>` in this example).
    let mut player_stats = ArtMap::new();

    fn random_stat_buff() -> u8 {
        // could actually return some random value here - let's just return
        // some fixed value for now
        42
    }

    // insert a key only if it doesn't already exist
    player_stats.entry("health").or_insert(100);

    // insert a key using a function that provides a new value only if it
    // doesn't already exist
    player_stats.entry("defence").or_insert_with(random_stat_buff);

    // update a key, guarding against the key possibly not being set
    let stat = player_stats.entry("attack").or_insert(100);
    *stat += random_stat_buff();

    // modify an entry before an insert with in-place mutation
    player_stats.entry("mana").and_modify(|mana| *mana += 200).or_insert(100);
}

#[test]
fn new() {
    use artmap::ArtMap;

    let mut map = ArtMap::new();

    // entries can now be inserted into the empty map
    map.insert(1, "a");
}

#[test]
fn clear() {
    use artmap::ArtMap;

    let mut a = ArtMap::new();
    a.insert(1, "a");
    a.clear();
    assert!(a.is_empty());
}

#[test]
fn get() {
    use artmap::ArtMap;

    let mut map = ArtMap::new();
    map.insert(1, "a");
    assert_eq!(map.get(&1), Some(&"a"));
    assert_eq!(map.get(&2), None);
}

#[test]
fn get_key_value() {
    use artmap::ArtMap;
    use artmap::Key;
    use std::cmp::Ordering;

    #[derive(Clone, Copy, Debug)]
    struct S {
        id: u32,
        name: &'static str, // ignored by equality and ordering operations
    }

    impl PartialEq for S {
        fn eq(&self, other: &S) -> bool {
            self.id == other.id
        }
    }

    impl Eq for S {}

    impl PartialOrd for S {
        fn partial_cmp(&self, other: &S) -> Option<Ordering> {
            self.id.partial_cmp(&other.id)
        }
    }

    impl Ord for S {
        fn cmp(&self, other: &S) -> Ordering {
            self.id.cmp(&other.id)
        }
    }

    impl artmap::Key for S {
        type Bytes<'a> = [u8; 4];

        fn to_bytes(&self) -> Result<[u8; 4], artmap::AllocError> {
            self.id.to_bytes()
        }
    }

    impl artmap::NoPrefixes for S {}

    let j_a = S { id: 1, name: "Jessica" };
    let j_b = S { id: 1, name: "Jess" };
    let p = S { id: 2, name: "Paul" };
    assert_eq!(j_a, j_b);

    let mut map = ArtMap::new();
    map.insert(j_a, "Paris");
    assert_eq!(map.get_key_value(&j_a), Some((&j_a, &"Paris")));
    assert_eq!(map.get_key_value(&j_b), Some((&j_a, &"Paris"))); // the notable case
    assert_eq!(map.get_key_value(&p), None);
}

#[test]
fn first_key_value() {
    use artmap::ArtMap;

    let mut map = ArtMap::new();
    assert_eq!(map.first_key_value(), None);
    map.insert(1, "b");
    map.insert(2, "a");
    assert_eq!(map.first_key_value(), Some((&1, &"b")));
}

#[test]
fn first_entry() {
    use artmap::ArtMap;

    let mut map = ArtMap::new();
    map.insert(1, "a");
    map.insert(2, "b");
    if let Some(mut entry) = map.first_entry()
        && *entry.key() > 0
    {
        entry.insert("first");
    }
    assert_eq!(*map.get(&1).unwrap(), "first");
    assert_eq!(*map.get(&2).unwrap(), "b");
}

#[test]
fn pop_first() {
    use artmap::ArtMap;

    let mut map = ArtMap::new();
    map.insert(1, "a");
    map.insert(2, "b");
    while let Some((key, _val)) = map.pop_first() {
        assert!(map.iter().all(|(k, _v)| *k > key));
    }
    assert!(map.is_empty());
}

#[test]
fn last_key_value() {
    use artmap::ArtMap;

    let mut map = ArtMap::new();
    map.insert(1, "b");
    map.insert(2, "a");
    assert_eq!(map.last_key_value(), Some((&2, &"a")));
}

#[test]
fn last_entry() {
    use artmap::ArtMap;

    let mut map = ArtMap::new();
    map.insert(1, "a");
    map.insert(2, "b");
    if let Some(mut entry) = map.last_entry()
        && *entry.key() > 0
    {
        entry.insert("last");
    }
    assert_eq!(*map.get(&1).unwrap(), "a");
    assert_eq!(*map.get(&2).unwrap(), "last");
}

#[test]
fn pop_last() {
    use artmap::ArtMap;

    let mut map = ArtMap::new();
    map.insert(1, "a");
    map.insert(2, "b");
    while let Some((key, _val)) = map.pop_last() {
        assert!(map.iter().all(|(k, _v)| *k < key));
    }
    assert!(map.is_empty());
}

#[test]
fn contains_key() {
    use artmap::ArtMap;

    let mut map = ArtMap::new();
    map.insert(1, "a");
    assert_eq!(map.contains_key(&1), true);
    assert_eq!(map.contains_key(&2), false);
}

#[test]
fn get_mut() {
    use artmap::ArtMap;

    let mut map = ArtMap::new();
    map.insert(1, "a");
    if let Some(x) = map.get_mut(&1) {
        *x = "b";
    }
    assert_eq!(map[&1], "b");
}

#[test]
fn insert() {
    use artmap::ArtMap;

    let mut map = ArtMap::new();
    assert_eq!(map.insert(37, "a"), None);
    assert_eq!(map.is_empty(), false);

    map.insert(37, "b");
    assert_eq!(map.insert(37, "c"), Some("b"));
    assert_eq!(map[&37], "c");
}

#[test]
fn remove() {
    use artmap::ArtMap;

    let mut map = ArtMap::new();
    map.insert(1, "a");
    assert_eq!(map.remove(&1), Some("a"));
    assert_eq!(map.remove(&1), None);
}

#[test]
fn remove_entry() {
    use artmap::ArtMap;

    let mut map = ArtMap::new();
    map.insert(1, "a");
    assert_eq!(map.remove_entry(&1), Some((1, "a")));
    assert_eq!(map.remove_entry(&1), None);
}

#[test]
fn retain() {
    use artmap::ArtMap;

    let mut map: ArtMap<i32, i32> = (0..8).map(|x| (x, x * 10)).collect();
    // Keep only the elements with even-numbered keys.
    map.retain(|&k, _| k % 2 == 0);
    assert!(map.into_iter().eq(vec![(0, 0), (2, 20), (4, 40), (6, 60)]));
}

#[test]
fn append() {
    use artmap::ArtMap;

    let mut a = ArtMap::new();
    a.insert(1, "a");
    a.insert(2, "b");
    a.insert(3, "c"); // Note: Key (3) also present in b.

    let mut b = ArtMap::new();
    b.insert(3, "d"); // Note: Key (3) also present in a.
    b.insert(4, "e");
    b.insert(5, "f");

    a.append(&mut b);

    assert_eq!(a.len(), 5);
    assert_eq!(b.len(), 0);

    assert_eq!(a[&1], "a");
    assert_eq!(a[&2], "b");
    assert_eq!(a[&3], "d"); // Note: "c" has been overwritten.
    assert_eq!(a[&4], "e");
    assert_eq!(a[&5], "f");
}

#[test]
fn entry() {
    use artmap::ArtMap;

    let mut count: ArtMap<&str, usize> = ArtMap::new();

    // count the number of occurrences of letters in the vec
    for x in ["a", "b", "a", "c", "a", "b"] {
        count.entry(x).and_modify(|curr| *curr += 1).or_insert(1);
    }

    assert_eq!(count["a"], 3);
    assert_eq!(count["b"], 2);
    assert_eq!(count["c"], 1);
}

#[test]
fn split_off() {
    use artmap::ArtMap;

    let mut a = ArtMap::new();
    a.insert(1, "a");
    a.insert(2, "b");
    a.insert(3, "c");
    a.insert(17, "d");
    a.insert(41, "e");

    let b = a.split_off(&3);

    assert_eq!(a.len(), 2);
    assert_eq!(b.len(), 3);

    assert_eq!(a[&1], "a");
    assert_eq!(a[&2], "b");

    assert_eq!(b[&3], "c");
    assert_eq!(b[&17], "d");
    assert_eq!(b[&41], "e");
}

#[test]
fn extract_if() {
    use artmap::ArtMap;

    // Splitting a map into even and odd keys, reusing the original map:
    let mut map: ArtMap<i32, i32> = (0..8).map(|x| (x, x)).collect();
    let evens: ArtMap<_, _> = map.extract_if(.., |k, _v| k % 2 == 0).collect();
    let odds = map;
    assert_eq!(evens.keys().copied().collect::<Vec<_>>(), [0, 2, 4, 6]);
    assert_eq!(odds.keys().copied().collect::<Vec<_>>(), [1, 3, 5, 7]);

    // Splitting a map into low and high halves, reusing the original map:
    let mut map: ArtMap<i32, i32> = (0..8).map(|x| (x, x)).collect();
    let low: ArtMap<_, _> = map.extract_if(0..4, |_k, _v| true).collect();
    let high = map;
    assert_eq!(low.keys().copied().collect::<Vec<_>>(), [0, 1, 2, 3]);
    assert_eq!(high.keys().copied().collect::<Vec<_>>(), [4, 5, 6, 7]);
}

#[test]
fn len() {
    use artmap::ArtMap;

    let mut a = ArtMap::new();
    assert_eq!(a.len(), 0);
    a.insert(1, "a");
    assert_eq!(a.len(), 1);
}

#[test]
fn is_empty() {
    use artmap::ArtMap;

    let mut a = ArtMap::new();
    assert!(a.is_empty());
    a.insert(1, "a");
    assert!(!a.is_empty());
}

#[test]
fn from() {
    use artmap::ArtMap;

    let map1 = ArtMap::from([(1, 2), (3, 4)]);
    let map2: ArtMap<_, _> = [(1, 2), (3, 4)].into();
    assert_eq!(map1, map2);
}

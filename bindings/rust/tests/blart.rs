//! What blart shows of its map in its own tests and pages.
use artmap::{ArtMap, ArtSet, Entry, PrefixEntry, TryInsertError};

fn films(titles: &[&str]) -> ArtMap<Vec<u8>, u32> {
    ArtMap::try_from_iter(titles.iter().map(|it| it.as_bytes().to_vec()).zip(0..)).unwrap()
}

#[test]
fn the_first_page() {
    let mut map = films(&["The Godfather", "Pulp Fiction", "Office Space", "The Blues Brothers"]);
    assert_eq!(map.len(), 4);
    assert_eq!(map.remove(&b"The Blues Brothers".to_vec()), Some(3));
    let left: Vec<_> = map.keys().collect();
    assert_eq!(left, [&b"Office Space"[..], b"Pulp Fiction", b"The Godfather"]);
    assert_eq!(map.get(&b"Pulp Fiction"[..]), Some(&1));
    assert_eq!(map[&b"The Godfather"[..]], 0);
}

#[test]
fn a_key_that_a_stored_one_begins_is_refused() {
    let mut map = ArtMap::new();
    assert_eq!(map.try_insert(vec![1u8, 2, 3], 'a'), Ok(None));
    assert_eq!(map.try_insert(vec![2, 3, 4], 'b'), Ok(None));
    let refused = map.try_insert(vec![2, 3, 4, 5], 'c');
    assert_eq!(refused, Err(TryInsertError::Prefix { key: vec![2, 3, 4, 5], value: 'c' }));
    assert_eq!(map.try_insert(vec![2, 3, 4], 'd'), Ok(Some('b')));
    assert_eq!(map.len(), 2);
    assert_eq!((map.get(&[1, 2, 3][..]), map.get(&[2, 3, 4][..])), (Some(&'a'), Some(&'d')));
}

#[test]
fn prefixes_of_a_query_and_of_keys() {
    let mut map = ArtMap::new();
    map.try_insert(vec![1u8, 2, 3], 'a').unwrap();
    assert_eq!(map.prefix_get(&[1, 2, 3, 4, 5]), Some(&'a'));
    assert_eq!(map.prefix_get(&[1, 2]), None);
    assert_eq!(map.prefix_get_mut(&[1, 2, 3]), Some(&mut 'a'));
    let counts = [&[1, 2, 3][..], &[1, 2], &[1], &[2]].map(|prefix| map.prefix(prefix).count());
    assert_eq!(counts, [1, 1, 1, 0]);
    assert_eq!(map.prefix_insert(vec![1, 2], 'b'), 1);
    assert_eq!(map.first_key_value(), Some((&vec![1, 2], &'b')));
}

#[test]
fn what_begins_alike_is_walked_in_order() {
    let mut map = films(&["Hello from Germany", "Hello from France", "Hello from Belgium", "Anyone on Mars?"]);
    let found: Vec<_> = map.prefix("Hello from").map(|it| *it.1).collect();
    assert_eq!(found, [2, 1, 0]);
    assert_eq!(map.prefix("Anyone").next_back(), Some((&b"Anyone on Mars?".to_vec(), &3)));
    map.prefix_mut("Hello").for_each(|(_, value)| *value += 10);
    assert!(map.values().eq(&[3, 12, 11, 10]));
}

#[test]
fn both_ends_of_three_bytes() {
    let each = || 0..=5u8;
    let keys = each().flat_map(|a| each().flat_map(move |b| each().map(move |c| [c, a, b])));
    let mut map: ArtMap<[u8; 3], u32> = keys.zip(0..).collect();
    assert_eq!(map.len(), 216);
    assert_eq!((map.first_key_value().unwrap().0, map.last_key_value().unwrap().0), (&[0; 3], &[5; 3]));
    let mut popped = Vec::new();
    while let Some((key, _)) = map.pop_first() {
        popped.push(key);
    }
    assert!(popped.len() == 216 && popped.is_sorted());
}

#[test]
fn an_owned_walk_knows_how_many_are_left() {
    let map: ArtMap<u16, ()> = (0..8).map(|at| (at * 300, ())).collect();
    let mut pairs = map.into_iter();
    assert_eq!(pairs.len(), 8);
    assert_eq!((pairs.next(), pairs.next_back()), (Some((0, ())), Some((2100, ()))));
    assert_eq!((pairs.len(), pairs.size_hint()), (6, (6, Some(6))));
    assert_eq!(pairs.map(|(key, ())| key).collect::<Vec<_>>(), [300, 600, 900, 1200, 1500, 1800]);
}

#[test]
fn even_keys_are_taken_out() {
    let mut map: ArtMap<i32, i32> = (0..10).map(|at| (at, -at)).collect();
    let taken: Vec<_> = map.extract_if(2.., |key, _| key % 2 == 0).take(3).collect();
    assert_eq!(taken, [(2, -2), (4, -4), (6, -6)]);
    assert!(map.keys().eq(&[0, 1, 3, 5, 7, 8, 9]));
    map.retain(|key, value| {
        *value = 1;
        key % 2 == 1
    });
    assert!(map.into_iter().eq([1, 3, 5, 7, 9].map(|it| (it, 1))));
}

#[test]
fn entries() {
    let mut map = ArtMap::new();
    for word in ["a", "b", "a", "c", "a"] {
        map.entry(word).and_modify(|it| *it += 1).or_insert(1);
    }
    assert!(map.iter().eq([(&"a", &3), (&"b", &1), (&"c", &1)]));
    let Entry::Occupied(mut entry) = map.entry("b") else { panic!("b is stored") };
    assert_eq!((entry.insert(7), entry.key()), (1, &"b"));
    assert_eq!(entry.remove_entry(), ("b", 7));
    let Entry::Vacant(entry) = map.entry("b") else { panic!("b is gone") };
    assert_eq!(entry.into_key(), "b");
    assert_eq!(map.entry("d").or_insert_with_key_entry(|key| key.len()).insert(5), 1);
    assert_eq!(map.into_values().collect::<Vec<_>>(), [3, 1, 5]);
}

#[test]
fn entries_of_prefixes() {
    let mut map = films(&["Hello from Germany", "Hello from France", "Hello from Belgium", "Anyone on Mars?"]);
    let PrefixEntry::Inner(mut entry) = map.prefix_entry(b"Hello from".to_vec()) else { panic!("three begin so") };
    assert!(entry.iter().map(|it| *it.1).eq([2, 1, 0]));
    entry.iter_mut().for_each(|it| *it.1 += 10);
    assert!(entry.iter().rev().map(|it| *it.1).eq([10, 11, 12]));
    entry.insert(7);
    assert!(map.len() == 2 && map.prefix_get(b"Hello from Spain") == Some(&7));
    map.prefix_entry(b"Hello from Spain".to_vec()).insert_entry(8);
    assert!(map.values().eq(&[3, 8]) && *map.prefix_entry(b"Hi".to_vec()).or_insert(9) == 9);
    assert_eq!(map.prefix_entry(vec![]).or_default(), &0);
    assert_eq!(map.len(), 1);
}

#[test]
fn cuts_and_joins() {
    let mut map: ArtMap<u16, u16> = (0..1000).map(|at| (at, at)).collect();
    let mut rest = map.split_off(&600);
    assert_eq!((map.len(), rest.len(), rest.first_key_value()), (600, 400, Some((&600, &600))));
    rest.insert(5, 7);
    map.append(&mut rest);
    assert!(rest.is_empty() && map.len() == 1000 && map[&5] == 7);
}

#[test]
fn every_width_of_node_is_filled_and_emptied() {
    for most in [4u16, 16, 32, 48, 256] {
        let key = |at: u16| [7, u8::try_from(at).unwrap()];
        let mut map: ArtMap<[u8; 2], u16> = (0..most).map(|at| (key(at), at)).collect();
        assert!(map.into_iter().eq((0..most).map(|at| (key(at), at))));
        map = (0..most).rev().map(|at| (key(at), at)).collect();
        for at in (0..most).rev() {
            assert_eq!(map.get(&key(at)), Some(&at));
            assert_eq!(map.remove(&key(at)), Some(at));
            assert_eq!(map.last_key_value().map(|it| *it.1), at.checked_sub(1));
        }
        assert!(map.is_empty());
    }
}

#[test]
fn sets_of_letters() {
    let (one, other) = (ArtSet::from(["a", "b", "c"]), ArtSet::from(["b", "c", "d"]));
    assert!(one.intersection(&other).eq(&["b", "c"]) && one.difference(&other).eq(&["a"]));
    assert!(one.symmetric_difference(&other).eq(&["a", "d"]) && (&one | &other).len() == 4);
    assert!(!one.is_disjoint(&other) && !one.is_subset(&other) && one.is_superset(&ArtSet::from(["a"])));
}

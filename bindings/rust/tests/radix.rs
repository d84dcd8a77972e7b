//! What the tests of other radix trees ask of theirs, by tables of our own: the longest key that begins a query, all
//! that do, all that begin with a prefix, these taken out, the ends, and blocks of addresses.
use artmap::{ArtMap, ArtSet, Ended};
use std::net::Ipv4Addr;

fn set(keys: &[&'static str]) -> ArtSet<&'static str> {
    keys.iter().copied().collect()
}

const NESTED: [&str; 8] = ["", "co", "coast", "coastal", "coat", "cot", "cotton", "dune"];

#[test]
fn the_longest_key_that_begins_a_query() {
    let all = set(&NESTED);
    for (query, wanted) in [
        ("c", ""),
        ("co", "co"),
        ("coa", "co"),
        ("coast", "coast"),
        ("coasta", "coast"),
        ("coastally", "coastal"),
        ("coats", "coat"),
        ("cotto", "cot"),
        ("cottons", "cotton"),
        ("dunes", "dune"),
        ("dun", ""),
        ("é", ""),
        ("", ""),
    ] {
        assert_eq!(all.prefix_get(query), Some(&wanted), "{query}");
    }
    let mut others = all;
    others.remove("");
    assert_eq!((others.prefix_get("c"), others.prefix_get(""), others.prefix_get("e")), (None, None, None));
}

#[test]
fn all_keys_that_begin_a_query() {
    let all = set(&NESTED);
    for (query, wanted) in [
        ("coastals", &["coastal", "coast", "co", ""][..]),
        ("cottonwood", &["cotton", "cot", "co", ""]),
        ("co", &["co", ""]),
        ("d", &[""]),
    ] {
        assert!(all.prefixes(query).eq(wanted), "{query}");
    }
}

#[test]
fn all_keys_with_a_prefix() {
    let all = set(&NESTED);
    for (prefix, wanted) in [
        ("", &NESTED[..]),
        ("co", &["co", "coast", "coastal", "coat", "cot", "cotton"]),
        ("coa", &["coast", "coastal", "coat"]),
        ("coastal", &["coastal"]),
        ("cott", &["cotton"]),
        ("coastals", &[]),
        ("x", &[]),
    ] {
        assert!(all.prefix(prefix).eq(wanted) && all.prefix(prefix).rev().eq(wanted.iter().rev()), "{prefix}");
    }
}

#[test]
fn keys_with_a_prefix_go() {
    for (prefix, left) in [
        ("", &[][..]),
        ("co", &["", "dune"]),
        ("coa", &["", "co", "cot", "cotton", "dune"]),
        ("coast", &["", "co", "coat", "cot", "cotton", "dune"]),
        ("cott", &["", "co", "coast", "coastal", "coat", "cot", "dune"]),
        ("coasts", &NESTED),
    ] {
        let mut all = set(&NESTED);
        assert_eq!(all.remove_prefix(prefix), NESTED.len() - left.len(), "{prefix}");
        assert!(all.iter().eq(left), "{prefix}");
    }
}

#[test]
fn nodes_part_and_come_together() {
    // (in twenty orders; after each step all that is there is found, and nothing else)
    let keys = ["tea", "team", "ten", "to", "t"];
    for turn in 0..keys.len() {
        for step in 1..keys.len() {
            let order: Vec<&str> = (0..keys.len()).map(|at| keys[(turn + at * step) % keys.len()]).collect();
            let mut map = ArtMap::new();
            for (count, key) in order.iter().enumerate() {
                assert_eq!(map.insert(*key, count), None);
                assert!(keys.iter().all(|key| map.contains_key(key) == order[..=count].contains(key)));
            }
            for (count, key) in order.iter().enumerate() {
                assert_eq!((map.remove(*key), map.remove(*key)), (Some(count), None));
                assert!(keys.iter().all(|key| map.contains_key(key) != order[..=count].contains(key)));
            }
            assert!(map.is_empty() && map.first_key_value().is_none());
        }
    }
}

#[test]
fn the_ends() {
    let mut all = set(&NESTED);
    assert_eq!((all.first(), all.last()), (Some(&""), Some(&"dune")));
    assert_eq!((all.pop_first(), all.pop_last()), (Some(""), Some("dune")));
    assert_eq!((all.first(), all.last()), (Some(&"co"), Some(&"cotton")));
    assert_eq!((all.range("coast"..).nth(1), all.range(.."cot").next_back()), (Some(&"coastal"), Some(&"coat")));
}

/// The bits of a block, with a byte for each.
fn block(text: &str) -> Ended<Vec<u8>> {
    let (address, len) = text.split_once('/').unwrap_or((text, "32"));
    let (number, len) = (u32::from(address.parse::<Ipv4Addr>().unwrap()), len.parse().unwrap());
    Ended((0..len).map(|at: u32| u8::from(number << at >> 31 == 1)).collect())
}

#[test]
fn blocks_of_addresses() {
    let names =
        ["0.0.0.0/0", "10.0.0.0/8", "10.32.0.0/11", "10.40.0.0/13", "10.40.0.0/16", "10.40.7.9/32", "172.16.0.0/12"];
    let map: ArtMap<_, _> = names.iter().map(|name| (block(name), *name)).collect();
    for (address, best, all) in [
        ("10.40.7.9", "10.40.7.9/32", 6),
        ("10.40.7.8", "10.40.0.0/16", 5),
        ("10.47.0.1", "10.40.0.0/13", 4),
        ("10.48.0.1", "10.32.0.0/11", 3),
        ("10.64.0.1", "10.0.0.0/8", 2),
        ("172.31.255.255", "172.16.0.0/12", 2),
        ("172.32.0.0", "0.0.0.0/0", 1),
    ] {
        let (found, mut all_of) = (map.prefix_get(&block(address)), map.prefixes(&block(address)).map(|it| *it.1));
        assert_eq!((found, all_of.clone().count()), (Some(&best), all), "{address}");
        assert_eq!((all_of.next(), all_of.last()), (Some(best), Some("0.0.0.0/0").filter(|_| all > 1)), "{address}");
    }
    // (the blocks that one covers)
    let covered = map.prefix(&block("10.32.0.0/11")).map(|it| *it.1);
    assert!(covered.eq(["10.32.0.0/11", "10.40.0.0/13", "10.40.0.0/16", "10.40.7.9/32"]));
    assert_eq!((map.get(&block("10.40.0.0/16")), map.get(&block("10.40.0.0/15"))), (Some(&"10.40.0.0/16"), None));
}

//! The keys that begin a query: all of them, and the longest, as a search of each key finds them.
use artmap::{ArtMap, ArtSet, Ended, Front, Key, KeyPrefix, NoPrefixes};
use std::borrow::Cow;
use std::cell::Cell;
use std::collections::BTreeMap;
use std::ffi::CString;
use std::fmt::Debug;
use std::rc::Rc;

/// xorshift64*
struct Random(u64);

impl Random {
    fn below(&mut self, limit: usize) -> usize {
        self.0 ^= self.0 >> 12;
        self.0 ^= self.0 << 25;
        self.0 ^= self.0 >> 27;
        usize::try_from(self.0.wrapping_mul(0x2545_f491_4f6c_dd1d) >> 33).unwrap() % limit
    }

    fn text(&mut self, letters: &[&str], most: usize) -> String {
        (0..self.below(most + 1)).map(|_| letters[self.below(letters.len())]).collect()
    }
}

/// Maps of texts, seen by `key_of` and by `query_of`, find what begins a query.
fn finds_what_begins<K, P>(letters: &[&str], key_of: impl Fn(&str) -> K, query_of: impl Fn(&str) -> P)
where
    K: Key + NoPrefixes + Ord + Clone + Debug,
    P: KeyPrefix<K>,
{
    let mut random = Random(7);
    let model: BTreeMap<String, usize> = (0..400).map(|at| (random.text(letters, 6), at)).collect();
    let mut map: ArtMap<K, usize> = model.iter().map(|(text, at)| (key_of(text), *at)).collect();
    map.insert(key_of("unlike"), 0);
    let frozen = map.freeze_clone();
    for _ in 0..400 {
        let query = random.text(letters, 9);
        let begin = model.iter().rev().filter(|it| query.starts_with(it.0.as_str()));
        let wanted: Vec<_> = begin.map(|(text, at)| (key_of(text), *at)).collect();
        let (asked, longest) = (query_of(&query), wanted.first().map(|it| it.1));
        let found: Vec<_> = map.prefixes(&asked).map(|(key, at)| (key.clone(), *at)).collect();
        assert_eq!(found, wanted, "{query:?}");
        assert!(frozen.prefixes(&asked).eq(map.try_prefixes(&asked).unwrap()), "{query:?}");
        assert_eq!(map.prefix_get(&asked).copied(), longest, "{query:?}");
        assert_eq!(map.try_prefix_get_key_value(&asked).unwrap().map(|it| *it.1), longest, "{query:?}");
        assert_eq!(frozen.prefix_get(&asked).copied(), longest, "{query:?}");
        assert_eq!(map.prefix_get_mut(&asked).copied(), longest, "{query:?}");
        assert_eq!(map.try_prefix_get_mut(&asked).unwrap().copied(), longest, "{query:?}");
    }
}

const LETTERS: [&str; 5] = ["a", "b", "é", "\0", "\u{1}"];

#[test]
fn texts() {
    finds_what_begins(&LETTERS, str::to_string, str::to_string);
    finds_what_begins(&LETTERS, |it| Box::<str>::from(it), str::to_string);
    finds_what_begins(&LETTERS, |it| Cow::<str>::Owned(it.to_string()), |it| Box::<str>::from(it));
}

#[test]
fn long_texts() {
    // (whose bytes are put together, where they are escaped)
    let long = "long ".repeat(40);
    finds_what_begins(&["a", "b", &long], str::to_string, str::to_string);
    finds_what_begins(&["a", "\0", &long], str::to_string, |it| Rc::<str>::from(it));
}

#[test]
fn bytes_with_an_end() {
    let ended = |it: &str| Ended(it.as_bytes().to_vec());
    finds_what_begins(&LETTERS, ended, ended);
    let c_string = |it: &str| CString::new(it).unwrap();
    finds_what_begins(&["a", "b", "é", "\u{1}"], c_string, c_string);
}

#[test]
fn of_others_there_is_one() {
    let mut map = ArtMap::try_from_iter([(vec![1, 0], 'a'), (vec![1, 1, 0], 'b'), (vec![2], 'c')]).unwrap();
    assert!(map.prefixes(&[1, 1, 0, 5]).eq([(&vec![1, 1, 0], &'b')]) && map.prefixes(&[1, 5]).next().is_none());
    assert_eq!((map.prefix_get(&[2, 9]), map.prefix_get(&[1, 1])), (Some(&'c'), None));
    map.clear();
    assert!(map.prefixes(&[1]).next().is_none() && ArtMap::<String, u8>::new().prefixes("").next().is_none());
    let pairs = ArtMap::from([((1, "a"), 1), ((1, "ab"), 2)]);
    assert_eq!((pairs.prefixes(&Front((1, "a"))).count(), pairs.prefix_get(&Front(1))), (1, None));
}

#[test]
fn sets() {
    let set = ArtSet::from(["", "/", "/api", "/b"]);
    assert!(set.prefixes("/api/v1").eq(&["/api", "/", ""]) && set.freeze_clone().prefixes("/").eq(&["/", ""]));
    assert_eq!((set.prefix_get("/ap"), set.try_prefixes("x").unwrap().count()), (Some(&"/"), 1));
    assert_eq!(
        format!("{:?} {:?}", set.prefixes("/bc"), set.prefixes("/bc").clone().next()),
        r#"["/b", "/", ""] Some("/b")"#
    );
}

/// Bytes that are others once they are stored.
struct Lies(Rc<Cell<bool>>);

impl AsRef<[u8]> for Lies {
    fn as_ref(&self) -> &[u8] {
        if self.0.get() { b"query and more" } else { b"b" }
    }
}

#[test]
fn a_search_ends_where_a_key_lies() {
    let lies = Rc::new(Cell::new(false));
    let map = ArtMap::from([(Ended(Lies(Rc::clone(&lies))), 1)]);
    assert_eq!((map.prefix_get("bc"), map.prefix_get("query")), (Some(&1), None));
    lies.set(true);
    assert_eq!((map.prefixes("query").count(), map.prefix_get("a")), (0, None));
}

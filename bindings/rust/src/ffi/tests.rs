//! The calls over the library that is linked.
use super::*;

#[test]
fn calls_answer_what_the_header_says() {
    let (mut art, mut words) = (Words::new(), [0; 4]);
    assert_eq!((art.len(), art.get(b"ab"), art.remove(b"ab"), art.find(b"ab")), (0, None, Ok(None), None));
    assert_eq!((art.end(Way::Up), art.end(Way::Down), art.has_prefix(b"")), (None, None, false));
    assert_eq!(art.remove_prefix(b""), Ok(()));
    assert_eq!(art.walk(Way::Up, From::End, To::End, &mut words), (0, false));
    assert_eq!((art.near(Way::Up, From::Key(b"")), art.near(Way::Down, From::After(b"b"))), (None, None));
    assert_eq!((art.put(b"ab", 1), art.put(b"ab", 2), art.len()), (Ok(Put::New), Ok(Put::Replaced(1)), 1));
    assert_eq!((art.put(b"a", 3), art.put(b"abc", 3)), (Ok(Put::Conflict), Ok(Put::Conflict)));
    assert_eq!((art.get(b"ab"), art.get(b"a"), art.find(b"abc"), art.find(b"b")), (Some(2), None, Some(2), None));
    let pair = |key_len, word| Pair { key_len, word };
    assert_eq!(art.load(b"acadbbc", &[pair(2, 3), pair(2, 4), pair(1, 5), pair(2, 6)]), (3, Some(Stop::Conflict)));
    assert_eq!((art.end(Way::Up), art.end(Way::Down), art.has_prefix(b"a")), (Some(2), Some(5), true));
    assert_eq!(art.walk(Way::Up, From::End, To::Prefix(b"a"), &mut words), (3, false));
    assert_eq!(words[..3], [2, 3, 4]);
    assert_eq!(art.walk(Way::Down, From::After(b"b"), To::Key(b"ac"), &mut words[..1]), (1, true));
    assert_eq!(words[0], 4);
    assert_eq!(art.walk(Way::Down, From::Key(b"ad"), To::Before(b"ac"), &mut words), (1, false));
    let mut copy = art.try_clone().unwrap();
    assert_eq!((copy.cut_off(b"ac"), copy.len(), copy.get(b"ab")), (Ok(()), 1, Some(2)));
    assert_eq!((art.remove_prefix(b"a"), art.len()), (Ok(()), 1));
    assert_eq!((art.remove(b"b"), art.len()), (Ok(Some(5)), 0));
    art.shrink();
    assert_eq!((art.compact(), copy.compact(), copy.get(b"ab")), (Ok(()), Ok(()), Some(2)));
    copy.freeze().unwrap();
    let other = copy.share().unwrap();
    assert!(!copy.thaw() && other.get(b"ab") == Some(2));
    drop(other);
    assert!(copy.thaw() && copy.put(b"ac", 3) == Ok(Put::New));
    copy.clear();
    assert_eq!((copy.len(), copy.put(b"", 9), copy.get(b"")), (0, Ok(Put::New), Some(9)));
}

#[test]
fn no_hint_changes_an_answer() {
    let mut art = Words::new();
    for (word, key) in ["ab", "ac", "b", "ca", "cb", "cc", "d"].iter().enumerate() {
        assert_eq!(art.put(key.as_bytes(), word as u64), Ok(Put::New));
    }
    // (another key has the leaf that was its)
    assert_eq!((art.remove(b"ca"), art.put(b"aa", 7), art.remove(b"d")), (Ok(Some(3)), Ok(Put::New), Ok(Some(6))));
    let hints = [0, 1, 2, 3, 4, 5, 6, 7, 8, 9, 1 << 32, 1 << 63, usize::MAX - 1, usize::MAX];
    let keys: [&[u8]; 5] = [b"", b"ab", b"b", b"ca", b"e"];
    let from = keys.iter().flat_map(|key| [From::End, From::Key(key), From::After(key)]);
    for from in from {
        for to in keys.iter().flat_map(|key| [To::End, To::Key(key), To::Before(key), To::Prefix(key)]) {
            for way in [Way::Up, Way::Down] {
                let mut words = [99; 3];
                let plain = art.walk(way, from, to, &mut words);
                assert!(!matches!(to, To::End) || art.near(way, from) == (plain.0 > 0).then(|| words[0]));
                for (first, last) in hints.iter().flat_map(|first| hints.map(|last| (*first, last))) {
                    let (mut hint, mut told) = (Hint { first, last }, [99; 3]);
                    assert_eq!((art.walk_on(way, from, to, &mut hint, &mut told), told), (plain, words));
                    // (and so does the one that it leaves)
                    let mut again = [99; 3];
                    assert_eq!((art.walk_on(way, from, to, &mut hint, &mut again), again), (plain, words));
                }
            }
        }
    }
}

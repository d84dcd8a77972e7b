//! Keys as bytes: the order of a type is that of its bytes, and none begins another where the type says so. Tried at random
//! and at the ends, for all types of keys.
use artmap::{AllocError, ArtMap, Ended, Front, Key, KeyPrefix, NoPrefixes, Ordered};
use std::borrow::Cow;
use std::ffi::{CString, OsString};
use std::fmt::Debug;
use std::net::{IpAddr, Ipv4Addr, Ipv6Addr, SocketAddr, SocketAddrV4, SocketAddrV6};
use std::num::{NonZeroI16, NonZeroU64};
use std::rc::Rc;
use std::sync::Arc;
use std::time::{Duration, SystemTime, UNIX_EPOCH};

struct Random(u64);

impl Random {
    fn next(&mut self) -> u64 {
        self.0 ^= self.0 >> 12;
        self.0 ^= self.0 << 25;
        self.0 ^= self.0 >> 27;
        self.0.wrapping_mul(0x2545_f491_4f6c_dd1d)
    }

    fn below(&mut self, most: usize) -> usize {
        usize::try_from(self.next() >> 16).unwrap() % most
    }

    /// A number of any size, with an end of its type as often as others.
    fn number(&mut self) -> u64 {
        let ends = [0, 1, u64::MAX, u64::MAX - 1, 1 << 63, (1 << 63) - 1, 127, 128, 255, 256];
        match self.below(4) {
            0 => ends[self.below(ends.len())],
            _ => self.next() >> self.below(64),
        }
    }

    fn bytes(&mut self) -> Vec<u8> {
        let some = [0, 1, 2, 3, 0x7f, 0x80, 0xff];
        (0..self.below(6)).map(|_| some[self.below(some.len())]).collect()
    }

    fn text(&mut self) -> String {
        let chars = ['\0', '\u{1}', '\u{2}', 'a', 'b', '\u{7f}', 'é', '漢', '\u{10ffff}'];
        (0..self.below(5)).map(|_| chars[self.below(chars.len())]).collect()
    }
}

fn bytes<K: Key + ?Sized>(key: &K) -> Vec<u8> {
    key.to_bytes().unwrap().as_ref().to_vec()
}

/// The law of order.
fn ordered<K: Ordered + Debug>(mut made: impl FnMut(&mut Random) -> K) {
    let mut random = Random(2_026);
    for _ in 0..2_000 {
        let (one, other) = (made(&mut random), made(&mut random));
        assert_eq!(one.cmp(&other), bytes(&one).cmp(&bytes(&other)), "{one:?} and {other:?}");
    }
}

/// The law of order, and that of prefixes.
fn free<K: Ordered + NoPrefixes + Debug>(mut made: impl FnMut(&mut Random) -> K) {
    ordered(&mut made);
    let mut random = Random(2_027);
    for _ in 0..2_000 {
        let (one, other) = (made(&mut random), made(&mut random));
        assert!(one == other || !bytes(&one).starts_with(&bytes(&other)), "{one:?} and {other:?}");
    }
}

#[test]
#[allow(clippy::cast_possible_truncation, clippy::cast_possible_wrap, reason = "bits at random")]
fn numbers() {
    free(|random| random.number() as u8);
    free(|random| random.number() as i8);
    free(|random| random.number() as u16);
    free(|random| random.number() as i16);
    free(|random| random.number() as u32);
    free(|random| random.number() as i32);
    free(Random::number);
    free(|random| random.number() as i64);
    free(|random| u128::from(random.number()) << random.below(65));
    free(|random| (i128::from(random.number()) - i128::from(random.number())) << random.below(60));
    free(|random| random.number() as usize);
    free(|random| random.number() as isize);
    free(|random| NonZeroU64::new(random.number()).unwrap_or(NonZeroU64::MIN));
    free(|random| NonZeroI16::new(random.number() as i16).unwrap_or(NonZeroI16::MIN));
    free(|random| random.below(2) == 0);
    free(|random| char::from_u32(random.below(0x0011_0000) as u32).unwrap_or('漢'));
    free(|_| ());
}

#[test]
#[allow(clippy::cast_possible_truncation, clippy::cast_possible_wrap, reason = "bits at random")]
fn lists() {
    free(|random| [random.below(3) as u8, random.below(200) as u8]);
    free(|random| [random.number() as i16, random.number() as i16, 5]);
    ordered(|random| (0..random.below(4)).map(|_| random.number() as i32).collect::<Vec<i32>>());
    ordered(Random::bytes);
    ordered(|random| random.bytes().into_boxed_slice());
    free(|random| Ended(random.bytes()));
    free(|random| CString::new(random.bytes().into_iter().filter(|it| *it != 0).collect::<Vec<u8>>()).unwrap());
    ordered(|random| OsString::from(random.text()));
}

#[test]
fn texts() {
    free(Random::text);
    free(|random| random.text().into_boxed_str());
    free(|random| Cow::<str>::Owned(random.text()));
    free(|random| (Rc::new(random.text()), Arc::new(random.text())));
    let long: Vec<String> = (0..40).map(|at| random_case(at) + &"x".repeat(at * 7)).collect();
    free(|random| long[random.below(40)].clone());
}

fn random_case(at: usize) -> String {
    if at % 3 == 0 { "\0".repeat(at) } else { "\u{1}y".repeat(at / 2) }
}

#[test]
#[allow(clippy::cast_possible_truncation, reason = "bits at random")]
fn addresses() {
    let v4 = |random: &mut Random| Ipv4Addr::from_bits(random.number() as u32);
    let v6 = |random: &mut Random| Ipv6Addr::from_bits(u128::from(random.number()) << random.below(65));
    let of_4 = move |random: &mut Random| SocketAddrV4::new(v4(random), random.number() as u16);
    let of_6 = move |random: &mut Random| {
        SocketAddrV6::new(v6(random), random.number() as u16, random.number() as u32, random.number() as u32)
    };
    free(v4);
    free(v6);
    free(of_4);
    free(of_6);
    free(move |random| if random.below(2) == 0 { IpAddr::V4(v4(random)) } else { IpAddr::V6(v6(random)) });
    free(move |random| if random.below(2) == 0 { SocketAddr::V4(of_4(random)) } else { SocketAddr::V6(of_6(random)) });
}

#[test]
fn times() {
    let span = |random: &mut Random| {
        let nanos = u32::try_from(random.below(1_000_000_000)).unwrap();
        Duration::new(random.number() >> 2, if random.below(3) == 0 { 0 } else { nanos })
    };
    free(span);
    free(move |random| {
        let (span, near) = (span(random) / 4, Duration::from_nanos(random.next() >> 30));
        match random.below(4) {
            0 => UNIX_EPOCH + span,
            1 => UNIX_EPOCH - span,
            2 => UNIX_EPOCH + near,
            _ => UNIX_EPOCH - near,
        }
    });
}

#[test]
#[allow(clippy::cast_possible_truncation, reason = "bits at random")]
fn tuples_and_options() {
    free(|random| (random.number() as u8,));
    free(|random| (random.text(), random.number() as u8));
    free(|random| (random.below(2) == 0, random.text(), Some(random.number() as u16)));
    free(|random| (random.text(), random.text(), random.text(), random.below(3)));
    free(|random| (1u8, random.text(), 'a', Ended(random.bytes()), random.number()));
    free(|random| (random.text(), 0u8, random.text(), 1i8, random.text(), random.below(2) == 0));
    free(|random| if random.below(3) == 0 { None } else { Some(random.text()) });
    free(|random| if random.below(3) == 0 { None } else { Some((random.number() as u8, Some(random.text()))) });
    ordered(|random| (random.text(), random.bytes()));
    ordered(|random| if random.below(3) == 0 { None } else { Some(random.bytes()) });
}

/// The bytes are those that the proved library's codings give: unsigned numbers, signed ones, addresses, tuples, bytes with
/// a zero at the end.
#[test]
fn codings_are_those_of_the_library() {
    assert_eq!(bytes(&0x0102_0304u32), [1, 2, 3, 4]);
    assert_eq!(bytes(&-1i16), [0x7f, 0xff]);
    assert_eq!(bytes(&i64::MIN), [0; 8]);
    assert_eq!(bytes(&0i8), [0x80]);
    assert_eq!(bytes(&Ipv4Addr::LOCALHOST), [127, 0, 0, 1]);
    assert_eq!(bytes(&Ipv6Addr::LOCALHOST)[15], 1);
    assert_eq!(bytes(&(7u32, -300i64)), [0, 0, 0, 7, 0x7f, 0xff, 0xff, 0xff, 0xff, 0xff, 0xfe, 0xd4]);
    assert_eq!(bytes("ab"), b"ab\0");
    assert_eq!(bytes(&Ended(*b"ab")), b"ab\0");
    assert_eq!(bytes(&[1u16, 256]), [0, 1, 1, 0]);
    assert_eq!(bytes(&vec![-1i8]), [0x7f]);
}

#[test]
fn what_is_borrowed_has_the_same_bytes() {
    let mut random = Random(3);
    for _ in 0..500 {
        let (text, list) = (random.text(), random.bytes());
        assert_eq!(bytes(&text), bytes(text.as_str()));
        assert_eq!(bytes(&text.clone().into_boxed_str()), bytes(text.as_str()));
        assert_eq!(bytes(&list), bytes(list.as_slice()));
        assert_eq!(bytes(&Rc::<[u8]>::from(list.clone())), bytes(list.as_slice()));
    }
}

/// A walk goes on after long texts as they lie.
#[test]
fn long_texts_are_walked() {
    let all: Vec<String> =
        (0..3000).map(|at| "k".repeat(122) + &format!("{:03}{}", at / 3, ["", "\0", "z"][at % 3])).collect();
    let mut map: ArtMap<String, usize> = all.iter().cloned().zip(0..).collect();
    assert!(map.keys().eq(&all) && map.keys().rev().eq(all.iter().rev()));
    assert!(map.range(all[70].clone()..).map(|it| it.0).eq(&all[70..]));
    map.range_mut(..all[2900].clone()).rev().for_each(|(_, value)| *value += 1);
    assert!(map.values().take(2900).copied().eq(1..2901));
    let mut both = map.iter_mut();
    for at in 0..1500 {
        assert_eq!((both.next().unwrap().0, both.next_back().unwrap().0), (&all[at], &all[2999 - at]));
    }
    assert!(both.next().is_none());
    map.retain(|_, value| *value % 2 == 0);
    assert!(map.into_iter().map(|it| it.1).all(|value| value % 2 == 0));
}

/// Long texts are looked up as they lie.
#[test]
fn long_texts_are_found() {
    let of = |len: usize, end: &str| "k".repeat(len) + end;
    let ends = ["", "a", "ab", "\u{2}", "\0", "\u{1}", "é", "z"];
    let all: Vec<String> = (110..130).flat_map(|len| ends.map(|end| of(len, end))).collect();
    for every in 1..6 {
        let map: ArtMap<String, usize> = all.iter().cloned().zip(0..).step_by(every).collect();
        for (at, text) in all.iter().enumerate() {
            let wanted = (0..all.len()).step_by(every).rfind(|it| all[*it] == *text);
            assert_eq!(map.get(text.as_str()).copied(), wanted, "{text:?} {at}");
            assert_eq!((map.contains_key(text), map.clone().get_mut(text).copied()), (wanted.is_some(), wanted));
            assert_eq!(matches!(map.clone().entry(text.clone()), artmap::Entry::Occupied(_)), wanted.is_some());
        }
    }
}

#[test]
fn prefixes() {
    fn prefix<K, P: KeyPrefix<K> + ?Sized>(of: &P) -> Vec<u8> {
        of.to_prefix().unwrap().as_ref().to_vec()
    }
    let mut random = Random(4);
    for _ in 0..2_000 {
        let (one, other) = (random.text(), random.text());
        assert_eq!(bytes(&one).starts_with(&prefix::<String, _>(&other)), one.starts_with(&other), "{one:?} {other:?}");
        let (one, other) = (random.bytes(), random.bytes());
        assert_eq!(bytes(&Ended(one.clone())).starts_with(&prefix::<(), _>(&Ended(&other))), one.starts_with(&other));
    }
    assert_eq!(prefix::<(u8, u8), _>(&Front(7u8)), [7]);
    assert_eq!(prefix::<[i8; 2], _>(&[-1i8]), [0x7f]);
}

/// A call of a map.
type Call<'a> = fn(&mut ArtMap<Liar<'a>, Vec<u8>>);

/// A type of keys that tells other bytes each time, or panics.
#[derive(Debug)]
struct Liar<'a>(u8, &'a std::cell::Cell<u8>);

impl Key for Liar<'_> {
    type Bytes<'a>
        = [u8; 2]
    where
        Self: 'a;

    fn to_bytes(&self) -> Result<[u8; 2], AllocError> {
        match self.1.get() {
            9 => panic!("no bytes"),
            lie => Ok([self.0, lie]),
        }
    }
}

impl NoPrefixes for Liar<'_> {}

#[test]
fn keys_that_lie_do_no_harm() {
    let lie = std::cell::Cell::new(0);
    let full = || (0..200).map(|at| (Liar(at, &lie), vec![at])).collect::<ArtMap<_, _>>();
    for (before, after) in [(0, 1), (1, 0), (0, 9), (5, 4)] {
        let calls: [Call<'_>; 7] = [
            |map| map.iter_mut().for_each(|(_, value)| value.push(1)),
            |map| map.range_mut::<Liar, _>(..).for_each(|(_, value)| value.push(1)),
            |map| map.range_mut::<Liar, _>(..).rev().take(150).for_each(|(_, value)| value.push(1)),
            |map| assert!(map.range::<Liar, _>(..).take(1000).count() <= 1000),
            |map| map.retain(|key, _| key.0 % 3 == 0),
            |map| drop(map.pop_first()),
            |map| drop(map.last_entry().map(artmap::OccupiedEntry::remove)),
        ];
        for call in calls {
            lie.set(before);
            let mut map = full();
            lie.set(after);
            let _ = std::panic::catch_unwind(std::panic::AssertUnwindSafe(|| call(&mut map)));
            lie.set(before);
            let len = map.len();
            assert_eq!(map.iter().count(), len);
            assert!(map.values().all(|value| !value.is_empty() && value.len() <= 2));
            map.clear();
            map.insert(Liar(1, &lie), vec![]);
            assert_eq!(map.len(), 1);
        }
    }
    let same = SystemTime::now();
    assert_eq!(ArtMap::from([(same, 1)])[&same], 1);
}

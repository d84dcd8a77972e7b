//! Texts, and byte strings with an end: a zero byte ends them, and none is in them.
use super::push;
use super::sealed::Sealed;
use crate::error::AllocError;
use crate::room::{Room, SMALL};
use crate::{Key, KeyPrefix, NoPrefixes, Ordered};

const END: u8 = 0;
const ESCAPE: u8 = 1;

/// Whether no byte is to be escaped: whether each is above 1.
#[inline]
fn is_plain(bytes: &[u8]) -> bool {
    const ONES: u64 = u64::MAX / 0xff;
    // (eight at a time: a byte below 2 borrows from its highest bit; those at the end may be looked at twice)
    let has_low = |eight: &[u8; 8]| {
        let word = u64::from_le_bytes(*eight);
        word.wrapping_sub(2 * ONES) & !word & (0x80 * ONES) != 0
    };
    let mut eights = bytes.chunks_exact(8);
    if eights.any(|it| it.first_chunk().is_some_and(has_low)) {
        return false;
    }
    match bytes.last_chunk() {
        Some(last) => !has_low(last),
        None => bytes.iter().all(|it| *it > ESCAPE),
    }
}

/// The bytes with 0 as 1 1 and 1 as 1 2, so that none is 0, and then the end mark if that is wanted. They ascend as the
/// bytes do.
#[inline]
fn marked(bytes: &[u8], has_end: bool) -> Result<Room, AllocError> {
    if bytes.len() < SMALL && is_plain(bytes) { Ok(Room::small(bytes, has_end)) } else { put_together(bytes, has_end) }
}

#[cold]
fn put_together(bytes: &[u8], has_end: bool) -> Result<Room, AllocError> {
    let mut room = Room::new();
    for part in bytes.split_inclusive(|it| *it <= ESCAPE) {
        match part.split_last() {
            Some((last, plain)) if *last <= ESCAPE => {
                room.push(plain)?;
                room.push(&[ESCAPE, last + 1])?;
            }
            _ => room.push(part)?,
        }
    }
    if has_end {
        room.push(&[END])?;
    }
    Ok(room)
}

/// Has a call take the bytes with an end mark.
#[inline]
fn with_end<R>(bytes: &[u8], call: impl FnOnce(&[u8]) -> R) -> Result<R, AllocError> {
    if bytes.len() < SMALL && is_plain(bytes) {
        let mut room = [END; SMALL];
        room[..bytes.len()].copy_from_slice(bytes);
        Ok(call(&room[..=bytes.len()]))
    } else {
        Ok(call(put_together(bytes, true)?.bytes()))
    }
}

/// Adds the bytes with an end mark to others.
#[inline]
fn push_end(bytes: &[u8], to: &mut Vec<u8>) -> Result<(), AllocError> {
    if !is_plain(bytes) {
        return push(put_together(bytes, true)?.bytes(), 0, to);
    }
    push(bytes, 1, to)?;
    to.push(END);
    Ok(())
}

/// Bytes that have no room on the stack, where none is to be escaped.
#[inline]
fn without_end(bytes: &[u8]) -> Option<&[u8]> {
    (bytes.len() >= SMALL && is_plain(bytes)).then_some(bytes)
}

/// A text has an end mark, a zero byte. A `\0` or `\x01` in it is escaped, by one byte more each: so every text is a key,
/// and no key begins another. A look-up needs no block of the heap: for up to 119 bytes there is room on the stack, and longer
/// ones are looked up as they lie, but for those that are escaped.
impl Key for str {
    type Bytes<'a> = Room;

    #[inline]
    fn to_bytes(&self) -> Result<Room, AllocError> {
        marked(self.as_bytes(), true)
    }

    #[inline]
    fn with_bytes<R>(&self, _: Sealed, call: impl FnOnce(&[u8]) -> R) -> Result<R, AllocError> {
        with_end(self.as_bytes(), call)
    }

    #[inline]
    fn push_bytes(&self, _: Sealed, to: &mut Vec<u8>) -> Result<(), AllocError> {
        push_end(self.as_bytes(), to)
    }

    #[inline]
    fn without_end(&self) -> Option<&[u8]> {
        without_end(self.as_bytes())
    }

    #[inline]
    fn has_end(_: Sealed) -> bool {
        true
    }
}

impl Key for String {
    type Bytes<'a> = Room;

    #[inline]
    fn to_bytes(&self) -> Result<Room, AllocError> {
        marked(self.as_bytes(), true)
    }

    #[inline]
    fn with_bytes<R>(&self, _: Sealed, call: impl FnOnce(&[u8]) -> R) -> Result<R, AllocError> {
        with_end(self.as_bytes(), call)
    }

    #[inline]
    fn push_bytes(&self, _: Sealed, to: &mut Vec<u8>) -> Result<(), AllocError> {
        push_end(self.as_bytes(), to)
    }

    #[inline]
    fn without_end(&self) -> Option<&[u8]> {
        without_end(self.as_bytes())
    }

    #[inline]
    fn has_end(_: Sealed) -> bool {
        true
    }
}

impl NoPrefixes for str {}
impl NoPrefixes for String {}
impl Ordered for str {}
impl Ordered for String {}

/// The bytes that keys begin with.
pub struct PrefixBytes<'a>(Bytes<'a>);

enum Bytes<'a> {
    Lent(&'a [u8]),
    Made(Room),
}

impl<'a> PrefixBytes<'a> {
    pub(crate) fn lent(bytes: &'a [u8]) -> Self {
        PrefixBytes(Bytes::Lent(bytes))
    }

    pub(crate) fn made(room: Room) -> Self {
        PrefixBytes(Bytes::Made(room))
    }
}

impl AsRef<[u8]> for PrefixBytes<'_> {
    fn as_ref(&self) -> &[u8] {
        match &self.0 {
            Bytes::Lent(bytes) => bytes,
            Bytes::Made(room) => room.bytes(),
        }
    }
}

fn prefix(bytes: &[u8]) -> Result<PrefixBytes<'_>, AllocError> {
    if is_plain(bytes) { Ok(PrefixBytes::lent(bytes)) } else { Ok(PrefixBytes::made(marked(bytes, false)?)) }
}

impl<K: ?Sized> KeyPrefix<K> for str {
    fn to_prefix(&self) -> Result<PrefixBytes<'_>, AllocError> {
        prefix(self.as_bytes())
    }
}

impl<K: ?Sized> KeyPrefix<K> for String {
    fn to_prefix(&self) -> Result<PrefixBytes<'_>, AllocError> {
        prefix(self.as_bytes())
    }
}

/// A byte string with an end mark, as a text has it: so none begins another, and each is a key that never conflicts.
///
/// ```
/// use artmap::{ArtMap, Ended};
///
/// let mut map = ArtMap::new();
/// map.insert(Ended(vec![1, 2]), 'a');
/// map.insert(Ended(vec![1]), 'b');
/// map.insert(Ended(vec![1, 0]), 'c');
/// assert!(map.values().eq(&['b', 'c', 'a']));
/// assert_eq!(map.prefix(&Ended([1])).count(), 3);
/// ```
#[derive(Clone, Copy, PartialEq, Eq, PartialOrd, Ord, Hash, Debug, Default)]
pub struct Ended<T>(pub T);

impl<T: AsRef<[u8]>> Key for Ended<T> {
    type Bytes<'a>
        = Room
    where
        Self: 'a;

    fn to_bytes(&self) -> Result<Room, AllocError> {
        marked(self.0.as_ref(), true)
    }

    #[inline]
    fn with_bytes<R>(&self, _: Sealed, call: impl FnOnce(&[u8]) -> R) -> Result<R, AllocError> {
        with_end(self.0.as_ref(), call)
    }

    #[inline]
    fn push_bytes(&self, _: Sealed, to: &mut Vec<u8>) -> Result<(), AllocError> {
        push_end(self.0.as_ref(), to)
    }

    #[inline]
    fn has_end(_: Sealed) -> bool {
        true
    }
}

impl<T: AsRef<[u8]>> NoPrefixes for Ended<T> {}

impl<T: AsRef<[u8]> + Key + Ord> Ordered for Ended<T> {}

impl<K: ?Sized, T: AsRef<[u8]>> KeyPrefix<K> for Ended<T> {
    fn to_prefix(&self) -> Result<PrefixBytes<'_>, AllocError> {
        prefix(self.0.as_ref())
    }
}

/// The first parts of keys that are tuples, as a prefix.
///
/// ```
/// use artmap::{ArtMap, Front};
///
/// let map = ArtMap::from([((7, "a"), 1), ((7, "b"), 2), ((8, "a"), 3)]);
/// assert_eq!(map.prefix(&Front(7)).count(), 2);
/// ```
#[derive(Clone, Copy, PartialEq, Eq, Debug)]
pub struct Front<T>(pub T);

impl<K: ?Sized, T: NoPrefixes> KeyPrefix<K> for Front<T> {
    fn to_prefix(&self) -> Result<PrefixBytes<'_>, AllocError> {
        let bytes = self.0.to_bytes()?;
        Ok(PrefixBytes::made(Room::of(bytes.as_ref())?))
    }
}

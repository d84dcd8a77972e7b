//! A room for the bytes of a key: a small one on the stack, and one of the heap where these are more.
use crate::error::AllocError;

pub(crate) const SMALL: usize = 120;

/// Makes room for so many more items, where there is none yet.
#[inline]
pub(crate) fn make_room<T>(more: usize, to: &mut Vec<T>) -> Result<(), AllocError> {
    if to.capacity() - to.len() < more { grow(more, to) } else { Ok(()) }
}

#[cold]
#[inline(never)]
fn grow<T>(more: usize, to: &mut Vec<T>) -> Result<(), AllocError> {
    to.try_reserve(more)?;
    Ok(())
}

/// Bytes that are put together. Up to 120 need no block of the heap.
#[derive(Clone, Debug)]
pub struct Room(Bytes<SMALL>);

/// Bytes that are put together. Up to so many need no block of the heap.
#[derive(Clone, Debug)]
pub(crate) struct Bytes<const SMALL: usize> {
    small: [u8; SMALL],
    /// How many there are in `small`, while `large` is not used.
    len: usize,
    large: Vec<u8>,
}

impl<const SMALL: usize> Bytes<SMALL> {
    #[inline]
    pub(crate) const fn new() -> Self {
        Bytes { small: [0; SMALL], len: 0, large: Vec::new() }
    }

    #[inline]
    pub(crate) fn get(&self) -> &[u8] {
        if self.large.is_empty() { &self.small[..self.len] } else { &self.large }
    }

    /// Adds bytes. Without memory it holds what it held.
    #[inline]
    pub(crate) fn push(&mut self, bytes: &[u8]) -> Result<(), AllocError> {
        if let (true, Some(to)) = (self.large.is_empty(), self.small.get_mut(self.len..self.len + bytes.len())) {
            to.copy_from_slice(bytes);
            self.len += bytes.len();
            return Ok(());
        }
        self.push_large(bytes)
    }

    #[cold]
    fn push_large(&mut self, bytes: &[u8]) -> Result<(), AllocError> {
        if self.large.is_empty() {
            self.large.try_reserve(self.len + bytes.len())?;
            self.large.extend_from_slice(&self.small[..self.len]);
        } else {
            self.large.try_reserve(bytes.len())?;
        }
        self.large.extend_from_slice(bytes);
        Ok(())
    }
}

impl Room {
    #[inline]
    pub(crate) const fn new() -> Room {
        Room(Bytes::new())
    }

    /// A room with these bytes.
    pub(crate) fn of(bytes: &[u8]) -> Result<Room, AllocError> {
        let mut room = Room::new();
        room.push(bytes)?;
        Ok(room)
    }

    /// A room with fewer than 120 bytes, and a zero after them if that is wanted.
    #[inline]
    pub(crate) fn small(bytes: &[u8], has_zero: bool) -> Room {
        let mut room = Bytes::new();
        room.small[..bytes.len()].copy_from_slice(bytes);
        room.len = bytes.len() + usize::from(has_zero);
        Room(room)
    }

    #[inline]
    pub(crate) fn bytes(&self) -> &[u8] {
        self.0.get()
    }

    /// Adds bytes. Without memory it holds what it held.
    #[inline]
    pub(crate) fn push(&mut self, bytes: &[u8]) -> Result<(), AllocError> {
        self.0.push(bytes)
    }

    #[cfg(test)]
    pub(crate) fn len(&self) -> usize {
        self.bytes().len()
    }
}

impl AsRef<[u8]> for Room {
    fn as_ref(&self) -> &[u8] {
        self.bytes()
    }
}

#[cfg(test)]
mod tests {
    use super::*;

    #[test]
    fn it_grows() {
        let mut room = Room::new();
        let mut all = Vec::new();
        for at in 0..40u8 {
            let piece = vec![at; usize::from(at)];
            room.push(&piece).unwrap();
            all.extend(piece);
            assert_eq!((room.bytes(), room.len()), (&all[..], all.len()));
        }
        assert_eq!(Room::of(b"").unwrap().bytes(), b"");
    }
}

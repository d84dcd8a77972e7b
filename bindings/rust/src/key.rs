//! How keys are seen as bytes.
mod addresses;
mod numbers;
mod pointers;
mod texts;
mod times;
mod tuples;

pub use texts::{Ended, Front, PrefixBytes};

use sealed::Sealed;

use crate::error::AllocError;
use crate::room::make_room;
use std::ffi::{CStr, CString, OsStr, OsString};

/// Adds bytes to others, and makes room for some more.
#[inline]
fn push(bytes: &[u8], more: usize, to: &mut Vec<u8>) -> Result<(), AllocError> {
    make_room(bytes.len() + more, to)?;
    to.extend_from_slice(bytes);
    Ok(())
}

pub(crate) mod sealed {
    /// What no other crate can name.
    #[derive(Clone, Copy)]
    pub struct Sealed;
}

/// A key, or a query for one, seen as bytes. A map orders its keys by them.
///
/// Equal keys have equal bytes, and other ones have others. What a key is borrowed as ([`Borrow`](std::borrow::Borrow))
/// has the same bytes: those of `str` and of `String` are equal. The bytes of a key that is stored stay the same. A type
/// that is not so makes a map find other pairs or panic, and nothing worse.
///
/// For a type of your own:
///
/// ```
/// use artmap::{AllocError, ArtMap, Key, NoPrefixes};
///
/// struct Port { host: [u8; 4], number: u16 }
///
/// impl Key for Port {
///     type Bytes<'a> = [u8; 6];
///     fn to_bytes(&self) -> Result<[u8; 6], AllocError> {
///         let ([a, b, c, d], [e, f]) = (self.host, self.number.to_be_bytes());
///         Ok([a, b, c, d, e, f])
///     }
/// }
///
/// // Six bytes each: no key begins another.
/// impl NoPrefixes for Port {}
///
/// let mut names = ArtMap::new();
/// names.insert(Port { host: [127, 0, 0, 1], number: 443 }, "https");
/// names.insert(Port { host: [127, 0, 0, 1], number: 22 }, "ssh");
/// assert!(names.values().eq(&["ssh", "https"]));
/// ```
pub trait Key {
    /// The bytes, or a reference to them.
    type Bytes<'a>: AsRef<[u8]>
    where
        Self: 'a;

    /// The bytes.
    ///
    /// ```
    /// use artmap::Key;
    ///
    /// assert_eq!(258u32.to_bytes().unwrap(), [0, 0, 1, 2]);
    /// assert_eq!("ab".to_bytes().unwrap().as_ref(), b"ab\0");
    /// ```
    ///
    /// # Errors
    ///
    /// Where the bytes are put together and there is no memory for them.
    fn to_bytes(&self) -> Result<Self::Bytes<'_>, AllocError>;

    /// Has a call take the bytes, in a room that moves nowhere where they are put together. This crate's own: what it is given
    /// can't be named elsewhere, so no other type has code of its own here:
    ///
    /// ```compile_fail
    /// use artmap::{AllocError, Key, key::sealed::Sealed};
    ///
    /// struct Hostile;
    ///
    /// impl Key for Hostile {
    ///     type Bytes<'a> = [u8; 1];
    ///     fn to_bytes(&self) -> Result<[u8; 1], AllocError> {
    ///         Ok([1])
    ///     }
    ///     fn with_bytes<R>(&self, _: Sealed, call: impl FnOnce(&[u8]) -> R) -> Result<R, AllocError> {
    ///         call(&[1]);
    ///         Err(AllocError)
    ///     }
    /// }
    /// ```
    #[doc(hidden)]
    #[inline]
    fn with_bytes<R>(&self, _: Sealed, call: impl FnOnce(&[u8]) -> R) -> Result<R, AllocError> {
        let bytes = self.to_bytes()?;
        let done = call(bytes.as_ref());
        // (where the bytes panic as they go, what was done is dropped)
        drop(bytes);
        Ok(done)
    }

    /// Adds the bytes to others. What was added stays where the bytes panic as they go. This crate's own.
    #[doc(hidden)]
    #[inline]
    fn push_bytes(&self, _: Sealed, to: &mut Vec<u8>) -> Result<(), AllocError> {
        let bytes = self.to_bytes()?;
        push(bytes.as_ref(), 0, to)
    }

    /// The bytes but for the last one, where that is a zero, all keys of the map end with a zero and have no other, and the
    /// bytes lie so already. A look-up takes them, if they are there, and then needs no room for the bytes. Long texts
    /// have it.
    ///
    /// ```
    /// use artmap::Key;
    ///
    /// assert_eq!("short".without_end(), None);
    /// assert_eq!("long".repeat(40).without_end(), Some("long".repeat(40).as_bytes()));
    /// ```
    #[inline]
    fn without_end(&self) -> Option<&[u8]> {
        None
    }

    /// Whether a zero ends the bytes of each key, and no other of them is one. This crate's own.
    #[doc(hidden)]
    #[must_use]
    #[inline]
    fn has_end(_: Sealed) -> bool {
        false
    }
}

/// A type of which no key begins another one. Such keys never conflict, so [`insert`](crate::ArtMap::insert) stores each;
/// it panics where a type says this and it is not so.
///
/// Texts have it by an end mark, numbers, arrays and addresses by their fixed size. `Vec<u8>` does not have it:
///
/// ```compile_fail
/// artmap::ArtMap::new().insert(vec![1u8], 'a');
/// ```
///
/// ```
/// artmap::ArtMap::new().insert(artmap::Ended(vec![1u8]), 'a');
/// artmap::ArtMap::new().try_insert(vec![1u8], 'a').unwrap();
/// ```
pub trait NoPrefixes: Key {}

/// A type of keys whose own order is that of their bytes. The operators of a set compare keys by it.
///
/// ```
/// fn ascends<K: artmap::Ordered>(keys: &[K]) -> bool {
///     keys.is_sorted() && keys.is_sorted_by_key(|key| key.to_bytes().unwrap().as_ref().to_vec())
/// }
/// assert!(ascends(&[-1, 0, 1]) && ascends(&["a", "ab", "b"]));
/// ```
pub trait Ordered: Key + Ord {}

/// What keys of type `K` may begin with: bytes, a text, or by [`Front`] the first parts of a tuple. Keys that are lists of
/// numbers begin with such a list, too.
///
/// ```
/// let films = artmap::ArtMap::from([("Office", 2), ("Office Space", 4), ("Brazil", 5)]);
/// assert_eq!(films.prefix("Off").count(), 2);
/// assert_eq!(films.prefix(b"Br").count(), 1);
/// ```
pub trait KeyPrefix<K: ?Sized> {
    /// The bytes that the keys begin with.
    ///
    /// # Errors
    ///
    /// Where the bytes are put together and there is no memory for them.
    fn to_prefix(&self) -> Result<PrefixBytes<'_>, AllocError>;
}

/// Bytes as they are, which may begin one another.
macro_rules! bytes_as_they_are {
    ($([$($of:tt)*] $of_type:ty, $self:ident, $bytes:expr, $has_end:expr;)*) => {$(
        impl<$($of)*> Key for $of_type {
            type Bytes<'a> = &'a [u8] where Self: 'a;

            #[inline]
            fn to_bytes(&$self) -> Result<&[u8], AllocError> {
                Ok($bytes)
            }

            #[inline]
            fn has_end(_: Sealed) -> bool {
                $has_end
            }
        }

        impl<$($of)*> Ordered for $of_type {}

        impl<K: ?Sized, $($of)*> KeyPrefix<K> for $of_type {
            fn to_prefix(&$self) -> Result<PrefixBytes<'_>, AllocError> {
                Ok(PrefixBytes::lent($bytes))
            }
        }
    )*};
}

bytes_as_they_are! {
    [] [u8], self, self, false;
    [] Vec<u8>, self, self, false;
    [const N: usize] [u8; N], self, self, false;
    [] OsStr, self, self.as_encoded_bytes(), false;
    [] OsString, self, self.as_encoded_bytes(), false;
    [] CStr, self, self.to_bytes_with_nul(), true;
    [] CString, self, self.as_bytes_with_nul(), true;
}

impl<const N: usize> NoPrefixes for [u8; N] {}

// (the zero at the end is in no other place)
impl NoPrefixes for CStr {}
impl NoPrefixes for CString {}

/// Types whose bytes are an array.
macro_rules! fixed {
    ($($of:ty, $width:expr, $self:ident, $bytes:expr;)*) => {$(
        impl $crate::Key for $of {
            type Bytes<'a> = [u8; $width];

            #[inline]
            fn to_bytes(&$self) -> Result<[u8; $width], $crate::AllocError> {
                Ok($bytes)
            }
        }

        impl $crate::NoPrefixes for $of {}

        impl $crate::Ordered for $of {}
    )*};
}
pub(crate) use fixed;

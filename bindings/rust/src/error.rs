//! What a call says that could not do its work.
use std::alloc::{Layout, handle_alloc_error};
use std::collections::TryReserveError;
use std::error::Error;
use std::fmt;

const CONFLICT: &str = "the key begins a stored one, or a stored one begins it";

/// What a panic says where a type of keys is not what it says.
pub(crate) const NO_PREFIXES: &str = "the type of the keys says NoPrefixes, and a key begins another one";

/// There is no memory.
///
/// ```
/// use artmap::ArtMap;
///
/// let mut map = ArtMap::from([(1, "one")]);
/// assert_eq!(map.try_remove(&1), Ok(Some("one")));
/// assert_eq!(artmap::AllocError.to_string(), "there is no memory");
/// ```
#[derive(Clone, Copy, PartialEq, Eq, Hash, Debug)]
pub struct AllocError;

/// Why a pair was not stored. It is handed back.
///
/// ```
/// use artmap::{ArtMap, TryInsertError};
///
/// let mut map = ArtMap::new();
/// map.try_insert(vec![1], 'a').unwrap();
/// let why = map.try_insert(vec![1, 2], 'b').unwrap_err();
/// assert_eq!(why, TryInsertError::Prefix { key: vec![1, 2], value: 'b' });
/// assert_eq!(why.into_pair(), (vec![1, 2], 'b'));
/// ```
#[derive(Clone, Copy, PartialEq, Eq, Hash, Debug)]
pub enum TryInsertError<K, V> {
    /// A stored key begins the key, or the key begins a stored one.
    Prefix {
        /// The key.
        key: K,
        /// The value.
        value: V,
    },
    /// There is no memory.
    Memory {
        /// The key.
        key: K,
        /// The value.
        value: V,
    },
}

impl<K, V> TryInsertError<K, V> {
    /// The pair that was not stored.
    ///
    /// ```
    /// use artmap::TryInsertError;
    ///
    /// assert_eq!(TryInsertError::Memory { key: 1, value: 'a' }.into_pair(), (1, 'a'));
    /// ```
    pub fn into_pair(self) -> (K, V) {
        match self {
            TryInsertError::Prefix { key, value } | TryInsertError::Memory { key, value } => (key, value),
        }
    }

    /// The value that was stored in its place; without memory the program ends, and a conflict is a panic: a type that
    /// says `NoPrefixes` has none.
    pub(crate) fn end<T>(self) -> T {
        match self {
            TryInsertError::Prefix { .. } => panic!("{NO_PREFIXES}"),
            TryInsertError::Memory { .. } => no_memory(),
        }
    }
}

/// Why a key was not stored, or has no entry. It is handed back.
///
/// ```
/// use artmap::{ArtSet, TryKeyError};
///
/// let mut set = ArtSet::new();
/// set.try_insert(vec![1]).unwrap();
/// assert_eq!(set.try_insert(vec![1, 2]), Err(TryKeyError::Prefix { key: vec![1, 2] }));
/// ```
#[derive(Clone, Copy, PartialEq, Eq, Hash, Debug)]
pub enum TryKeyError<K> {
    /// A stored key begins the key, or the key begins a stored one.
    Prefix {
        /// The key.
        key: K,
    },
    /// There is no memory.
    Memory {
        /// The key.
        key: K,
    },
}

impl<K> TryKeyError<K> {
    /// The key that was not stored.
    ///
    /// ```
    /// assert_eq!(artmap::TryKeyError::Prefix { key: 'a' }.into_key(), 'a');
    /// ```
    pub fn into_key(self) -> K {
        match self {
            TryKeyError::Prefix { key } | TryKeyError::Memory { key } => key,
        }
    }
}

impl<K, V> From<TryInsertError<K, V>> for TryKeyError<K> {
    fn from(why: TryInsertError<K, V>) -> TryKeyError<K> {
        match why {
            TryInsertError::Prefix { key, .. } => TryKeyError::Prefix { key },
            TryInsertError::Memory { key, .. } => TryKeyError::Memory { key },
        }
    }
}

impl From<TryReserveError> for AllocError {
    fn from(_: TryReserveError) -> AllocError {
        AllocError
    }
}

impl fmt::Display for AllocError {
    fn fmt(&self, to: &mut fmt::Formatter<'_>) -> fmt::Result {
        to.write_str("there is no memory")
    }
}

impl<K, V> fmt::Display for TryInsertError<K, V> {
    fn fmt(&self, to: &mut fmt::Formatter<'_>) -> fmt::Result {
        match self {
            TryInsertError::Prefix { .. } => to.write_str(CONFLICT),
            TryInsertError::Memory { .. } => AllocError.fmt(to),
        }
    }
}

impl<K> fmt::Display for TryKeyError<K> {
    fn fmt(&self, to: &mut fmt::Formatter<'_>) -> fmt::Result {
        match self {
            TryKeyError::Prefix { .. } => to.write_str(CONFLICT),
            TryKeyError::Memory { .. } => AllocError.fmt(to),
        }
    }
}

impl Error for AllocError {}

impl<K: fmt::Debug, V: fmt::Debug> Error for TryInsertError<K, V> {}

impl<K: fmt::Debug> Error for TryKeyError<K> {}

/// The program ends, as it does where a `Vec` finds no memory.
#[cold]
pub(crate) fn no_memory() -> ! {
    handle_alloc_error(Layout::new::<u8>())
}

/// What was found; without memory the program ends.
pub(crate) fn or_end<T>(found: Result<T, AllocError>) -> T {
    found.unwrap_or_else(|AllocError| no_memory())
}

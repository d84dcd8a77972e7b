//! All pairs of a map move into another.
use crate::error::{AllocError, or_end};
use crate::ffi::{From, Put, Words};
use crate::key::sealed::Sealed;
use crate::map::order::Order;
use crate::map::{ArtMap, word_of};
use crate::parted::Parted;
use crate::slab::Slab;
use crate::view::index_of;
use crate::walk::Way;
use crate::{Key, NoPrefixes};
use std::error::Error;
use std::fmt;
use std::iter;
use std::mem;

/// So many pairs are inserted before the next look whether all that are left come after the others.
const AMONG: usize = 64;

/// So many pairs that come after all others go in while one is inserted.
const AFTER: usize = 2;

/// Why a map was not appended. Both are as they were.
///
/// ```
/// use artmap::{AppendError, ArtMap};
///
/// let (mut one, mut other) = (ArtMap::new(), ArtMap::new());
/// one.try_insert(vec![1], 'a').unwrap();
/// other.try_insert(vec![1, 2], 'b').unwrap();
/// assert_eq!(one.try_append(&mut other), Err(AppendError::Prefix));
/// ```
#[derive(Clone, Copy, PartialEq, Eq, Debug)]
pub enum AppendError {
    /// A key of one begins a key of the other.
    Prefix,
    /// There is no memory.
    Memory,
}

impl fmt::Display for AppendError {
    fn fmt(&self, to: &mut fmt::Formatter<'_>) -> fmt::Result {
        match self {
            AppendError::Prefix => to.write_str("a key of one map begins a key of the other"),
            AppendError::Memory => AllocError.fmt(to),
        }
    }
}

impl Error for AppendError {}

impl std::convert::From<AllocError> for AppendError {
    fn from(AllocError: AllocError) -> Self {
        AppendError::Memory
    }
}

/// A copy of a map's tree, with the keys of another map. The pairs of that still lie in its slots.
struct Joined {
    words: Words,
    /// The indexes of the other map's pairs, in the order of the keys. They get those after all slots.
    moved: Vec<usize>,
    /// Of each pair whose key the other one has too the index, and that which the other one's gets.
    both: Vec<(usize, usize)>,
}

impl Joined {
    /// Makes the tree, and room for the pairs.
    fn of<K: Key, V>(map: &mut ArtMap<K, V>, other: &ArtMap<K, V>) -> Result<Self, AppendError> {
        let mut made = Joined { words: map.words.try_clone()?, moved: Vec::new(), both: Vec::new() };
        made.moved.try_reserve_exact(other.len()).map_err(AllocError::from)?;
        let mut theirs = Order::of(other);
        while let Some(index) = theirs.next(other)? {
            let at = map.slab.end() + made.moved.len();
            match made.words.put(other.slab.pair(index).0.to_bytes()?.as_ref(), word_of(at))? {
                Put::New => {}
                Put::Replaced(old) => {
                    made.both.try_reserve(1).map_err(AllocError::from)?;
                    made.both.push((index_of(old), at));
                }
                Put::Conflict => return Err(AppendError::Prefix),
            }
            made.moved.push(index);
        }
        map.slab.reserve_at_end(made.moved.len())?;
        Ok(made)
    }

    /// Moves the pairs. Those of both maps change something first, and then the one that was here goes.
    fn end<K: Key, V>(
        self,
        map: &mut ArtMap<K, V>,
        mut other: ArtMap<K, V>,
        change: fn(&mut Slab<K, V>, usize, usize),
    ) {
        map.words = self.words;
        for index in self.moved {
            let (key, value) = other.slab.take(index);
            map.slab.push(key, value);
        }
        for (index, at) in &self.both {
            change(&mut map.slab, *index, *at);
        }
        Parted { slab: &mut map.slab, indexes: self.both.into_iter().map(|it| it.0) }.free();
    }
}

impl<K: Key, V> ArtMap<K, V> {
    /// Moves all pairs of another map into this one. A key that both have stays, and gets the other's value.
    ///
    /// ```
    /// let mut map = artmap::ArtMap::from([(1, 'a'), (2, 'b')]);
    /// let mut other = artmap::ArtMap::from([(2, 'c'), (3, 'd')]);
    /// map.append(&mut other);
    /// assert!(other.is_empty());
    /// assert!(map.values().eq(&['a', 'c', 'd']));
    /// ```
    ///
    /// # Panics
    ///
    /// As [`insert`](Self::insert).
    pub fn append(&mut self, other: &mut Self)
    where
        K: NoPrefixes,
    {
        let (mine, theirs) = (self.len(), other.len());
        if mine == 0 {
            mem::swap(self, other);
        } else if theirs <= AFTER * mine && or_end(self.is_below(other)) {
            self.extend(mem::take(other));
        } else if mine <= AFTER * theirs && or_end(other.is_below(self)) {
            mem::swap(self, other);
            self.extend(mem::take(other));
        } else if mine < theirs {
            mem::swap(self, other);
            self.extend_under(mem::take(other));
        } else {
            self.extend_among(mem::take(other));
        }
    }

    /// As [`append`](Self::append), of keys of all types. It makes a copy of the larger map's tree first.
    ///
    /// ```
    /// let mut map = artmap::ArtMap::from([(1, 'a')]);
    /// assert_eq!(map.try_append(&mut artmap::ArtMap::from([(2, 'b')])), Ok(()));
    /// assert_eq!(map.len(), 2);
    /// ```
    ///
    /// # Errors
    ///
    /// Where a key of one begins a key of the other, or memory lacks. Both maps are as they were.
    pub fn try_append(&mut self, other: &mut Self) -> Result<(), AppendError> {
        if self.is_empty() {
            mem::swap(self, other);
            return Ok(());
        }
        if self.len() >= other.len() {
            let joined = Joined::of(self, other)?;
            joined.end(self, mem::take(other), Slab::swap_keys);
        } else {
            let joined = Joined::of(other, self)?;
            mem::swap(self, other);
            joined.end(self, mem::take(other), Slab::swap_values);
        }
        Ok(())
    }

    /// Whether each key of another map is above those of this one, as far as the least one tells.
    fn is_below(&self, other: &Self) -> Result<bool, AllocError> {
        other.end(Way::Up).map_or(Ok(true), |least| self.ends_before(other.slab.pair(least).0))
    }

    /// Whether a key is above those of this map.
    fn ends_before(&self, key: &K) -> Result<bool, AllocError> {
        key.with_bytes(Sealed, |bytes| self.words.near(Way::Up, From::Key(bytes)).is_none())
    }

    /// Stores the pairs of another map, of which many stand before the last pair that is here.
    fn extend_among(&mut self, other: Self)
    where
        K: NoPrefixes,
    {
        let mut pairs = other.into_iter();
        while let Some((key, value)) = pairs.next() {
            if or_end(self.ends_before(&key)) {
                return self.extend(iter::once((key, value)).chain(pairs));
            }
            for (key, value) in iter::once((key, value)).chain(pairs.by_ref().take(AMONG)) {
                if let Err(why) = self.put(key, value) {
                    why.end::<()>();
                }
            }
        }
    }

    /// Stores the pairs of another map. A key that both have gets the value that it has here.
    fn extend_under(&mut self, other: Self)
    where
        K: NoPrefixes,
    {
        for (key, value) in other {
            match self.store(key, value) {
                Ok((index, Some(mut old))) => {
                    mem::swap(self.slab.pair_mut(index).1, &mut old.1);
                    drop(old);
                }
                Ok((_, None)) => {}
                Err(why) => why.end(),
            }
        }
    }
}

//! The map.
mod append;
mod bulk;
mod change;
mod entry;
mod extract;
mod filling;
mod order;
mod prefix_entry;
mod read;
mod sorted;
mod traits;
mod tried;

pub use append::AppendError;
pub use entry::{Entry, OccupiedEntry, VacantEntry};
pub use extract::{ExtractIf, TryExtractIf};
pub(crate) use extract::{Extraction, Goes};
pub use prefix_entry::{InnerEntry, PrefixEntry};

use crate::Key;
use crate::error::{AllocError, TryInsertError};
use crate::ffi::{Put, Words};
use crate::key::sealed::Sealed;
use crate::parted::Apart;
use crate::slab::Slab;
use crate::view::{Reader, View, index_of};
use crate::walk::Way;

/// An ordered map, whose keys are seen as bytes. It goes where a [`BTreeMap`](std::collections::BTreeMap) goes.
///
/// Keys ascend by their bytes, as slices of bytes do. For all types of this crate that is their own order, as `Ord` has
/// it. A stored key begins no other one: types of which none does so are [`NoPrefixes`](crate::NoPrefixes), and have all
/// calls. Others, such as `Vec<u8>`, go in by [`try_insert`](Self::try_insert) and [`try_entry`](Self::try_entry).
///
/// Where memory lacks, a call ends the program, as those of std's collections do. Those with a name that begins with `try_`
/// don't: they say so.
///
/// ```
/// use artmap::ArtMap;
///
/// let mut films = ArtMap::new();
/// films.insert("Office Space", 4);
/// assert_eq!(films.insert("Office Space", 5), Some(4));
/// *films.entry("Brazil").or_insert(0) += 1;
/// assert_eq!(films.get("Office Space"), Some(&5));
/// assert_eq!(films.remove("Office Space"), Some(5));
/// assert_eq!(films.len(), 1);
/// ```
///
/// A map may go to another thread, and one that is frozen has readers in many ([`freeze`](Self::freeze)). It is not
/// `Sync`: the proof is of one call at a time, those that read too.
///
/// ```
/// fn is_sent<T: Send>(_: T) {}
/// is_sent(artmap::ArtMap::<u32, String>::new());
/// ```
///
/// ```compile_fail
/// fn is_shared<T: Sync>(_: T) {}
/// is_shared(artmap::ArtMap::<u32, String>::new());
/// ```
pub struct ArtMap<K, V> {
    /// From the bytes of each key to the index of its pair.
    pub(crate) words: Words,
    pub(crate) slab: Slab<K, V>,
}

impl<K, V> ArtMap<K, V> {
    /// An empty map. It needs no memory until its first pair.
    ///
    /// ```
    /// let map = artmap::ArtMap::<u32, u32>::new();
    /// assert!(map.is_empty());
    /// ```
    #[must_use]
    pub const fn new() -> Self {
        ArtMap { words: Words::new(), slab: Slab::new() }
    }

    /// How many pairs there are.
    ///
    /// ```
    /// let map = artmap::ArtMap::from([(1, "one"), (2, "two")]);
    /// assert_eq!(map.len(), 2);
    /// ```
    #[must_use]
    pub fn len(&self) -> usize {
        self.slab.len()
    }

    /// Whether there is no pair.
    ///
    /// ```
    /// assert!(artmap::ArtMap::<u32, u32>::new().is_empty());
    /// ```
    #[must_use]
    pub fn is_empty(&self) -> bool {
        self.len() == 0
    }

    /// Takes all pairs out. It needs no memory.
    ///
    /// ```
    /// let mut map = artmap::ArtMap::from([(1, 10)]);
    /// map.clear();
    /// assert!(map.is_empty());
    /// ```
    pub fn clear(&mut self) {
        self.words.clear();
        drop(std::mem::replace(&mut self.slab, Slab::new()));
    }

    /// Makes room for the keys and values of so many more pairs. The tree has none beforehand.
    ///
    /// ```
    /// let mut map = artmap::ArtMap::new();
    /// assert_eq!(map.try_reserve(100), Ok(()));
    /// map.insert(1, 'a');
    /// ```
    ///
    /// # Errors
    ///
    /// Where there is no memory for them. The map is as it was.
    pub fn try_reserve(&mut self, additional: usize) -> Result<(), AllocError> {
        self.slab.reserve(additional)
    }

    pub(crate) fn view(&self) -> View<'_, K, V> {
        View { words: Reader::One(&self.words), slab: &self.slab }
    }
}

/// How many pairs a map has room for at least that gives its memory back with its last pair. One that is filled and emptied
/// again and again keeps what it has.
const KEPT: usize = 128;

/// A word for an index.
pub(crate) fn word_of(index: usize) -> u64 {
    index as u64
}

/// What a panic says where the bytes of a key that is stored are not those that it had.
pub(crate) const CHANGED: &str = "the bytes of a key have changed";

/// The index of a pair that was stored, and the pair that was in its place.
type Stored<K, V> = (usize, Option<(K, V)>);

impl<K: Key, V> ArtMap<K, V> {
    /// Stores a pair. Tells its index, and the value that the key had. A key that is stored stays.
    #[inline]
    pub(crate) fn put(&mut self, key: K, value: V) -> Result<(usize, Option<V>), TryInsertError<K, V>> {
        match self.store(key, value) {
            Ok((index, None)) => Ok((index, None)),
            Ok((index, Some((key, value)))) => {
                drop(self.slab.set_key(index, key));
                Ok((index, Some(value)))
            }
            Err(TryInsertError::Memory { key, value }) => self.set(key, value),
            Err(why) => Err(why),
        }
    }

    /// Sets the value of a key that is stored, which needs no memory.
    #[cold]
    fn set(&mut self, key: K, value: V) -> Result<(usize, Option<V>), TryInsertError<K, V>> {
        let found = key.to_bytes().ok().and_then(|bytes| self.words.get(bytes.as_ref()));
        match found {
            Some(word) => {
                let index = index_of(word);
                Ok((index, Some(std::mem::replace(self.slab.pair_mut(index).1, value))))
            }
            None => Err(TryInsertError::Memory { key, value }),
        }
    }

    /// Stores a pair, and gives the one that was in its place.
    pub(crate) fn replace(&mut self, key: K, value: V) -> Result<Option<(K, V)>, TryInsertError<K, V>> {
        self.store(key, value).map(|(_, old)| old)
    }

    /// Stores a pair, and tells its index and the pair that was in its place. The pair is in its slot before the tree has its
    /// word, and a panic of the key's code takes back what the tree has not.
    #[inline]
    fn store(&mut self, key: K, value: V) -> Result<Stored<K, V>, TryInsertError<K, V>> {
        let Ok(index) = self.slab.next_index() else { return Err(TryInsertError::Memory { key, value }) };
        let was_in_order = self.slab.is_in_order();
        let filled = self.slab.fill(key, value);
        debug_assert_eq!(filled, index);
        let mut apart = Apart { slab: &mut self.slab, index: Some(index) };
        let put = apart.slab.pair(index).0.with_bytes(Sealed, |bytes| {
            let put = self.words.put(bytes, word_of(index));
            // (at once: the bytes may panic where they are dropped)
            apart.index = match put {
                Ok(Put::New) => None,
                Ok(Put::Replaced(word)) => Some(index_of(word)),
                Ok(Put::Conflict) | Err(AllocError) => Some(index),
            };
            put
        });
        let put = put.and_then(|put| put);
        let refused = apart.index.take();
        drop(apart);
        match (put, refused) {
            (Ok(Put::Replaced(_)), Some(old)) => Ok((index, Some(self.slab.take(old)))),
            (Ok(_), None) => Ok((index, None)),
            (put, _) => {
                let (key, value) = self.slab.unfill(index, was_in_order);
                Err(match put {
                    Err(AllocError) => TryInsertError::Memory { key, value },
                    Ok(_) => TryInsertError::Prefix { key, value },
                })
            }
        }
    }

    /// Takes the pair with these bytes out.
    #[inline]
    pub(crate) fn take(&mut self, bytes: &[u8]) -> Result<Option<(K, V)>, AllocError> {
        let Some(word) = self.words.remove(bytes)? else { return Ok(None) };
        let pair = self.slab.take(index_of(word));
        self.settle();
        Ok(Some(pair))
    }

    /// Takes the pair with this index out.
    pub(crate) fn take_at(&mut self, index: usize) -> Result<(K, V), AllocError> {
        let mut apart = Apart { slab: &mut self.slab, index: None };
        let key = apart.slab.pair(index).0;
        // (at once: the bytes may panic where they are dropped)
        key.with_bytes(Sealed, |bytes| self.words.remove(bytes).map(|word| apart.index = word.map(index_of)))??;
        let index = apart.index.take().expect(CHANGED);
        let pair = apart.slab.take(index);
        drop(apart);
        self.settle();
        Ok(pair)
    }

    /// The index of the pair with the least key, or the greatest.
    pub(crate) fn end(&self, way: Way) -> Option<usize> {
        self.slab.end_in_order(way).or_else(|| self.words.end(way).map(index_of))
    }

    /// Gives the memory of the tree and of the slots back where there is no pair, unless there were few.
    pub(crate) fn settle(&mut self) {
        if self.slab.settle() && self.slab.has_room_for(KEPT) {
            self.words.clear();
            self.slab = Slab::new();
        }
    }
}

//! Calls that put pairs in and take them out, one by one or by their prefix.
use crate::error::{AllocError, TryInsertError, TryKeyError, or_end};
use crate::ffi::{Put, Words};
use crate::key::sealed::Sealed;
use crate::map::{ArtMap, Entry, OccupiedEntry, word_of};
use crate::parted::{Parted, value_of};
use crate::view::{index_of, word_of_key};
use crate::walk::{Under, Walk, Way};
use crate::{Key, KeyPrefix, NoPrefixes};
use std::borrow::Borrow;

impl<K: Key, V> ArtMap<K, V> {
    /// Stores a pair, and gives back the value that the key had; a key that is stored stays. Keys of a type with
    /// [`NoPrefixes`] don't conflict; others go in by [`try_insert`](Self::try_insert).
    ///
    /// ```
    /// let mut map = artmap::ArtMap::new();
    /// assert_eq!(map.insert("ab", 1), None);
    /// assert_eq!(map.insert("ab", 2), Some(1));
    /// ```
    ///
    /// # Panics
    ///
    /// Where the type says [`NoPrefixes`] and a key begins another one. None of this crate does.
    #[inline]
    pub fn insert(&mut self, key: K, value: V) -> Option<V>
    where
        K: NoPrefixes,
    {
        match self.put(key, value) {
            Ok((_, old)) => old,
            Err(why) => why.end(),
        }
    }

    /// Stores a pair, and gives back the value that the key had.
    ///
    /// ```
    /// use artmap::{ArtMap, TryInsertError};
    ///
    /// let mut map = ArtMap::new();
    /// assert_eq!(map.try_insert(b"ab".to_vec(), 1), Ok(None));
    /// assert_eq!(map.try_insert(b"ab".to_vec(), 2), Ok(Some(1)));
    /// assert_eq!(map.try_insert(b"abc".to_vec(), 3), Err(TryInsertError::Prefix { key: b"abc".to_vec(), value: 3 }));
    /// assert_eq!(map.len(), 1);
    /// ```
    ///
    /// # Errors
    ///
    /// Where a stored key begins the key, or the key begins a stored one, or memory lacks. The map is as it was, and the
    /// pair is handed back.
    pub fn try_insert(&mut self, key: K, value: V) -> Result<Option<V>, TryInsertError<K, V>> {
        self.put(key, value).map(|(_, old)| old)
    }

    /// Stores a pair in the place of all whose keys equal its key, begin it, or begin with it. Tells how many these were.
    ///
    /// ```
    /// let mut map = artmap::ArtMap::new();
    /// map.try_insert(vec![1, 2], 'a').unwrap();
    /// map.try_insert(vec![1, 3], 'b').unwrap();
    /// assert_eq!(map.prefix_insert(vec![1], 'c'), 2);
    /// assert_eq!(map.prefix_insert(vec![1, 2, 3], 'd'), 1);
    /// assert!(map.iter().eq([(&vec![1, 2, 3], &'d')]));
    /// ```
    pub fn prefix_insert(&mut self, key: K, value: V) -> usize {
        self.put_over(key, value).1
    }

    /// Stores a pair where others make way. Tells its index, and how many these were.
    pub(crate) fn put_over(&mut self, key: K, value: V) -> (usize, usize) {
        let count = or_end(self.make_way(&key));
        match self.store(key, value) {
            Ok((index, old)) => (index, count + usize::from(old.is_some())),
            Err(why) => why.end(),
        }
    }

    /// Takes out the pairs whose keys begin a key, or begin with it and are longer.
    fn make_way(&mut self, key: &K) -> Result<usize, AllocError> {
        let bytes = key.to_bytes()?;
        let bytes = bytes.as_ref();
        match self.words.find_len(bytes) {
            Some((len, _)) if len == bytes.len() => Ok(0),
            Some((len, _)) => self.take(&bytes[..len]).map(|taken| usize::from(taken.is_some())),
            None => self.take_all(bytes),
        }
    }

    /// As [`prefix_insert`](Self::prefix_insert). Where another key is in the way it makes a copy of the tree first, so it
    /// then takes time by the pairs of the map; `prefix_insert` doesn't.
    ///
    /// ```
    /// let mut map = artmap::ArtMap::new();
    /// assert_eq!(map.try_prefix_insert(vec![1], 'c'), Ok(0));
    /// ```
    ///
    /// # Errors
    ///
    /// Where memory lacks. The map is as it was, and the pair is handed back.
    pub fn try_prefix_insert(&mut self, key: K, value: V) -> Result<usize, TryInsertError<K, V>> {
        self.try_put_over(key, value).map(|(_, count)| count)
    }

    /// As `put_over`: all of it is done, or nothing.
    pub(crate) fn try_put_over(&mut self, key: K, value: V) -> Result<(usize, usize), TryInsertError<K, V>> {
        match self.made_way(&key) {
            Ok(None) => self.store(key, value).map(|(index, old)| (index, usize::from(old.is_some()))),
            Ok(Some((words, gone))) => {
                // (nothing of a caller's runs until the tree and the slots are those of the new pair)
                self.words = words;
                let (index, count) = (self.slab.fill(key, value), gone.len());
                Parted { slab: &mut self.slab, indexes: gone.into_iter() }.free();
                Ok((index, count))
            }
            Err(AllocError) => Err(TryInsertError::Memory { key, value }),
        }
    }

    /// A tree with a key whose pair gets the next index, without those in its way; and the indexes of these. None if no
    /// other key is in the way.
    fn made_way(&mut self, key: &K) -> Result<Option<(Words, Vec<usize>)>, AllocError> {
        let bytes = key.to_bytes()?;
        let bytes = bytes.as_ref();
        let mut gone = match self.words.find_len(bytes) {
            Some((len, _)) if len == bytes.len() => return Ok(None),
            None if !self.words.has_prefix(bytes) => return Ok(None),
            _ => self.indexes(bytes)?,
        };
        let index = self.slab.next_index()?;
        let mut words = self.words.try_clone()?;
        words.remove_prefix(bytes)?;
        if let Some((len, word)) = words.find_len(bytes) {
            gone.try_reserve(1)?;
            gone.push(index_of(word));
            words.remove(&bytes[..len])?;
        }
        match words.put(bytes, word_of(index))? {
            Put::New => Ok(Some((words, gone))),
            other => unreachable!("libartmap.a is not that of this crate: a key is in the way, {other:?}"),
        }
    }

    /// The entry of a key, to be looked at, filled or changed.
    ///
    /// ```
    /// let mut count = artmap::ArtMap::new();
    /// for word in ["a", "b", "a"] {
    ///     *count.entry(word).or_insert(0) += 1;
    /// }
    /// assert!(count.iter().eq([(&"a", &2), (&"b", &1)]));
    /// ```
    pub fn entry(&mut self, key: K) -> Entry<'_, K, V>
    where
        K: NoPrefixes,
    {
        let found = or_end(word_of_key(&self.words, &key));
        Entry::new(self, key, found)
    }

    /// The entry of a key, of which others may begin others.
    ///
    /// ```
    /// use artmap::{ArtMap, TryKeyError};
    ///
    /// let mut map = ArtMap::new();
    /// map.try_entry(vec![1, 2]).unwrap().or_insert('a');
    /// assert_eq!(map.try_entry(vec![1]).unwrap_err(), TryKeyError::Prefix { key: vec![1] });
    /// ```
    ///
    /// # Errors
    ///
    /// Where a stored key begins the key, or the key begins a stored one; or where there is no memory for the bytes of the
    /// key. The key is handed back.
    pub fn try_entry(&mut self, key: K) -> Result<Entry<'_, K, V>, TryKeyError<K>> {
        let found = match key.to_bytes() {
            Err(AllocError) => Err(true),
            Ok(bytes) => {
                let bytes = bytes.as_ref();
                match self.words.get(bytes) {
                    None if self.words.find(bytes).is_some() || self.words.has_prefix(bytes) => Err(false),
                    found => Ok(found),
                }
            }
        };
        match found {
            Ok(found) => Ok(Entry::new(self, key, found)),
            Err(true) => Err(TryKeyError::Memory { key }),
            Err(false) => Err(TryKeyError::Prefix { key }),
        }
    }

    /// The entry of the least key.
    ///
    /// ```
    /// let mut map = artmap::ArtMap::from([(1, 'a'), (2, 'b')]);
    /// assert_eq!(map.first_entry().map(|entry| entry.remove()), Some('a'));
    /// ```
    pub fn first_entry(&mut self) -> Option<OccupiedEntry<'_, K, V>> {
        self.end_entry(Way::Up)
    }

    /// The entry of the greatest key.
    ///
    /// ```
    /// let mut map = artmap::ArtMap::from([(1, 'a'), (2, 'b')]);
    /// *map.last_entry().unwrap().get_mut() = 'c';
    /// assert_eq!(map[&2], 'c');
    /// ```
    pub fn last_entry(&mut self) -> Option<OccupiedEntry<'_, K, V>> {
        self.end_entry(Way::Down)
    }

    fn end_entry(&mut self, way: Way) -> Option<OccupiedEntry<'_, K, V>> {
        let index = self.end(way)?;
        Some(OccupiedEntry { map: self, index })
    }

    /// Takes a pair out, and gives its value.
    ///
    /// ```
    /// let mut map = artmap::ArtMap::from([(1, 'a')]);
    /// assert_eq!((map.remove(&1), map.remove(&1)), (Some('a'), None));
    /// ```
    #[inline]
    pub fn remove<Q: Key + ?Sized>(&mut self, key: &Q) -> Option<V>
    where
        K: Borrow<Q>,
    {
        or_end(self.try_remove(key))
    }

    /// As [`remove`](Self::remove).
    ///
    /// ```
    /// let mut map = artmap::ArtMap::from([(1, 'a')]);
    /// assert_eq!(map.try_remove(&1), Ok(Some('a')));
    /// ```
    ///
    /// # Errors
    ///
    /// Where memory lacks: a node of the tree was to become a smaller one. The map is as it was.
    #[inline]
    pub fn try_remove<Q: Key + ?Sized>(&mut self, key: &Q) -> Result<Option<V>, AllocError>
    where
        K: Borrow<Q>,
    {
        Ok(self.try_remove_entry(key)?.map(value_of))
    }

    /// Takes a pair out, and gives it.
    ///
    /// ```
    /// let mut map = artmap::ArtMap::from([(1, 'a')]);
    /// assert_eq!(map.remove_entry(&1), Some((1, 'a')));
    /// ```
    pub fn remove_entry<Q: Key + ?Sized>(&mut self, key: &Q) -> Option<(K, V)>
    where
        K: Borrow<Q>,
    {
        or_end(self.try_remove_entry(key))
    }

    /// As [`remove_entry`](Self::remove_entry).
    ///
    /// ```
    /// let mut map = artmap::ArtMap::from([(1, 'a')]);
    /// assert_eq!(map.try_remove_entry(&2), Ok(None));
    /// ```
    ///
    /// # Errors
    ///
    /// As [`try_remove`](Self::try_remove).
    #[inline]
    pub fn try_remove_entry<Q: Key + ?Sized>(&mut self, key: &Q) -> Result<Option<(K, V)>, AllocError>
    where
        K: Borrow<Q>,
    {
        key.with_bytes(Sealed, |bytes| self.take(bytes))?
    }

    /// Takes the pair with the least key out.
    ///
    /// ```
    /// let mut map = artmap::ArtMap::from([(1, 'a'), (2, 'b')]);
    /// assert_eq!(map.pop_first(), Some((1, 'a')));
    /// ```
    pub fn pop_first(&mut self) -> Option<(K, V)> {
        or_end(self.try_pop_first())
    }

    /// Takes the pair with the greatest key out.
    ///
    /// ```
    /// let mut map = artmap::ArtMap::from([(1, 'a'), (2, 'b')]);
    /// assert_eq!(map.pop_last(), Some((2, 'b')));
    /// ```
    pub fn pop_last(&mut self) -> Option<(K, V)> {
        or_end(self.try_pop_last())
    }

    /// As [`pop_first`](Self::pop_first).
    ///
    /// ```
    /// let mut map = artmap::ArtMap::from([(1, 'a')]);
    /// assert_eq!(map.try_pop_first(), Ok(Some((1, 'a'))));
    /// ```
    ///
    /// # Errors
    ///
    /// As [`try_remove`](Self::try_remove).
    pub fn try_pop_first(&mut self) -> Result<Option<(K, V)>, AllocError> {
        self.pop(Way::Up)
    }

    /// As [`pop_last`](Self::pop_last).
    ///
    /// ```
    /// let mut map = artmap::ArtMap::from([(1, 'a')]);
    /// assert_eq!(map.try_pop_last(), Ok(Some((1, 'a'))));
    /// ```
    ///
    /// # Errors
    ///
    /// As [`try_remove`](Self::try_remove).
    pub fn try_pop_last(&mut self) -> Result<Option<(K, V)>, AllocError> {
        self.pop(Way::Down)
    }

    fn pop(&mut self, way: Way) -> Result<Option<(K, V)>, AllocError> {
        let Some(word) = self.words.pop(way)? else { return Ok(None) };
        let pair = self.slab.take(index_of(word));
        self.settle();
        Ok(Some(pair))
    }

    /// Takes out all pairs whose keys begin with a prefix, and tells how many.
    ///
    /// ```
    /// let mut map = artmap::ArtMap::from([("car", 1), ("cat", 2), ("dog", 3)]);
    /// assert_eq!(map.remove_prefix("ca"), 2);
    /// assert_eq!((map.remove_prefix("ca"), map.len()), (0, 1));
    /// ```
    pub fn remove_prefix<P: KeyPrefix<K> + ?Sized>(&mut self, prefix: &P) -> usize {
        or_end(self.try_remove_prefix(prefix))
    }

    /// As [`remove_prefix`](Self::remove_prefix).
    ///
    /// ```
    /// let mut map = artmap::ArtMap::from([([1, 1], 'a'), ([1, 2], 'b')]);
    /// assert_eq!(map.try_remove_prefix(&[1]), Ok(2));
    /// ```
    ///
    /// # Errors
    ///
    /// Where memory lacks. The map is as it was.
    pub fn try_remove_prefix<P: KeyPrefix<K> + ?Sized>(&mut self, prefix: &P) -> Result<usize, AllocError> {
        self.take_all(prefix.to_prefix()?.as_ref())
    }

    fn take_all(&mut self, prefix: &[u8]) -> Result<usize, AllocError> {
        let gone = self.indexes(prefix)?;
        self.words.remove_prefix(prefix)?;
        let count = gone.len();
        Parted { slab: &mut self.slab, indexes: gone.into_iter() }.free();
        self.settle();
        Ok(count)
    }

    /// The indexes of all pairs whose keys begin with a prefix.
    fn indexes(&self, prefix: &[u8]) -> Result<Vec<usize>, AllocError> {
        let mut found = Vec::new();
        let (mut walk, slab) = (Walk::new(Under::of(prefix)?), &self.slab);
        while let Some(index) = walk.next_of(&self.words, Way::Up, slab, true)? {
            found.try_reserve(1)?;
            found.push(index);
        }
        Ok(found)
    }
}

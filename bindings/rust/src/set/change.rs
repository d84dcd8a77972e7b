//! Calls that put keys in and take them out.
use super::ArtSet;
use super::iter::{ExtractIf, IntoIter, OfKeys, TryExtractIf};
use crate::error::{AllocError, TryInsertError, TryKeyError};
use crate::map::{AppendError, ArtMap};
use crate::{Key, KeyPrefix, NoPrefixes};
use std::borrow::Borrow;
use std::ops::RangeBounds;

fn first<K>(pair: (K, ())) -> K {
    pair.0
}

impl<K: Key> ArtSet<K> {
    /// Stores a key, and tells whether it is new. One that is stored stays.
    ///
    /// ```
    /// let mut set = artmap::ArtSet::new();
    /// assert!(set.insert(1) && !set.insert(1));
    /// ```
    ///
    /// # Panics
    ///
    /// As [`ArtMap::insert`].
    pub fn insert(&mut self, key: K) -> bool
    where
        K: NoPrefixes,
    {
        self.map.insert(key, ()).is_none()
    }

    /// As [`insert`](Self::insert), of keys of all types.
    ///
    /// ```
    /// let mut set = artmap::ArtSet::new();
    /// assert_eq!(set.try_insert(vec![1]), Ok(true));
    /// assert_eq!(set.try_insert(vec![1, 2]).unwrap_err().into_key(), vec![1, 2]);
    /// ```
    ///
    /// # Errors
    ///
    /// Where a stored key begins the key, or the key begins a stored one, or memory lacks. The set is as it was, and the
    /// key is handed back.
    pub fn try_insert(&mut self, key: K) -> Result<bool, TryKeyError<K>> {
        Ok(self.map.try_insert(key, ())?.is_none())
    }

    /// Stores a key in the place of one that is equal, and gives that one.
    ///
    /// ```
    /// let mut set = artmap::ArtSet::from([1]);
    /// assert_eq!((set.replace(1), set.replace(2)), (Some(1), None));
    /// ```
    ///
    /// # Panics
    ///
    /// As [`ArtMap::insert`].
    pub fn replace(&mut self, key: K) -> Option<K>
    where
        K: NoPrefixes,
    {
        self.map.replace(key, ()).unwrap_or_else(TryInsertError::end).map(first)
    }

    /// As [`replace`](Self::replace), of keys of all types.
    ///
    /// ```
    /// assert_eq!(artmap::ArtSet::new().try_replace(vec![1]), Ok(None));
    /// ```
    ///
    /// # Errors
    ///
    /// As [`try_insert`](Self::try_insert).
    pub fn try_replace(&mut self, key: K) -> Result<Option<K>, TryKeyError<K>> {
        Ok(self.map.replace(key, ())?.map(first))
    }

    /// Takes a key out, and tells whether it was there.
    ///
    /// ```
    /// let mut set = artmap::ArtSet::from([1]);
    /// assert!(set.remove(&1) && !set.remove(&1));
    /// ```
    pub fn remove<Q: Key + ?Sized>(&mut self, key: &Q) -> bool
    where
        K: Borrow<Q>,
    {
        self.take(key).is_some()
    }

    /// Takes a key out, and gives it.
    ///
    /// ```
    /// assert_eq!(artmap::ArtSet::from([1]).take(&1), Some(1));
    /// ```
    pub fn take<Q: Key + ?Sized>(&mut self, key: &Q) -> Option<K>
    where
        K: Borrow<Q>,
    {
        self.map.remove_entry(key).map(first)
    }

    /// As [`remove`](Self::remove).
    ///
    /// ```
    /// assert_eq!(artmap::ArtSet::from([1]).try_remove(&1), Ok(true));
    /// ```
    ///
    /// # Errors
    ///
    /// As [`try_take`](Self::try_take).
    pub fn try_remove<Q: Key + ?Sized>(&mut self, key: &Q) -> Result<bool, AllocError>
    where
        K: Borrow<Q>,
    {
        Ok(self.try_take(key)?.is_some())
    }

    /// As [`take`](Self::take).
    ///
    /// ```
    /// assert_eq!(artmap::ArtSet::from([1]).try_take(&1), Ok(Some(1)));
    /// ```
    ///
    /// # Errors
    ///
    /// Where memory lacks: a node of the tree was to become a smaller one. The set is as it was.
    pub fn try_take<Q: Key + ?Sized>(&mut self, key: &Q) -> Result<Option<K>, AllocError>
    where
        K: Borrow<Q>,
    {
        Ok(self.map.try_remove_entry(key)?.map(first))
    }

    /// Takes the least key out.
    ///
    /// ```
    /// assert_eq!(artmap::ArtSet::from([1, 2]).pop_first(), Some(1));
    /// ```
    pub fn pop_first(&mut self) -> Option<K> {
        self.map.pop_first().map(first)
    }

    /// Takes the greatest key out.
    ///
    /// ```
    /// assert_eq!(artmap::ArtSet::from([1, 2]).pop_last(), Some(2));
    /// ```
    pub fn pop_last(&mut self) -> Option<K> {
        self.map.pop_last().map(first)
    }

    /// As [`pop_first`](Self::pop_first).
    ///
    /// ```
    /// assert_eq!(artmap::ArtSet::from([1, 2]).try_pop_first(), Ok(Some(1)));
    /// ```
    ///
    /// # Errors
    ///
    /// As [`try_take`](Self::try_take).
    pub fn try_pop_first(&mut self) -> Result<Option<K>, AllocError> {
        Ok(self.map.try_pop_first()?.map(first))
    }

    /// As [`pop_last`](Self::pop_last).
    ///
    /// ```
    /// assert_eq!(artmap::ArtSet::from([1, 2]).try_pop_last(), Ok(Some(2)));
    /// ```
    ///
    /// # Errors
    ///
    /// As [`try_take`](Self::try_take).
    pub fn try_pop_last(&mut self) -> Result<Option<K>, AllocError> {
        Ok(self.map.try_pop_last()?.map(first))
    }

    /// Takes out all keys that begin with a prefix, and tells how many.
    ///
    /// ```
    /// assert_eq!(artmap::ArtSet::from(["car", "cat", "dog"]).remove_prefix("ca"), 2);
    /// ```
    pub fn remove_prefix<P: KeyPrefix<K> + ?Sized>(&mut self, prefix: &P) -> usize {
        self.map.remove_prefix(prefix)
    }

    /// As [`remove_prefix`](Self::remove_prefix).
    ///
    /// ```
    /// assert_eq!(artmap::ArtSet::from(["car", "cat"]).try_remove_prefix("cat"), Ok(1));
    /// ```
    ///
    /// # Errors
    ///
    /// Where memory lacks. The set is as it was.
    pub fn try_remove_prefix<P: KeyPrefix<K> + ?Sized>(&mut self, prefix: &P) -> Result<usize, AllocError> {
        self.map.try_remove_prefix(prefix)
    }

    /// Keeps those keys of which a closure says so.
    ///
    /// ```
    /// let mut set = artmap::ArtSet::from([1, 2, 3]);
    /// set.retain(|key| *key != 2);
    /// assert!(set.iter().eq(&[1, 3]));
    /// ```
    pub fn retain<F: FnMut(&K) -> bool>(&mut self, mut keep: F) {
        self.map.retain(|key, ()| keep(key));
    }

    /// As [`retain`](Self::retain).
    ///
    /// ```
    /// assert_eq!(artmap::ArtSet::from([1, 2, 3]).try_retain(|key| *key != 2), Ok(()));
    /// ```
    ///
    /// # Errors
    ///
    /// As [`ArtMap::try_retain`].
    pub fn try_retain<F: FnMut(&K) -> bool>(&mut self, mut keep: F) -> Result<(), AllocError> {
        self.map.try_retain(|key, ()| keep(key))
    }

    /// Takes out, one by one as they are asked for, the keys of a range of which a closure says that they go.
    ///
    /// ```
    /// let mut set = artmap::ArtSet::from([1, 2, 3, 4]);
    /// assert!(set.extract_if(2.., |key| key % 2 == 0).eq([2, 4]));
    /// assert!(set.iter().eq(&[1, 3]));
    /// ```
    pub fn extract_if<F, R>(&mut self, range: R, goes: F) -> ExtractIf<'_, K, F>
    where
        R: RangeBounds<K>,
        F: FnMut(&K) -> bool,
    {
        ExtractIf(self.try_extract_if(range, goes).0)
    }

    /// As [`extract_if`](Self::extract_if). Where memory lacks, an item is an error, and the last one: that key stays.
    ///
    /// ```
    /// let mut set = artmap::ArtSet::from([1, 2]);
    /// assert!(set.try_extract_if(.., |key| *key == 1).eq([Ok(1)]));
    /// ```
    pub fn try_extract_if<F, R>(&mut self, range: R, goes: F) -> TryExtractIf<'_, K, F>
    where
        R: RangeBounds<K>,
        F: FnMut(&K) -> bool,
    {
        TryExtractIf(self.map.extraction(&range, OfKeys(goes)))
    }

    /// Moves all keys of another set into this one.
    ///
    /// ```
    /// let mut set = artmap::ArtSet::from([1, 2]);
    /// set.append(&mut artmap::ArtSet::from([2, 3]));
    /// assert!(set.iter().eq(&[1, 2, 3]));
    /// ```
    ///
    /// # Panics
    ///
    /// As [`ArtMap::insert`].
    pub fn append(&mut self, other: &mut Self)
    where
        K: NoPrefixes,
    {
        self.map.append(&mut other.map);
    }

    /// As [`append`](Self::append), of keys of all types.
    ///
    /// ```
    /// let mut set = artmap::ArtSet::from([1, 2]);
    /// assert_eq!(set.try_append(&mut artmap::ArtSet::from([2, 3])), Ok(()));
    /// ```
    ///
    /// # Errors
    ///
    /// As [`ArtMap::try_append`].
    pub fn try_append(&mut self, other: &mut Self) -> Result<(), AppendError> {
        self.map.try_append(&mut other.map)
    }

    /// Moves the keys from one on into a set of their own.
    ///
    /// ```
    /// let mut set = artmap::ArtSet::from([1, 2, 3]);
    /// assert!(set.split_off(&2).iter().eq(&[2, 3]));
    /// assert_eq!(set.len(), 1);
    /// ```
    #[must_use]
    pub fn split_off<Q: Key + ?Sized>(&mut self, key: &Q) -> Self
    where
        K: Borrow<Q>,
    {
        ArtSet { map: self.map.split_off(key) }
    }

    /// As [`split_off`](Self::split_off).
    ///
    /// ```
    /// assert!(artmap::ArtSet::from([1, 2, 3]).try_split_off(&2).is_ok());
    /// ```
    ///
    /// # Errors
    ///
    /// Where memory lacks. The set is as it was.
    pub fn try_split_off<Q: Key + ?Sized>(&mut self, key: &Q) -> Result<Self, AllocError>
    where
        K: Borrow<Q>,
    {
        Ok(ArtSet { map: self.map.try_split_off(key)? })
    }

    /// Stores keys one by one, or many at once where they ascend after the greatest one.
    ///
    /// ```
    /// assert!(artmap::ArtSet::new().try_extend([vec![1], vec![2]]).is_ok());
    /// ```
    ///
    /// # Errors
    ///
    /// As [`ArtMap::try_extend`].
    pub fn try_extend<I: IntoIterator<Item = K>>(&mut self, keys: I) -> Result<(), TryKeyError<K>> {
        Ok(self.map.try_extend(keys.into_iter().map(|key| (key, ())))?)
    }

    /// A set of these keys, whose type may have prefixes.
    ///
    /// ```
    /// assert_eq!(artmap::ArtSet::try_from_iter([vec![1], vec![2]]).unwrap().len(), 2);
    /// ```
    ///
    /// # Errors
    ///
    /// As [`ArtMap::try_from_iter`].
    pub fn try_from_iter<I: IntoIterator<Item = K>>(keys: I) -> Result<Self, TryKeyError<K>> {
        Ok(ArtSet { map: ArtMap::try_from_iter(keys.into_iter().map(|key| (key, ())))? })
    }

    /// A copy of the set.
    ///
    /// ```
    /// assert_eq!(artmap::ArtSet::from([1]).try_clone().unwrap().len(), 1);
    /// ```
    ///
    /// # Errors
    ///
    /// Where memory lacks for what the set itself takes.
    pub fn try_clone(&self) -> Result<Self, AllocError>
    where
        K: Clone,
    {
        Ok(ArtSet { map: self.map.try_clone()? })
    }

    pub(crate) fn into_keys(self) -> IntoIter<K> {
        IntoIter(self.map.into_keys())
    }
}

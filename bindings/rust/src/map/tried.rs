//! Look-ups and walks that say it where memory lacks for the bytes of a key.
use crate::error::AllocError;
use crate::iter::{Prefix, Range};
use crate::iter_mut::{PrefixMut, RangeMut};
use crate::map::ArtMap;
use crate::prefixes::longest;
use crate::view::{MAP, between, index_of, under, word_of_key};
use crate::{Key, KeyPrefix};
use std::borrow::Borrow;
use std::ops::RangeBounds;

impl<K: Key, V> ArtMap<K, V> {
    /// As [`get`](Self::get).
    ///
    /// ```
    /// assert_eq!(artmap::ArtMap::from([(1, 'a')]).try_get(&1), Ok(Some(&'a')));
    /// ```
    ///
    /// # Errors
    ///
    /// Where there is no memory for the bytes of the key.
    pub fn try_get<Q: Key + ?Sized>(&self, key: &Q) -> Result<Option<&V>, AllocError>
    where
        K: Borrow<Q>,
    {
        Ok(word_of_key(&self.words, key)?.map(|word| self.slab.pair(index_of(word)).1))
    }

    /// As [`get_key_value`](Self::get_key_value).
    ///
    /// ```
    /// assert_eq!(artmap::ArtMap::from([(1, 'a')]).try_get_key_value(&1), Ok(Some((&1, &'a'))));
    /// ```
    ///
    /// # Errors
    ///
    /// Where there is no memory for the bytes of the key.
    pub fn try_get_key_value<Q: Key + ?Sized>(&self, key: &Q) -> Result<Option<(&K, &V)>, AllocError>
    where
        K: Borrow<Q>,
    {
        self.view().try_get(key)
    }

    /// As [`contains_key`](Self::contains_key).
    ///
    /// ```
    /// assert_eq!(artmap::ArtMap::from([(1, 'a')]).try_contains_key(&1), Ok(true));
    /// ```
    ///
    /// # Errors
    ///
    /// Where there is no memory for the bytes of the key.
    pub fn try_contains_key<Q: Key + ?Sized>(&self, key: &Q) -> Result<bool, AllocError>
    where
        K: Borrow<Q>,
    {
        Ok(word_of_key(&self.words, key)?.is_some())
    }

    /// As [`get_mut`](Self::get_mut).
    ///
    /// ```
    /// assert_eq!(artmap::ArtMap::from([(1, 'a')]).try_get_mut(&1), Ok(Some(&mut 'a')));
    /// ```
    ///
    /// # Errors
    ///
    /// Where there is no memory for the bytes of the key.
    pub fn try_get_mut<Q: Key + ?Sized>(&mut self, key: &Q) -> Result<Option<&mut V>, AllocError>
    where
        K: Borrow<Q>,
    {
        Ok(word_of_key(&self.words, key)?.map(|word| self.slab.pair_mut(index_of(word)).1))
    }

    /// As [`prefix_get`](Self::prefix_get).
    ///
    /// ```
    /// let routes = artmap::ArtMap::from([([10u8, 1], 'a')]);
    /// assert_eq!(routes.try_prefix_get(&[10u8, 1, 7]), Ok(Some(&'a')));
    /// ```
    ///
    /// # Errors
    ///
    /// Where there is no memory for the bytes of the query.
    pub fn try_prefix_get<P: KeyPrefix<K> + ?Sized>(&self, query: &P) -> Result<Option<&V>, AllocError> {
        Ok(self.view().try_prefix_get(query)?.map(|pair| pair.1))
    }

    /// As [`prefix_get_key_value`](Self::prefix_get_key_value).
    ///
    /// ```
    /// let routes = artmap::ArtMap::from([([10u8, 1], 'a')]);
    /// assert_eq!(routes.try_prefix_get_key_value(&[10u8, 1, 7]), Ok(Some((&[10, 1], &'a'))));
    /// ```
    ///
    /// # Errors
    ///
    /// Where there is no memory for the bytes of the query.
    pub fn try_prefix_get_key_value<P: KeyPrefix<K> + ?Sized>(
        &self,
        query: &P,
    ) -> Result<Option<(&K, &V)>, AllocError> {
        self.view().try_prefix_get(query)
    }

    /// As [`prefix_get_mut`](Self::prefix_get_mut).
    ///
    /// ```
    /// let mut routes = artmap::ArtMap::from([([10u8, 1], 'a')]);
    /// assert_eq!(routes.try_prefix_get_mut(&[10u8, 1, 7]), Ok(Some(&mut 'a')));
    /// ```
    ///
    /// # Errors
    ///
    /// Where there is no memory for the bytes of the query.
    pub fn try_prefix_get_mut<P: KeyPrefix<K> + ?Sized>(&mut self, query: &P) -> Result<Option<&mut V>, AllocError> {
        Ok(self.try_prefix_get_key_value_mut(query)?.map(|pair| pair.1))
    }

    /// As [`prefix_get_key_value_mut`](Self::prefix_get_key_value_mut).
    ///
    /// ```
    /// let mut routes = artmap::ArtMap::from([([10u8, 1], 'a')]);
    /// assert_eq!(routes.try_prefix_get_key_value_mut(&[10u8, 1, 7]), Ok(Some((&[10, 1], &mut 'a'))));
    /// ```
    ///
    /// # Errors
    ///
    /// Where there is no memory for the bytes of the query.
    #[allow(clippy::type_complexity, reason = "it is that of the call without `try_`, or an error")]
    pub fn try_prefix_get_key_value_mut<P: KeyPrefix<K> + ?Sized>(
        &mut self,
        query: &P,
    ) -> Result<Option<(&K, &mut V)>, AllocError> {
        let found = longest::<K>(&self.words, query.to_prefix()?.as_ref());
        Ok(found.map(|(_, word)| self.slab.pair_mut(index_of(word))))
    }

    /// As [`range`](Self::range).
    ///
    /// ```
    /// let map = artmap::ArtMap::from([(1, 'a'), (2, 'b')]);
    /// assert_eq!(map.try_range(2..).map(|pairs| pairs.count()), Ok(1));
    /// ```
    ///
    /// # Errors
    ///
    /// Where there is no memory for the bytes of a bound, which the walk keeps; up to 120 need none.
    ///
    /// # Panics
    ///
    /// As [`range`](Self::range).
    pub fn try_range<Q, R>(&self, range: R) -> Result<Range<'_, K, V>, AllocError>
    where
        Q: Key + ?Sized,
        K: Borrow<Q>,
        R: RangeBounds<Q>,
    {
        self.view().try_range(&range, MAP)
    }

    /// As [`range_mut`](Self::range_mut).
    ///
    /// ```
    /// let mut map = artmap::ArtMap::from([(1, 'a'), (2, 'b')]);
    /// assert_eq!(map.try_range_mut(2..).map(|pairs| pairs.count()), Ok(1));
    /// ```
    ///
    /// # Errors
    ///
    /// As [`try_range`](Self::try_range).
    ///
    /// # Panics
    ///
    /// As [`range`](Self::range).
    pub fn try_range_mut<Q, R>(&mut self, range: R) -> Result<RangeMut<'_, K, V>, AllocError>
    where
        Q: Key + ?Sized,
        K: Borrow<Q>,
        R: RangeBounds<Q>,
    {
        let limits = between(&range, MAP)?;
        Ok(RangeMut::new(self, limits))
    }

    /// As [`prefix`](Self::prefix).
    ///
    /// ```
    /// let map = artmap::ArtMap::from([("car", 1), ("dog", 2)]);
    /// assert_eq!(map.try_prefix("ca").map(|pairs| pairs.count()), Ok(1));
    /// ```
    ///
    /// # Errors
    ///
    /// Where there is no memory for the bytes of the prefix, which the walk keeps; up to 120 need none.
    pub fn try_prefix<P: KeyPrefix<K> + ?Sized>(&self, prefix: &P) -> Result<Prefix<'_, K, V>, AllocError> {
        self.view().try_prefix(prefix)
    }

    /// As [`prefix_mut`](Self::prefix_mut).
    ///
    /// ```
    /// let mut map = artmap::ArtMap::from([("car", 1), ("dog", 2)]);
    /// assert_eq!(map.try_prefix_mut("ca").map(|pairs| pairs.count()), Ok(1));
    /// ```
    ///
    /// # Errors
    ///
    /// As [`try_prefix`](Self::try_prefix).
    pub fn try_prefix_mut<P: KeyPrefix<K> + ?Sized>(&mut self, prefix: &P) -> Result<PrefixMut<'_, K, V>, AllocError> {
        Ok(PrefixMut::new(self, under(prefix)?))
    }
}

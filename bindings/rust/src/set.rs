//! The set: a map to nothing.
mod change;
mod frozen;
mod iter;
mod merge;
mod prefixes;
mod traits;

pub use frozen::FrozenSet;
pub use iter::{
    ExtractIf as SetExtractIf, IntoIter as SetIntoIter, Iter as SetIter, Prefix as SetPrefix, Range as SetRange,
    TryExtractIf as SetTryExtractIf,
};
pub use merge::{Difference, Intersection, SymmetricDifference, Union};
pub use prefixes::Prefixes as SetPrefixes;

use crate::error::AllocError;
use crate::map::ArtMap;
use crate::view::SET;
use crate::{Key, KeyPrefix, Ordered};
use iter::{Iter, Prefix, Range};
use std::borrow::Borrow;
use std::ops::RangeBounds;

/// An ordered set, whose keys are seen as bytes. It goes where a [`BTreeSet`](std::collections::BTreeSet) goes.
///
/// What [`ArtMap`] says of its keys, of memory and of threads holds here, too.
///
/// ```
/// use artmap::ArtSet;
///
/// let mut paths = ArtSet::from(["usr/bin", "usr/lib", "var"]);
/// assert!(!paths.insert("var") && paths.insert("tmp"));
/// assert!(paths.prefix("usr/").eq(&["usr/bin", "usr/lib"]));
/// assert_eq!((&paths - &ArtSet::from(["usr/lib"])).len(), 3);
/// ```
pub struct ArtSet<K> {
    pub(crate) map: ArtMap<K, ()>,
}

impl<K> ArtSet<K> {
    /// An empty set. It needs no memory until its first key.
    ///
    /// ```
    /// assert!(artmap::ArtSet::<u32>::new().is_empty());
    /// ```
    #[must_use]
    pub const fn new() -> Self {
        ArtSet { map: ArtMap::new() }
    }

    /// How many keys there are.
    ///
    /// ```
    /// assert_eq!(artmap::ArtSet::from([1, 2]).len(), 2);
    /// ```
    #[must_use]
    pub fn len(&self) -> usize {
        self.map.len()
    }

    /// Whether there is no key.
    ///
    /// ```
    /// assert!(!artmap::ArtSet::from([1, 2]).is_empty());
    /// ```
    #[must_use]
    pub fn is_empty(&self) -> bool {
        self.map.is_empty()
    }

    /// Takes all keys out. It needs no memory.
    ///
    /// ```
    /// let mut set = artmap::ArtSet::from([1, 2]);
    /// set.clear();
    /// assert!(set.is_empty());
    /// ```
    pub fn clear(&mut self) {
        self.map.clear();
    }

    /// Makes room for so many more keys. The tree has none beforehand.
    ///
    /// ```
    /// assert_eq!(artmap::ArtSet::<u32>::new().try_reserve(100), Ok(()));
    /// ```
    ///
    /// # Errors
    ///
    /// Where there is no memory for them. The set is as it was.
    pub fn try_reserve(&mut self, additional: usize) -> Result<(), AllocError> {
        self.map.try_reserve(additional)
    }
}

impl<K: Key> ArtSet<K> {
    /// As [`ArtMap::shrink_to_fit`].
    ///
    /// ```
    /// artmap::ArtSet::from([1, 2]).shrink_to_fit();
    /// ```
    pub fn shrink_to_fit(&mut self) {
        self.map.shrink_to_fit();
    }

    /// As [`ArtMap::compact`].
    ///
    /// ```
    /// artmap::ArtSet::from([2, 1]).compact();
    /// ```
    pub fn compact(&mut self) {
        self.map.compact();
    }

    /// As [`compact`](Self::compact).
    ///
    /// ```
    /// assert_eq!(artmap::ArtSet::from([2, 1]).try_compact(), Ok(()));
    /// ```
    ///
    /// # Errors
    ///
    /// Where memory lacks. The set is as it was.
    pub fn try_compact(&mut self) -> Result<(), AllocError> {
        self.map.try_compact()
    }

    /// Whether a key is there.
    ///
    /// ```
    /// assert!(artmap::ArtSet::from(["a".to_string()]).contains("a"));
    /// ```
    pub fn contains<Q: Key + ?Sized>(&self, key: &Q) -> bool
    where
        K: Borrow<Q>,
    {
        self.map.contains_key(key)
    }

    /// The stored key that is equal.
    ///
    /// ```
    /// assert_eq!(artmap::ArtSet::from([1]).get(&1), Some(&1));
    /// ```
    pub fn get<Q: Key + ?Sized>(&self, key: &Q) -> Option<&K>
    where
        K: Borrow<Q>,
    {
        Some(self.map.get_key_value(key)?.0)
    }

    /// The longest stored key that begins a query, or equals it.
    ///
    /// ```
    /// let blocks = artmap::ArtSet::from([[10u8, 1], [192, 168]]);
    /// assert_eq!(blocks.prefix_get(&[10u8, 1, 7, 9]), Some(&[10, 1]));
    /// ```
    pub fn prefix_get<P: KeyPrefix<K> + ?Sized>(&self, query: &P) -> Option<&K> {
        Some(self.map.prefix_get_key_value(query)?.0)
    }

    /// The least key.
    ///
    /// ```
    /// assert_eq!(artmap::ArtSet::from([2, 1]).first(), Some(&1));
    /// ```
    pub fn first(&self) -> Option<&K> {
        Some(self.map.first_key_value()?.0)
    }

    /// The greatest key.
    ///
    /// ```
    /// assert_eq!(artmap::ArtSet::from([2, 1]).last(), Some(&2));
    /// ```
    pub fn last(&self) -> Option<&K> {
        Some(self.map.last_key_value()?.0)
    }

    /// The keys in ascending order, from both ends.
    ///
    /// ```
    /// assert!(artmap::ArtSet::from([2, 1]).iter().eq(&[1, 2]));
    /// ```
    pub fn iter(&self) -> Iter<'_, K> {
        Iter(self.map.keys())
    }

    /// The keys between two bounds, in ascending order, from both ends.
    ///
    /// ```
    /// assert!(artmap::ArtSet::from([1, 2, 3]).range(2..).eq(&[2, 3]));
    /// ```
    ///
    /// # Panics
    ///
    /// As [`ArtMap::range`].
    pub fn range<Q, R>(&self, range: R) -> Range<'_, K>
    where
        Q: Key + ?Sized,
        K: Borrow<Q>,
        R: RangeBounds<Q>,
    {
        Range(self.map.view().range(&range, SET))
    }

    /// The keys that begin with a prefix, in ascending order, from both ends.
    ///
    /// ```
    /// assert!(artmap::ArtSet::from(["car", "cat", "dog"]).prefix("ca").eq(&["car", "cat"]));
    /// ```
    pub fn prefix<P: KeyPrefix<K> + ?Sized>(&self, prefix: &P) -> Prefix<'_, K> {
        Prefix(self.map.prefix(prefix))
    }

    /// As [`contains`](Self::contains).
    ///
    /// ```
    /// assert_eq!(artmap::ArtSet::from([1]).try_contains(&1), Ok(true));
    /// ```
    ///
    /// # Errors
    ///
    /// As [`ArtMap::try_get`].
    pub fn try_contains<Q: Key + ?Sized>(&self, key: &Q) -> Result<bool, AllocError>
    where
        K: Borrow<Q>,
    {
        Ok(self.try_get(key)?.is_some())
    }

    /// As [`get`](Self::get).
    ///
    /// ```
    /// assert_eq!(artmap::ArtSet::from([1]).try_get(&1), Ok(Some(&1)));
    /// ```
    ///
    /// # Errors
    ///
    /// As [`ArtMap::try_get`].
    pub fn try_get<Q: Key + ?Sized>(&self, key: &Q) -> Result<Option<&K>, AllocError>
    where
        K: Borrow<Q>,
    {
        Ok(self.map.try_get_key_value(key)?.map(|pair| pair.0))
    }

    /// As [`prefix_get`](Self::prefix_get).
    ///
    /// ```
    /// assert_eq!(artmap::ArtSet::from([[10u8, 1]]).try_prefix_get(&[10u8, 1, 7]), Ok(Some(&[10, 1])));
    /// ```
    ///
    /// # Errors
    ///
    /// As [`ArtMap::try_prefix_get`].
    pub fn try_prefix_get<P: KeyPrefix<K> + ?Sized>(&self, query: &P) -> Result<Option<&K>, AllocError> {
        Ok(self.map.try_prefix_get_key_value(query)?.map(|pair| pair.0))
    }

    /// As [`range`](Self::range).
    ///
    /// ```
    /// assert_eq!(artmap::ArtSet::from([1, 2]).try_range(2..).map(|keys| keys.count()), Ok(1));
    /// ```
    ///
    /// # Errors
    ///
    /// As [`ArtMap::try_range`].
    ///
    /// # Panics
    ///
    /// As [`ArtMap::range`].
    pub fn try_range<Q, R>(&self, range: R) -> Result<Range<'_, K>, AllocError>
    where
        Q: Key + ?Sized,
        K: Borrow<Q>,
        R: RangeBounds<Q>,
    {
        self.map.view().try_range(&range, SET).map(Range)
    }

    /// As [`prefix`](Self::prefix).
    ///
    /// ```
    /// assert_eq!(artmap::ArtSet::from(["car", "dog"]).try_prefix("ca").map(|keys| keys.count()), Ok(1));
    /// ```
    ///
    /// # Errors
    ///
    /// As [`ArtMap::try_prefix`].
    pub fn try_prefix<P: KeyPrefix<K> + ?Sized>(&self, prefix: &P) -> Result<Prefix<'_, K>, AllocError> {
        self.map.try_prefix(prefix).map(Prefix)
    }
}

impl<K: Ordered> ArtSet<K> {
    /// The keys of this set that are not in the other one, ascending.
    ///
    /// ```
    /// use artmap::ArtSet;
    ///
    /// assert!(ArtSet::from([1, 2]).difference(&ArtSet::from([2, 3])).eq(&[1]));
    /// ```
    pub fn difference<'a>(&'a self, other: &'a ArtSet<K>) -> Difference<'a, K> {
        Difference::new(self.iter(), other.iter())
    }

    /// The keys of one of the sets that are not in the other one, ascending.
    ///
    /// ```
    /// use artmap::ArtSet;
    ///
    /// assert!(ArtSet::from([1, 2]).symmetric_difference(&ArtSet::from([2, 3])).eq(&[1, 3]));
    /// ```
    pub fn symmetric_difference<'a>(&'a self, other: &'a ArtSet<K>) -> SymmetricDifference<'a, K> {
        SymmetricDifference::new(self.iter(), other.iter())
    }

    /// The keys of this set that are in the other one, too, ascending.
    ///
    /// ```
    /// use artmap::ArtSet;
    ///
    /// assert!(ArtSet::from([1, 2]).intersection(&ArtSet::from([2, 3])).eq(&[2]));
    /// ```
    pub fn intersection<'a>(&'a self, other: &'a ArtSet<K>) -> Intersection<'a, K> {
        Intersection::new(self.iter(), other.iter())
    }

    /// The keys of both sets, ascending; of two that are equal, that of this set.
    ///
    /// ```
    /// use artmap::ArtSet;
    ///
    /// assert!(ArtSet::from([1, 2]).union(&ArtSet::from([2, 3])).eq(&[1, 2, 3]));
    /// ```
    pub fn union<'a>(&'a self, other: &'a ArtSet<K>) -> Union<'a, K> {
        Union::new(self.iter(), other.iter())
    }

    /// Whether no key is in both.
    ///
    /// ```
    /// use artmap::ArtSet;
    ///
    /// assert!(ArtSet::from([1, 2]).is_disjoint(&ArtSet::from([3])));
    /// ```
    #[must_use]
    pub fn is_disjoint(&self, other: &ArtSet<K>) -> bool {
        self.intersection(other).next().is_none()
    }

    /// Whether all keys are in the other one, too.
    ///
    /// ```
    /// use artmap::ArtSet;
    ///
    /// assert!(ArtSet::from([1, 2]).is_subset(&ArtSet::from([1, 2, 3])));
    /// ```
    #[must_use]
    pub fn is_subset(&self, other: &ArtSet<K>) -> bool {
        self.len() <= other.len() && self.difference(other).next().is_none()
    }

    /// Whether all keys of the other one are here, too.
    ///
    /// ```
    /// use artmap::ArtSet;
    ///
    /// assert!(ArtSet::from([1, 2, 3]).is_superset(&ArtSet::from([1, 2])));
    /// ```
    #[must_use]
    pub fn is_superset(&self, other: &ArtSet<K>) -> bool {
        other.is_subset(self)
    }
}

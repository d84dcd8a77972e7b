//! Sets that nobody changes, for readers in many threads.
use super::ArtSet;
use super::iter::{Iter, Prefix, Range};
use super::merge::{Difference, Intersection, SymmetricDifference, Union};
use crate::error::AllocError;
use crate::frozen::FrozenMap;
use crate::view::SET;
use crate::{Key, KeyPrefix, Ordered};
use std::borrow::Borrow;
use std::cmp::Ordering;
use std::fmt;
use std::hash::{Hash, Hasher};
use std::ops::RangeBounds;

/// A set that nobody changes, and many threads read, as a [`FrozenMap`](crate::FrozenMap). A clone has the same keys.
///
/// ```
/// use artmap::ArtSet;
/// use std::thread;
///
/// let frozen = ArtSet::from(["a", "b"]).freeze();
/// let mine = frozen.clone();
/// assert!(thread::spawn(move || mine.contains("a")).join().unwrap());
/// assert!(frozen.thaw().unwrap().insert("c"));
/// ```
pub struct FrozenSet<K>(pub(super) FrozenMap<K, ()>);

impl<K: Key> ArtSet<K> {
    /// Makes it a set that nobody changes, for readers in many threads.
    ///
    /// ```
    /// assert!(artmap::ArtSet::from([1]).freeze().contains(&1));
    /// ```
    #[must_use]
    pub fn freeze(self) -> FrozenSet<K> {
        FrozenSet(self.map.freeze())
    }

    /// As [`ArtMap::freeze_clone`](crate::ArtMap::freeze_clone).
    ///
    /// ```
    /// assert!(artmap::ArtSet::from([1]).freeze_clone().contains(&1));
    /// ```
    #[must_use]
    pub fn freeze_clone(&self) -> FrozenSet<K>
    where
        K: Clone,
    {
        FrozenSet(self.map.freeze_clone())
    }
}

impl<K> FrozenSet<K> {
    /// The set, which may be changed again.
    ///
    /// ```
    /// assert!(artmap::ArtSet::from([1]).freeze().thaw().is_ok());
    /// ```
    ///
    /// # Errors
    ///
    /// Where there is another clone. This one is handed back.
    pub fn thaw(self) -> Result<ArtSet<K>, Self> {
        match self.0.thaw() {
            Ok(map) => Ok(ArtSet { map }),
            Err(map) => Err(FrozenSet(map)),
        }
    }

    /// Another one of the same keys. It needs no memory.
    ///
    /// ```
    /// assert_eq!(artmap::ArtSet::from([1]).freeze().try_clone().unwrap().len(), 1);
    /// ```
    ///
    /// # Errors
    ///
    /// Never.
    pub fn try_clone(&self) -> Result<Self, AllocError> {
        self.0.try_clone().map(FrozenSet)
    }

    /// How many keys there are.
    ///
    /// ```
    /// assert_eq!(artmap::ArtSet::from([1]).freeze().len(), 1);
    /// ```
    #[must_use]
    pub fn len(&self) -> usize {
        self.0.len()
    }

    /// Whether there is no key.
    ///
    /// ```
    /// assert!(!artmap::ArtSet::from([1]).freeze().is_empty());
    /// ```
    #[must_use]
    pub fn is_empty(&self) -> bool {
        self.0.is_empty()
    }
}

impl<K: Key> FrozenSet<K> {
    /// As [`ArtSet::contains`].
    ///
    /// ```
    /// assert!(!artmap::ArtSet::from([1]).freeze().contains(&2));
    /// ```
    pub fn contains<Q: Key + ?Sized>(&self, key: &Q) -> bool
    where
        K: Borrow<Q>,
    {
        self.0.contains_key(key)
    }

    /// As [`ArtSet::get`].
    ///
    /// ```
    /// assert_eq!(artmap::ArtSet::from([1]).freeze().get(&1), Some(&1));
    /// ```
    pub fn get<Q: Key + ?Sized>(&self, key: &Q) -> Option<&K>
    where
        K: Borrow<Q>,
    {
        Some(self.0.get_key_value(key)?.0)
    }

    /// As [`ArtSet::prefix_get`].
    ///
    /// ```
    /// assert_eq!(artmap::ArtSet::from([[10u8, 1]]).freeze().prefix_get(&[10u8, 1, 7]), Some(&[10, 1]));
    /// ```
    pub fn prefix_get<P: KeyPrefix<K> + ?Sized>(&self, query: &P) -> Option<&K> {
        Some(self.0.prefix_get_key_value(query)?.0)
    }

    /// As [`ArtSet::first`].
    ///
    /// ```
    /// assert_eq!(artmap::ArtSet::from([2, 1]).freeze().first(), Some(&1));
    /// ```
    #[must_use]
    pub fn first(&self) -> Option<&K> {
        Some(self.0.first_key_value()?.0)
    }

    /// As [`ArtSet::last`].
    ///
    /// ```
    /// assert_eq!(artmap::ArtSet::from([2, 1]).freeze().last(), Some(&2));
    /// ```
    #[must_use]
    pub fn last(&self) -> Option<&K> {
        Some(self.0.last_key_value()?.0)
    }

    /// As [`ArtSet::iter`].
    ///
    /// ```
    /// assert!(artmap::ArtSet::from([2, 1]).freeze().iter().eq(&[1, 2]));
    /// ```
    pub fn iter(&self) -> Iter<'_, K> {
        Iter(self.0.keys())
    }

    /// As [`ArtSet::range`].
    ///
    /// ```
    /// assert!(artmap::ArtSet::from([2, 1]).freeze().range(2..).eq(&[2]));
    /// ```
    ///
    /// # Panics
    ///
    /// As [`ArtMap::range`](crate::ArtMap::range).
    pub fn range<Q, R>(&self, range: R) -> Range<'_, K>
    where
        Q: Key + ?Sized,
        K: Borrow<Q>,
        R: RangeBounds<Q>,
    {
        Range(self.0.view().range(&range, SET))
    }

    /// As [`ArtSet::prefix`].
    ///
    /// ```
    /// assert!(artmap::ArtSet::from(["car", "dog"]).freeze().prefix("ca").eq(&["car"]));
    /// ```
    pub fn prefix<P: KeyPrefix<K> + ?Sized>(&self, prefix: &P) -> Prefix<'_, K> {
        Prefix(self.0.prefix(prefix))
    }

    /// As [`ArtSet::try_contains`].
    ///
    /// ```
    /// assert_eq!(artmap::ArtSet::from([1]).freeze().try_contains(&1), Ok(true));
    /// ```
    ///
    /// # Errors
    ///
    /// As there.
    pub fn try_contains<Q: Key + ?Sized>(&self, key: &Q) -> Result<bool, AllocError>
    where
        K: Borrow<Q>,
    {
        Ok(self.try_get(key)?.is_some())
    }

    /// As [`ArtSet::try_get`].
    ///
    /// ```
    /// assert_eq!(artmap::ArtSet::from([1]).freeze().try_get(&1), Ok(Some(&1)));
    /// ```
    ///
    /// # Errors
    ///
    /// As there.
    pub fn try_get<Q: Key + ?Sized>(&self, key: &Q) -> Result<Option<&K>, AllocError>
    where
        K: Borrow<Q>,
    {
        Ok(self.0.try_get_key_value(key)?.map(|pair| pair.0))
    }

    /// As [`ArtSet::try_prefix_get`].
    ///
    /// ```
    /// assert_eq!(artmap::ArtSet::from([[10u8, 1]]).freeze().try_prefix_get(&[10u8, 1, 7]), Ok(Some(&[10, 1])));
    /// ```
    ///
    /// # Errors
    ///
    /// As there.
    pub fn try_prefix_get<P: KeyPrefix<K> + ?Sized>(&self, query: &P) -> Result<Option<&K>, AllocError> {
        Ok(self.0.try_prefix_get_key_value(query)?.map(|pair| pair.0))
    }

    /// As [`ArtSet::try_range`].
    ///
    /// ```
    /// assert!(artmap::ArtSet::from([1, 2]).freeze().try_range(2..).is_ok_and(|keys| keys.eq(&[2])));
    /// ```
    ///
    /// # Errors
    ///
    /// As there.
    ///
    /// # Panics
    ///
    /// As there.
    pub fn try_range<Q, R>(&self, range: R) -> Result<Range<'_, K>, AllocError>
    where
        Q: Key + ?Sized,
        K: Borrow<Q>,
        R: RangeBounds<Q>,
    {
        self.0.view().try_range(&range, SET).map(Range)
    }

    /// As [`ArtSet::try_prefix`].
    ///
    /// ```
    /// assert!(artmap::ArtSet::from(["car", "dog"]).freeze().try_prefix("ca").is_ok_and(|keys| keys.eq(&["car"])));
    /// ```
    ///
    /// # Errors
    ///
    /// As there.
    pub fn try_prefix<P: KeyPrefix<K> + ?Sized>(&self, prefix: &P) -> Result<Prefix<'_, K>, AllocError> {
        self.0.try_prefix(prefix).map(Prefix)
    }
}

impl<K: Ordered> FrozenSet<K> {
    /// The keys of this set that are not in the other one, ascending.
    ///
    /// ```
    /// use artmap::ArtSet;
    ///
    /// assert!(ArtSet::from([1, 2]).freeze().difference(&ArtSet::from([2, 3]).freeze()).eq(&[1]));
    /// ```
    pub fn difference<'a>(&'a self, other: &'a FrozenSet<K>) -> Difference<'a, K> {
        Difference::new(self.iter(), other.iter())
    }

    /// The keys of one of the sets that are not in the other one, ascending.
    ///
    /// ```
    /// use artmap::ArtSet;
    ///
    /// assert!(ArtSet::from([1, 2]).freeze().symmetric_difference(&ArtSet::from([2, 3]).freeze()).eq(&[1, 3]));
    /// ```
    pub fn symmetric_difference<'a>(&'a self, other: &'a FrozenSet<K>) -> SymmetricDifference<'a, K> {
        SymmetricDifference::new(self.iter(), other.iter())
    }

    /// The keys of this set that are in the other one, too, ascending.
    ///
    /// ```
    /// use artmap::ArtSet;
    ///
    /// assert!(ArtSet::from([1, 2]).freeze().intersection(&ArtSet::from([2, 3]).freeze()).eq(&[2]));
    /// ```
    pub fn intersection<'a>(&'a self, other: &'a FrozenSet<K>) -> Intersection<'a, K> {
        Intersection::new(self.iter(), other.iter())
    }

    /// The keys of both sets, ascending; of two that are equal, that of this set.
    ///
    /// ```
    /// use artmap::ArtSet;
    ///
    /// assert!(ArtSet::from([1, 2]).freeze().union(&ArtSet::from([2, 3]).freeze()).eq(&[1, 2, 3]));
    /// ```
    pub fn union<'a>(&'a self, other: &'a FrozenSet<K>) -> Union<'a, K> {
        Union::new(self.iter(), other.iter())
    }

    /// Whether no key is in both.
    ///
    /// ```
    /// use artmap::ArtSet;
    ///
    /// assert!(ArtSet::from([1, 2]).freeze().is_disjoint(&ArtSet::from([3]).freeze()));
    /// ```
    #[must_use]
    pub fn is_disjoint(&self, other: &FrozenSet<K>) -> bool {
        self.intersection(other).next().is_none()
    }

    /// Whether all keys are in the other one, too.
    ///
    /// ```
    /// use artmap::ArtSet;
    ///
    /// assert!(ArtSet::from([1]).freeze().is_subset(&ArtSet::from([1, 2]).freeze()));
    /// ```
    #[must_use]
    pub fn is_subset(&self, other: &FrozenSet<K>) -> bool {
        self.len() <= other.len() && self.difference(other).next().is_none()
    }

    /// Whether all keys of the other one are here, too.
    ///
    /// ```
    /// use artmap::ArtSet;
    ///
    /// assert!(ArtSet::from([1, 2]).freeze().is_superset(&ArtSet::from([1]).freeze()));
    /// ```
    #[must_use]
    pub fn is_superset(&self, other: &FrozenSet<K>) -> bool {
        other.is_subset(self)
    }
}

impl<K> Clone for FrozenSet<K> {
    fn clone(&self) -> Self {
        FrozenSet(self.0.clone())
    }
}

impl<K: Key> From<ArtSet<K>> for FrozenSet<K> {
    fn from(set: ArtSet<K>) -> Self {
        set.freeze()
    }
}

impl<K: Key + fmt::Debug> fmt::Debug for FrozenSet<K> {
    fn fmt(&self, to: &mut fmt::Formatter<'_>) -> fmt::Result {
        to.debug_set().entries(self).finish()
    }
}

impl<K: Key + PartialEq> PartialEq for FrozenSet<K> {
    fn eq(&self, other: &Self) -> bool {
        self.0 == other.0
    }
}

impl<K: Key + Eq> Eq for FrozenSet<K> {}

impl<'a, K: Key> IntoIterator for &'a FrozenSet<K> {
    type Item = &'a K;
    type IntoIter = Iter<'a, K>;

    fn into_iter(self) -> Iter<'a, K> {
        self.iter()
    }
}

impl<K: Key + PartialOrd> PartialOrd for FrozenSet<K> {
    fn partial_cmp(&self, other: &Self) -> Option<Ordering> {
        self.iter().partial_cmp(other)
    }
}

impl<K: Key + Ord> Ord for FrozenSet<K> {
    fn cmp(&self, other: &Self) -> Ordering {
        self.iter().cmp(other)
    }
}

impl<K: Key + Hash> Hash for FrozenSet<K> {
    fn hash<H: Hasher>(&self, state: &mut H) {
        state.write_usize(self.len());
        for key in self {
            key.hash(state);
        }
    }
}

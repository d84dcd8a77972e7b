//! The keys of a set that begin a query.
use super::{ArtSet, FrozenSet};
use crate::error::{AllocError, or_end};
use crate::prefixes::Prefixes as MapPrefixes;
use crate::{Key, KeyPrefix};
use std::fmt;
use std::iter::FusedIterator;

/// The keys that begin a query, or equal it, the longest first. [`ArtSet::prefixes`](crate::ArtSet::prefixes) makes it.
///
/// ```
/// assert_eq!(artmap::ArtSet::from(["/", "/api"]).prefixes("/api/v1").count(), 2);
/// ```
#[must_use]
pub struct Prefixes<'a, K>(MapPrefixes<'a, K, ()>);

impl<'a, K: Key> Iterator for Prefixes<'a, K> {
    type Item = &'a K;

    fn next(&mut self) -> Option<&'a K> {
        Some(self.0.next()?.0)
    }
}

impl<K: Key> FusedIterator for Prefixes<'_, K> {}

impl<K> Clone for Prefixes<'_, K> {
    fn clone(&self) -> Self {
        Prefixes(self.0.clone())
    }
}

impl<K: Key + fmt::Debug> fmt::Debug for Prefixes<'_, K> {
    fn fmt(&self, to: &mut fmt::Formatter<'_>) -> fmt::Result {
        to.debug_list().entries(self.clone()).finish()
    }
}

impl<K: Key> ArtSet<K> {
    /// As [`ArtMap::prefixes`](crate::ArtMap::prefixes).
    ///
    /// ```
    /// assert!(artmap::ArtSet::from(["/", "/api", "/b"]).prefixes("/api/v1").eq(&["/api", "/"]));
    /// ```
    pub fn prefixes<P: KeyPrefix<K> + ?Sized>(&self, query: &P) -> Prefixes<'_, K> {
        or_end(self.try_prefixes(query))
    }

    /// As [`prefixes`](Self::prefixes).
    ///
    /// ```
    /// assert_eq!(artmap::ArtSet::from(["a"]).try_prefixes("ab").unwrap().count(), 1);
    /// ```
    ///
    /// # Errors
    ///
    /// As [`ArtMap::try_prefixes`](crate::ArtMap::try_prefixes).
    pub fn try_prefixes<P: KeyPrefix<K> + ?Sized>(&self, query: &P) -> Result<Prefixes<'_, K>, AllocError> {
        self.map.try_prefixes(query).map(Prefixes)
    }
}

impl<K: Key> FrozenSet<K> {
    /// As [`ArtSet::prefixes`].
    ///
    /// ```
    /// assert_eq!(artmap::ArtSet::from(["a"]).freeze().prefixes("ab").next(), Some(&"a"));
    /// ```
    pub fn prefixes<P: KeyPrefix<K> + ?Sized>(&self, query: &P) -> Prefixes<'_, K> {
        or_end(self.try_prefixes(query))
    }

    /// As [`ArtSet::try_prefixes`].
    ///
    /// ```
    /// assert_eq!(artmap::ArtSet::from(["a"]).freeze().try_prefixes("ab").unwrap().count(), 1);
    /// ```
    ///
    /// # Errors
    ///
    /// As there.
    pub fn try_prefixes<P: KeyPrefix<K> + ?Sized>(&self, query: &P) -> Result<Prefixes<'_, K>, AllocError> {
        self.0.try_prefixes(query).map(Prefixes)
    }
}

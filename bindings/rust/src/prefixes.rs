//! The keys that begin a query.
use crate::error::{AllocError, or_end};
use crate::key::sealed::Sealed;
use crate::map::ArtMap;
use crate::room::Room;
use crate::view::{Reads, View, index_of};
use crate::{FrozenMap, Key, KeyPrefix};
use std::fmt;
use std::iter::FusedIterator;

/// The word of the longest key that begins a query, or equals it, but for its end mark if it has one; and how many bytes
/// of the query it has.
pub(crate) fn longest<K: Key>(words: &impl Reads, query: &[u8]) -> Option<(usize, u64)> {
    if K::has_end(Sealed) {
        return words.call(|words| words.find_marked(query)).map(|(len, word)| (len - 1, word));
    }
    words.call(|words| words.find_len(query))
}

/// The pairs whose keys begin a query, or equal it, the longest first. [`ArtMap::prefixes`] makes it.
///
/// ```
/// let map = artmap::ArtMap::from([("/", 1), ("/api", 2)]);
/// assert_eq!(map.prefixes("/api/v1").count(), 2);
/// ```
#[must_use]
pub struct Prefixes<'a, K, V> {
    view: View<'a, K, V>,
    query: Room,
    /// How many bytes of the query the others begin at most.
    left: Option<usize>,
}

impl<'a, K: Key, V> Prefixes<'a, K, V> {
    fn new<P: KeyPrefix<K> + ?Sized>(view: View<'a, K, V>, query: &P) -> Result<Self, AllocError> {
        let query = Room::of(query.to_prefix()?.as_ref())?;
        Ok(Prefixes { view, left: Some(query.bytes().len()), query })
    }
}

impl<'a, K: Key, V> Iterator for Prefixes<'a, K, V> {
    type Item = (&'a K, &'a V);

    fn next(&mut self) -> Option<(&'a K, &'a V)> {
        let (slab, query) = (self.view.slab, &self.query.bytes()[..self.left?]);
        let found = longest::<K>(&self.view.words, query);
        self.left = found.and_then(|(len, _)| if K::has_end(Sealed) { len.checked_sub(1) } else { None });
        found.map(|(_, word)| slab.pair(index_of(word)))
    }
}

impl<K: Key, V> FusedIterator for Prefixes<'_, K, V> {}

impl<K, V> Clone for Prefixes<'_, K, V> {
    fn clone(&self) -> Self {
        Prefixes { view: self.view, query: self.query.clone(), left: self.left }
    }
}

impl<K: Key + fmt::Debug, V: fmt::Debug> fmt::Debug for Prefixes<'_, K, V> {
    fn fmt(&self, to: &mut fmt::Formatter<'_>) -> fmt::Result {
        to.debug_list().entries(self.clone()).finish()
    }
}

impl<K: Key, V> ArtMap<K, V> {
    /// The pairs whose keys begin a query, or equal it, the longest first. It looks again for each. Of keys without an end
    /// mark, which texts and `Ended` ones have, there is one at most.
    ///
    /// ```
    /// let routes = artmap::ArtMap::from([("/", "home"), ("/api", "calls"), ("/api/v1", "old")]);
    /// assert!(routes.prefixes("/api/v2").eq([(&"/api", &"calls"), (&"/", &"home")]));
    /// ```
    pub fn prefixes<P: KeyPrefix<K> + ?Sized>(&self, query: &P) -> Prefixes<'_, K, V> {
        or_end(self.try_prefixes(query))
    }

    /// As [`prefixes`](Self::prefixes).
    ///
    /// ```
    /// assert_eq!(artmap::ArtMap::from([("a", 1)]).try_prefixes("ab").unwrap().count(), 1);
    /// ```
    ///
    /// # Errors
    ///
    /// Where there is no memory for the bytes of the query.
    pub fn try_prefixes<P: KeyPrefix<K> + ?Sized>(&self, query: &P) -> Result<Prefixes<'_, K, V>, AllocError> {
        Prefixes::new(self.view(), query)
    }
}

impl<K: Key, V> FrozenMap<K, V> {
    /// As [`ArtMap::prefixes`].
    ///
    /// ```
    /// assert_eq!(artmap::ArtMap::from([("a", 1)]).freeze().prefixes("ab").next(), Some((&"a", &1)));
    /// ```
    pub fn prefixes<P: KeyPrefix<K> + ?Sized>(&self, query: &P) -> Prefixes<'_, K, V> {
        or_end(self.try_prefixes(query))
    }

    /// As [`ArtMap::try_prefixes`].
    ///
    /// ```
    /// assert_eq!(artmap::ArtMap::from([("a", 1)]).freeze().try_prefixes("ab").unwrap().count(), 1);
    /// ```
    ///
    /// # Errors
    ///
    /// As there.
    pub fn try_prefixes<P: KeyPrefix<K> + ?Sized>(&self, query: &P) -> Result<Prefixes<'_, K, V>, AllocError> {
        Prefixes::new(self.view(), query)
    }
}

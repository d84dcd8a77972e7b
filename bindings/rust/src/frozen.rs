//! Maps that nobody changes, for readers in many threads.
use crate::error::{AllocError, or_end};
use crate::ffi::Words;
use crate::iter::{Iter, IterBytes, Keys, Prefix, Range, Values};
use crate::map::ArtMap;
use crate::pool::Pool;
use crate::slab::Slab;
use crate::view::{MAP, Reader, View};
use crate::walk::Way;
use crate::{Key, KeyPrefix};
use std::borrow::Borrow;
use std::cmp::Ordering;
use std::fmt;
use std::hash::{Hash, Hasher};
use std::ops::{Index, RangeBounds};
use std::sync::Arc;

/// A map that nobody changes. A clone has the same pairs, for another thread.
///
/// [`ArtMap::freeze`] makes it, and [`thaw`](Self::thaw) gives the map back.
///
/// ```
/// use artmap::ArtMap;
/// use std::thread;
///
/// let frozen = ArtMap::from([("a", 1), ("b", 2)]).freeze();
/// let readers = ["a", "b"].map(|key| {
///     let mine = frozen.clone();
///     thread::spawn(move || mine[key])
/// });
/// assert_eq!(readers.map(|it| it.join().unwrap()), [1, 2]);
/// let mut map = frozen.thaw().unwrap();
/// map.insert("c", 3);
/// ```
///
/// Many threads may read one of them, too: it is `Sync`, and stands in a `static` or an `RwLock`. A handle of the library has
/// one call at a time, so up to nine handles are kept, and a call takes one that is free:
///
/// ```
/// use artmap::{ArtMap, FrozenMap};
/// use std::sync::LazyLock;
/// use std::thread;
///
/// static NAMES: LazyLock<FrozenMap<&str, u32>> = LazyLock::new(|| ArtMap::from([("a", 1)]).freeze());
///
/// assert_eq!(thread::spawn(|| NAMES.get("a")).join().unwrap(), Some(&1));
/// ```
pub struct FrozenMap<K, V>(Arc<Frozen<K, V>>);

/// What all clones have.
struct Frozen<K, V> {
    pool: Pool,
    slab: Slab<K, V>,
}

impl<K: Key, V> ArtMap<K, V> {
    /// Makes it a map that nobody changes, for readers in many threads. Its pairs and nodes are put in the order of the keys
    /// first, as by [`compact`](Self::compact), where there is memory for that. It has no form with `try_`, since std's `Arc`
    /// has no such one.
    ///
    /// ```
    /// let frozen = artmap::ArtMap::from([(1, 'a')]).freeze();
    /// assert_eq!(frozen.get(&1), Some(&'a'));
    /// ```
    #[must_use]
    pub fn freeze(mut self) -> FrozenMap<K, V> {
        self.lay_out();
        or_end(self.words.freeze());
        FrozenMap::of(self.words, self.slab)
    }

    /// A copy that nobody changes, in one pass: a snapshot for readers, beside which this map goes on. Its pairs and nodes are
    /// in the order of the keys. It takes time by the pairs, as a clone does.
    ///
    /// ```
    /// let mut map = artmap::ArtMap::from([(1, 'a')]);
    /// let frozen = map.freeze_clone();
    /// map.insert(2, 'b');
    /// assert_eq!((frozen.len(), map.len()), (1, 2));
    /// ```
    #[must_use]
    pub fn freeze_clone(&self) -> FrozenMap<K, V>
    where
        K: Clone,
        V: Clone,
    {
        let mut made = or_end(self.try_copied());
        or_end(made.words.freeze());
        FrozenMap::of(made.words, made.slab)
    }
}

impl<K, V> FrozenMap<K, V> {
    /// The map, which may be changed again.
    ///
    /// ```
    /// let frozen = artmap::ArtMap::from([(1, 'a')]).freeze();
    /// let other = frozen.clone();
    /// let frozen = frozen.thaw().unwrap_err();
    /// drop(other);
    /// assert_eq!(frozen.thaw().unwrap().remove(&1), Some('a'));
    /// ```
    ///
    /// # Errors
    ///
    /// Where there is another clone. This one is handed back.
    pub fn thaw(self) -> Result<ArtMap<K, V>, Self> {
        let Frozen { pool, slab } = Arc::try_unwrap(self.0).map_err(FrozenMap)?;
        let mut words = pool.into_words();
        if words.thaw() { Ok(ArtMap { words, slab }) } else { Err(FrozenMap::of(words, slab)) }
    }

    fn of(words: Words, slab: Slab<K, V>) -> Self {
        FrozenMap(Arc::new(Frozen { pool: Pool::new(words), slab }))
    }

    /// Another one of the same pairs. It needs no memory.
    ///
    /// ```
    /// let frozen = artmap::ArtMap::from([(1, 'a')]).freeze();
    /// assert_eq!(frozen.try_clone().unwrap(), frozen);
    /// ```
    ///
    /// # Errors
    ///
    /// Never.
    pub fn try_clone(&self) -> Result<Self, AllocError> {
        Ok(self.clone())
    }

    /// How many pairs there are.
    ///
    /// ```
    /// assert_eq!(artmap::ArtMap::from([(1, 'a')]).freeze().len(), 1);
    /// ```
    #[must_use]
    pub fn len(&self) -> usize {
        self.0.slab.len()
    }

    /// Whether there is no pair.
    ///
    /// ```
    /// assert!(!artmap::ArtMap::from([(1, 'a')]).freeze().is_empty());
    /// ```
    #[must_use]
    pub fn is_empty(&self) -> bool {
        self.len() == 0
    }

    pub(crate) fn view(&self) -> View<'_, K, V> {
        View { words: Reader::Many(&self.0.pool), slab: &self.0.slab }
    }
}

impl<K: Key, V> FrozenMap<K, V> {
    /// As [`ArtMap::get`].
    ///
    /// ```
    /// assert_eq!(artmap::ArtMap::from([("a", 1)]).freeze().get("a"), Some(&1));
    /// ```
    pub fn get<Q: Key + ?Sized>(&self, key: &Q) -> Option<&V>
    where
        K: Borrow<Q>,
    {
        Some(self.view().get(key)?.1)
    }

    /// As [`ArtMap::get_key_value`].
    ///
    /// ```
    /// assert_eq!(artmap::ArtMap::from([(1, 'a')]).freeze().get_key_value(&1), Some((&1, &'a')));
    /// ```
    pub fn get_key_value<Q: Key + ?Sized>(&self, key: &Q) -> Option<(&K, &V)>
    where
        K: Borrow<Q>,
    {
        self.view().get(key)
    }

    /// As [`ArtMap::contains_key`].
    ///
    /// ```
    /// assert!(artmap::ArtMap::from([(1, 'a')]).freeze().contains_key(&1));
    /// ```
    pub fn contains_key<Q: Key + ?Sized>(&self, key: &Q) -> bool
    where
        K: Borrow<Q>,
    {
        self.view().get(key).is_some()
    }

    /// As [`ArtMap::prefix_get`].
    ///
    /// ```
    /// let routes = artmap::ArtMap::from([([10u8, 1], "office")]).freeze();
    /// assert_eq!(routes.prefix_get(&[10u8, 1, 0, 9]), Some(&"office"));
    /// ```
    pub fn prefix_get<P: KeyPrefix<K> + ?Sized>(&self, query: &P) -> Option<&V> {
        Some(self.view().prefix_get(query)?.1)
    }

    /// As [`ArtMap::prefix_get_key_value`].
    ///
    /// ```
    /// let routes = artmap::ArtMap::from([([10u8, 1], "office")]).freeze();
    /// assert_eq!(routes.prefix_get_key_value(&[10u8, 1, 7]), Some((&[10, 1], &"office")));
    /// ```
    pub fn prefix_get_key_value<P: KeyPrefix<K> + ?Sized>(&self, query: &P) -> Option<(&K, &V)> {
        self.view().prefix_get(query)
    }

    /// As [`ArtMap::first_key_value`].
    ///
    /// ```
    /// assert_eq!(artmap::ArtMap::from([(1, 'a'), (2, 'b')]).freeze().first_key_value(), Some((&1, &'a')));
    /// ```
    #[must_use]
    pub fn first_key_value(&self) -> Option<(&K, &V)> {
        self.view().end(Way::Up)
    }

    /// As [`ArtMap::last_key_value`].
    ///
    /// ```
    /// assert_eq!(artmap::ArtMap::from([(1, 'a'), (2, 'b')]).freeze().last_key_value(), Some((&2, &'b')));
    /// ```
    #[must_use]
    pub fn last_key_value(&self) -> Option<(&K, &V)> {
        self.view().end(Way::Down)
    }

    /// As [`ArtMap::iter`].
    ///
    /// ```
    /// assert_eq!(artmap::ArtMap::from([(1, 'a')]).freeze().iter().next_back(), Some((&1, &'a')));
    /// ```
    pub fn iter(&self) -> Iter<'_, K, V> {
        self.view().iter()
    }

    /// As [`ArtMap::iter_bytes`].
    ///
    /// ```
    /// assert_eq!(artmap::ArtMap::from([(1u8, 'a')]).freeze().iter_bytes().next(), Some(([1], &'a')));
    /// ```
    pub fn iter_bytes(&self) -> IterBytes<'_, K, V> {
        IterBytes(self.iter())
    }

    /// As [`ArtMap::keys`].
    ///
    /// ```
    /// assert!(artmap::ArtMap::from([(1, 'a')]).freeze().keys().eq(&[1]));
    /// ```
    pub fn keys(&self) -> Keys<'_, K, V> {
        Keys(self.iter())
    }

    /// As [`ArtMap::values`].
    ///
    /// ```
    /// assert!(artmap::ArtMap::from([(1, 'a')]).freeze().values().eq(&['a']));
    /// ```
    pub fn values(&self) -> Values<'_, K, V> {
        Values(self.iter())
    }

    /// As [`ArtMap::range`].
    ///
    /// ```
    /// assert_eq!(artmap::ArtMap::from([(1, 'a'), (2, 'b')]).freeze().range(2..).count(), 1);
    /// ```
    ///
    /// # Panics
    ///
    /// As [`ArtMap::range`].
    pub fn range<Q, R>(&self, range: R) -> Range<'_, K, V>
    where
        Q: Key + ?Sized,
        K: Borrow<Q>,
        R: RangeBounds<Q>,
    {
        self.view().range(&range, MAP)
    }

    /// As [`ArtMap::prefix`].
    ///
    /// ```
    /// assert_eq!(artmap::ArtMap::from([("car", 1), ("dog", 2)]).freeze().prefix("ca").count(), 1);
    /// ```
    pub fn prefix<P: KeyPrefix<K> + ?Sized>(&self, prefix: &P) -> Prefix<'_, K, V> {
        self.view().prefix(prefix)
    }

    /// As [`ArtMap::try_get`].
    ///
    /// ```
    /// assert_eq!(artmap::ArtMap::from([(1, 'a')]).freeze().try_get(&1), Ok(Some(&'a')));
    /// ```
    ///
    /// # Errors
    ///
    /// As there.
    pub fn try_get<Q: Key + ?Sized>(&self, key: &Q) -> Result<Option<&V>, AllocError>
    where
        K: Borrow<Q>,
    {
        Ok(self.view().try_get(key)?.map(|pair| pair.1))
    }

    /// As [`ArtMap::try_get_key_value`].
    ///
    /// ```
    /// assert_eq!(artmap::ArtMap::from([(1, 'a')]).freeze().try_get_key_value(&1), Ok(Some((&1, &'a'))));
    /// ```
    ///
    /// # Errors
    ///
    /// As there.
    pub fn try_get_key_value<Q: Key + ?Sized>(&self, key: &Q) -> Result<Option<(&K, &V)>, AllocError>
    where
        K: Borrow<Q>,
    {
        self.view().try_get(key)
    }

    /// As [`ArtMap::try_contains_key`].
    ///
    /// ```
    /// assert_eq!(artmap::ArtMap::from([(1, 'a')]).freeze().try_contains_key(&1), Ok(true));
    /// ```
    ///
    /// # Errors
    ///
    /// As there.
    pub fn try_contains_key<Q: Key + ?Sized>(&self, key: &Q) -> Result<bool, AllocError>
    where
        K: Borrow<Q>,
    {
        Ok(self.view().try_get(key)?.is_some())
    }

    /// As [`ArtMap::try_prefix_get`].
    ///
    /// ```
    /// assert_eq!(artmap::ArtMap::from([([10u8, 1], 'a')]).freeze().try_prefix_get(&[10u8, 1, 7]), Ok(Some(&'a')));
    /// ```
    ///
    /// # Errors
    ///
    /// As there.
    pub fn try_prefix_get<P: KeyPrefix<K> + ?Sized>(&self, query: &P) -> Result<Option<&V>, AllocError> {
        Ok(self.view().try_prefix_get(query)?.map(|pair| pair.1))
    }

    /// As [`ArtMap::try_prefix_get_key_value`].
    ///
    /// ```
    /// let routes = artmap::ArtMap::from([([10u8, 1], 'a')]).freeze();
    /// assert_eq!(routes.try_prefix_get_key_value(&[10u8, 1, 7]), Ok(Some((&[10, 1], &'a'))));
    /// ```
    ///
    /// # Errors
    ///
    /// As there.
    pub fn try_prefix_get_key_value<P: KeyPrefix<K> + ?Sized>(
        &self,
        query: &P,
    ) -> Result<Option<(&K, &V)>, AllocError> {
        self.view().try_prefix_get(query)
    }

    /// As [`ArtMap::try_range`].
    ///
    /// ```
    /// assert_eq!(artmap::ArtMap::from([(1, 'a'), (2, 'b')]).freeze().try_range(2..).map(|pairs| pairs.count()), Ok(1));
    /// ```
    ///
    /// # Errors
    ///
    /// As there.
    ///
    /// # Panics
    ///
    /// As there.
    pub fn try_range<Q, R>(&self, range: R) -> Result<Range<'_, K, V>, AllocError>
    where
        Q: Key + ?Sized,
        K: Borrow<Q>,
        R: RangeBounds<Q>,
    {
        self.view().try_range(&range, MAP)
    }

    /// As [`ArtMap::try_prefix`].
    ///
    /// ```
    /// let words = artmap::ArtMap::from([("car", 1), ("dog", 2)]).freeze();
    /// assert_eq!(words.try_prefix("ca").map(|pairs| pairs.count()), Ok(1));
    /// ```
    ///
    /// # Errors
    ///
    /// As there.
    pub fn try_prefix<P: KeyPrefix<K> + ?Sized>(&self, prefix: &P) -> Result<Prefix<'_, K, V>, AllocError> {
        self.view().try_prefix(prefix)
    }
}

impl<K, V> Clone for FrozenMap<K, V> {
    fn clone(&self) -> Self {
        FrozenMap(Arc::clone(&self.0))
    }
}

impl<K: Key, V> From<ArtMap<K, V>> for FrozenMap<K, V> {
    fn from(map: ArtMap<K, V>) -> Self {
        map.freeze()
    }
}

impl<K: Key + fmt::Debug, V: fmt::Debug> fmt::Debug for FrozenMap<K, V> {
    fn fmt(&self, to: &mut fmt::Formatter<'_>) -> fmt::Result {
        to.debug_map().entries(self).finish()
    }
}

impl<K: Key + PartialEq, V: PartialEq> PartialEq for FrozenMap<K, V> {
    fn eq(&self, other: &Self) -> bool {
        self.len() == other.len() && self.iter().eq(other)
    }
}

impl<K: Key + Eq, V: Eq> Eq for FrozenMap<K, V> {}

impl<K: Key + PartialOrd, V: PartialOrd> PartialOrd for FrozenMap<K, V> {
    fn partial_cmp(&self, other: &Self) -> Option<Ordering> {
        self.iter().partial_cmp(other)
    }
}

impl<K: Key + Ord, V: Ord> Ord for FrozenMap<K, V> {
    fn cmp(&self, other: &Self) -> Ordering {
        self.iter().cmp(other)
    }
}

impl<K: Key + Hash, V: Hash> Hash for FrozenMap<K, V> {
    fn hash<H: Hasher>(&self, state: &mut H) {
        state.write_usize(self.len());
        for pair in self {
            pair.hash(state);
        }
    }
}

/// Panics where the key is not there.
impl<K: Key + Borrow<Q>, Q: Key + ?Sized, V> Index<&Q> for FrozenMap<K, V> {
    type Output = V;

    fn index(&self, key: &Q) -> &V {
        self.get(key).expect("no entry found for key")
    }
}

impl<'a, K: Key, V> IntoIterator for &'a FrozenMap<K, V> {
    type Item = (&'a K, &'a V);
    type IntoIter = Iter<'a, K, V>;

    fn into_iter(self) -> Iter<'a, K, V> {
        self.iter()
    }
}

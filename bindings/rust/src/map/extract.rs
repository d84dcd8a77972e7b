//! Pairs that are taken out where a closure says so.
use crate::Key;
use crate::error::{AllocError, or_end};
use crate::map::ArtMap;
use crate::view::between_if_any;
use crate::walk::{All, Between, Limits, Walk, Way};
use std::fmt;
use std::iter::FusedIterator;
use std::ops::RangeBounds;

/// Which pairs go.
pub(crate) trait Goes<K, V> {
    fn goes(&mut self, key: &K, value: &mut V) -> bool;
}

/// Those of which a closure says so.
struct Said<F>(F);

impl<K, V, F: FnMut(&K, &mut V) -> bool> Goes<K, V> for Said<F> {
    fn goes(&mut self, key: &K, value: &mut V) -> bool {
        self.0(key, value)
    }
}

/// What is left to be looked at.
pub(crate) struct Extraction<'a, K, V, F, L> {
    map: &'a mut ArtMap<K, V>,
    /// None where no key can lie between the bounds; an error where there was no memory for them.
    walk: Result<Option<Walk<L>>, AllocError>,
    goes: F,
    is_done: bool,
}

impl<K: Key, V, F: Goes<K, V>, L: Limits> Extraction<'_, K, V, F, L> {
    pub(crate) fn step(&mut self) -> Option<Result<(K, V), AllocError>> {
        if self.is_done {
            return None;
        }
        let found = self.next_that_goes().transpose();
        self.is_done = !matches!(found, Some(Ok(_)));
        found
    }

    fn next_that_goes(&mut self) -> Result<Option<(K, V)>, AllocError> {
        let Some(walk) = self.walk.as_mut().map_err(|why| *why)? else { return Ok(None) };
        let ArtMap { words, slab } = &mut *self.map;
        while let Some(index) = walk.next_of(&*words, Way::Up, slab, false)? {
            let (key, value) = slab.pair_mut(index);
            if self.goes.goes(key, value) {
                // (after the pair the walk finds no way once its key has gone)
                walk.settle(&*words, Way::Up, |index| slab.pair(index).0)?;
                return self.map.take_at(index).map(Some);
            }
        }
        Ok(None)
    }

    /// How many are left at most.
    pub(crate) fn most(&self) -> usize {
        self.map.len()
    }
}

/// The pairs that a closure says are to go. [`ArtMap::extract_if`] makes it.
///
/// ```
/// let mut map = artmap::ArtMap::from([(1, 'a'), (2, 'b'), (3, 'c')]);
/// let odd: Vec<_> = map.extract_if(.., |key, _| key % 2 == 1).collect();
/// assert_eq!((odd, map.len()), (vec![(1, 'a'), (3, 'c')], 1));
/// ```
#[must_use = "iterators are lazy and do nothing unless consumed; `retain` drops what goes"]
pub struct ExtractIf<'a, K, V, F>(Extraction<'a, K, V, Said<F>, Between>);

/// The pairs that a closure says are to go, or that there is no memory to take them out. [`ArtMap::try_extract_if`] makes
/// it.
///
/// ```
/// let mut map = artmap::ArtMap::from([(1, 'a'), (2, 'b')]);
/// assert!(map.try_extract_if(.., |key, _| *key == 1).eq([Ok((1, 'a'))]));
/// ```
#[must_use = "iterators are lazy and do nothing unless consumed"]
pub struct TryExtractIf<'a, K, V, F>(Extraction<'a, K, V, Said<F>, Between>);

impl<K: Key, V, F: FnMut(&K, &mut V) -> bool> Iterator for ExtractIf<'_, K, V, F> {
    type Item = (K, V);

    fn next(&mut self) -> Option<(K, V)> {
        self.0.step().map(or_end)
    }

    fn size_hint(&self) -> (usize, Option<usize>) {
        (0, Some(self.0.most()))
    }
}

impl<K: Key, V, F: FnMut(&K, &mut V) -> bool> FusedIterator for ExtractIf<'_, K, V, F> {}

impl<K: Key, V, F: FnMut(&K, &mut V) -> bool> Iterator for TryExtractIf<'_, K, V, F> {
    type Item = Result<(K, V), AllocError>;

    fn next(&mut self) -> Option<Self::Item> {
        self.0.step()
    }

    fn size_hint(&self) -> (usize, Option<usize>) {
        (0, Some(self.0.most()))
    }
}

impl<K: Key, V, F: FnMut(&K, &mut V) -> bool> FusedIterator for TryExtractIf<'_, K, V, F> {}

impl<K, V, F> fmt::Debug for ExtractIf<'_, K, V, F> {
    fn fmt(&self, to: &mut fmt::Formatter<'_>) -> fmt::Result {
        to.debug_struct("ExtractIf").finish_non_exhaustive()
    }
}

impl<K: Key, V> ArtMap<K, V> {
    /// Takes out, one by one as they are asked for, the pairs of a range of which a closure says that they go. It may
    /// change the values of the others. Those that were not asked for stay. As in std the bounds are keys, and where they
    /// cross no pair goes.
    ///
    /// ```
    /// let mut map: artmap::ArtMap<_, _> = (0..8).map(|it| (it, it)).collect();
    /// assert!(map.extract_if(2..6, |key, _| key % 2 == 0).eq([(2, 2), (4, 4)]));
    /// assert!(map.into_keys().eq([0, 1, 3, 5, 6, 7]));
    /// ```
    pub fn extract_if<F, R>(&mut self, range: R, goes: F) -> ExtractIf<'_, K, V, F>
    where
        R: RangeBounds<K>,
        F: FnMut(&K, &mut V) -> bool,
    {
        ExtractIf(self.try_extract_if(range, goes).0)
    }

    /// As [`extract_if`](Self::extract_if). Where memory lacks, an item is an error, and the last one: the pair stays, with
    /// its value as the closure left it. Where it lacks for the bytes of a bound, that is the only item.
    ///
    /// ```
    /// let mut map = artmap::ArtMap::from([(1, 'a'), (2, 'b')]);
    /// let gone: Result<Vec<_>, _> = map.try_extract_if(.., |_, value| *value == 'b').collect();
    /// assert_eq!(gone, Ok(vec![(2, 'b')]));
    /// ```
    pub fn try_extract_if<F, R>(&mut self, range: R, goes: F) -> TryExtractIf<'_, K, V, F>
    where
        R: RangeBounds<K>,
        F: FnMut(&K, &mut V) -> bool,
    {
        TryExtractIf(self.extraction(&range, Said(goes)))
    }

    pub(crate) fn extraction<R, F>(&mut self, range: &R, goes: F) -> Extraction<'_, K, V, F, Between>
    where
        R: RangeBounds<K>,
    {
        let walk = between_if_any(range).map(|found| found.map(Walk::new));
        Extraction { map: self, walk, goes, is_done: false }
    }

    /// Keeps those pairs of which a closure says so, with the values as it leaves them.
    ///
    /// ```
    /// let mut map: artmap::ArtMap<_, _> = (0..6).map(|it| (it, it)).collect();
    /// map.retain(|key, value| {
    ///     *value *= 10;
    ///     key % 2 == 0
    /// });
    /// assert!(map.into_iter().eq([(0, 0), (2, 20), (4, 40)]));
    /// ```
    pub fn retain<F: FnMut(&K, &mut V) -> bool>(&mut self, keep: F) {
        or_end(self.try_retain(keep));
    }

    /// As [`retain`](Self::retain).
    ///
    /// ```
    /// let mut map = artmap::ArtMap::from([(1, 'a'), (2, 'b')]);
    /// assert_eq!(map.try_retain(|key, _| *key == 1), Ok(()));
    /// ```
    ///
    /// # Errors
    ///
    /// Where memory lacks. Those passed are done; that pair stays, with its value as the closure left it, and those after
    /// it are as they were.
    pub fn try_retain<F: FnMut(&K, &mut V) -> bool>(&mut self, mut keep: F) -> Result<(), AllocError> {
        let goes = Said(|key: &K, value: &mut V| !keep(key, value));
        let mut rest = Extraction { map: self, walk: Ok(Some(Walk::new(All))), goes, is_done: false };
        while let Some(taken) = rest.step() {
            drop(taken?);
        }
        Ok(())
    }
}

//! Walks over a set.
use crate::Key;
use crate::error::{AllocError, or_end};
use crate::iter::{Keys, Prefix as MapPrefix, Range as MapRange};
use crate::map::{Extraction, Goes};
use crate::owned::IntoKeys;
use crate::walk::Between;
use std::fmt;
use std::iter::FusedIterator;

/// The keys of a set in ascending order, from both ends. [`ArtSet::iter`](crate::ArtSet::iter) makes it.
///
/// ```
/// assert_eq!(artmap::ArtSet::from([2, 1]).iter().len(), 2);
/// ```
#[must_use]
pub struct Iter<'a, K>(pub(crate) Keys<'a, K, ()>);

/// The keys between two bounds. [`ArtSet::range`](crate::ArtSet::range) makes it.
///
/// ```
/// assert_eq!(artmap::ArtSet::from([2, 1]).range(..2).next_back(), Some(&1));
/// ```
#[must_use]
pub struct Range<'a, K>(pub(crate) MapRange<'a, K, ()>);

/// The keys that begin with a prefix. [`ArtSet::prefix`](crate::ArtSet::prefix) makes it.
///
/// ```
/// assert_eq!(artmap::ArtSet::from(["a", "b"]).prefix("b").next(), Some(&"b"));
/// ```
#[must_use]
pub struct Prefix<'a, K>(pub(crate) MapPrefix<'a, K, ()>);

/// The keys of a set that is consumed. `into_iter` makes it.
///
/// ```
/// assert!(artmap::ArtSet::from([2, 1]).into_iter().eq([1, 2]));
/// ```
pub struct IntoIter<K>(pub(crate) IntoKeys<K, ()>);

/// The keys that a closure says are to go. [`ArtSet::extract_if`](crate::ArtSet::extract_if) makes it.
///
/// ```
/// assert!(artmap::ArtSet::from([2, 1]).extract_if(.., |key| *key == 2).eq([2]));
/// ```
#[must_use = "iterators are lazy and do nothing unless consumed; `retain` drops what goes"]
pub struct ExtractIf<'a, K, F>(pub(crate) Extraction<'a, K, (), OfKeys<F>, Between>);

/// The keys that a closure says are to go, or that there is no memory to take them out. [`ArtSet::try_extract_if`] makes it.
///
/// [`ArtSet::try_extract_if`]: crate::ArtSet::try_extract_if
///
/// ```
/// let mut set = artmap::ArtSet::from([1, 2]);
/// assert!(set.try_extract_if(.., |key| *key == 1).eq([Ok(1)]));
/// ```
#[must_use = "iterators are lazy and do nothing unless consumed"]
pub struct TryExtractIf<'a, K, F>(pub(crate) Extraction<'a, K, (), OfKeys<F>, Between>);

/// The keys of which a closure says so.
pub(crate) struct OfKeys<F>(pub(crate) F);

impl<K, F: FnMut(&K) -> bool> Goes<K, ()> for OfKeys<F> {
    fn goes(&mut self, key: &K, (): &mut ()) -> bool {
        self.0(key)
    }
}

macro_rules! walks {
    ($([$($of:tt)*] $walk:ty, $item:ty, $it:ident, $key:expr;)*) => {$(
        impl<$($of)* K: Key> Iterator for $walk {
            type Item = $item;

            #[inline]
            fn next(&mut self) -> Option<$item> {
                self.0.next().map(|$it| $key)
            }

            fn size_hint(&self) -> (usize, Option<usize>) {
                self.0.size_hint()
            }

            fn last(self) -> Option<$item> {
                self.0.last().map(|$it| $key)
            }

            fn fold<B, F: FnMut(B, $item) -> B>(self, all: B, mut call: F) -> B {
                self.0.fold(all, |all, $it| call(all, $key))
            }
        }

        impl<$($of)* K: Key> DoubleEndedIterator for $walk {
            #[inline]
            fn next_back(&mut self) -> Option<$item> {
                self.0.next_back().map(|$it| $key)
            }
        }

        impl<$($of)* K: Key> FusedIterator for $walk {}
    )*};
}

walks! {
    ['a,] Iter<'a, K>, &'a K, it, it;
    ['a,] Range<'a, K>, &'a K, it, it.0;
    ['a,] Prefix<'a, K>, &'a K, it, it.0;
    [] IntoIter<K>, K, it, it;
}

impl<K: Key> ExactSizeIterator for Iter<'_, K> {}

impl<K: Key> ExactSizeIterator for IntoIter<K> {}

impl<K: Key, F: FnMut(&K) -> bool> Iterator for ExtractIf<'_, K, F> {
    type Item = K;

    fn next(&mut self) -> Option<K> {
        Some(or_end(self.0.step()?).0)
    }

    fn size_hint(&self) -> (usize, Option<usize>) {
        (0, Some(self.0.most()))
    }
}

impl<K: Key, F: FnMut(&K) -> bool> FusedIterator for ExtractIf<'_, K, F> {}

impl<K: Key, F: FnMut(&K) -> bool> Iterator for TryExtractIf<'_, K, F> {
    type Item = Result<K, AllocError>;

    fn next(&mut self) -> Option<Self::Item> {
        Some(self.0.step()?.map(|pair| pair.0))
    }

    fn size_hint(&self) -> (usize, Option<usize>) {
        (0, Some(self.0.most()))
    }
}

impl<K: Key, F: FnMut(&K) -> bool> FusedIterator for TryExtractIf<'_, K, F> {}

macro_rules! copies {
    ($($of:ident)*) => {$(
        impl<K> Clone for $of<'_, K> {
            fn clone(&self) -> Self {
                $of(self.0.clone())
            }
        }

        impl<K: Key + fmt::Debug> fmt::Debug for $of<'_, K> {
            fn fmt(&self, to: &mut fmt::Formatter<'_>) -> fmt::Result {
                to.debug_list().entries(self.clone()).finish()
            }
        }
    )*};
}

copies! { Iter Range Prefix }

impl<K> Default for IntoIter<K> {
    fn default() -> Self {
        IntoIter(IntoKeys::default())
    }
}

impl<K: Key + fmt::Debug> fmt::Debug for IntoIter<K> {
    fn fmt(&self, to: &mut fmt::Formatter<'_>) -> fmt::Result {
        self.0.fmt(to)
    }
}

impl<K, F> fmt::Debug for ExtractIf<'_, K, F> {
    fn fmt(&self, to: &mut fmt::Formatter<'_>) -> fmt::Result {
        to.debug_struct("ExtractIf").finish_non_exhaustive()
    }
}

//! Walks over a map that lend its pairs.
use crate::Key;
use crate::error::or_end;
use crate::ffi::{From, To};
use crate::slab::Slot;
use crate::view::{Reader, Reads, View, index_of};
use crate::walk::{All, Between, Limits, Under, Walk, Way};
use std::fmt;
use std::iter::FusedIterator;
use std::slice;

/// Of slots in order those within some limits.
fn within<'a, K, V, L: Limits>(all: &'a [Slot<K, V>], words: Reader<'_>, limits: &L) -> &'a [Slot<K, V>] {
    let end = |way| match (limits.from(way), limits.to(way)) {
        // (each has its index as its word)
        (From::End, To::End | To::Key(_) | To::Before(_)) => {
            if way == Way::Up {
                Some(0)
            } else {
                all.len().checked_sub(1)
            }
        }
        (From::End, to) => {
            let mut word = [0];
            let (count, _) = words.call(|words| words.walk(way, From::End, to, &mut word));
            (count == 1).then(|| index_of(word[0]))
        }
        (from, _) => words.call(|words| words.near(way, from)).map(index_of),
    };
    match (end(Way::Up), end(Way::Down)) {
        // (where no pair is between two bounds, the last one is before the first)
        (Some(first), Some(last)) => all.get(first..=last).unwrap_or(&[]),
        _ => &[],
    }
}

/// What a walk over some keys holds.
pub(crate) struct Pairs<'a, K, V, L> {
    view: View<'a, K, V>,
    walk: Walk<L>,
    /// Where the slots are in order, those that are left.
    slots: Option<slice::Iter<'a, Slot<K, V>>>,
}

impl<K, V, L: Clone> Clone for Pairs<'_, K, V, L> {
    fn clone(&self) -> Self {
        Pairs { view: self.view, walk: self.walk.clone(), slots: self.slots.clone() }
    }
}

impl<'a, K: Key, V, L: Limits> Pairs<'a, K, V, L> {
    pub(crate) fn new(view: View<'a, K, V>, limits: L) -> Self {
        let slots = view.slab.in_order().map(|all| within(all, view.words, &limits).iter());
        Pairs { view, walk: Walk::new(limits), slots }
    }

    #[inline]
    fn step(&mut self, way: Way) -> Option<(&'a K, &'a V)> {
        if let Some(slots) = &mut self.slots {
            let slot = if way == Way::Up { slots.next() } else { slots.next_back() };
            return slot.and_then(Slot::pair);
        }
        let slab = self.view.slab;
        let index = or_end(self.walk.next_of(&self.view.words, way, slab, false))?;
        Some(slab.pair(index))
    }
}

impl<'a, K: Key, V, L: Limits> Pairs<'a, K, V, L> {
    /// Has a call take the pairs that are left, so many at most.
    fn fold<B>(mut self, mut most: usize, mut all: B, mut call: impl FnMut(B, (&'a K, &'a V)) -> B) -> B {
        if let Some(slots) = self.slots {
            return slots.filter_map(Slot::pair).take(most).fold(all, call);
        }
        while most > 0 {
            let words = self.walk.told();
            if words.is_empty() {
                let Some(pair) = self.step(Way::Up) else { break };
                all = call(all, pair);
                most -= 1;
            } else {
                let words = &words[..words.len().min(most)];
                all = self.view.slab.fold(words, all, &mut call);
                most -= words.len();
            }
        }
        all
    }
}

/// The pairs of a map in ascending order, from both ends. [`ArtMap::iter`](crate::ArtMap::iter) makes it.
///
/// ```
/// let map = artmap::ArtMap::from([(2, 'b'), (1, 'a')]);
/// let mut pairs = map.iter();
/// assert_eq!((pairs.len(), pairs.next_back(), pairs.next()), (2, Some((&2, &'b')), Some((&1, &'a'))));
/// ```
#[must_use]
pub struct Iter<'a, K, V> {
    pairs: Pairs<'a, K, V, All>,
    left: usize,
}

impl<'a, K: Key, V> Iter<'a, K, V> {
    pub(crate) fn new(view: View<'a, K, V>) -> Self {
        Iter { pairs: Pairs::new(view, All), left: view.slab.len() }
    }

    #[inline]
    fn step(&mut self, way: Way) -> Option<(&'a K, &'a V)> {
        if self.left == 0 {
            return None;
        }
        self.left -= 1;
        self.pairs.step(way)
    }
}

/// The pairs between two bounds, in ascending order, from both ends. [`ArtMap::range`](crate::ArtMap::range) makes it.
///
/// ```
/// let map = artmap::ArtMap::from([(2, 'b'), (1, 'a'), (3, 'c')]);
/// assert!(map.range(2..).eq([(&2, &'b'), (&3, &'c')]));
/// ```
#[must_use]
pub struct Range<'a, K, V>(Pairs<'a, K, V, Between>);

impl<'a, K: Key, V> Range<'a, K, V> {
    pub(crate) fn new(view: View<'a, K, V>, limits: Between) -> Self {
        Range(Pairs::new(view, limits))
    }

    #[inline]
    fn step(&mut self, way: Way) -> Option<(&'a K, &'a V)> {
        self.0.step(way)
    }
}

/// The pairs whose keys begin with a prefix, in ascending order, from both ends.
/// [`ArtMap::prefix`](crate::ArtMap::prefix) makes it.
///
/// ```
/// let map = artmap::ArtMap::from([("ab", 1), ("ac", 2), ("b", 3)]);
/// assert!(map.prefix("a").rev().eq([(&"ac", &2), (&"ab", &1)]));
/// ```
#[must_use]
pub struct Prefix<'a, K, V>(Pairs<'a, K, V, Under>);

impl<'a, K: Key, V> Prefix<'a, K, V> {
    pub(crate) fn new(view: View<'a, K, V>, prefix: Under) -> Self {
        Prefix(Pairs::new(view, prefix))
    }

    #[inline]
    fn step(&mut self, way: Way) -> Option<(&'a K, &'a V)> {
        self.0.step(way)
    }
}

/// The keys of a map in ascending order, from both ends. [`ArtMap::keys`](crate::ArtMap::keys) makes it.
///
/// ```
/// let map = artmap::ArtMap::from([(2, 'b'), (1, 'a')]);
/// assert!(map.keys().eq(&[1, 2]));
/// ```
#[must_use]
pub struct Keys<'a, K, V>(pub(crate) Iter<'a, K, V>);

impl<'a, K: Key, V> Keys<'a, K, V> {
    #[inline]
    fn step(&mut self, way: Way) -> Option<&'a K> {
        Some(self.0.step(way)?.0)
    }
}

/// The values of a map in the order of their keys, from both ends. [`ArtMap::values`](crate::ArtMap::values) makes it.
///
/// ```
/// let map = artmap::ArtMap::from([(2, 'b'), (1, 'a')]);
/// assert!(map.values().eq(&['a', 'b']));
/// ```
#[must_use]
pub struct Values<'a, K, V>(pub(crate) Iter<'a, K, V>);

impl<'a, K: Key, V> Values<'a, K, V> {
    #[inline]
    fn step(&mut self, way: Way) -> Option<&'a V> {
        Some(self.0.step(way)?.1)
    }
}

/// The pairs of a map with keys as bytes, in ascending order, from both ends.
/// [`ArtMap::iter_bytes`](crate::ArtMap::iter_bytes) makes it.
///
/// ```
/// let map = artmap::ArtMap::from([(258u16, 'b'), (1, 'a')]);
/// assert!(map.iter_bytes().eq([([0, 1], &'a'), ([1, 2], &'b')]));
/// ```
#[must_use]
pub struct IterBytes<'a, K, V>(pub(crate) Iter<'a, K, V>);

impl<'a, K: Key, V> IterBytes<'a, K, V> {
    #[inline]
    fn step(&mut self, way: Way) -> Option<(K::Bytes<'a>, &'a V)> {
        let (key, value) = self.0.step(way)?;
        Some((or_end(key.to_bytes()), value))
    }
}

impl<'a, K: Key, V> Iter<'a, K, V> {
    fn left(&self) -> usize {
        self.left
    }

    fn fold_pairs<B>(self, all: B, call: impl FnMut(B, (&'a K, &'a V)) -> B) -> B {
        self.pairs.fold(self.left, all, call)
    }
}

/// How many are left of a walk over a whole map, and a call that takes them.
macro_rules! left {
    ($($of:ident)*) => {$(
        impl<'a, K: Key, V> $of<'a, K, V> {
            fn left(&self) -> usize {
                self.0.left
            }

            fn fold_pairs<B>(self, all: B, call: impl FnMut(B, (&'a K, &'a V)) -> B) -> B {
                self.0.fold_pairs(all, call)
            }
        }
    )*};
}

left! { Keys Values IterBytes }

macro_rules! walks {
    ($($of:ident, $item:ty, $pair:ident, $made:expr;)*) => {$(
        impl<'a, K: Key, V> Iterator for $of<'a, K, V> {
            type Item = $item;

            #[inline]
            fn next(&mut self) -> Option<$item> {
                self.step(Way::Up)
            }

            fn size_hint(&self) -> (usize, Option<usize>) {
                (self.left(), Some(self.left()))
            }

            fn count(self) -> usize {
                self.left()
            }

            fn last(mut self) -> Option<$item> {
                self.step(Way::Down)
            }

            fn fold<B, F: FnMut(B, $item) -> B>(self, all: B, mut call: F) -> B {
                self.fold_pairs(all, |all, $pair| call(all, $made))
            }
        }

        impl<K: Key, V> DoubleEndedIterator for $of<'_, K, V> {
            #[inline]
            fn next_back(&mut self) -> Option<Self::Item> {
                self.step(Way::Down)
            }
        }

        impl<K: Key, V> ExactSizeIterator for $of<'_, K, V> {}

        impl<K: Key, V> FusedIterator for $of<'_, K, V> {}
    )*};
}

walks! {
    Iter, (&'a K, &'a V), pair, pair;
    Keys, &'a K, pair, pair.0;
    Values, &'a V, pair, pair.1;
    IterBytes, (K::Bytes<'a>, &'a V), pair, (or_end(pair.0.to_bytes()), pair.1);
}

macro_rules! spans {
    ($($of:ident)*) => {$(
        impl<'a, K: Key, V> Iterator for $of<'a, K, V> {
            type Item = (&'a K, &'a V);

            #[inline]
            fn next(&mut self) -> Option<(&'a K, &'a V)> {
                self.step(Way::Up)
            }

            fn size_hint(&self) -> (usize, Option<usize>) {
                (0, Some(self.0.view.slab.len()))
            }

            fn last(mut self) -> Option<(&'a K, &'a V)> {
                self.step(Way::Down)
            }

            fn fold<B, F: FnMut(B, (&'a K, &'a V)) -> B>(self, all: B, call: F) -> B {
                self.0.fold(usize::MAX, all, call)
            }
        }

        impl<'a, K: Key, V> DoubleEndedIterator for $of<'a, K, V> {
            #[inline]
            fn next_back(&mut self) -> Option<(&'a K, &'a V)> {
                self.step(Way::Down)
            }
        }

        impl<K: Key, V> FusedIterator for $of<'_, K, V> {}
    )*};
}

spans! { Range Prefix }

macro_rules! copies {
    ($($of:ident)*) => {$(
        impl<K, V> Clone for $of<'_, K, V> {
            fn clone(&self) -> Self {
                $of(self.0.clone())
            }
        }
    )*};
}

copies! { Range Prefix Keys Values IterBytes }

impl<K, V> Clone for Iter<'_, K, V> {
    fn clone(&self) -> Self {
        Iter { pairs: self.pairs.clone(), left: self.left }
    }
}

macro_rules! shown {
    ($($of:ident, [$($bound:tt)*];)*) => {$(
        impl<$($bound)*> fmt::Debug for $of<'_, K, V> {
            fn fmt(&self, to: &mut fmt::Formatter<'_>) -> fmt::Result {
                to.debug_list().entries(self.clone()).finish()
            }
        }
    )*};
}

shown! {
    Iter, [K: Key + fmt::Debug, V: fmt::Debug];
    Range, [K: Key + fmt::Debug, V: fmt::Debug];
    Prefix, [K: Key + fmt::Debug, V: fmt::Debug];
    Keys, [K: Key + fmt::Debug, V];
    Values, [K: Key, V: fmt::Debug];
}

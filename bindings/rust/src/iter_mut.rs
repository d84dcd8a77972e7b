//! Walks over a map that lend its values to be written.
use crate::Key;
use crate::ffi::WalkMut;
use crate::map::ArtMap;
use crate::walk::{Between, Under, Walk, Watched, Way};
use std::fmt;
use std::iter::FusedIterator;

/// The pairs of a map in ascending order, from both ends, with values to be written.
/// [`ArtMap::iter_mut`](crate::ArtMap::iter_mut) makes it.
///
/// ```
/// let mut map = artmap::ArtMap::from([(2, 20), (1, 10)]);
/// for (key, value) in map.iter_mut() {
///     *value += key;
/// }
/// assert!(map.values().eq(&[11, 22]));
/// ```
#[must_use]
pub struct IterMut<'a, K, V> {
    pairs: WalkMut<'a, K, V, Watched>,
    left: usize,
}

impl<'a, K: Key, V> IterMut<'a, K, V> {
    pub(crate) fn new(map: &'a mut ArtMap<K, V>) -> Self {
        let left = map.slab.len();
        IterMut { pairs: WalkMut::new(&mut map.words, &mut map.slab, Walk::new(Watched)), left }
    }

    fn step(&mut self, way: Way) -> Option<(&'a K, &'a mut V)> {
        if self.left == 0 {
            return None;
        }
        self.left -= 1;
        self.pairs.next(way)
    }
}

/// The values of a map in the order of their keys, from both ends, to be written.
/// [`ArtMap::values_mut`](crate::ArtMap::values_mut) makes it.
///
/// ```
/// let mut map = artmap::ArtMap::from([(2, 20), (1, 10)]);
/// map.values_mut().for_each(|value| *value += 1);
/// assert!(map.values().eq(&[11, 21]));
/// ```
#[must_use]
pub struct ValuesMut<'a, K, V>(pub(crate) IterMut<'a, K, V>);

/// The pairs between two bounds, with values to be written. [`ArtMap::range_mut`](crate::ArtMap::range_mut) makes it.
///
/// ```
/// let mut map = artmap::ArtMap::from([(1, 10), (2, 20), (3, 30)]);
/// map.range_mut(2..).for_each(|(_, value)| *value = 0);
/// assert!(map.values().eq(&[10, 0, 0]));
/// ```
#[must_use]
pub struct RangeMut<'a, K, V>(WalkMut<'a, K, V, Between>);

/// The pairs whose keys begin with a prefix, with values to be written.
/// [`ArtMap::prefix_mut`](crate::ArtMap::prefix_mut) makes it.
///
/// ```
/// let mut map = artmap::ArtMap::from([("ab", 1), ("ac", 2), ("b", 3)]);
/// map.prefix_mut("a").for_each(|(_, value)| *value = 0);
/// assert!(map.values().eq(&[0, 0, 3]));
/// ```
#[must_use]
pub struct PrefixMut<'a, K, V>(WalkMut<'a, K, V, Under>);

impl<'a, K: Key, V> RangeMut<'a, K, V> {
    pub(crate) fn new(map: &'a mut ArtMap<K, V>, limits: Between) -> Self {
        RangeMut(WalkMut::new(&mut map.words, &mut map.slab, Walk::new(limits)))
    }
}

impl<'a, K: Key, V> PrefixMut<'a, K, V> {
    pub(crate) fn new(map: &'a mut ArtMap<K, V>, prefix: Under) -> Self {
        PrefixMut(WalkMut::new(&mut map.words, &mut map.slab, Walk::new(prefix)))
    }
}

macro_rules! walks {
    ($($of:ident, $item:ty, $self:ident, $way:ident, $step:expr, $size:expr;)*) => {$(
        impl<'a, K: Key, V> Iterator for $of<'a, K, V> {
            type Item = $item;

            fn next(&mut $self) -> Option<$item> {
                let $way = Way::Up;
                $step
            }

            fn size_hint(&$self) -> (usize, Option<usize>) {
                $size
            }

            fn last(mut $self) -> Option<$item> {
                let $way = Way::Down;
                $step
            }
        }

        impl<K: Key, V> DoubleEndedIterator for $of<'_, K, V> {
            fn next_back(&mut $self) -> Option<Self::Item> {
                let $way = Way::Down;
                $step
            }
        }

        impl<K: Key, V> FusedIterator for $of<'_, K, V> {}
    )*};
}

walks! {
    IterMut, (&'a K, &'a mut V), self, way, self.step(way), (self.left, Some(self.left));
    ValuesMut, &'a mut V, self, way, Some(self.0.step(way)?.1), (self.0.left, Some(self.0.left));
    RangeMut, (&'a K, &'a mut V), self, way, self.0.next(way), (0, None);
    PrefixMut, (&'a K, &'a mut V), self, way, self.0.next(way), (0, None);
}

impl<K: Key, V> ExactSizeIterator for IterMut<'_, K, V> {}

impl<K: Key, V> ExactSizeIterator for ValuesMut<'_, K, V> {}

macro_rules! shown {
    ($($of:ident, [$($bound:tt)*], $self:ident, $pairs:expr, $key:ident, $value:ident, $item:expr;)*) => {$(
        /// The pairs that are left.
        impl<$($bound)*> fmt::Debug for $of<'_, K, V> {
            fn fmt(&$self, to: &mut fmt::Formatter<'_>) -> fmt::Result {
                let mut list = to.debug_list();
                $pairs.each_left(|$key, $value| {
                    list.entry($item);
                });
                list.finish()
            }
        }
    )*};
}

shown! {
    IterMut, [K: Key + fmt::Debug, V: fmt::Debug], self, self.pairs, key, value, &(key, value);
    ValuesMut, [K: Key, V: fmt::Debug], self, self.0.pairs, _key, value, value;
    RangeMut, [K: Key + fmt::Debug, V: fmt::Debug], self, self.0, key, value, &(key, value);
    PrefixMut, [K: Key + fmt::Debug, V: fmt::Debug], self, self.0, key, value, &(key, value);
}

//! Walks that take a map's pairs out of it.
use crate::Key;
use crate::error::or_end;
use crate::map::ArtMap;
use crate::parted::{key_of, value_of};
use crate::slab::Slot;
use crate::view::{Reader, View};
use crate::walk::{All, Walk, Way};
use std::fmt;
use std::iter::FusedIterator;
use std::vec;

/// The pairs of a map that is consumed, in ascending order, from both ends. `into_iter` makes it.
///
/// ```
/// let map = artmap::ArtMap::from([(2, "b".to_string()), (1, "a".to_string())]);
/// assert!(map.into_iter().eq([(1, "a".to_string()), (2, "b".to_string())]));
/// ```
pub struct IntoIter<K, V> {
    /// Where the slots were in order, those that are left, and an empty map.
    slots: Option<vec::IntoIter<Slot<K, V>>>,
    map: ArtMap<K, V>,
    walk: Walk<All>,
}

/// The keys of a map that is consumed. [`ArtMap::into_keys`](crate::ArtMap::into_keys) makes it.
///
/// ```
/// let map = artmap::ArtMap::from([(2, 'b'), (1, 'a')]);
/// assert!(map.into_keys().eq([1, 2]));
/// ```
pub struct IntoKeys<K, V>(pub(crate) IntoIter<K, V>);

/// The values of a map that is consumed. [`ArtMap::into_values`](crate::ArtMap::into_values) makes it.
///
/// ```
/// let map = artmap::ArtMap::from([(2, 'b'), (1, 'a')]);
/// assert!(map.into_values().eq(['a', 'b']));
/// ```
pub struct IntoValues<K, V>(pub(crate) IntoIter<K, V>);

impl<K, V> IntoIter<K, V> {
    pub(crate) fn new(map: ArtMap<K, V>) -> Self {
        let ArtMap { words, slab } = map;
        let (slots, map) = match slab.into_order() {
            Ok(slots) => (Some(slots.into_iter()), ArtMap::new()),
            Err(slab) => (None, ArtMap { words, slab }),
        };
        IntoIter { slots, map, walk: Walk::new(All) }
    }

    #[inline]
    fn left(&self) -> usize {
        self.slots.as_ref().map_or(self.map.slab.len(), vec::IntoIter::len)
    }
}

impl<K: Key, V> IntoIter<K, V> {
    #[inline]
    fn step(&mut self, way: Way) -> Option<(K, V)> {
        if let Some(slots) = &mut self.slots {
            let slot = if way == Way::Up { slots.next() } else { slots.next_back() };
            return slot.and_then(Slot::into_pair);
        }
        self.walked(way)
    }

    fn walked(&mut self, way: Way) -> Option<(K, V)> {
        if self.left() == 0 {
            return None;
        }
        let ArtMap { words, slab } = &mut self.map;
        let index = or_end(self.walk.next_of(&*words, way, slab, false))?;
        // (after the pair the walk finds no way once its key has gone)
        or_end(self.walk.settle(&*words, way, |index| slab.pair(index).0));
        Some(slab.take(index))
    }

    /// The pairs that are left, lent.
    pub(crate) fn lent(&self) -> impl Iterator<Item = (&K, &V)> {
        let view = View { words: Reader::One(&self.map.words), slab: &self.map.slab };
        let mut walk = self.walk.clone();
        let slots = self.slots.iter().flat_map(|slots| slots.as_slice().iter().filter_map(Slot::pair));
        slots.chain((0..self.map.slab.len()).map_while(move |_| {
            let index = or_end(walk.next_of(&view.words, Way::Up, view.slab, false))?;
            Some(view.slab.pair(index))
        }))
    }
}

macro_rules! walks {
    ($($of:ident, $item:ty, $self:ident, $way:ident, $step:expr, $left:expr;)*) => {$(
        impl<K: Key, V> Iterator for $of<K, V> {
            type Item = $item;

            #[inline]
            fn next(&mut $self) -> Option<$item> {
                let $way = Way::Up;
                $step
            }

            fn size_hint(&$self) -> (usize, Option<usize>) {
                ($left, Some($left))
            }

            fn count($self) -> usize {
                $left
            }
        }

        impl<K: Key, V> DoubleEndedIterator for $of<K, V> {
            fn next_back(&mut $self) -> Option<$item> {
                let $way = Way::Down;
                $step
            }
        }

        impl<K: Key, V> ExactSizeIterator for $of<K, V> {}

        impl<K: Key, V> FusedIterator for $of<K, V> {}

        impl<K, V> Default for $of<K, V> {
            fn default() -> Self {
                $of::of(ArtMap::new())
            }
        }
    )*};
}

walks! {
    IntoIter, (K, V), self, way, self.step(way), self.left();
    IntoKeys, K, self, way, self.0.step(way).map(key_of), self.0.left();
    IntoValues, V, self, way, self.0.step(way).map(value_of), self.0.left();
}

impl<K, V> IntoIter<K, V> {
    fn of(map: ArtMap<K, V>) -> Self {
        IntoIter::new(map)
    }
}

impl<K, V> IntoKeys<K, V> {
    fn of(map: ArtMap<K, V>) -> Self {
        IntoKeys(IntoIter::new(map))
    }
}

impl<K, V> IntoValues<K, V> {
    fn of(map: ArtMap<K, V>) -> Self {
        IntoValues(IntoIter::new(map))
    }
}

impl<K: Key + fmt::Debug, V: fmt::Debug> fmt::Debug for IntoIter<K, V> {
    fn fmt(&self, to: &mut fmt::Formatter<'_>) -> fmt::Result {
        to.debug_list().entries(self.lent()).finish()
    }
}

impl<K: Key + fmt::Debug, V> fmt::Debug for IntoKeys<K, V> {
    fn fmt(&self, to: &mut fmt::Formatter<'_>) -> fmt::Result {
        to.debug_list().entries(self.0.lent().map(|pair| pair.0)).finish()
    }
}

impl<K: Key, V: fmt::Debug> fmt::Debug for IntoValues<K, V> {
    fn fmt(&self, to: &mut fmt::Formatter<'_>) -> fmt::Result {
        to.debug_list().entries(self.0.lent().map(|pair| pair.1)).finish()
    }
}

//! What a map has from the traits of std.
use crate::error::{NO_PREFIXES, or_end};
use crate::iter::Iter;
use crate::iter_mut::IterMut;
use crate::map::ArtMap;
use crate::map::filling::Filling;
use crate::map::sorted::Sorted;
use crate::owned::IntoIter;
use crate::{Key, NoPrefixes};
use std::borrow::Borrow;
use std::cmp::Ordering;
use std::fmt;
use std::hash::{Hash, Hasher};
use std::iter;
use std::ops::Index;

impl<K, V> Default for ArtMap<K, V> {
    fn default() -> Self {
        Self::new()
    }
}

/// Each pair of the copy has the place that it has here. Where a `clone` of a key or value panics, what was copied is
/// dropped.
impl<K: Clone + Key, V: Clone> Clone for ArtMap<K, V> {
    fn clone(&self) -> Self {
        or_end(self.try_clone())
    }
}

impl<K: Key + fmt::Debug, V: fmt::Debug> fmt::Debug for ArtMap<K, V> {
    fn fmt(&self, to: &mut fmt::Formatter<'_>) -> fmt::Result {
        to.debug_map().entries(self).finish()
    }
}

impl<K: Key + PartialEq, V: PartialEq> PartialEq for ArtMap<K, V> {
    fn eq(&self, other: &Self) -> bool {
        self.len() == other.len() && self.iter().eq(other)
    }
}

impl<K: Key + Eq, V: Eq> Eq for ArtMap<K, V> {}

impl<K: Key + PartialOrd, V: PartialOrd> PartialOrd for ArtMap<K, V> {
    fn partial_cmp(&self, other: &Self) -> Option<Ordering> {
        self.iter().partial_cmp(other)
    }
}

impl<K: Key + Ord, V: Ord> Ord for ArtMap<K, V> {
    fn cmp(&self, other: &Self) -> Ordering {
        self.iter().cmp(other)
    }
}

impl<K: Key + Hash, V: Hash> Hash for ArtMap<K, V> {
    fn hash<H: Hasher>(&self, state: &mut H) {
        state.write_usize(self.len());
        for pair in self {
            pair.hash(state);
        }
    }
}

/// Panics where the key is not there.
impl<K: Key + Borrow<Q>, Q: Key + ?Sized, V> Index<&Q> for ArtMap<K, V> {
    type Output = V;

    fn index(&self, key: &Q) -> &V {
        self.get(key).expect("no entry found for key")
    }
}

/// Pairs whose keys ascend after the greatest one go in many at a time. Where the iterator panics, all that it gave before
/// are stored.
impl<K: NoPrefixes, V> Extend<(K, V)> for ArtMap<K, V> {
    fn extend<I: IntoIterator<Item = (K, V)>>(&mut self, pairs: I) {
        if let Err(why) = self.try_extend(pairs) {
            why.end::<()>();
        }
    }
}

impl<'a, K: NoPrefixes + Copy, V: Copy> Extend<(&'a K, &'a V)> for ArtMap<K, V> {
    fn extend<I: IntoIterator<Item = (&'a K, &'a V)>>(&mut self, pairs: I) {
        self.extend(pairs.into_iter().map(|(key, value)| (*key, *value)));
    }
}

/// Pairs that don't ascend are sorted first, by the bytes of their keys.
impl<K: NoPrefixes, V> FromIterator<(K, V)> for ArtMap<K, V> {
    fn from_iter<I: IntoIterator<Item = (K, V)>>(pairs: I) -> Self {
        let (mut made, mut pairs) = (Self::new(), pairs.into_iter());
        _ = made.slab.reserve_exact(pairs.size_hint().0);
        match Filling::new(&mut made).fill_in_order(&mut pairs) {
            Ok(None) => {
                made.words.shrink();
                made
            }
            Ok(Some(other)) => {
                let sorted = or_end(Sorted::of(made.slab, iter::once(other).chain(pairs)));
                or_end(sorted.into_map()).unwrap_or_else(|| panic!("{NO_PREFIXES}"))
            }
            Err(why) => why.end(),
        }
    }
}

impl<K: NoPrefixes, V, const N: usize> From<[(K, V); N]> for ArtMap<K, V> {
    fn from(pairs: [(K, V); N]) -> Self {
        Self::from_iter(pairs)
    }
}

impl<K: Key, V> IntoIterator for ArtMap<K, V> {
    type Item = (K, V);
    type IntoIter = IntoIter<K, V>;

    fn into_iter(self) -> IntoIter<K, V> {
        IntoIter::new(self)
    }
}

impl<'a, K: Key, V> IntoIterator for &'a ArtMap<K, V> {
    type Item = (&'a K, &'a V);
    type IntoIter = Iter<'a, K, V>;

    fn into_iter(self) -> Iter<'a, K, V> {
        self.iter()
    }
}

impl<'a, K: Key, V> IntoIterator for &'a mut ArtMap<K, V> {
    type Item = (&'a K, &'a mut V);
    type IntoIter = IterMut<'a, K, V>;

    fn into_iter(self) -> IterMut<'a, K, V> {
        self.iter_mut()
    }
}

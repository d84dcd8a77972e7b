//! What a set has from the traits of std.
use super::ArtSet;
use super::iter::{IntoIter, Iter};
use crate::error::or_end;
use crate::{Key, NoPrefixes, Ordered};
use std::cmp::Ordering;
use std::fmt;
use std::hash::{Hash, Hasher};
use std::ops::{BitAnd, BitOr, BitXor, Sub};

impl<K> Default for ArtSet<K> {
    fn default() -> Self {
        Self::new()
    }
}

impl<K: Clone + Key> Clone for ArtSet<K> {
    fn clone(&self) -> Self {
        or_end(self.try_clone())
    }
}

impl<K: Key + fmt::Debug> fmt::Debug for ArtSet<K> {
    fn fmt(&self, to: &mut fmt::Formatter<'_>) -> fmt::Result {
        to.debug_set().entries(self).finish()
    }
}

impl<K: Key + PartialEq> PartialEq for ArtSet<K> {
    fn eq(&self, other: &Self) -> bool {
        self.len() == other.len() && self.iter().eq(other)
    }
}

impl<K: Key + Eq> Eq for ArtSet<K> {}

impl<K: Key + PartialOrd> PartialOrd for ArtSet<K> {
    fn partial_cmp(&self, other: &Self) -> Option<Ordering> {
        self.iter().partial_cmp(other)
    }
}

impl<K: Key + Ord> Ord for ArtSet<K> {
    fn cmp(&self, other: &Self) -> Ordering {
        self.iter().cmp(other)
    }
}

impl<K: Key + Hash> Hash for ArtSet<K> {
    fn hash<H: Hasher>(&self, state: &mut H) {
        state.write_usize(self.len());
        for key in self {
            key.hash(state);
        }
    }
}

impl<K: NoPrefixes> Extend<K> for ArtSet<K> {
    fn extend<I: IntoIterator<Item = K>>(&mut self, keys: I) {
        self.map.extend(keys.into_iter().map(|key| (key, ())));
    }
}

impl<'a, K: NoPrefixes + Copy> Extend<&'a K> for ArtSet<K> {
    fn extend<I: IntoIterator<Item = &'a K>>(&mut self, keys: I) {
        self.extend(keys.into_iter().copied());
    }
}

impl<K: NoPrefixes> FromIterator<K> for ArtSet<K> {
    fn from_iter<I: IntoIterator<Item = K>>(keys: I) -> Self {
        ArtSet { map: keys.into_iter().map(|key| (key, ())).collect() }
    }
}

impl<K: NoPrefixes, const N: usize> From<[K; N]> for ArtSet<K> {
    fn from(keys: [K; N]) -> Self {
        Self::from_iter(keys)
    }
}

impl<K: Key> IntoIterator for ArtSet<K> {
    type Item = K;
    type IntoIter = IntoIter<K>;

    fn into_iter(self) -> IntoIter<K> {
        self.into_keys()
    }
}

impl<'a, K: Key> IntoIterator for &'a ArtSet<K> {
    type Item = &'a K;
    type IntoIter = Iter<'a, K>;

    fn into_iter(self) -> Iter<'a, K> {
        self.iter()
    }
}

macro_rules! operators {
    ($($of:ident, $name:ident, $by:ident;)*) => {$(
        impl<K: Ordered + NoPrefixes + Clone> $of<&ArtSet<K>> for &ArtSet<K> {
            type Output = ArtSet<K>;

            fn $name(self, other: &ArtSet<K>) -> ArtSet<K> {
                self.$by(other).cloned().collect()
            }
        }
    )*};
}

operators! {
    BitAnd, bitand, intersection;
    BitOr, bitor, union;
    BitXor, bitxor, symmetric_difference;
    Sub, sub, difference;
}

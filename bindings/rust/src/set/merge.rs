//! Two sets seen together: one walk over both in ascending order.
use super::iter::Iter;
use crate::Ordered;
use std::cmp::Ordering;
use std::fmt;
use std::iter::{FusedIterator, Peekable};

/// What is left of both sets.
struct Merge<'a, K: Ordered> {
    one: Peekable<Iter<'a, K>>,
    other: Peekable<Iter<'a, K>>,
}

/// The next key of one set, of the other, or of both.
type Met<'a, K> = (Option<&'a K>, Option<&'a K>);

impl<'a, K: Ordered> Merge<'a, K> {
    fn new(one: Iter<'a, K>, other: Iter<'a, K>) -> Self {
        Merge { one: one.peekable(), other: other.peekable() }
    }

    fn step(&mut self) -> Option<Met<'a, K>> {
        match (self.one.peek(), self.other.peek()) {
            (None, None) => None,
            (Some(_), None) => Some((self.one.next(), None)),
            (None, Some(_)) => Some((None, self.other.next())),
            (Some(one), Some(other)) => Some(match one.cmp(other) {
                Ordering::Less => (self.one.next(), None),
                Ordering::Greater => (None, self.other.next()),
                Ordering::Equal => (self.one.next(), self.other.next()),
            }),
        }
    }

    /// How many keys are left at most, of each set.
    fn left(&self) -> (usize, usize) {
        (self.one.len(), self.other.len())
    }
}

macro_rules! merges {
    ($($(#[doc = $doc:literal])* $of:ident, $wanted:expr, $hint:expr;)*) => {$(
        $(#[doc = $doc])*
        #[must_use]
        pub struct $of<'a, K: Ordered>(Merge<'a, K>);

        impl<'a, K: Ordered> $of<'a, K> {
            pub(crate) fn new(one: Iter<'a, K>, other: Iter<'a, K>) -> Self {
                $of(Merge::new(one, other))
            }
        }

        impl<'a, K: Ordered> Iterator for $of<'a, K> {
            type Item = &'a K;

            fn next(&mut self) -> Option<&'a K> {
                let wanted: fn(Met<'a, K>) -> Option<&'a K> = $wanted;
                loop {
                    let found = wanted(self.0.step()?);
                    if found.is_some() {
                        return found;
                    }
                }
            }

            fn size_hint(&self) -> (usize, Option<usize>) {
                let hint: fn((usize, usize)) -> (usize, usize) = $hint;
                let (least, most) = hint(self.0.left());
                (least, Some(most))
            }
        }

        impl<K: Ordered> FusedIterator for $of<'_, K> {}

        impl<K: Ordered> Clone for $of<'_, K> {
            fn clone(&self) -> Self {
                $of(Merge { one: self.0.one.clone(), other: self.0.other.clone() })
            }
        }

        impl<K: Ordered + fmt::Debug> fmt::Debug for $of<'_, K> {
            fn fmt(&self, to: &mut fmt::Formatter<'_>) -> fmt::Result {
                to.debug_list().entries(self.clone()).finish()
            }
        }
    )*};
}

merges! {
    /// The keys of one set that are not in the other one. [`ArtSet::difference`](crate::ArtSet::difference) makes it.
    ///
    /// ```
    /// use artmap::ArtSet;
    ///
    /// assert_eq!(ArtSet::from([1, 2]).difference(&ArtSet::from([1])).next(), Some(&2));
    /// ```
    Difference, |met| if met.1.is_none() { met.0 } else { None }, |left| (left.0.saturating_sub(left.1), left.0);
    /// The keys of one of two sets that are not in the other one.
    /// [`ArtSet::symmetric_difference`](crate::ArtSet::symmetric_difference) makes it.
    ///
    /// ```
    /// use artmap::ArtSet;
    ///
    /// assert_eq!(ArtSet::from([1]).symmetric_difference(&ArtSet::from([1, 2])).next(), Some(&2));
    /// ```
    SymmetricDifference, |met| met.0.xor(met.1), |left| (0, left.0 + left.1);
    /// The keys of one set that are in the other one, too. [`ArtSet::intersection`](crate::ArtSet::intersection) makes it.
    ///
    /// ```
    /// use artmap::ArtSet;
    ///
    /// assert_eq!(ArtSet::from([1, 2]).intersection(&ArtSet::from([2, 3])).next(), Some(&2));
    /// ```
    Intersection, |met| met.1.and(met.0), |left| (0, left.0.min(left.1));
    /// The keys of two sets. [`ArtSet::union`](crate::ArtSet::union) makes it.
    ///
    /// ```
    /// use artmap::ArtSet;
    ///
    /// assert_eq!(ArtSet::from([1]).union(&ArtSet::from([2])).last(), Some(&2));
    /// ```
    Union, |met| met.0.or(met.1), |left| (left.0.max(left.1), left.0 + left.1);
}

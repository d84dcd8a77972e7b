//! What maps read, those that may change and frozen ones.
use crate::error::{AllocError, or_end};
use crate::ffi::Words;
use crate::iter::{Iter, Prefix, Range};
use crate::key::sealed::Sealed;
use crate::pool::Pool;
use crate::prefixes::longest;
use crate::slab::Slab;
use crate::walk::{Between, Under, Way};
use crate::{Key, KeyPrefix};
use std::borrow::Borrow;
use std::ops::{Bound, RangeBounds};

/// What looks words up, and walks over them.
pub(crate) trait Reads {
    /// Has a call take a handle, which has no other call meanwhile.
    fn call<R>(&self, call: impl FnOnce(&Words) -> R) -> R;
}

impl Reads for Words {
    #[inline]
    fn call<R>(&self, call: impl FnOnce(&Words) -> R) -> R {
        call(self)
    }
}

/// The one handle of a map, or those of a frozen one.
#[derive(Clone, Copy)]
pub(crate) enum Reader<'a> {
    One(&'a Words),
    Many(&'a Pool),
}

impl Reads for Reader<'_> {
    #[inline]
    fn call<R>(&self, call: impl FnOnce(&Words) -> R) -> R {
        match self {
            Reader::One(words) => call(words),
            Reader::Many(pool) => pool.call(call),
        }
    }
}

/// The words of a map, and where its pairs lie.
pub(crate) struct View<'a, K, V> {
    pub(crate) words: Reader<'a>,
    pub(crate) slab: &'a Slab<K, V>,
}

impl<K, V> Clone for View<'_, K, V> {
    fn clone(&self) -> Self {
        *self
    }
}

impl<K, V> Copy for View<'_, K, V> {}

/// The index that a word tells. (One that is none is found by no slab.)
pub(crate) fn index_of(word: u64) -> usize {
    usize::try_from(word).unwrap_or(usize::MAX)
}

/// The word of a key.
#[inline]
pub(crate) fn word_of_key<Q: Key + ?Sized>(words: &impl Reads, key: &Q) -> Result<Option<u64>, AllocError> {
    match key.without_end() {
        None => key.with_bytes(Sealed, |bytes| words.call(|words| words.get(bytes))),
        Some(front) => Ok(words.call(|words| words.get_ended(front))),
    }
}

/// Why a range has no bounds between which keys may lie.
enum Wrong {
    Excluded,
    Crossed,
}

/// What is wrong with two bounds, if that is so.
#[inline]
fn wrong(limits: &Between) -> Option<Wrong> {
    match limits.bytes() {
        (Bound::Excluded(from), Bound::Excluded(to)) if from == to => Some(Wrong::Excluded),
        (Bound::Included(from) | Bound::Excluded(from), Bound::Included(to) | Bound::Excluded(to)) if from > to => {
            Some(Wrong::Crossed)
        }
        _ => None,
    }
}

/// What a panic calls the two collections.
pub(crate) const MAP: &str = "ArtMap";
pub(crate) const SET: &str = "ArtSet";

/// The bytes between two bounds.
///
/// # Panics
///
/// As `range` of a `BTreeMap`, and it names the collection.
#[inline]
pub(crate) fn between<Q: Key + ?Sized, R: RangeBounds<Q>>(range: &R, of: &str) -> Result<Between, AllocError> {
    let limits = Between::of(range.start_bound(), range.end_bound())?;
    match wrong(&limits) {
        None => Ok(limits),
        Some(Wrong::Excluded) => panic!("range start and end are equal and excluded in {of}"),
        Some(Wrong::Crossed) => panic!("range start is greater than range end in {of}"),
    }
}

/// As `between`; none, if there can't be a key between them.
pub(crate) fn between_if_any<Q: Key + ?Sized, R: RangeBounds<Q>>(range: &R) -> Result<Option<Between>, AllocError> {
    let limits = Between::of(range.start_bound(), range.end_bound())?;
    Ok(if wrong(&limits).is_none() { Some(limits) } else { None })
}

/// The keys with a prefix.
#[inline]
pub(crate) fn under<K, P: KeyPrefix<K> + ?Sized>(prefix: &P) -> Result<Under, AllocError> {
    Under::of(prefix.to_prefix()?.as_ref())
}

impl<'a, K: Key, V> View<'a, K, V> {
    fn pair(self, word: Option<u64>) -> Option<(&'a K, &'a V)> {
        word.map(|word| self.slab.pair(index_of(word)))
    }

    #[inline]
    pub(crate) fn try_get<Q: Key + ?Sized>(self, key: &Q) -> Result<Option<(&'a K, &'a V)>, AllocError>
    where
        K: Borrow<Q>,
    {
        Ok(self.pair(word_of_key(&self.words, key)?))
    }

    #[inline]
    pub(crate) fn get<Q: Key + ?Sized>(self, key: &Q) -> Option<(&'a K, &'a V)>
    where
        K: Borrow<Q>,
    {
        or_end(self.try_get(key))
    }

    pub(crate) fn try_prefix_get<P: KeyPrefix<K> + ?Sized>(
        self,
        query: &P,
    ) -> Result<Option<(&'a K, &'a V)>, AllocError> {
        let query = query.to_prefix()?;
        let found = longest::<K>(&self.words, query.as_ref());
        Ok(self.pair(found.map(|it| it.1)))
    }

    pub(crate) fn prefix_get<P: KeyPrefix<K> + ?Sized>(self, query: &P) -> Option<(&'a K, &'a V)> {
        or_end(self.try_prefix_get(query))
    }

    pub(crate) fn end(self, way: Way) -> Option<(&'a K, &'a V)> {
        let index = self.slab.end_in_order(way).or_else(|| self.words.call(|words| words.end(way)).map(index_of))?;
        Some(self.slab.pair(index))
    }

    pub(crate) fn iter(self) -> Iter<'a, K, V> {
        Iter::new(self)
    }

    /// `of`: what a panic calls the collection.
    pub(crate) fn try_range<Q, R>(self, range: &R, of: &str) -> Result<Range<'a, K, V>, AllocError>
    where
        Q: Key + ?Sized,
        K: Borrow<Q>,
        R: RangeBounds<Q>,
    {
        Ok(Range::new(self, between(range, of)?))
    }

    pub(crate) fn range<Q: Key + ?Sized, R: RangeBounds<Q>>(self, range: &R, of: &str) -> Range<'a, K, V>
    where
        K: Borrow<Q>,
    {
        Range::new(self, or_end(between(range, of)))
    }

    pub(crate) fn try_prefix<P: KeyPrefix<K> + ?Sized>(self, prefix: &P) -> Result<Prefix<'a, K, V>, AllocError> {
        Ok(Prefix::new(self, under(prefix)?))
    }

    pub(crate) fn prefix<P: KeyPrefix<K> + ?Sized>(self, prefix: &P) -> Prefix<'a, K, V> {
        Prefix::new(self, or_end(under(prefix)))
    }
}

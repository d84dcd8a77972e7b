//! Walks over the words of a map, from both ends. A walk keeps no pointer into the proved map. Words are told many at a time,
//! more each time; then the next call finds its place by the hint that the last one has left, or by the key of the last pair.
use crate::Key;
use crate::error::AllocError;
use crate::ffi::{From, Hint, To, Words};
use crate::key::sealed::Sealed;
use crate::map::CHANGED;
use crate::room::Bytes;
use crate::slab::Slab;
use crate::view::{Reads, index_of};
use std::mem;
use std::ops::Bound;

/// How many words are asked for first, how many next, how many times more each time from then on, and how many at most. A
/// range of which few pairs are wanted waits for each word that it asks for in vain. So one from a key to the end of the
/// map, of which often the first pair alone is wanted, asks for one word before.
const FEW: usize = 10;
const NEXT: usize = 32;
const TIMES: usize = 2;
const MOST: usize = 1024;

/// How many words are asked for at least, after the first few, where all are wanted for sure.
const ALL: usize = 128;

/// No word: none is an index that a slab has.
const NONE: u64 = u64::MAX;

/// So many bytes of a prefix or of two bounds stand in a walk itself, which is moved as a user likes: two texts of 27, say.
const SMALL: usize = 56;

/// How many words ahead slots are asked for: by then they have come from memory.
pub(crate) const AHEAD: usize = 8;

/// Which way a walk goes.
#[derive(Clone, Copy, PartialEq, Eq, Debug)]
pub(crate) enum Way {
    Up,
    Down,
}

/// Between which keys a walk goes.
pub(crate) trait Limits {
    /// Whether the end of the walk is known by the number of its pairs.
    const ARE_COUNTED: bool = false;
    fn from(&self, way: Way) -> From<'_>;
    fn to(&self, way: Way) -> To<'_>;
}

/// All keys. How many are left is counted.
#[derive(Clone)]
pub(crate) struct All;

/// All keys, where each end looks out for the other one.
#[derive(Clone)]
pub(crate) struct Watched;

/// Keys between two bounds.
#[derive(Clone)]
pub(crate) struct Between {
    /// The bytes of the start, if it has any, and then those of the end.
    bytes: Bytes<SMALL>,
    middle: usize,
    start: Bound<()>,
    end: Bound<()>,
}

/// Keys that begin with some bytes.
#[derive(Clone)]
pub(crate) struct Under(Bytes<SMALL>);

impl Under {
    /// A prefix.
    #[inline]
    pub(crate) fn of(prefix: &[u8]) -> Result<Under, AllocError> {
        let mut bytes = Bytes::new();
        bytes.push(prefix)?;
        Ok(Under(bytes))
    }
}

impl Limits for All {
    const ARE_COUNTED: bool = true;

    fn from(&self, _: Way) -> From<'_> {
        From::End
    }

    fn to(&self, _: Way) -> To<'_> {
        To::End
    }
}

impl Limits for Watched {
    fn from(&self, _: Way) -> From<'_> {
        From::End
    }

    fn to(&self, _: Way) -> To<'_> {
        To::End
    }
}

impl Between {
    /// Has the keys of two bounds tell their bytes, once each.
    #[inline]
    pub(crate) fn of<Q: Key + ?Sized>(start: Bound<&Q>, end: Bound<&Q>) -> Result<Between, AllocError> {
        let mut bytes = Bytes::new();
        let start = told(start, &mut bytes)?;
        let middle = bytes.get().len();
        let end = told(end, &mut bytes)?;
        Ok(Between { bytes, middle, start, end })
    }

    /// The bytes of both.
    #[inline]
    pub(crate) fn bytes(&self) -> (Bound<&[u8]>, Bound<&[u8]>) {
        let (start, end) = self.bytes.get().split_at(self.middle);
        (self.start.map(|()| start), self.end.map(|()| end))
    }
}

/// Adds the bytes of a bound, if it has any, to others.
#[inline]
fn told<Q: Key + ?Sized>(of: Bound<&Q>, to: &mut Bytes<SMALL>) -> Result<Bound<()>, AllocError> {
    Ok(match of {
        Bound::Unbounded => Bound::Unbounded,
        Bound::Included(key) => Bound::Included(key.with_bytes(Sealed, |bytes| to.push(bytes))??),
        Bound::Excluded(key) => Bound::Excluded(key.with_bytes(Sealed, |bytes| to.push(bytes))??),
    })
}

impl Limits for Between {
    #[inline]
    fn from(&self, way: Way) -> From<'_> {
        let (start, end) = self.bytes();
        match if way == Way::Up { start } else { end } {
            Bound::Unbounded => From::End,
            Bound::Included(key) => From::Key(key),
            Bound::Excluded(key) => From::After(key),
        }
    }

    #[inline]
    fn to(&self, way: Way) -> To<'_> {
        let (start, end) = self.bytes();
        match if way == Way::Up { end } else { start } {
            Bound::Unbounded => To::End,
            Bound::Included(key) => To::Key(key),
            Bound::Excluded(key) => To::Before(key),
        }
    }
}

impl<L: Limits> Limits for &L {
    fn from(&self, way: Way) -> From<'_> {
        L::from(self, way)
    }

    fn to(&self, way: Way) -> To<'_> {
        L::to(self, way)
    }
}

impl Limits for Under {
    fn from(&self, _: Way) -> From<'_> {
        From::End
    }

    fn to(&self, _: Way) -> To<'_> {
        To::Prefix(self.0.get())
    }
}

/// Words that were told, and not given yet.
#[derive(Clone)]
struct Batch {
    /// Those that are told first: the last ones here, from a place on.
    few: [u64; FEW],
    few_at: usize,
    /// Those that are told after them, where there is memory, from a place on.
    many: Vec<u64>,
    at: usize,
    /// How many are asked for next, or none where no other is left.
    wanted: usize,
}

impl Batch {
    const fn new() -> Batch {
        Batch { few: [0; FEW], few_at: FEW, many: Vec::new(), at: 0, wanted: FEW }
    }

    #[inline]
    fn has_next(&self) -> bool {
        self.few_at < FEW || self.at < self.many.len()
    }

    /// The next word that was told. One that stands some places after it is told, too, so that its slot may be asked for.
    #[inline]
    fn next(&mut self, ask: impl FnOnce(u64)) -> Option<u64> {
        if let Some(word) = self.many.get(self.at) {
            if let Some(soon) = self.many.get(self.at + AHEAD) {
                ask(*soon);
            }
            self.at += 1;
            return Some(*word);
        }
        let word = self.few.get(self.few_at)?;
        self.few_at += 1;
        Some(*word)
    }

    /// The words that are left.
    #[inline]
    fn left(&self) -> &[u64] {
        if self.at < self.many.len() { &self.many[self.at..] } else { &self.few[self.few_at..] }
    }

    /// Those of them that are given next.
    #[inline]
    fn soon(&self) -> &[u64] {
        let left = self.left();
        &left[..left.len().min(FEW)]
    }

    /// The words that are left: they are given.
    #[inline]
    fn give(&mut self) -> &[u64] {
        let (few, many) = (mem::replace(&mut self.few_at, FEW), mem::replace(&mut self.at, self.many.len()));
        if many < self.at { &self.many[many..] } else { &self.few[few..] }
    }

    /// Where all were given: has a call tell the next words, more than before if there is memory for them. One that was given
    /// already may be the first of them.
    #[inline]
    fn fill(&mut self, given: u64, tell: impl FnOnce(&mut [u64]) -> (usize, bool)) {
        if self.wanted > FEW {
            self.widen();
        }
        let is_few = self.many.is_empty();
        let places = if is_few { &mut self.few } else { &mut self.many[..] };
        let (count, has_more) = tell(places);
        let from = usize::from(count > 0 && places[0] == given);
        self.wanted = if has_more { (places.len() * TIMES).clamp(NEXT, MOST) } else { 0 };
        if is_few {
            if count < FEW {
                self.few.copy_within(..count, FEW - count);
            }
            self.few_at = FEW - count + from;
        } else {
            self.many.truncate(count);
            self.at = from;
        }
    }

    /// Makes places for as many words as are asked for next, or for as many as there is memory.
    #[inline(never)]
    fn widen(&mut self) {
        if self.wanted > self.many.capacity() {
            // (and for those after them, where these are few)
            let times = if self.wanted < ALL { TIMES } else { 1 };
            let mut many = Vec::new();
            if many.try_reserve_exact(self.wanted * times).is_ok() {
                self.many = many;
            }
        }
        self.many.resize(self.wanted.min(self.many.capacity()), 0);
        // (none of them is a word yet)
        self.at = self.many.len();
    }

    /// Forgets all words.
    fn end(&mut self) {
        self.many.clear();
        (self.few_at, self.wanted) = (FEW, 0);
    }
}

/// An end of what is left of a walk, and the word that it gave last.
#[derive(Clone)]
struct End {
    batch: Batch,
    last: u64,
    hint: Hint,
}

impl End {
    const fn new() -> End {
        End { batch: Batch::new(), last: NONE, hint: Hint::NONE }
    }
}

/// What is left of a walk.
#[derive(Clone)]
pub(crate) struct Walk<L> {
    limits: L,
    front: End,
    back: End,
}

impl<L: Limits> Walk<L> {
    #[inline]
    pub(crate) const fn new(limits: L) -> Self {
        Walk { limits, front: End::new(), back: End::new() }
    }

    /// The index of the next pair from one of the ends, and it is sure that the walk goes on after the pair that this end gave
    /// last: so no pair is met twice. `key_of` lends the key of the index that it gave last. An error where there is no
    /// memory for the bytes of that key: the walk is as it was.
    #[inline]
    pub(crate) fn next_sure<'k, K: Key + 'k>(
        &mut self,
        words: &impl Reads,
        way: Way,
        key_of: impl FnOnce(usize) -> &'k K,
    ) -> Result<Option<usize>, AllocError> {
        if let Some(index) = self.given(way, |_| {}) { Ok(Some(index)) } else { self.more(words, way, key_of, true) }
    }

    /// The same of pairs that lie in slots, which come nearer ahead of it. `is_sure`: whether it is to be sure of that.
    #[inline]
    pub(crate) fn next_of<K: Key, V>(
        &mut self,
        words: &impl Reads,
        way: Way,
        slab: &Slab<K, V>,
        is_sure: bool,
    ) -> Result<Option<usize>, AllocError> {
        match self.given(way, |soon| slab.ask_for(soon)) {
            Some(index) => Ok(Some(index)),
            None => self.more_of(words, way, slab, is_sure),
        }
    }

    #[inline(never)]
    fn more_of<K: Key, V>(
        &mut self,
        words: &impl Reads,
        way: Way,
        slab: &Slab<K, V>,
        is_sure: bool,
    ) -> Result<Option<usize>, AllocError> {
        let index = self.more(words, way, |index| slab.pair(index).0, is_sure)?;
        let end = if way == Way::Up { &self.front } else { &self.back };
        slab.ask_for_all(end.batch.soon());
        Ok(index)
    }

    /// Has the next words told where all have been given, so that the pair that was given last may go.
    #[inline]
    pub(crate) fn settle<'k, K: Key + 'k>(
        &mut self,
        words: &impl Reads,
        way: Way,
        key_of: impl FnOnce(usize) -> &'k K,
    ) -> Result<(), AllocError> {
        let end = if way == Way::Up { &self.front } else { &self.back };
        if end.batch.has_next() { Ok(()) } else { self.tell(words, way, key_of, false) }
    }

    /// The words that were told and that the front has not given yet: it gives them. None, where others are to be told
    /// first, or at the end of the walk. All that are left are wanted.
    pub(crate) fn told(&mut self) -> &[u64] {
        let End { batch, last, .. } = &mut self.front;
        if batch.wanted > FEW {
            batch.wanted = batch.wanted.max(ALL);
        }
        let met = self.back.last;
        let mut len = batch.left().len();
        if !L::ARE_COUNTED && met != NONE {
            if let Some(at) = batch.left().iter().position(|word| *word == met) {
                (len, batch.wanted) = (at, 0);
                self.back.batch.end();
            }
        }
        let words = &batch.give()[..len];
        *last = words.last().copied().unwrap_or(*last);
        words
    }

    /// The index of the next of the words that were told. None, where others are to be told first, or at the end of the walk.
    /// An index that is given some time after it is told, so that its slot may be asked for.
    #[inline]
    fn given(&mut self, way: Way, ask: impl FnOnce(usize)) -> Option<usize> {
        let (near, far) = match way {
            Way::Up => (&mut self.front, &self.back),
            Way::Down => (&mut self.back, &self.front),
        };
        let word = near.batch.next(|word| ask(index_of(word)))?;
        if !L::ARE_COUNTED && far.last == word {
            self.end();
            return None;
        }
        near.last = word;
        Some(index_of(word))
    }

    /// Ends the walk, from both ends.
    #[cold]
    #[inline(never)]
    fn end(&mut self) {
        self.front.batch.end();
        self.back.batch.end();
    }

    /// Where all words that were told were given: the index of the next pair, for which others are told. The error is that of
    /// `next_sure`.
    #[inline]
    fn more<'k, K: Key + 'k>(
        &mut self,
        words: &impl Reads,
        way: Way,
        key_of: impl FnOnce(usize) -> &'k K,
        is_sure: bool,
    ) -> Result<Option<usize>, AllocError> {
        let near = if way == Way::Up { &mut self.front } else { &mut self.back };
        if near.batch.wanted == 0 {
            self.end();
            return Ok(None);
        }
        if near.last == NONE {
            let (from, to) = (self.limits.from(way), self.limits.to(way));
            if let (From::Key(_) | From::After(_), To::End) = (from, to) {
                let word = words.call(|words| words.near(way, from));
                return Ok(self.begin(way, word));
            }
        }
        self.tell(words, way, key_of, is_sure)?;
        Ok(self.given(way, |_| {}))
    }

    /// Gives the first word of an end, which was told by itself.
    #[inline]
    fn begin(&mut self, way: Way, word: Option<u64>) -> Option<usize> {
        let (near, far) = match way {
            Way::Up => (&mut self.front, &self.back),
            Way::Down => (&mut self.back, &self.front),
        };
        match word {
            Some(word) if far.last != word => {
                near.last = word;
                Some(index_of(word))
            }
            _ => {
                self.end();
                None
            }
        }
    }

    /// Where all words that were told were given: has the next ones told.
    #[inline(never)]
    fn tell<'k, K: Key + 'k>(
        &mut self,
        words: &impl Reads,
        way: Way,
        key_of: impl FnOnce(usize) -> &'k K,
        is_sure: bool,
    ) -> Result<(), AllocError> {
        let near = if way == Way::Up { &mut self.front } else { &mut self.back };
        if near.batch.wanted == 0 {
            self.end();
            return Ok(());
        }
        let (batch, hint, to, last) = (&mut near.batch, &mut near.hint, self.limits.to(way), near.last);
        if last == NONE {
            let from = self.limits.from(way);
            batch.fill(NONE, |places| words.call(|words| words.walk_on(way, from, to, hint, places)));
            return Ok(());
        }
        let key = key_of(index_of(last));
        if let Some(front) = key.without_end() {
            let is_last = |words: &Words| words.get_ended(front) == Some(last);
            assert!(!is_sure || words.call(is_last), "{CHANGED}");
            // (after the bytes without their end comes that key itself)
            let from = From::After(front);
            batch.fill(last, |places| words.call(|words| words.walk_on(way, from, to, hint, places)));
        } else {
            // (once: another time it may tell others)
            let bytes = key.to_bytes()?;
            let bytes = bytes.as_ref();
            assert!(!is_sure || words.call(|words| words.get(bytes) == Some(last)), "{CHANGED}");
            let from = From::After(bytes);
            batch.fill(NONE, |places| words.call(|words| words.walk_on(way, from, to, hint, places)));
        }
        Ok(())
    }
}

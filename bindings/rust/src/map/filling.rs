//! Pairs that go into a map many at a time, where their keys ascend after the greatest one.
use crate::Key;
use crate::error::{AllocError, TryInsertError};
use crate::ffi::{From, Pair, Stop, Words};
use crate::key::sealed::Sealed;
use crate::map::{ArtMap, CHANGED, word_of};
use crate::parted::Parted;
use crate::room::make_room;
use crate::view::index_of;
use crate::walk::Way;
use std::cmp::Ordering;
use std::iter::Map;
use std::vec;

/// How many pairs go in at once, and how many bytes of keys, at most, but for a single one. (The first few of a run are
/// inserted, and so cost more.)
const PAIRS: usize = 4096;
const BYTES: usize = 1 << 16;

/// Keys that ascend, with their words.
pub(super) struct Run {
    /// The bytes of the keys, and after their end those of a key that has no word yet.
    bytes: Vec<u8>,
    end: usize,
    pairs: Vec<Pair>,
    /// The first eight bytes of the last key of [`Filling`], as a number; the greatest one, where that key is shorter.
    first: u64,
}

impl Run {
    pub(super) const fn new() -> Self {
        Run { bytes: Vec::new(), end: 0, pairs: Vec::new(), first: u64::MAX }
    }

    /// Makes room for so many pairs, or for as many as go in at once. Where there is no memory for them, each may have it.
    pub(super) fn reserve(&mut self, pairs: usize) {
        let pairs = pairs.min(PAIRS);
        _ = self.pairs.try_reserve_exact(pairs);
        _ = self.bytes.try_reserve_exact(8 * pairs);
    }

    #[inline]
    pub(super) fn is_full(&self) -> bool {
        self.pairs.len() == PAIRS || self.end >= BYTES
    }

    /// Has the next key tell its bytes, and makes room for its word.
    #[inline]
    pub(super) fn tell<K: Key>(&mut self, key: &K) -> Result<(), AllocError> {
        make_room(1, &mut self.pairs)?;
        key.push_bytes(Sealed, &mut self.bytes)
    }

    /// Takes the bytes of the next key, and makes room for its word.
    #[inline]
    pub(super) fn add(&mut self, key: &[u8]) -> Result<(), AllocError> {
        make_room(1, &mut self.pairs)?;
        make_room(key.len(), &mut self.bytes)?;
        self.bytes.extend_from_slice(key);
        Ok(())
    }

    /// Forgets the bytes that were told last.
    fn forget(&mut self) {
        self.bytes.truncate(self.end);
    }

    /// The bytes that were told last.
    #[inline]
    fn told(&self) -> &[u8] {
        self.bytes.get(self.end..).unwrap_or_default()
    }

    /// Whether the key that was told stands after the last one by its first eight bytes, if both have so many. It is then
    /// taken on by `push`.
    #[inline]
    fn goes_up(&mut self) -> bool {
        let Some(first) = self.told().first_chunk() else { return false };
        let (last, first) = (self.first, u64::from_be_bytes(*first));
        self.first = last.max(first);
        last < first
    }

    /// Takes the key that was told on, with its word.
    #[inline]
    pub(super) fn push(&mut self, word: u64) {
        self.pairs.push(Pair { key_len: self.bytes.len() - self.end, word });
        self.end = self.bytes.len();
    }

    #[inline]
    fn last(&self) -> Option<&[u8]> {
        let len = self.pairs.last()?.key_len;
        self.bytes.get(self.end.wrapping_sub(len)..self.end)
    }

    /// Puts all into a tree, up to the first that is refused. Tells how many went in, and why not all did, if so. All are
    /// refused where the tree has a key that is not below them: so no word is replaced.
    pub(super) fn load_into(&self, words: &mut Words) -> (usize, Option<Stop>) {
        let Some(first) = self.pairs.first() else { return (0, None) };
        match words.near(Way::Up, From::Key(&self.bytes[..first.key_len])) {
            None => words.load(&self.bytes[..self.end], &self.pairs),
            Some(_) => (0, Some(Stop::NotAbove)),
        }
    }

    pub(super) fn clear(&mut self) {
        self.bytes.clear();
        self.end = 0;
        self.pairs.clear();
        self.first = u64::MAX;
    }
}

/// Pairs that the tree has refused: the first one, and those after it.
type Refused<'a, K, V> = Parted<'a, K, V, Map<vec::IntoIter<Pair>, fn(Pair) -> usize>>;

/// A map that pairs go into. Those that wait in the run are in the slab, and go into the tree at its end, also where a
/// panic ends it.
pub(super) struct Filling<'a, K: Key, V> {
    map: &'a mut ArtMap<K, V>,
    run: Run,
    /// The bytes of the greatest key of the map, where no pair waits; and whether that is known.
    greatest: Vec<u8>,
    is_known: bool,
}

/// A pair that doesn't wait, and where its key stands.
type Other<K, V> = (Result<Place, AllocError>, K, V);

/// Where a key stands.
#[derive(Clone, Copy)]
enum Place {
    /// After all others.
    AtEnd,
    /// After the greatest one, which begins it.
    Under,
    Elsewhere,
}

impl Place {
    /// Where a key stands that comes to the greatest one.
    #[inline]
    fn after(greatest: &[u8], key: &[u8]) -> Place {
        let len = greatest.len().min(key.len());
        match greatest[..len].cmp(&key[..len]) {
            Ordering::Less => Place::AtEnd,
            Ordering::Equal if len < key.len() => Place::Under,
            Ordering::Equal | Ordering::Greater => Place::Elsewhere,
        }
    }
}

impl<'a, K: Key, V> Filling<'a, K, V> {
    pub(super) const fn new(map: &'a mut ArtMap<K, V>) -> Self {
        Filling { map, run: Run::new(), greatest: Vec::new(), is_known: false }
    }

    /// Looks the greatest key up, where that is not known.
    fn know(&mut self) -> Result<(), AllocError> {
        if !self.is_known {
            self.greatest.clear();
            if let Some(word) = self.map.words.end(Way::Down) {
                let bytes = self.map.slab.pair(index_of(word)).0.to_bytes()?;
                let bytes = bytes.as_ref();
                self.greatest.try_reserve(bytes.len())?;
                self.greatest.extend_from_slice(bytes);
            }
            self.is_known = true;
        }
        Ok(())
    }

    /// Stores a pair that doesn't wait.
    #[inline(never)]
    fn store(&mut self, place: Result<Place, AllocError>, key: K, value: V) -> Result<(), TryInsertError<K, V>> {
        self.flush()?;
        match place {
            Ok(Place::Under) => Err(TryInsertError::Prefix { key, value }),
            Ok(_) => self.map.try_insert(key, value).map(drop),
            Err(AllocError) => Err(TryInsertError::Memory { key, value }),
        }
    }

    /// Where the key stands that was told. Where it comes after all others, it is then taken on.
    #[inline(never)]
    fn place(&mut self) -> Result<Place, AllocError> {
        let place = match self.run.last() {
            Some(last) => Place::after(last, self.run.told()),
            None => self.first_place()?,
        };
        if let Place::AtEnd = place {
            self.run.first = self.run.told().first_chunk().map_or(u64::MAX, |first| u64::from_be_bytes(*first));
        }
        Ok(place)
    }

    /// Where the key stands that was told, while no pair waits.
    #[inline(never)]
    fn first_place(&mut self) -> Result<Place, AllocError> {
        self.know()?;
        let is_empty = self.map.slab.len() == 0;
        Ok(if is_empty { Place::AtEnd } else { Place::after(&self.greatest, self.run.told()) })
    }

    /// Puts what waits into the tree. Tells why not all went in, and what was refused.
    fn load(&mut self) -> Option<(Stop, Refused<'_, K, V>)> {
        let last = self.run.last()?;
        self.greatest.clear();
        self.is_known = self.greatest.try_reserve(last.len()).is_ok();
        if self.is_known {
            self.greatest.extend_from_slice(last);
        }
        let (taken, stop) = self.run.load_into(&mut self.map.words);
        let mut pairs = std::mem::take(&mut self.run.pairs);
        self.run.clear();
        let Some(stop) = stop else {
            pairs.clear();
            self.run.pairs = pairs;
            return None;
        };
        self.is_known = false;
        let mut pairs = pairs.into_iter();
        pairs.by_ref().take(taken).for_each(drop);
        let index: fn(Pair) -> usize = |pair| index_of(pair.word);
        Some((stop, Parted { slab: &mut self.map.slab, indexes: pairs.map(index) }))
    }

    /// Puts what waits into the tree. The first pair that is refused is handed back, and those after it are dropped.
    #[inline(never)]
    fn flush(&mut self) -> Result<(), TryInsertError<K, V>> {
        let Some((stop, mut refused)) = self.load() else { return Ok(()) };
        if stop == Stop::NotAbove {
            drop(refused);
            panic!("{CHANGED}");
        }
        let (key, value) = refused.next().expect("the pair that was refused");
        refused.free();
        match stop {
            Stop::Memory => Err(TryInsertError::Memory { key, value }),
            Stop::Conflict | Stop::NotAbove => Err(TryInsertError::Prefix { key, value }),
        }
    }

    /// Takes pairs on, or stores them. What they stand in the place of is dropped.
    pub(super) fn fill(mut self, pairs: impl IntoIterator<Item = (K, V)>) -> Result<(), TryInsertError<K, V>> {
        let mut pairs = pairs.into_iter();
        self.run.reserve(pairs.size_hint().0);
        while let Some((place, key, value)) = self.take_on(&mut pairs)? {
            self.store(place, key, value)?;
        }
        self.flush()
    }

    /// Takes pairs on that come after all others, up to one that does not, if there is one. It is told.
    pub(super) fn fill_in_order(
        mut self,
        pairs: &mut impl Iterator<Item = (K, V)>,
    ) -> Result<Option<(K, V)>, TryInsertError<K, V>> {
        self.run.reserve(pairs.size_hint().0);
        let other = self.take_on(pairs)?;
        self.flush()?;
        Ok(other.map(|it| (it.1, it.2)))
    }

    /// Has pairs wait that come after all others, up to one that does not, if there is one. It is told.
    #[inline]
    fn take_on(
        &mut self,
        pairs: &mut impl Iterator<Item = (K, V)>,
    ) -> Result<Option<Other<K, V>>, TryInsertError<K, V>> {
        for (key, value) in pairs {
            // (for its bytes, its word, and itself)
            let has_room = self.run.tell(&key).is_ok() && self.map.slab.next_index().is_ok();
            if !has_room || !self.run.goes_up() {
                let place = if has_room { self.place() } else { Err(AllocError) };
                if !matches!(place, Ok(Place::AtEnd)) {
                    self.run.forget();
                    return Ok(Some((place, key, value)));
                }
            }
            let index = self.map.slab.fill_at_end(key, value);
            self.run.push(word_of(index));
            if self.run.is_full() {
                self.flush()?;
            }
        }
        Ok(None)
    }
}

/// Pairs wait here only where a panic has ended the filling. What is then refused is dropped, without another panic.
impl<K: Key, V> Drop for Filling<'_, K, V> {
    fn drop(&mut self) {
        drop(self.load());
    }
}

#[cfg(test)]
mod tests {
    use super::*;

    #[test]
    fn a_key_is_placed_as_slices_are_ordered() {
        let long: Vec<u8> = (0..40).map(|at| at % 5).collect();
        let mut keys = vec![Vec::new()];
        for len in 0..long.len() {
            for last in [0, 1, 127, 128, 255] {
                keys.push([&long[..len], &[last]].concat());
                keys.push([&long[..len], &[last], &long[len..]].concat());
            }
        }
        for greatest in &keys {
            for key in &keys {
                let is_right = match Place::after(greatest, key) {
                    Place::AtEnd => key > greatest && !key.starts_with(greatest),
                    Place::Under => key > greatest && key.starts_with(greatest),
                    Place::Elsewhere => key <= greatest,
                };
                assert!(is_right, "{greatest:?} {key:?}");
            }
        }
    }

    /// Puts keys in, in all orders of a few, and tells whether all are there, each with its last value.
    fn all_orders<K: crate::NoPrefixes + Ord + Clone + std::fmt::Debug>(key: impl Fn(u8) -> K) {
        for number in 0..6u32.pow(5) {
            let keys = (0..5).map(|place| key(u8::try_from(number / 6u32.pow(place) % 6).unwrap()));
            let pairs: Vec<_> = keys.zip(0..).collect();
            let (mut map, mut tree) = (ArtMap::from([(key(3), 9)]), std::collections::BTreeMap::from([(key(3), 9)]));
            map.extend(pairs.clone());
            tree.extend(pairs.clone());
            assert!(map.iter().eq(&tree), "{pairs:?}");
        }
    }

    #[test]
    fn pairs_wait_where_they_ascend_alone() {
        all_orders(|number| u64::from(number) << 40);
        all_orders(|number| number);
        all_orders(|number| format!("{}{number}", "front".repeat(usize::from(number % 3))));
    }

    #[test]
    fn what_is_collected_has_no_room() {
        for size in [1, 8, 5000] {
            let up: ArtMap<u32, u32> = (0..size).map(|it| (it, it)).collect();
            let down: ArtMap<u32, u32> = (0..size).rev().map(|it| (it, it)).collect();
            assert!(up.slab.is_tight() && down.slab.is_tight() && up == down);
        }
    }
}

//! Where the pairs lie: in slots, whose indexes are the words of the proved map.
use crate::error::AllocError;
use crate::ffi::ask_for;
use crate::room::make_room;
use crate::view::index_of;
use crate::walk::{AHEAD, Way};

/// No slot is free.
const NONE: usize = usize::MAX;

/// A pair, or the index of the next free slot.
pub(crate) enum Slot<K, V> {
    Full(K, V),
    Free(usize),
}

/// Slots, of which the free ones are a list.
pub(crate) struct Slab<K, V> {
    slots: Vec<Slot<K, V>>,
    free: usize,
    len: usize,
    /// Whether no slot is free, and the keys of the slots ascend.
    is_in_order: bool,
}

/// A word that no slot of a pair has.
#[cold]
fn no_pair(index: usize) -> ! {
    unreachable!("libartmap.a is not that of this crate: it told the word {index}, which is no pair's")
}

impl<K, V> Slab<K, V> {
    pub(crate) const fn new() -> Self {
        Slab { slots: Vec::new(), free: NONE, len: 0, is_in_order: true }
    }

    /// How many pairs there are.
    pub(crate) fn len(&self) -> usize {
        self.len
    }

    /// The index that the next pair gets, for which there is room from then on.
    #[inline]
    pub(crate) fn next_index(&mut self) -> Result<usize, AllocError> {
        if self.free != NONE {
            return Ok(self.free);
        }
        make_room(1, &mut self.slots)?;
        Ok(self.slots.len())
    }

    /// Makes room for so many pairs, and no others, where there is none yet.
    pub(crate) fn reserve_exact(&mut self, pairs: usize) -> Result<(), AllocError> {
        self.slots.try_reserve_exact(pairs)?;
        Ok(())
    }

    /// Makes room for so many more pairs.
    pub(crate) fn reserve(&mut self, additional: usize) -> Result<(), AllocError> {
        let free = self.slots.len() - self.len;
        self.slots.try_reserve(additional.saturating_sub(free))?;
        Ok(())
    }

    /// Puts a pair in, and tells its index.
    pub(crate) fn fill(&mut self, key: K, value: V) -> usize {
        self.is_in_order &= self.len == 0;
        self.fill_at_end(key, value)
    }

    /// Puts a pair in whose key is greater than all others, and tells its index.
    #[inline]
    pub(crate) fn fill_at_end(&mut self, key: K, value: V) -> usize {
        if self.free == NONE {
            self.len += 1;
            self.slots.push(Slot::Full(key, value));
            return self.slots.len() - 1;
        }
        self.fill_free(key, value)
    }

    /// Puts a pair into the first free slot, and tells its index.
    fn fill_free(&mut self, key: K, value: V) -> usize {
        let index = self.free;
        self.is_in_order = false;
        self.len += 1;
        let slot = &mut self.slots[index];
        match slot {
            Slot::Free(next) => self.free = *next,
            Slot::Full(..) => no_pair(index),
        }
        *slot = Slot::Full(key, value);
        index
    }

    /// Takes a pair out. Slots in order stay so where it is the last one.
    pub(crate) fn take(&mut self, index: usize) -> (K, V) {
        if self.is_in_order && index + 1 == self.slots.len() {
            if let Some(Slot::Full(key, value)) = self.slots.pop() {
                self.len -= 1;
                return (key, value);
            }
        }
        let Some(slot) = self.slots.get_mut(index) else { no_pair(index) };
        match std::mem::replace(slot, Slot::Free(self.free)) {
            Slot::Full(key, value) => {
                self.is_in_order = false;
                self.free = index;
                self.len -= 1;
                (key, value)
            }
            old @ Slot::Free(_) => {
                *slot = old;
                no_pair(index)
            }
        }
    }

    /// Moves pairs here from some slots of another slab. Their keys ascend, and are greater than all that are here.
    #[inline]
    pub(crate) fn gather(&mut self, from: &mut Self, indexes: impl Iterator<Item = usize> + Clone) {
        let mut soon = indexes.clone().skip(AHEAD);
        for index in indexes {
            if let Some(index) = soon.next() {
                from.ask_for(index);
            }
            let (key, value) = from.take(index);
            self.fill_at_end(key, value);
        }
    }

    /// Puts a pair after all slots. Its key need not be the greatest.
    pub(crate) fn push(&mut self, key: K, value: V) {
        self.is_in_order = false;
        self.len += 1;
        self.slots.push(Slot::Full(key, value));
    }

    /// Takes the pair out again that `fill` has just put in, as if it had not come.
    pub(crate) fn unfill(&mut self, index: usize, was_in_order: bool) -> (K, V) {
        let pair = self.take(index);
        if index + 1 == self.slots.len() && self.len == index {
            // (all before it are full, so it came after them)
            self.slots.pop();
            self.free = NONE;
        }
        self.is_in_order = was_in_order;
        pair
    }

    /// Gives the pair of a slot another key, and tells the one that it had.
    pub(crate) fn set_key(&mut self, index: usize, key: K) -> K {
        match self.slots.get_mut(index) {
            Some(Slot::Full(old, _)) => std::mem::replace(old, key),
            _ => no_pair(index),
        }
    }

    /// A pair, and one in a slot after its own.
    fn both(&mut self, index: usize, after: usize) -> [(&mut K, &mut V); 2] {
        let (to, from) = self.slots.split_at_mut(after);
        match (to.get_mut(index), from.first_mut()) {
            (Some(Slot::Full(key, value)), Some(Slot::Full(other, others))) => [(key, value), (other, others)],
            _ => no_pair(index),
        }
    }

    /// Has a pair and one in a slot after its own change their keys.
    pub(crate) fn swap_keys(&mut self, index: usize, after: usize) {
        let [one, other] = self.both(index, after);
        std::mem::swap(one.0, other.0);
    }

    /// Has a pair and one in a slot after its own change their values.
    pub(crate) fn swap_values(&mut self, index: usize, after: usize) {
        let [one, other] = self.both(index, after);
        std::mem::swap(one.1, other.1);
    }

    /// The slots, where their keys ascend and none is free; else the slab as it was.
    pub(crate) fn into_order(self) -> Result<Vec<Slot<K, V>>, Self> {
        if self.is_in_order { Ok(self.slots) } else { Err(self) }
    }

    /// The index that `push` gives the next pair.
    pub(crate) fn end(&self) -> usize {
        self.slots.len()
    }

    /// Makes room for so many more pairs after all slots.
    #[inline]
    pub(crate) fn reserve_at_end(&mut self, additional: usize) -> Result<(), AllocError> {
        make_room(additional, &mut self.slots)
    }

    /// Forgets the free slots, where there is no pair: the next ones stand in a row again. Tells whether there is none.
    pub(crate) fn settle(&mut self) -> bool {
        let is_empty = self.len == 0;
        if is_empty {
            self.slots.clear();
            self.free = NONE;
            self.is_in_order = true;
        }
        is_empty
    }

    #[inline]
    pub(crate) fn pair(&self, index: usize) -> (&K, &V) {
        match self.slots.get(index) {
            Some(Slot::Full(key, value)) => (key, value),
            _ => no_pair(index),
        }
    }

    /// Has a slot come nearer, which is read soon.
    #[inline]
    pub(crate) fn ask_for(&self, index: usize) {
        ask_for(&self.slots, index);
    }

    /// Has the slots of these words come nearer, which are read soon.
    #[inline]
    pub(crate) fn ask_for_all(&self, words: &[u64]) {
        for word in words {
            self.ask_for(index_of(*word));
        }
    }

    /// Has a call take the pairs of these words, whose slots come nearer ahead of it.
    #[inline]
    pub(crate) fn fold<'a, B>(&'a self, words: &[u64], all: B, mut call: impl FnMut(B, (&'a K, &'a V)) -> B) -> B {
        let (first, last) = words.split_at(words.len().saturating_sub(AHEAD));
        let all = first.iter().zip(&words[words.len() - first.len()..]).fold(all, |all, (word, soon)| {
            ask_for(&self.slots, index_of(*soon));
            call(all, self.pair(index_of(*word)))
        });
        last.iter().fold(all, |all, word| call(all, self.pair(index_of(*word))))
    }

    #[inline]
    pub(crate) fn pair_mut(&mut self, index: usize) -> (&K, &mut V) {
        match self.slots.get_mut(index) {
            Some(Slot::Full(key, value)) => (key, value),
            _ => no_pair(index),
        }
    }

    pub(crate) fn is_in_order(&self) -> bool {
        self.is_in_order
    }

    /// The index of the first pair, or of the last, where there is one and the slots are in order.
    pub(crate) fn end_in_order(&self, way: Way) -> Option<usize> {
        let last = self.slots.len().checked_sub(1)?;
        self.is_in_order.then_some(if way == Way::Up { 0 } else { last })
    }

    /// All slots, where their keys ascend and none is free.
    pub(crate) fn in_order(&self) -> Option<&[Slot<K, V>]> {
        self.is_in_order.then_some(&self.slots)
    }

    /// Whether there is room for so many pairs in all.
    pub(crate) fn has_room_for(&self, pairs: usize) -> bool {
        self.slots.capacity() >= pairs
    }

    /// Whether the slots are in order, and there is no room after them.
    pub(crate) fn is_tight(&self) -> bool {
        self.is_in_order && self.slots.capacity() == self.slots.len()
    }

    pub(crate) fn slots_mut(&mut self) -> &mut [Slot<K, V>] {
        &mut self.slots
    }

    /// Gives back the slots after the last pair, and the room after those, if there is memory for the slots that stay.
    pub(crate) fn shrink(&mut self) {
        while let Some(Slot::Free(_)) = self.slots.last() {
            self.slots.pop();
        }
        self.free = NONE;
        for (index, slot) in self.slots.iter_mut().enumerate().rev() {
            if let Slot::Free(next) = slot {
                *next = self.free;
                self.free = index;
            }
        }
        // (`shrink_to_fit` of a `Vec` may end the program)
        let mut slots = Vec::new();
        if self.slots.len() < self.slots.capacity() && slots.try_reserve_exact(self.slots.len()).is_ok() {
            slots.append(&mut self.slots);
            self.slots = slots;
        }
    }

    /// A copy in which each pair has the index that it has here. The slots are reserved first.
    pub(crate) fn try_clone(&self) -> Result<Self, AllocError>
    where
        K: Clone,
        V: Clone,
    {
        let mut slots = Vec::new();
        slots.try_reserve_exact(self.slots.len())?;
        slots.extend(self.slots.iter().map(|slot| match slot {
            Slot::Full(key, value) => Slot::Full(key.clone(), value.clone()),
            Slot::Free(next) => Slot::Free(*next),
        }));
        Ok(Slab { slots, free: self.free, len: self.len, is_in_order: self.is_in_order })
    }
}

impl<K, V> Slot<K, V> {
    /// The pair of a slot, if it has one.
    #[inline]
    pub(crate) fn pair(&self) -> Option<(&K, &V)> {
        match self {
            Slot::Full(key, value) => Some((key, value)),
            Slot::Free(_) => None,
        }
    }

    /// The pair of a slot that goes, if it has one.
    #[inline]
    pub(crate) fn into_pair(self) -> Option<(K, V)> {
        match self {
            Slot::Full(key, value) => Some((key, value)),
            Slot::Free(_) => None,
        }
    }

    /// The pair of a slot that has one.
    pub(crate) fn lend(&mut self, index: usize) -> (&K, &mut V) {
        match self {
            Slot::Full(key, value) => (key, value),
            Slot::Free(_) => no_pair(index),
        }
    }
}

#[cfg(test)]
mod tests {
    use super::*;

    #[test]
    fn slots_are_used_again() {
        let mut slab = Slab::new();
        for at in 0..5 {
            assert_eq!(slab.next_index(), Ok(at));
            assert_eq!(slab.fill(at, at.to_string()), at);
        }
        assert_eq!(slab.take(1), (1, "1".to_string()));
        assert_eq!(slab.take(3), (3, "3".to_string()));
        assert_eq!((slab.len(), slab.next_index()), (3, Ok(3)));
        assert_eq!(slab.fill(7, "7".to_string()), 3);
        *slab.pair_mut(3).1 = "8".to_string();
        assert_eq!(slab.pair(3), (&7, &"8".to_string()));
        assert_eq!((slab.set_key(3, 6), slab.pair(3).0, slab.len()), (7, &6, 4));
        // (a pair that is put back leaves no mark)
        let (next, is_in_order) = (slab.next_index(), slab.is_in_order());
        let index = slab.fill(5, "5".to_string());
        assert_eq!((slab.unfill(index, is_in_order), slab.next_index(), slab.len()), ((5, "5".to_string()), next, 4));
        assert!(slab.in_order().is_none() && Slab::<u8, u8>::new().in_order().is_some());
        let copy = slab.try_clone().unwrap();
        assert_eq!((copy.len(), copy.pair(4)), (4, (&4, &"4".to_string())));
        slab.take(4);
        slab.shrink();
        assert_eq!((slab.next_index(), slab.slots_mut().len()), (Ok(1), 4));
        for at in [0, 2, 3] {
            slab.take(at);
        }
        slab.settle();
        assert_eq!((slab.len(), slab.next_index()), (0, Ok(0)));
    }

    #[test]
    fn a_compact_lays_the_slots_out() {
        let mut map = crate::ArtMap::from([(3, 'c'), (1, 'a'), (2, 'b')]);
        assert!(map.slab.in_order().is_some());
        map.remove(&2);
        assert!(map.slab.in_order().is_none());
        map.compact();
        assert!(map.slab.is_tight() && map.values().eq(&['a', 'c']));
        map.insert(0, 'z');
        assert!(map.slab.in_order().is_none());
        map.lay_out();
        assert!(map.slab.in_order().is_some() && map.values().eq(&['z', 'a', 'c']));
    }

    #[test]
    fn the_last_pair_leaves_the_others_in_order() {
        let mut map = crate::ArtMap::from([(1, 'a'), (2, 'b'), (3, 'c'), (5, 'e')]);
        assert_eq!(
            (map.pop_last(), map.remove(&3), map.last_key_value()),
            (Some((5, 'e')), Some('c'), Some((&2, &'b')))
        );
        assert!(map.slab.in_order().is_some_and(|all| all.len() == 2));
        map.extend([(4, 'd'), (6, 'f')]);
        assert!(map.slab.in_order().is_some() && map.iter().eq([(&1, &'a'), (&2, &'b'), (&4, &'d'), (&6, &'f')]));
        assert_eq!((map.pop_first(), map.first_key_value()), (Some((1, 'a')), Some((&2, &'b'))));
        assert!(map.slab.in_order().is_none() && map.slab.end_in_order(Way::Up).is_none());
        assert_eq!((map.pop_last(), map.pop_first(), map.pop_last()), (Some((6, 'f')), Some((2, 'b')), Some((4, 'd'))));
        assert_eq!((map.pop_last(), map.pop_first(), map.len()), (None, None, 0));
    }
    #[test]
    fn a_map_that_is_empty_again_gives_its_memory_back() {
        let full = || (0..1000u32).map(|it| (it, it)).collect::<crate::ArtMap<_, _>>();
        let ways: [fn(&mut crate::ArtMap<u32, u32>); 5] = [
            |map| (0..1000).for_each(|it| assert!(map.remove(&it).is_some())),
            |map| while map.pop_last().is_some() {},
            |map| map.retain(|_, _| false),
            |map| assert_eq!(map.remove_prefix(&[0, 0]), 1000),
            |map| drop(map.split_off(&0)),
        ];
        for empty in ways {
            let mut map = full();
            empty(&mut map);
            assert!(map.is_empty() && !map.slab.has_room_for(1) && !map.words.is_made());
            map.insert(1, 1);
            map.remove(&1);
            assert!(map.slab.has_room_for(1) && map.words.is_made());
        }
    }
}

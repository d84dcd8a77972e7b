//! A map of pairs that come in no order: they are sorted first, and go into the tree as those that ascend.
use crate::Key;
use crate::error::AllocError;
use crate::ffi::Stop;
use crate::key::sealed::Sealed;
use crate::map::filling::Run;
use crate::map::{ArtMap, word_of};
use crate::room::make_room;
use crate::slab::Slab;

/// So many bytes of keys are compared eight at a time, and those after them at once.
const MOST: usize = 64;

/// A slot, and eight bytes of its key, as a number.
type Place = (u64, usize);

/// Pairs, and what their keys told, once each.
pub(super) struct Sorted<K, V> {
    slab: Slab<K, V>,
    told: Told,
    /// The slots, each with the first bytes of its key.
    order: Vec<Place>,
}

/// What keys told.
struct Told {
    bytes: Vec<u8>,
    /// Where the bytes of each key end.
    ends: Vec<usize>,
}

/// The first eight bytes as a number. Zeros stand for those that there are not.
#[inline]
fn first_eight(bytes: &[u8]) -> u64 {
    match bytes.first_chunk() {
        Some(first) => u64::from_be_bytes(*first),
        None => with_zeros(bytes),
    }
}

#[cold]
#[inline(never)]
fn with_zeros(bytes: &[u8]) -> u64 {
    bytes.iter().rfold(0, |number, byte| number >> 8 | u64::from(*byte) << 56)
}

impl Told {
    /// Has the key of the next slot tell its bytes.
    #[inline]
    fn tell<K: Key>(&mut self, key: &K, order: &mut Vec<Place>) -> Result<(), AllocError> {
        let from = self.bytes.len();
        key.push_bytes(Sealed, &mut self.bytes)?;
        make_room(1, &mut self.ends)?;
        make_room(1, order)?;
        order.push((first_eight(&self.bytes[from..]), self.ends.len()));
        self.ends.push(self.bytes.len());
        Ok(())
    }

    #[inline]
    fn by(&self, index: usize) -> &[u8] {
        let from = if index == 0 { 0 } else { self.ends[index - 1] };
        &self.bytes[from..self.ends[index]]
    }

    /// Sorts slots whose keys have so many bytes together, each by the eight bytes that follow; then those that are like each
    /// other by the rest. Of equal keys the one that came first is before the others.
    fn sort(&self, order: &mut [Place], from: usize) {
        order.sort_unstable_by_key(|it| it.0);
        for like in order.chunk_by_mut(|one, other| one.0 == other.0) {
            if like.len() == 1 {
                continue;
            }
            if from + 8 < MOST && like.iter().all(|it| self.by(it.1).len() > from + 8) {
                for it in &mut *like {
                    it.0 = first_eight(&self.by(it.1)[from + 8..]);
                }
                self.sort(like, from + 8);
            } else {
                like.sort_unstable_by(|one, other| self.by(one.1).cmp(self.by(other.1)).then(one.1.cmp(&other.1)));
            }
        }
    }
}

impl<K: Key, V> Sorted<K, V> {
    /// Takes pairs on, those of slots in a row first.
    pub(super) fn of(slab: Slab<K, V>, pairs: impl Iterator<Item = (K, V)>) -> Result<Self, AllocError> {
        let told = Told { bytes: Vec::new(), ends: Vec::new() };
        let mut made = Sorted { slab, told, order: Vec::new() };
        let most = made.slab.end() + pairs.size_hint().0;
        // (where there is no memory for so many at once, they may have it one by one)
        _ = made.told.bytes.try_reserve_exact(most.saturating_mul(8));
        _ = made.told.ends.try_reserve_exact(most);
        _ = made.order.try_reserve_exact(most);
        for index in 0..made.slab.end() {
            made.told.tell(made.slab.pair(index).0, &mut made.order)?;
        }
        for (key, value) in pairs {
            made.slab.reserve_at_end(1)?;
            made.told.tell(&key, &mut made.order)?;
            made.slab.push(key, value);
        }
        Ok(made)
    }

    /// Puts the keys into a tree, sorted, and tells it. The slots that are left stand in that order then. None, where a key
    /// begins another.
    fn load(&mut self) -> Result<Option<ArtMap<K, V>>, AllocError> {
        let (mut made, mut run, mut count) = (ArtMap::new(), Run::new(), 0usize);
        self.told.sort(&mut self.order, 0);
        run.reserve(self.order.len());
        for at in 0..self.order.len() {
            let (eight, index) = self.order[at];
            let told = self.told.by(index);
            if let Some((last, before)) = count.checked_sub(1).map(|last| self.order[last]) {
                if last == eight && self.told.by(before) == told {
                    self.slab.swap_values(before, index);
                    continue;
                }
            }
            run.add(told)?;
            run.push(word_of(count));
            self.order[count] = (eight, index);
            count += 1;
            if run.is_full() && !load(&mut run, &mut made)? {
                return Ok(None);
            }
        }
        self.order.truncate(count);
        Ok(load(&mut run, &mut made)?.then_some(made))
    }

    /// The map of the pairs. Of equal keys it has the first, with the value of the last. None, where a key begins another.
    pub(super) fn into_map(mut self) -> Result<Option<ArtMap<K, V>>, AllocError> {
        let Some(mut made) = self.load()? else { return Ok(None) };
        made.slab.reserve_exact(self.order.len())?;
        made.slab.gather(&mut self.slab, self.order.iter().map(|it| it.1));
        made.words.shrink();
        // (what gives way, before the map is told)
        drop(self.slab);
        Ok(Some(made))
    }
}

/// Puts the keys of a run into a tree. False, where one begins another.
fn load<K, V>(run: &mut Run, made: &mut ArtMap<K, V>) -> Result<bool, AllocError> {
    let stop = run.load_into(&mut made.words).1;
    run.clear();
    match stop {
        None => Ok(true),
        Some(Stop::Memory) => Err(AllocError),
        Some(Stop::Conflict | Stop::NotAbove) => Ok(false),
    }
}

#[cfg(test)]
mod tests {
    use super::*;

    #[test]
    fn slots_are_sorted_by_all_bytes() {
        let (front, mut keys): (Vec<u8>, Vec<Vec<u8>>) = ((0..80).map(|at| at % 3).collect(), Vec::new());
        for len in [0, 1, 7, 8, 9, 15, 16, 17, 24, 55, 56, 57, 63, 64, 65, 72, 80] {
            for back in [&[][..], &[0], &[0, 0], &[0, 1], &[1], &[255], &[0; 9], &[2; 30]] {
                keys.push([&front[..len], back].concat());
            }
        }
        keys.extend(keys.clone());
        for step in [1, 5, 7, 31, 101, 269] {
            let mut told = Told { bytes: Vec::new(), ends: Vec::new() };
            let mut order = Vec::new();
            let given: Vec<&Vec<u8>> = (0..keys.len()).map(|at| &keys[at * step % keys.len()]).collect();
            for (index, key) in given.iter().enumerate() {
                told.bytes.extend_from_slice(key);
                told.ends.push(told.bytes.len());
                order.push((first_eight(key), index));
            }
            told.sort(&mut order, 0);
            let mut wanted: Vec<usize> = (0..given.len()).collect();
            wanted.sort_by_key(|index| given[*index]);
            assert!(order.iter().map(|it| it.1).eq(wanted), "{step}");
        }
    }
}

//! Pairs in slots of which the tree has no word: not yet, or no more. A panic of a caller's code frees them, so that each full
//! slot is one of the tree from then on.
use crate::slab::Slab;
use std::mem::{forget, needs_drop};
use std::panic::{AssertUnwindSafe, catch_unwind};

/// Drops what may panic, without a panic: where one goes on already, a second one would end the program.
pub(crate) fn quietly<T>(it: T) {
    if !needs_drop::<T>() {
        return;
    }
    if let Err(why) = catch_unwind(AssertUnwindSafe(|| drop(it))) {
        // (what it panicked with may panic where it is dropped, too)
        if let Err(why) = catch_unwind(AssertUnwindSafe(|| drop(why))) {
            forget(why);
        }
    }
}

/// The key of a pair, whose value goes first: so the key is dropped, too, where that panics.
pub(crate) fn key_of<K, V>((key, value): (K, V)) -> K {
    drop(value);
    key
}

/// The value of a pair, whose key goes first.
pub(crate) fn value_of<K, V>((key, value): (K, V)) -> V {
    drop(key);
    value
}

/// A slot of which the tree has no word, if there is one. Its pair is freed where this goes.
pub(crate) struct Apart<'a, K, V> {
    pub(crate) slab: &'a mut Slab<K, V>,
    pub(crate) index: Option<usize>,
}

impl<K, V> Drop for Apart<'_, K, V> {
    fn drop(&mut self) {
        if let Some(index) = self.index.take() {
            quietly(self.slab.take(index));
        }
    }
}

/// Many such slots.
pub(crate) struct Parted<'a, K, V, I: Iterator<Item = usize>> {
    pub(crate) slab: &'a mut Slab<K, V>,
    pub(crate) indexes: I,
}

impl<K, V, I: Iterator<Item = usize>> Parted<'_, K, V, I> {
    /// Takes the next pair out.
    pub(crate) fn next(&mut self) -> Option<(K, V)> {
        self.indexes.next().map(|index| self.slab.take(index))
    }

    /// Frees all pairs, also where a `Drop` of one panics.
    pub(crate) fn free(mut self) {
        while let Some(pair) = self.next() {
            drop(pair);
        }
    }
}

impl<K, V, I: Iterator<Item = usize>> Drop for Parted<'_, K, V, I> {
    fn drop(&mut self) {
        while let Some(pair) = self.next() {
            quietly(pair);
        }
        self.slab.settle();
    }
}

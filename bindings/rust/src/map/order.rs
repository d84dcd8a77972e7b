//! The pairs of a map in the order of their keys, each once.
use crate::Key;
use crate::error::AllocError;
use crate::map::ArtMap;
use crate::walk::{All, Limits, Walk, Way};
use std::ops::Range;

/// The indexes of pairs that are left.
pub(super) struct Order<L> {
    /// Where they are all pairs and the slots are in order.
    slots: Option<Range<usize>>,
    walk: Walk<L>,
}

impl Order<All> {
    /// Those of all pairs of a map.
    pub(super) fn of<K, V>(map: &ArtMap<K, V>) -> Self {
        Order { slots: map.slab.in_order().map(|slots| 0..slots.len()), walk: Walk::new(All) }
    }
}

impl<L: Limits> Order<L> {
    pub(super) const fn within(limits: L) -> Self {
        Order { slots: None, walk: Walk::new(limits) }
    }

    /// The next one, and none twice, whatever the keys tell. An error where there is no memory for the bytes of a key.
    #[inline]
    pub(super) fn next<K: Key, V>(&mut self, map: &ArtMap<K, V>) -> Result<Option<usize>, AllocError> {
        if let Some(slots) = &mut self.slots {
            return Ok(slots.next());
        }
        self.walk.next_of(&map.words, Way::Up, &map.slab, true)
    }
}

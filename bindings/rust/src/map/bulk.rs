//! Many pairs at once.
use crate::Key;
use crate::error::{AllocError, TryInsertError, or_end};
use crate::ffi::Stop;
use crate::map::filling::{Filling, Run};
use crate::map::order::Order;
use crate::map::{ArtMap, CHANGED, word_of};
use crate::slab::Slab;
use crate::walk::{Between, Limits};
use std::borrow::Borrow;
use std::ops::Bound;

/// A map whose tree has keys, of which the pairs still lie in another slab.
struct Parting<K, V> {
    made: ArtMap<K, V>,
    /// Their indexes there, in the order of the keys.
    indexes: Vec<usize>,
}

impl<K, V> Parting<K, V> {
    /// Moves the pairs. It needs no memory.
    fn end(mut self, from: &mut Slab<K, V>) -> ArtMap<K, V> {
        self.made.slab.gather(from, self.indexes.iter().copied());
        self.made
    }

    /// Copies the pairs.
    fn copied(mut self, from: &Slab<K, V>) -> ArtMap<K, V>
    where
        K: Clone,
        V: Clone,
    {
        for index in self.indexes {
            let (key, value) = from.pair(index);
            self.made.slab.fill_at_end(key.clone(), value.clone());
        }
        self.made
    }
}

impl<K: Key, V> ArtMap<K, V> {
    /// Stores pairs one by one, or many at once where their keys ascend after the greatest one.
    ///
    /// ```
    /// let mut map = artmap::ArtMap::new();
    /// let refused = map.try_extend([(vec![1], 'a'), (vec![1, 2], 'b'), (vec![3], 'c')]).unwrap_err();
    /// assert_eq!(refused.into_pair(), (vec![1, 2], 'b'));
    /// assert_eq!(map.len(), 1);
    /// ```
    ///
    /// # Errors
    ///
    /// At the first pair that is refused, as [`try_insert`](Self::try_insert) does, and it hands that one back. Those before
    /// it are stored. Where memory lacks, pairs after it may have been taken from the iterator, and are dropped.
    pub fn try_extend<I: IntoIterator<Item = (K, V)>>(&mut self, pairs: I) -> Result<(), TryInsertError<K, V>> {
        Filling::new(self).fill(pairs)
    }

    /// A map of these pairs, whose types of keys may have prefixes. Those that ascend go in many at once. Others are put in
    /// order at the end, as by [`compact`](Self::compact), if there is memory. The tree keeps no memory that no node uses.
    ///
    /// ```
    /// let map = artmap::ArtMap::try_from_iter([(vec![2], 'b'), (vec![1], 'a')]).unwrap();
    /// assert!(map.values().eq(&['a', 'b']));
    /// ```
    ///
    /// # Errors
    ///
    /// At the first pair that is refused, as [`try_insert`](Self::try_insert) does, and it hands that one back.
    pub fn try_from_iter<I: IntoIterator<Item = (K, V)>>(pairs: I) -> Result<Self, TryInsertError<K, V>> {
        let (mut made, pairs) = (Self::new(), pairs.into_iter());
        // (where there is no memory for so many at once, they may have it one by one)
        _ = made.slab.reserve_exact(pairs.size_hint().0);
        made.try_extend(pairs)?;
        made.lay_out();
        made.words.shrink();
        Ok(made)
    }

    /// Moves the pairs from a key on into a map of their own.
    ///
    /// ```
    /// let mut map = artmap::ArtMap::from([(1, 'a'), (2, 'b'), (3, 'c')]);
    /// let rest = map.split_off(&2);
    /// assert!(map.into_keys().eq([1]) && rest.into_keys().eq([2, 3]));
    /// ```
    #[must_use]
    pub fn split_off<Q: Key + ?Sized>(&mut self, key: &Q) -> Self
    where
        K: Borrow<Q>,
    {
        or_end(self.try_split_off(key))
    }

    /// As [`split_off`](Self::split_off).
    ///
    /// ```
    /// let mut map = artmap::ArtMap::from([(1, 'a'), (2, 'b')]);
    /// assert_eq!(map.try_split_off(&2), Ok(artmap::ArtMap::from([(2, 'b')])));
    /// ```
    ///
    /// # Errors
    ///
    /// Where memory lacks. The map is as it was.
    pub fn try_split_off<Q: Key + ?Sized>(&mut self, key: &Q) -> Result<Self, AllocError>
    where
        K: Borrow<Q>,
    {
        // (the same bytes both times)
        let limits = Between::of(Bound::Included(key), Bound::Unbounded)?;
        let parting = self.parting(Order::within(&limits))?;
        let (Bound::Included(from), _) = limits.bytes() else { unreachable!("the bound that was given") };
        self.words.cut_off(from)?;
        let made = parting.end(&mut self.slab);
        self.settle();
        Ok(made)
    }

    /// Gives memory back that no pair uses. The pairs then lie in the order of their keys, so that a walk over all is faster.
    /// While it is at that, it needs memory for a second tree; if there is none, it gives back what it can without.
    ///
    /// ```
    /// let mut map: artmap::ArtMap<_, _> = (0..1000).map(|it| (it, it)).collect();
    /// map.retain(|key, _| key % 100 == 0);
    /// map.shrink_to_fit();
    /// assert_eq!(map.len(), 10);
    /// ```
    pub fn shrink_to_fit(&mut self) {
        if let Ok(parting) = self.parting(Order::of(self)) {
            *self = parting.end(&mut self.slab);
        } else {
            self.words.shrink();
            self.slab.shrink();
        }
    }

    /// Puts the pairs in the order of their keys, and the nodes of the tree, and gives memory back that neither uses. A walk
    /// then reads them as they lie. Meanwhile it needs memory for a second tree.
    ///
    /// ```
    /// let mut map = artmap::ArtMap::from([(3, 'c'), (1, 'a'), (2, 'b')]);
    /// map.compact();
    /// assert!(map.into_values().eq(['a', 'b', 'c']));
    /// ```
    pub fn compact(&mut self) {
        or_end(self.try_compact());
    }

    /// As [`compact`](Self::compact).
    ///
    /// ```
    /// let mut map = artmap::ArtMap::from([(2, 'b'), (1, 'a')]);
    /// assert_eq!(map.try_compact(), Ok(()));
    /// ```
    ///
    /// # Errors
    ///
    /// Where memory lacks. The map is as it was.
    pub fn try_compact(&mut self) -> Result<(), AllocError> {
        if self.slab.is_tight() {
            return self.words.compact();
        }
        let mut parting = self.parting(Order::of(self))?;
        parting.made.words.compact()?;
        *self = parting.end(&mut self.slab);
        Ok(())
    }

    /// Puts the pairs in the order of their keys, where there is memory for that; their tree is made anew with them.
    pub(crate) fn lay_out(&mut self) {
        if self.slab.in_order().is_some() {
            return;
        }
        if let Ok(parting) = self.parting(Order::of(self)) {
            *self = parting.end(&mut self.slab);
        }
    }

    /// A copy whose pairs and nodes are in the order of the keys.
    pub(crate) fn try_copied(&self) -> Result<Self, AllocError>
    where
        K: Clone,
        V: Clone,
    {
        Ok(self.parting(Order::of(self))?.copied(&self.slab))
    }

    /// Makes a tree of some keys, and room for their pairs.
    fn parting<L: Limits>(&self, mut order: Order<L>) -> Result<Parting<K, V>, AllocError> {
        let (mut made, mut run, mut indexes) = (Self::new(), Run::new(), Vec::new());
        while let Some(index) = order.next(self)? {
            run.tell(self.slab.pair(index).0)?;
            run.push(word_of(indexes.len()));
            indexes.try_reserve(1)?;
            indexes.push(index);
            if run.is_full() {
                made.load(&mut run)?;
            }
        }
        made.load(&mut run)?;
        made.slab.reserve_exact(indexes.len())?;
        Ok(Parting { made, indexes })
    }

    /// Puts the keys of a run, whose pairs are not there yet, into the tree.
    fn load(&mut self, run: &mut Run) -> Result<(), AllocError> {
        let stop = run.load_into(&mut self.words).1;
        run.clear();
        match stop {
            None => Ok(()),
            Some(Stop::Memory) => Err(AllocError),
            Some(Stop::Conflict | Stop::NotAbove) => panic!("{CHANGED}"),
        }
    }

    /// A copy of the map.
    ///
    /// ```
    /// let map = artmap::ArtMap::from([(1, 'a')]);
    /// assert_eq!(map.try_clone(), Ok(map.clone()));
    /// ```
    ///
    /// # Errors
    ///
    /// Where memory lacks for what the map itself takes.
    pub fn try_clone(&self) -> Result<Self, AllocError>
    where
        K: Clone,
        V: Clone,
    {
        Ok(ArtMap { words: self.words.try_clone()?, slab: self.slab.try_clone()? })
    }
}

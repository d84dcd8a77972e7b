//! serde's traits, by the feature `serde`: a map as a map, a set as a sequence, as `BTreeMap` and `BTreeSet` have it.
use crate::{ArtMap, ArtSet, Ended, FrozenMap, FrozenSet, Key};
use serde::de::{Deserialize, Deserializer, Error, MapAccess, SeqAccess, Visitor};
use serde::ser::{Serialize, Serializer};
use std::fmt;
use std::iter;
use std::marker::PhantomData;

/// Makes a map or a set of what it is told.
struct Reader<M>(PhantomData<M>);

/// What is made of all items that are read. At an error of the reader, that one is told.
fn collected<T, M, W: fmt::Display, E: Error>(
    mut read: impl FnMut() -> Result<Option<T>, E>,
    collect: impl FnOnce(&mut dyn Iterator<Item = T>) -> Result<M, W>,
) -> Result<M, E> {
    let mut failed = None;
    let mut items = iter::from_fn(|| {
        read().unwrap_or_else(|why| {
            failed = Some(why);
            None
        })
    });
    let made = collect(&mut items);
    match failed {
        Some(why) => Err(why),
        None => made.map_err(E::custom),
    }
}

impl<'de, K: Key + Deserialize<'de>, V: Deserialize<'de>> Visitor<'de> for Reader<ArtMap<K, V>> {
    type Value = ArtMap<K, V>;

    fn expecting(&self, to: &mut fmt::Formatter<'_>) -> fmt::Result {
        to.write_str("a map")
    }

    fn visit_map<A: MapAccess<'de>>(self, mut pairs: A) -> Result<ArtMap<K, V>, A::Error> {
        collected(|| pairs.next_entry(), |pairs| ArtMap::try_from_iter(pairs))
    }
}

impl<'de, K: Key + Deserialize<'de>> Visitor<'de> for Reader<ArtSet<K>> {
    type Value = ArtSet<K>;

    fn expecting(&self, to: &mut fmt::Formatter<'_>) -> fmt::Result {
        to.write_str("a sequence")
    }

    fn visit_seq<A: SeqAccess<'de>>(self, mut keys: A) -> Result<ArtSet<K>, A::Error> {
        collected(|| keys.next_element(), |keys| ArtSet::try_from_iter(keys))
    }
}

/// With the feature `serde`: from a map. A key that conflicts with an earlier one is an error, and so is want of memory;
/// of two that are equal, the later value stays.
impl<'de, K: Key + Deserialize<'de>, V: Deserialize<'de>> Deserialize<'de> for ArtMap<K, V> {
    fn deserialize<D: Deserializer<'de>>(from: D) -> Result<Self, D::Error> {
        from.deserialize_map(Reader(PhantomData::<Self>))
    }
}

/// With the feature `serde`: from a sequence. A key that conflicts with an earlier one is an error, and so is want of
/// memory.
impl<'de, K: Key + Deserialize<'de>> Deserialize<'de> for ArtSet<K> {
    fn deserialize<D: Deserializer<'de>>(from: D) -> Result<Self, D::Error> {
        from.deserialize_seq(Reader(PhantomData::<Self>))
    }
}

/// With the feature `serde`: as what it holds.
impl<'de, T: Deserialize<'de>> Deserialize<'de> for Ended<T> {
    fn deserialize<D: Deserializer<'de>>(from: D) -> Result<Self, D::Error> {
        T::deserialize(from).map(Ended)
    }
}

macro_rules! told {
    ($([$($of:tt)*] $it:ty, $self:ident, $to:ident, $said:expr, $how:literal;)*) => {$(
        #[doc = concat!("With the feature `serde`: ", $how, ".")]
        impl<$($of)*> Serialize for $it {
            fn serialize<S: Serializer>(&$self, $to: S) -> Result<S::Ok, S::Error> {
                $said
            }
        }
    )*};
}

told! {
    [K: Key + Serialize, V: Serialize] ArtMap<K, V>, self, to, to.collect_map(self), "as a map, whose keys ascend";
    [K: Key + Serialize, V: Serialize] FrozenMap<K, V>, self, to, to.collect_map(self), "as a map, whose keys ascend";
    [K: Key + Serialize] ArtSet<K>, self, to, to.collect_seq(self), "as a sequence, which ascends";
    [K: Key + Serialize] FrozenSet<K>, self, to, to.collect_seq(self), "as a sequence, which ascends";
    [T: Serialize] Ended<T>, self, to, self.0.serialize(to), "as what it holds";
}

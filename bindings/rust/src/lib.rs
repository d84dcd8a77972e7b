//! [`ArtMap`] and [`ArtSet`]: an ordered map and set of keys that are seen as bytes, in an adaptive radix tree that is proved.
//!
//! They go where std's [`BTreeMap`](std::collections::BTreeMap) and [`BTreeSet`](std::collections::BTreeSet) go, and have what
//! a radix tree adds: all keys with a prefix, those that begin a query, many keys taken out by their prefix.
//! [`compared`] has each call of theirs, and of the crate blart, beside the one here.
//!
//! ```
//! use artmap::ArtMap;
//!
//! let mut sizes = ArtMap::new();
//! sizes.insert("usr/bin/cc", 912);
//! sizes.insert("usr/lib/libc", 2_030);
//! *sizes.entry("var/log").or_insert(0) += 64;
//! assert_eq!(sizes.get("usr/bin/cc"), Some(&912));
//! assert_eq!(sizes.prefix("usr/").map(|pair| pair.1).sum::<i32>(), 2_942);
//! assert_eq!(sizes.remove_prefix("usr/"), 2);
//! assert_eq!(sizes.last_key_value(), Some((&"var/log", &64)));
//! ```
//!
//! # What is proved
//!
//! The tree is the library that `./lib` makes (`crates/art_c`, in Rattle): a map from byte strings to words. What each of its
//! calls answers and does is proved, of a caller that keeps the rules of `artmap.h`. This crate is such a caller: `src/ffi.rs`
//! has all its `unsafe`, and says why a hostile [`Key`] breaks none of it. Keys and values lie in slots of Rust's memory, and
//! the word of a key is the index of its slot. That part is not proved, but tested.
//!
//! # Keys
//!
//! [`Key`] turns a key into bytes: texts, numbers, addresses, times, tuples, options and lists of numbers have it, and types
//! of your own may. Keys ascend by their bytes, which for all these is the order of `Ord` ([`Ordered`]). A stored key begins
//! no other one. Where the type promises that ([`NoPrefixes`]), all calls are there. Byte strings as they are, such as
//! `Vec<u8>`, may conflict: for these there are [`try_insert`](ArtMap::try_insert), [`try_entry`](ArtMap::try_entry) and
//! [`try_extend`](ArtMap::try_extend), or an end mark by [`Ended`].
//!
//! # Memory and panics
//!
//! Where memory lacks, a call ends the program, as those of std's collections do. A call whose name begins with `try_` says
//! it instead, and tells what it leaves. All that may find no memory has such a form, but for [`freeze`](ArtMap::freeze) and
//! the steps of walks: a step needs memory where the bytes of a key are put together and are more than 120. A panic in a
//! `Drop`, a `Clone`, a closure, an iterator or a [`Key`] leaves the map whole. A `Key` that tells other bytes at each call
//! makes it find other pairs or panic, and nothing worse. A map that had room for 128 pairs or more gives its memory back
//! with its last pair.
//!
//! # Threads
//!
//! A map may go to another thread. It has one call at a time, those that read too, so it is not `Sync`: where many threads
//! read, [`freeze`](ArtMap::freeze) it, or [`freeze_clone`](ArtMap::freeze_clone) it as it is now: a [`FrozenMap`] is `Sync`.
//!
//! # Features
//!
//! The feature `serde`, which is off by default, has `Serialize` and `Deserialize` of serde for maps, sets and [`Ended`]; what
//! is frozen has `Serialize`. A map is one to serde, too, and a set a sequence. Without it the crate has no dependency.
#![deny(missing_docs, unsafe_code)]

pub mod compared;

pub use error::{AllocError, TryInsertError, TryKeyError};
pub use frozen::FrozenMap;
pub use iter::{Iter, IterBytes, Keys, Prefix, Range, Values};
pub use iter_mut::{IterMut, PrefixMut, RangeMut, ValuesMut};
pub use key::{Ended, Front, Key, KeyPrefix, NoPrefixes, Ordered, PrefixBytes};
pub use map::{
    AppendError, ArtMap, Entry, ExtractIf, InnerEntry, OccupiedEntry, PrefixEntry, TryExtractIf, VacantEntry,
};
pub use owned::{IntoIter, IntoKeys, IntoValues};
pub use prefixes::Prefixes;
pub use room::Room as KeyBytes;
pub use set::{ArtSet, Difference, FrozenSet, Intersection, SymmetricDifference, Union};
pub use set::{SetExtractIf, SetIntoIter, SetIter, SetPrefix, SetPrefixes, SetRange, SetTryExtractIf};

mod error;
#[allow(unsafe_code, reason = "all of it stands here")]
mod ffi;
mod frozen;
mod iter;
mod iter_mut;
mod key;
mod map;
mod owned;
mod parted;
mod pool;
mod prefixes;
mod room;
#[cfg(feature = "serde")]
mod serde;
mod set;
mod slab;
mod view;
mod walk;

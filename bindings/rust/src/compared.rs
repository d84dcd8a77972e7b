//! What std's `BTreeMap` and `BTreeSet` and the crate blart 0.6.0 have, and what stands here for it.
//!
//! # `BTreeMap`
//!
//! | There | Here |
//! |---|---|
//! | `new`, `clear`, `len`, `is_empty` | the same |
//! | `get`, `get_key_value`, `contains_key`, `get_mut` | the same, by all that a key is borrowed as; and with `try_` before the name |
//! | `first_key_value`, `last_key_value`, `first_entry`, `last_entry` | the same |
//! | `insert` | the same where the keys are [`NoPrefixes`](crate::NoPrefixes); [`try_insert`](crate::ArtMap::try_insert) |
//! | `entry` | the same where the keys are `NoPrefixes`; [`try_entry`](crate::ArtMap::try_entry) |
//! | `remove`, `remove_entry`, `pop_first`, `pop_last`, `retain`, `extract_if` | the same, and with `try_` before the name |
//! | `Debug` of all walks, also those that write | the same |
//! | `append` | the same where the keys are `NoPrefixes`; [`try_append`](crate::ArtMap::try_append) |
//! | `split_off` | the same, and [`try_split_off`](crate::ArtMap::try_split_off) |
//! | `range`, `range_mut` | the same, and with `try_`; wrong bounds are a panic of an empty map, too |
//! | `iter`, `iter_mut`, `keys`, `values`, `values_mut`, `into_keys`, `into_values` | the same |
//! | `Entry`: `or_insert`, `or_insert_with`, `or_insert_with_key`, `or_default`, `key`, `and_modify`, `insert_entry` | the same; `try_or_insert`, `try_or_insert_with`, `try_insert_entry` |
//! | `OccupiedEntry`: `key`, `get`, `get_mut`, `into_mut`, `insert`, `remove`, `remove_entry` | the same, and `try_remove_entry` |
//! | `VacantEntry`: `key`, `into_key`, `insert`, `insert_entry` | the same; `try_insert`, `try_insert_entry` |
//! | `Clone`, `Debug`, `Default`, `Eq`, `Ord`, `Hash`, `Index`, `IntoIterator` | the same, and `try_clone` |
//! | `Extend`, `FromIterator`, `From<[(K, V); N]>` | the same where the keys are `NoPrefixes`; `try_extend`, `try_from_iter` |
//! | (time) | `collect` of pairs that don't ascend ends with a second tree, in order: slower than std's by that, and the walks after it are not |
//! | `Iter`, `Keys`, `Values`, `Range`, their `_mut` and `Into` forms, `ExtractIf` | the same; from both ends, exact, fused as there |
//! | `Default` of `Iter`, `IterMut`, `Keys`, `Values`, `Range` | absent: a walk here is one over some map |
//! | `Send`, `UnwindSafe` | the same |
//! | serde's `Serialize` and `Deserialize` of it | the same, by the feature `serde` |
//! | `Sync` | a [`FrozenMap`](crate::FrozenMap) or [`FrozenSet`](crate::FrozenSet) is: a map's one handle has one call at a time |
//! | what is experimental: `new_in`, `try_insert`, `merge`, cursors | absent; blart's `try_insert` has the name |
//! | - | [`try_reserve`](crate::ArtMap::try_reserve), [`shrink_to_fit`](crate::ArtMap::shrink_to_fit), as of a `Vec` |
//!
//! # `BTreeSet`
//!
//! | There | Here |
//! |---|---|
//! | `new`, `clear`, `len`, `is_empty`, `first`, `last`, `iter` | the same |
//! | `contains`, `get`, `range` | the same, and with `try_` before the name |
//! | `insert`, `replace`, `append` | the same where the keys are `NoPrefixes`; with `try_` of all keys |
//! | `remove`, `take`, `pop_first`, `pop_last`, `retain`, `extract_if`, `split_off` | the same, and with `try_` |
//! | `difference`, `symmetric_difference`, `intersection`, `union`, `is_disjoint`, `is_subset`, `is_superset` | the same where the keys are [`Ordered`](crate::Ordered) |
//! | `&`, `\|`, `^`, `-` | the same where they are `NoPrefixes`, too; else `try_from_iter` of the walk |
//! | traits as of the map, `Extend<&K>` of copies | the same |
//! | `Iter`, `Range`, `IntoIter`, `ExtractIf` | `SetIter`, `SetRange`, `SetIntoIter`, `SetExtractIf` |
//! | serde's `Serialize` and `Deserialize` of it | the same, by the feature `serde` |
//! | what is experimental: `new_in`, `get_or_insert`, `get_or_insert_with`, `entry`, cursors | absent |
//!
//! # Frozen maps and sets
//!
//! | `BTreeMap`, `BTreeSet` | `FrozenMap`, `FrozenSet` |
//! |---|---|
//! | all calls that take `&self` and read | the same, and with `try_` where the bytes of a key may find no memory |
//! | `union`, `difference`, `symmetric_difference`, `intersection`, `is_subset`, `is_superset`, `is_disjoint` | the same, of two frozen sets |
//! | `&`, `\|`, `^`, `-` | absent: `collect` the walk |
//! | `Clone` | the same pairs once more; [`freeze_clone`](crate::ArtMap::freeze_clone) of a map copies |
//! | `Debug`, `Eq`, `Ord`, `Hash`, `Index`, `IntoIterator` of `&` | the same |
//! | `Send`, `Sync` | the same |
//! | calls that change | [`thaw`](crate::FrozenMap::thaw) first |
//!
//! # blart's `TreeMap`
//!
//! | There | Here |
//! |---|---|
//! | `new`, `clear`, `len`, `is_empty`, `get`, `get_key_value`, `get_mut`, `contains_key` | the same |
//! | `with_prefix_len` and the parameter `PREFIX_LEN` | absent: the library has one of 16 bytes, which no answer depends on |
//! | `new_in`, `allocator`, `into_raw`, `from_raw` and their kin | absent: nodes are the proved library's |
//! | `prefix_get`, `prefix_get_key_value`, `prefix_get_mut` | the same, and with `try_` before the name; of texts the longest |
//! | `fuzzy`, `fuzzy_mut` | absent: no proved call has them |
//! | `first_key_value`, `last_key_value`, `pop_first`, `pop_last` | the same |
//! | `insert` | the same, but a key that is stored stays, as in std |
//! | `try_insert` | the same; the error hands the pair back |
//! | `prefix_insert` | the same; it tells how many pairs made way; [`try_prefix_insert`](crate::ArtMap::try_prefix_insert) |
//! | `remove`, `remove_entry`, `retain`, `extract_if`, `append`, `split_off` | the same |
//! | `range`, `range_mut`, `prefix`, `prefix_mut`, `iter`, `keys`, `values` and their `_mut` and `into_` forms | the same; `prefix` takes bytes, a text, or [`Front`](crate::Front) |
//! | `entry`, `try_entry`; of an entry also `or_insert_entry`, `or_insert_with_key_entry`, `or_default_entry` | the same |
//! | `prefix_entry`, `PrefixEntry`, `InnerOccupiedEntry` | the same; a leaf is `Occupied`, and `Inner` is beside it; [`try_prefix_entry`](crate::ArtMap::try_prefix_entry) |
//! | `Clone`, `Debug`, `Default`, `Eq`, `Ord`, `Hash`, `Index`, `Extend`, `FromIterator`, `From` of arrays | the same |
//! | `Send` and `Sync` | `Send`; for readers a [`FrozenMap`](crate::FrozenMap) |
//! | - | [`prefixes`](crate::ArtMap::prefixes), [`remove_prefix`](crate::ArtMap::remove_prefix), [`iter_bytes`](crate::ArtMap::iter_bytes), [`freeze`](crate::ArtMap::freeze), [`compact`](crate::ArtMap::compact) |
//!
//! # blart's `TreeSet`
//!
//! | There | Here |
//! |---|---|
//! | its look-ups, insertions, removals, walks, merges and operators | as those of `BTreeSet` above |
//! | - | `prefix`, `prefix_get`, `prefixes`, `remove_prefix`, `compact`, these with `try_`, and `freeze` |
//!
//! # The rest of blart
//!
//! | There | Here |
//! |---|---|
//! | `AsBytes` | [`Key`](crate::Key), whose bytes may be put together, so that texts and numbers need no wrapper |
//! | `NoPrefixesBytes`, `OrderedBytes` | [`NoPrefixes`](crate::NoPrefixes), [`Ordered`](crate::Ordered), safe traits: a lie is a panic |
//! | `BytesMapping`, `Mapped`, `ToUBE`, `ToIBE`, `ToOctets`, `ConcatTuple` | the types themselves are keys, by these codings |
//! | keys `CStr`, `CString`, `OsStr`, `OsString`, `Cow`, `Box`, `Rc`, `Arc`, `&T` | the same |
//! | keys `Path`, `PathBuf` | by `as_os_str`: their own order is not that of bytes |
//! | keys `IoSlice`, `ManuallyDrop`, `&mut T`, `Vec` of `bool` or `char` | absent |
//! | tuples of seven to twelve parts | absent: a tuple may have a tuple as its part |
//! | `InsertPrefixError` | [`TryInsertError`](crate::TryInsertError), [`TryKeyError`](crate::TryKeyError) |
//! | `AllocatorError` and the like | [`AllocError`](crate::AllocError) |
//! | nodes, headers, raw operations, visitors, `WellFormedChecker` | absent: they are the proved library's, in Rattle |

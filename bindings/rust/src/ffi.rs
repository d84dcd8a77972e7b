//! The calls of `artmap.h`, and all `unsafe` of this crate.
//!
//! `artmap.h` has six rules, which a caller keeps and nothing checks. They are kept so:
//!
//! 1. The handle is private to [`Words`]. It begins as `ARTMAP_WORDS_EMPTY`, and only the calls below write it. A move of
//!    a `Words` is the one copy that is used from then on; it is no `Copy`, and has no `Clone`.
//! 2. A call runs while `&Words` or `&mut Words` is held, and calls nothing of Rust. `Words` is not `Sync`, since its handle
//!    stands in an `UnsafeCell`. So it has one call at a time. It is `Send`, as the rule allows: Rust orders what a thread
//!    does before it hands a value on before what the next one does with it. Those of a frozen map that threads have
//!    together stand each in a `Mutex` (`pool.rs`), which a call holds.
//! 3. Pointers and lengths are those of slices, which Rust has at most `isize::MAX` long, or of locals. What is read or
//!    written is initialised.
//! 4. What a call writes is `&mut` or a local, and so overlaps nothing else: the handles by their cells, one room, locals.
//! 5. `malloc`, `realloc` and `free` are those of the C library that Rust's std stands on.
//! 6. A call in a handler of signals or after a fork needs `unsafe` of the user's own.
//!
//! At each block stands the clause of `art_c` that says what its call answers (`crates/art_c`).
//!
//! # Code of a caller's
//!
//! A `Key`, its bytes, an `Ord`, a `Clone`, a `Drop` and a closure may panic in each of their calls, and tell something else
//! each time: that breaks none of the rules. No call of `artmap.h` runs code of a caller's. What it reads is a slice of
//! bytes that was taken once: `as_ref` is called once for each `to_bytes`, and the same slice goes to all calls that belong
//! together. Rust keeps it as it is meanwhile, whatever a second `as_ref` would tell. (`Key::with_bytes` is sealed: no
//! type of a caller's runs around a call.) So each block below holds for any bytes, but those of [`WalkMut`], which need
//! more:
//!
//! - *One slot, one word.* The words of a tree are the indexes of the full slots, each once. What changes one changes the
//!   other, before code of a caller's runs (`store`, `take`, `take_at`, `pop`, `take_all` and what `bulk.rs` has): a pair
//!   lies in its slot before the tree has its word, and `Apart` or `Parted` free the slots that the tree has not, also where
//!   a panic goes on. A key that waits to go in has its slot, and the run its bytes: nothing of a caller's runs between the
//!   two. A run goes in only where the tree itself has no key that is not below it, so that no word is replaced unseen.
//! - *Each pair once.* A walk goes on from the pair that it lent last, by the word that the tree has for the bytes told. Where
//!   a key tells others, that word is another one, and the walk panics.
use crate::Key;
use crate::error::{AllocError, or_end};
use crate::slab::{Slab, Slot};
use crate::walk::{Limits, Walk, Way};
pub(crate) use span::{From, Put, Stop, To};
use std::cell::{Cell, UnsafeCell};
use std::ffi::c_void;
use std::marker::PhantomData;
use std::panic::{RefUnwindSafe, UnwindSafe};
use std::ptr;

/// `artmap_words` of the header.
#[repr(C)]
struct Handle {
    held: *mut c_void,
    is_made: bool,
}

/// `artmap_span` of the header.
#[repr(C)]
struct RawSpan {
    back: bool,
    from: u32,
    to: u32,
    from_key: *const u8,
    from_len: usize,
    to_key: *const u8,
    to_len: usize,
}

/// `artmap_hint` of the header: where a walk goes on, if nothing was changed there.
#[repr(C)]
#[derive(Clone, Copy)]
pub(crate) struct Hint {
    first: usize,
    last: usize,
}

impl Hint {
    /// That of a walk which begins.
    pub(crate) const NONE: Hint = Hint { first: 0, last: 0 };

    /// Where a walk of this way ends.
    fn far(&mut self, way: Way) -> &mut usize {
        if way == Way::Up { &mut self.last } else { &mut self.first }
    }
}

/// `artmap_words_pair` of the header: how long a key is, and its word.
#[repr(C)]
#[derive(Clone, Copy)]
pub(crate) struct Pair {
    pub(crate) key_len: usize,
    pub(crate) word: u64,
}

#[rustfmt::skip]
unsafe extern "C" {
    fn artmap_words_new(map: *mut Handle) -> u32;
    fn artmap_words_free(map: *mut Handle);
    #[cfg(test)]
    fn artmap_words_len(map: *mut Handle) -> usize;
    fn artmap_words_put(map: *mut Handle, key: *const u8, key_len: usize, word: u64, old: *mut u64) -> u32;
    fn artmap_words_get(map: *mut Handle, key: *const u8, key_len: usize, word: *mut u64) -> u32;
    fn artmap_words_remove(map: *mut Handle, key: *const u8, key_len: usize, word: *mut u64) -> u32;
    fn artmap_words_pop(map: *mut Handle, back: bool, word: *mut u64) -> u32;
    fn artmap_words_remove_prefix(map: *mut Handle, prefix: *const u8, prefix_len: usize, count: *mut usize) -> u32;
    fn artmap_words_find(map: *mut Handle, query: *const u8, query_len: usize, key_len: *mut usize, word: *mut u64) -> u32;
    fn artmap_words_find_marked(map: *mut Handle, query: *const u8, query_len: usize, mark: u8, key_len: *mut usize,
        word: *mut u64) -> u32;
    fn artmap_words_first_word(map: *mut Handle, word: *mut u64) -> u32;
    fn artmap_words_last_word(map: *mut Handle, word: *mut u64) -> u32;
    fn artmap_words_first_word_with_prefix(map: *mut Handle, prefix: *const u8, prefix_len: usize, word: *mut u64) -> u32;
    fn artmap_words_next_word(map: *mut Handle, key: *const u8, key_len: usize, word: *mut u64) -> u32;
    fn artmap_words_previous_word(map: *mut Handle, key: *const u8, key_len: usize, word: *mut u64) -> u32;
    fn artmap_words_word_at_or_after(map: *mut Handle, key: *const u8, key_len: usize, word: *mut u64) -> u32;
    fn artmap_words_word_at_or_before(map: *mut Handle, key: *const u8, key_len: usize, word: *mut u64) -> u32;
    fn artmap_words_first_with_prefix(map: *mut Handle, prefix: *const u8, prefix_len: usize, room: *mut u8, room_len: usize,
        key_len: *mut usize, word: *mut u64) -> u32;
    fn artmap_words_walk_words_on(map: *mut Handle, span: *const RawSpan, hint: *mut Hint, words: *mut u64, places: usize,
        count: *mut usize) -> u32;
    fn artmap_words_load(map: *mut Handle, keys: *const u8, keys_len: usize, pairs: *const Pair, count: usize,
        taken: *mut usize) -> u32;
    fn artmap_words_clone(map: *mut Handle, to: *mut Handle) -> u32;
    fn artmap_words_split_off(map: *mut Handle, key: *const u8, key_len: usize, to: *mut Handle) -> u32;
    fn artmap_words_shrink(map: *mut Handle) -> u32;
    fn artmap_words_compact(map: *mut Handle) -> u32;
    fn artmap_words_freeze(map: *mut Handle) -> u32;
    fn artmap_words_share(map: *mut Handle, to: *mut Handle) -> u32;
    fn artmap_words_thaw(map: *mut Handle) -> u32;
}

// `artmap_code` of the header.
const DONE: u32 = 0;
const REPLACED: u32 = 1;
const NOT_FOUND: u32 = 2;
const CONFLICT: u32 = 3;
const NO_ROOM: u32 = 4;
const NO_MEMORY: u32 = 5;
const NO_MAP: u32 = 6;
const NOT_ABOVE: u32 = 7;
#[allow(dead_code, reason = "a run has the bytes that its lengths tell")]
const CUT_OFF: u32 = 8;
const MORE: u32 = 9;
#[allow(dead_code, reason = "no call changes a map that is frozen")]
const FROZEN: u32 = 10;
const SHARED: u32 = 11;

// `artmap_from` and `artmap_to` of the header.
const FROM_END: u32 = 0;
const FROM_KEY: u32 = 1;
const AFTER_KEY: u32 = 2;
const TO_END: u32 = 0;
const TO_KEY: u32 = 1;
const BEFORE_KEY: u32 = 2;
const WITH_PREFIX: u32 = 3;

/// A code that the call's clause does not have.
#[cold]
fn not_told(code: u32) -> ! {
    unreachable!("libartmap.a is not that of this crate: a call answered {code}")
}

/// A map from byte strings to words, made by its first pair. Without one the handle has no map, and reads as an empty one.
pub(crate) struct Words {
    handle: UnsafeCell<Handle>,
    /// Where its first pair and its last were found, to begin with.
    ends: Cell<Hint>,
}

// SAFETY: rules 1, 2: a handle may go to another thread between two calls. Clause of `artmap_words_new`: IsNew, of a handle
// that is proved to be `Send`.
unsafe impl Send for Words {}

// A panic of Rust never comes out of a call, so what it leaves is whole.
impl UnwindSafe for Words {}
impl RefUnwindSafe for Words {}

impl Words {
    /// Needs no memory.
    pub(crate) const fn new() -> Words {
        let handle = UnsafeCell::new(Handle { held: ptr::null_mut(), is_made: false });
        Words { handle, ends: Cell::new(Hint::NONE) }
    }

    #[cfg(test)]
    pub(crate) fn is_made(&mut self) -> bool {
        self.handle.get_mut().is_made
    }

    #[cfg(test)]
    pub(crate) fn len(&self) -> usize {
        // SAFETY: rules 1, 2. Clauses of `artmap_words_len`: len, kept.
        unsafe { artmap_words_len(self.handle.get()) }
    }

    /// Frees the map: there are no pairs from then on.
    pub(crate) fn clear(&mut self) {
        // SAFETY: rules 1, 2. Clause of `artmap_words_free`: store_of.
        unsafe { artmap_words_free(self.handle.get()) }
    }

    /// Makes the map where there is none.
    #[inline]
    fn make(&mut self) -> Result<(), AllocError> {
        if self.handle.get_mut().is_made {
            return Ok(());
        }
        // SAFETY: rules 1, 2. Clause of `artmap_words_new`: IsNew.
        match unsafe { artmap_words_new(self.handle.get()) } {
            DONE => Ok(()),
            NO_MEMORY => Err(AllocError),
            code => not_told(code),
        }
    }

    /// Puts a pair in. Where it conflicts, or there is no memory, the pairs are as they were.
    #[inline]
    pub(crate) fn put(&mut self, key: &[u8], word: u64) -> Result<Put, AllocError> {
        self.make()?;
        let mut old = 0;
        // SAFETY: rules 1 to 4; the key is read alone, `old` is a local. Clause of `artmap_words_put`: IsWordPut.
        match unsafe { artmap_words_put(self.handle.get(), key.as_ptr(), key.len(), word, &raw mut old) } {
            DONE => Ok(Put::New),
            REPLACED => Ok(Put::Replaced(old)),
            CONFLICT => Ok(Put::Conflict),
            NO_MEMORY => Err(AllocError),
            code => not_told(code),
        }
    }

    /// The word of a key.
    #[inline]
    pub(crate) fn get(&self, key: &[u8]) -> Option<u64> {
        let mut word = 0;
        // SAFETY: rules 1 to 4; `word` is a local. Clause of `artmap_words_get`: IsWordRead.
        match unsafe { artmap_words_get(self.handle.get(), key.as_ptr(), key.len(), &raw mut word) } {
            DONE => Some(word),
            NOT_FOUND | NO_MAP => None,
            code => not_told(code),
        }
    }

    /// The word of the key that begins the query, or equals it.
    pub(crate) fn find(&self, query: &[u8]) -> Option<u64> {
        self.find_len(query).map(|found| found.1)
    }

    /// The length, with the end mark, and the word of the longest key that is some bytes of the query, from its first, and
    /// that mark.
    pub(crate) fn find_marked(&self, query: &[u8]) -> Option<(usize, u64)> {
        let (mut len, mut word) = (0, 0);
        let at = self.handle.get();
        // SAFETY: rules 1 to 4; both are locals. Clause of `artmap_words_find_marked`: IsLenWordRead.
        match unsafe { artmap_words_find_marked(at, query.as_ptr(), query.len(), 0, &raw mut len, &raw mut word) } {
            DONE => Some((len, word)),
            NOT_FOUND | NO_MAP => None,
            code => not_told(code),
        }
    }

    /// The length and the word of the key that begins the query, or equals it.
    pub(crate) fn find_len(&self, query: &[u8]) -> Option<(usize, u64)> {
        let (mut len, mut word) = (0, 0);
        let at = self.handle.get();
        // SAFETY: rules 1 to 4; both are locals. Clause of `artmap_words_find`: IsLenWordRead.
        match unsafe { artmap_words_find(at, query.as_ptr(), query.len(), &raw mut len, &raw mut word) } {
            DONE => Some((len, word)),
            NOT_FOUND | NO_MAP => None,
            code => not_told(code),
        }
    }

    /// The word of the least key, or of the greatest.
    pub(crate) fn end(&self, way: Way) -> Option<u64> {
        let (at, mut word) = (self.handle.get(), 0);
        // SAFETY: rules 1 to 4; `word` is a local. Clauses of `artmap_words_first_word`, `artmap_words_last_word`:
        // IsPairsWordRead.
        let code = unsafe {
            match way {
                Way::Up => artmap_words_first_word(at, &raw mut word),
                Way::Down => artmap_words_last_word(at, &raw mut word),
            }
        };
        match code {
            DONE => Some(word),
            NOT_FOUND | NO_MAP => None,
            code => not_told(code),
        }
    }

    /// The word of the pair with which a walk begins that goes to its end of the map.
    #[inline]
    pub(crate) fn near(&self, way: Way, from: From<'_>) -> Option<u64> {
        let (key, is_after) = match from {
            From::End => return self.end(way),
            From::Key(key) => (key, false),
            From::After(key) => (key, true),
        };
        let (at, mut word) = (self.handle.get(), 0);
        let (key, len, told) = (key.as_ptr(), key.len(), &raw mut word);
        // SAFETY: rules 1 to 4; the key is read alone, `word` is a local. Clauses of `artmap_words_word_at_or_after`,
        // `artmap_words_next_word`, `artmap_words_word_at_or_before`, `artmap_words_previous_word`: IsPairsWordRead.
        let code = unsafe {
            match (way, is_after) {
                (Way::Up, false) => artmap_words_word_at_or_after(at, key, len, told),
                (Way::Up, true) => artmap_words_next_word(at, key, len, told),
                (Way::Down, false) => artmap_words_word_at_or_before(at, key, len, told),
                (Way::Down, true) => artmap_words_previous_word(at, key, len, told),
            }
        };
        match code {
            DONE => Some(word),
            NOT_FOUND | NO_MAP => None,
            code => not_told(code),
        }
    }

    /// Whether a key begins with these bytes.
    pub(crate) fn has_prefix(&self, prefix: &[u8]) -> bool {
        let (at, mut word) = (self.handle.get(), 0);
        // SAFETY: rules 1 to 4; `word` is a local. Clause of `artmap_words_first_word_with_prefix`: IsPairsWordRead.
        match unsafe { artmap_words_first_word_with_prefix(at, prefix.as_ptr(), prefix.len(), &raw mut word) } {
            DONE => true,
            NOT_FOUND | NO_MAP => false,
            code => not_told(code),
        }
    }

    /// The word of the key that is these bytes and a zero, in a map whose keys end with a zero and have no other.
    pub(crate) fn get_ended(&self, front: &[u8]) -> Option<u64> {
        let (at, to, mut len, mut word) = (self.handle.get(), ptr::NonNull::dangling().as_ptr(), 0, 0);
        let (front_at, front_len) = (front.as_ptr(), front.len());
        // SAFETY: rules 1 to 4; the room has no bytes, the rest are locals. Clause of `artmap_words_first_with_prefix`:
        // IsWordPairRead.
        match unsafe { artmap_words_first_with_prefix(at, front_at, front_len, to, 0, &raw mut len, &raw mut word) } {
            // (the least of those that begin so is the one that ends there)
            NO_ROOM | DONE if len == front_len + 1 => Some(word),
            NO_ROOM | DONE | NOT_FOUND | NO_MAP => None,
            code => not_told(code),
        }
    }

    /// Takes a pair out, and tells its word.
    #[inline]
    pub(crate) fn remove(&mut self, key: &[u8]) -> Result<Option<u64>, AllocError> {
        let mut word = 0;
        // SAFETY: rules 1 to 4; `word` is a local. Clause of `artmap_words_remove`: IsWordRemoved.
        match unsafe { artmap_words_remove(self.handle.get(), key.as_ptr(), key.len(), &raw mut word) } {
            DONE => Ok(Some(word)),
            NOT_FOUND | NO_MAP => Ok(None),
            NO_MEMORY => Err(AllocError),
            code => not_told(code),
        }
    }

    /// Takes out the pair with the least key, or with the greatest, and tells its word.
    pub(crate) fn pop(&mut self, way: Way) -> Result<Option<u64>, AllocError> {
        let mut word = 0;
        // SAFETY: rules 1 to 4; `word` is a local. Clause of `artmap_words_pop`: IsWordPopped.
        match unsafe { artmap_words_pop(self.handle.get(), way == Way::Down, &raw mut word) } {
            DONE => Ok(Some(word)),
            NOT_FOUND | NO_MAP => Ok(None),
            NO_MEMORY => Err(AllocError),
            code => not_told(code),
        }
    }

    /// Takes out all pairs whose keys begin with these bytes, or none for want of memory.
    pub(crate) fn remove_prefix(&mut self, prefix: &[u8]) -> Result<(), AllocError> {
        let (at, mut count) = (self.handle.get(), 0);
        // SAFETY: rules 1 to 4; `count` is a local. Clause of `artmap_words_remove_prefix`: IsPrefixRemoved.
        match unsafe { artmap_words_remove_prefix(at, prefix.as_ptr(), prefix.len(), &raw mut count) } {
            DONE | NO_MAP => Ok(()),
            NO_MEMORY => Err(AllocError),
            code => not_told(code),
        }
    }

    /// Tells the words of the pairs of a span in order, as many as there are places for. Tells how many these are, and
    /// whether others are left.
    #[inline]
    pub(crate) fn walk(&self, way: Way, from: From<'_>, to: To<'_>, words: &mut [u64]) -> (usize, bool) {
        let mut none = Hint::NONE;
        self.walk_on(way, from, to, &mut none, words)
    }

    /// The same, for a walk of several calls: by the hint that the last one has left it finds its place at once.
    #[inline]
    pub(crate) fn walk_on(
        &self,
        way: Way,
        from: From<'_>,
        to: To<'_>,
        hint: &mut Hint,
        words: &mut [u64],
    ) -> (usize, bool) {
        let (from, from_key) = match from {
            From::End => (FROM_END, &[][..]),
            From::Key(key) => (FROM_KEY, key),
            From::After(key) => (AFTER_KEY, key),
        };
        let (to, to_key) = match to {
            To::End => (TO_END, &[][..]),
            To::Key(key) => (TO_KEY, key),
            To::Before(key) => (BEFORE_KEY, key),
            To::Prefix(key) => (WITH_PREFIX, key),
        };
        let span = RawSpan {
            back: way == Way::Down,
            from,
            to,
            from_key: from_key.as_ptr(),
            from_len: from_key.len(),
            to_key: to_key.as_ptr(),
            to_len: to_key.len(),
        };
        let mut ends = self.ends.get();
        if to == TO_END && *hint.far(way) == 0 {
            *hint.far(way) = *ends.far(way);
        }
        let (at, told, places, mut count) = (self.handle.get(), words.as_mut_ptr(), words.len(), 0);
        // SAFETY: rules 1 to 4; the places are lent alone, so is the hint, the keys beside them, and the rest are locals.
        // Clause of `artmap_words_walk_words`: IsWordsWalked, whatever the hint has.
        let code = unsafe { artmap_words_walk_words_on(at, &raw const span, hint, told, places, &raw mut count) };
        if to == TO_END && *hint.far(way) != 0 {
            *ends.far(way) = *hint.far(way);
            self.ends.set(ends);
        }
        match code {
            DONE => (count, false),
            MORE | NO_ROOM => (count, true),
            NOT_FOUND | NO_MAP => (0, false),
            code => not_told(code),
        }
    }

    /// Puts in the pairs of a buffer, whose keys ascend, up to the first that is refused. Tells how many went in, and why
    /// not all did, if so.
    pub(crate) fn load(&mut self, keys: &[u8], pairs: &[Pair]) -> (usize, Option<Stop>) {
        let mut taken = 0;
        if self.make().is_err() {
            return (taken, Some(Stop::Memory));
        }
        let (to, at, count) = (self.handle.get(), keys.as_ptr(), pairs.len());
        // SAFETY: rules 1 to 4; both slices are read alone, `taken` is a local. Clause of `artmap_words_load`: IsLoaded.
        match unsafe { artmap_words_load(to, at, keys.len(), pairs.as_ptr(), count, &raw mut taken) } {
            DONE => (taken, None),
            CONFLICT => (taken, Some(Stop::Conflict)),
            NO_MEMORY => (taken, Some(Stop::Memory)),
            NOT_ABOVE => (taken, Some(Stop::NotAbove)),
            // (the lengths are those of the keys, as `Run` holds them)
            code => not_told(code),
        }
    }

    /// A copy, with the same words.
    pub(crate) fn try_clone(&self) -> Result<Words, AllocError> {
        let mut made = Words::new();
        // SAFETY: rules 1 to 4; the two handles are different ones. Clause of `artmap_words_clone`: GetsCopy.
        match unsafe { artmap_words_clone(self.handle.get(), made.handle.get_mut()) } {
            DONE | NO_MAP => Ok(made),
            NO_MEMORY => Err(AllocError),
            code => not_told(code),
        }
    }

    /// Takes out all pairs from a key on. Where memory lacks, all stay.
    pub(crate) fn cut_off(&mut self, key: &[u8]) -> Result<(), AllocError> {
        let mut rest = Words::new();
        let at = self.handle.get();
        // SAFETY: rules 1 to 4; the two handles are different ones. Clause of `artmap_words_split_off`: IsSplitOff.
        match unsafe { artmap_words_split_off(at, key.as_ptr(), key.len(), rest.handle.get_mut()) } {
            DONE | NO_MAP => Ok(()),
            NO_MEMORY => Err(AllocError),
            code => not_told(code),
        }
    }

    /// Gives memory back that no node uses.
    pub(crate) fn shrink(&mut self) {
        // SAFETY: rules 1, 2. Clause of `artmap_words_shrink`: IsShrunk.
        match unsafe { artmap_words_shrink(self.handle.get()) } {
            DONE | NO_MAP => {}
            code => not_told(code),
        }
    }

    /// Makes all nodes anew in the order of the keys, and gives memory back that they don't need.
    pub(crate) fn compact(&mut self) -> Result<(), AllocError> {
        // SAFETY: rules 1, 2. Clause of `artmap_words_compact`: IsCompacted.
        match unsafe { artmap_words_compact(self.handle.get()) } {
            DONE | NO_MAP => Ok(()),
            NO_MEMORY => Err(AllocError),
            code => not_told(code),
        }
    }

    /// Freezes the map: from then on [`share`](Self::share) makes other handles on it.
    pub(crate) fn freeze(&mut self) -> Result<(), AllocError> {
        self.make()?;
        // SAFETY: rules 1, 2. Clause of `artmap_words_freeze`: IsFrozen.
        match unsafe { artmap_words_freeze(self.handle.get()) } {
            DONE => Ok(()),
            NO_MEMORY => Err(AllocError),
            code => not_told(code),
        }
    }

    /// Another handle on a frozen map.
    pub(crate) fn share(&self) -> Result<Words, AllocError> {
        let mut made = Words::new();
        // SAFETY: rules 1 to 4; the two handles are different ones. Clause of `artmap_words_share`: IsShared.
        match unsafe { artmap_words_share(self.handle.get(), made.handle.get_mut()) } {
            DONE => Ok(made),
            NO_MEMORY => Err(AllocError),
            code => not_told(code),
        }
    }

    /// Makes a frozen map one that can be changed. False where another handle has it, too.
    pub(crate) fn thaw(&mut self) -> bool {
        // SAFETY: rules 1, 2. Clause of `artmap_words_thaw`: IsThawed.
        match unsafe { artmap_words_thaw(self.handle.get()) } {
            DONE => true,
            SHARED => false,
            code => not_told(code),
        }
    }
}

impl Drop for Words {
    fn drop(&mut self) {
        self.clear();
    }
}

/// A walk that lends values to be written, each pair once.
pub(crate) struct WalkMut<'a, K, V, L> {
    words: &'a mut Words,
    slots: *mut Slot<K, V>,
    len: usize,
    walk: Walk<L>,
    /// The key that was lent last at each end.
    front: Option<&'a K>,
    back: Option<&'a K>,
    of: PhantomData<&'a mut Slot<K, V>>,
}

// SAFETY: rule 2 is kept by its `&mut` of the words. Clause of `artmap_words_walk_words`: IsWordsWalked, of that handle alone.
// What else it has is a `&mut` of the slots, and shared references to keys.
unsafe impl<K: Send + Sync, V: Send, L: Send> Send for WalkMut<'_, K, V, L> {}

impl<'a, K: Key, V, L: Limits> WalkMut<'a, K, V, L> {
    pub(crate) fn new(words: &'a mut Words, slab: &'a mut Slab<K, V>, walk: Walk<L>) -> Self {
        let slots = slab.slots_mut();
        WalkMut { words, len: slots.len(), slots: slots.as_mut_ptr(), walk, front: None, back: None, of: PhantomData }
    }

    /// Has a call take the pairs that are left.
    pub(crate) fn each_left(&self, mut call: impl FnMut(&K, &V))
    where
        L: Clone,
    {
        let (mut walk, mut last) = (self.walk.clone(), self.front);
        while let Some(index) = or_end(walk.next_sure(self.words, Way::Up, |_| last.expect("a key was lent"))) {
            assert!(index < self.len, "libartmap.a is not that of this crate: it told the word {index}");
            // SAFETY: as in `next`, of a copy of the walk (rules 1 to 4; `artmap_words_walk_words`: IsWordsWalked): so this slot
            // is none that was lent, and it is lent here while `self` is, which `next` wants alone.
            let slot: &Slot<K, V> = unsafe { &*self.slots.add(index) };
            let Some((key, value)) = slot.pair() else { break };
            last = Some(key);
            call(key, value);
        }
    }

    /// The next pair from one of the ends.
    pub(crate) fn next(&mut self, way: Way) -> Option<(&'a K, &'a mut V)> {
        let last = match way {
            Way::Up => self.front,
            Way::Down => self.back,
        };
        let index = or_end(self.walk.next_sure(self.words, way, |_| last.expect("a key was lent")))?;
        assert!(index < self.len, "libartmap.a is not that of this crate: it told the word {index}");
        // SAFETY: rules 1 to 4 are kept by `Words`. Clause of `artmap_words_walk_words`: IsWordsWalked: the words are
        // those of pairs that ascend (or descend), all after the key given; and of `artmap_words_word_at_or_after` and
        // the like (IsPairsWordRead): the first one is that of the pair next to the bound. `next_sure` goes on after the
        // very pair that was lent last at this end, since `artmap_words_get` (IsWordRead) told its word for the bytes
        // that the walk is then given, the same slice; and it ends at the word that the other end lent last. So no pair
        // is met twice, and no number of pairs is relied on. No two pairs of a tree have one word (One slot, one word,
        // above): a hostile `Key` can't have it otherwise, since none of its code runs between a tree's change and that
        // of the slots. So this slot is lent once while `'a` lasts, and the slots are lent to `self` alone. The index is
        // below `len`, as was seen.
        let slot: &'a mut Slot<K, V> = unsafe { &mut *self.slots.add(index) };
        let (key, value) = slot.lend(index);
        match way {
            Way::Up => self.front = Some(key),
            Way::Down => self.back = Some(key),
        }
        Some((key, value))
    }
}

/// Has the processor bring an item nearer that is read soon, where it can be told so.
#[inline]
pub(crate) fn ask_for<T>(all: &[T], index: usize) {
    #[cfg(target_arch = "x86_64")]
    // SAFETY: no call, and no rule: nothing is read or written, so any address will do.
    unsafe {
        use std::arch::x86_64::{_MM_HINT_T0, _mm_prefetch};
        _mm_prefetch::<_MM_HINT_T0>(all.as_ptr().wrapping_add(index).cast());
    }
    #[cfg(not(target_arch = "x86_64"))]
    let _ = (all, index);
}

mod span;
#[cfg(test)]
mod tests;

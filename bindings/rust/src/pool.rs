//! Handles on one frozen map, for calls of many threads: a handle has one call at a time.
use crate::ffi::Words;
use std::sync::atomic::{AtomicUsize, Ordering};
use std::sync::{Mutex, MutexGuard, PoisonError};

/// How many handles there are at most, but for the first.
const PLACES: usize = 8;

/// Room for a handle, of which each has a line of the cache.
#[repr(align(64))]
struct Place(Mutex<Option<Words>>);

/// Handles, each of which is made by its first call.
pub(crate) struct Pool {
    places: [Place; PLACES],
    first: Mutex<Words>,
}

thread_local! {
    /// Threads have other numbers, by which each has a place of its own as long as they are few.
    static NUMBER: usize = {
        static NEXT: AtomicUsize = AtomicUsize::new(0);
        NEXT.fetch_add(1, Ordering::Relaxed)
    };
}

impl Pool {
    /// Those of a map that is frozen, by its one handle. It needs no memory.
    pub(crate) fn new(words: Words) -> Pool {
        Pool { places: [const { Place(Mutex::new(None)) }; PLACES], first: Mutex::new(words) }
    }

    /// The first handle; all others are gone.
    pub(crate) fn into_words(self) -> Words {
        drop(self.places);
        self.first.into_inner().unwrap_or_else(PoisonError::into_inner)
    }

    fn first(&self) -> MutexGuard<'_, Words> {
        self.first.lock().unwrap_or_else(PoisonError::into_inner)
    }

    /// A place that no call has: that of this thread, if it is free.
    fn free(&self) -> Option<MutexGuard<'_, Option<Words>>> {
        let mine = NUMBER.try_with(|it| *it).unwrap_or(0);
        (0..PLACES).find_map(|at| self.places[(mine + at) % PLACES].0.try_lock().ok())
    }

    /// Has a call of the library take a handle that no other call has. Where none is free, or memory lacks for one, it waits
    /// for the first. No code of a caller's runs meanwhile.
    #[inline]
    pub(crate) fn call<R>(&self, call: impl FnOnce(&Words) -> R) -> R {
        if let Some(mut place) = self.free() {
            if place.is_none() {
                *place = self.first().share().ok();
            }
            if let Some(words) = &*place {
                return call(words);
            }
        }
        call(&self.first())
    }
}

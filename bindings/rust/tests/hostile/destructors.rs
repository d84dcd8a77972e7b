//! Two panics: what a destructor does where one goes on already.
use crate::world::{Evil, Val, W};
use artmap::{AllocError, ArtMap, Key, NoPrefixes};
use std::cell::Cell;
use std::panic::{AssertUnwindSafe, catch_unwind};
use std::rc::Rc;

/// A key that says that it begins no other one, and does; it panics where it is dropped while a flag is set.
struct Loud(Vec<u8>, Rc<Cell<u32>>);

impl Key for Loud {
    type Bytes<'a> = &'a [u8];

    fn to_bytes(&self) -> Result<&[u8], AllocError> {
        Ok(&self.0)
    }
}

impl NoPrefixes for Loud {}

impl Drop for Loud {
    fn drop(&mut self) {
        self.1.set(self.1.get() - 1);
        assert!(self.0[0] != b'x', "a drop");
    }
}

fn quietly<T>(it: T) {
    let _ = catch_unwind(AssertUnwindSafe(|| drop(it)));
}

/// An iterator panics where keys wait to go in, which are then refused, and panic where they are dropped.
#[test]
fn of_keys_that_wait_and_are_refused() {
    for stop in 1..8 {
        let alive = Rc::new(Cell::new(0));
        let made = |bytes: &[u8]| {
            alive.set(alive.get() + 1);
            Loud(bytes.to_vec(), alive.clone())
        };
        let mut map: ArtMap<Loud, u32> = ArtMap::new();
        map.insert(made(b"x1"), 0);
        // (what is stored begins what comes)
        let keys: [&[u8]; 7] = [b"x11", b"x12", b"x13", b"x14", b"x15", b"x16", b"x17"];
        let pairs = keys.iter().enumerate().map(|(at, key)| {
            assert!(at + 1 != stop, "at its end");
            (made(key), 1)
        });
        let ended = catch_unwind(AssertUnwindSafe(|| map.try_extend(pairs).map_err(quietly)));
        assert!(stop > 1 || ended.is_err());
        assert_eq!(map.len(), 1);
        quietly(map);
    }
}

/// A value that is dropped in a destructor panics, too: the first panic goes on, and all are dropped.
#[test]
fn of_many_that_are_taken_out() {
    for bad in 0..12u32 {
        let world: W = Rc::default();
        let mut map: ArtMap<Evil, Val> = (0..12).map(|it| (Evil::new(it, &world), Val::new(&world))).collect();
        world.arm(30 + bad, crate::world::Mode::Panic);
        let _ = catch_unwind(AssertUnwindSafe(|| map.remove_prefix::<[u8]>(&[])));
        world.disarm();
        assert_eq!(world.live(), 2 * map.len());
        drop(map);
        assert_eq!(world.live(), 0);
    }
}

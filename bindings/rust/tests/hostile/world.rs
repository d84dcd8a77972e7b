//! What is hostile, and when.
use artmap::{AllocError, Key, KeyPrefix, NoPrefixes, Ordered, PrefixBytes};
use std::cell::{Cell, RefCell};
use std::cmp::Ordering;
use std::collections::HashSet;
use std::fmt;
use std::hash::{Hash, Hasher};
use std::rc::Rc;

/// What is done at a step.
#[derive(Clone, Copy, PartialEq, Eq, Debug)]
pub enum Mode {
    Panic,
    /// Other bytes, an other order, an other answer: at this step, or from it on.
    Once(Lie),
    Always(Lie),
    /// There is no memory for the bytes.
    Error,
}

/// What is told in the place of bytes.
#[derive(Clone, Copy, PartialEq, Eq, Debug)]
pub enum Lie {
    Nothing,
    Least,
    Greatest,
    Next,
    Front,
}

pub const LIES: [Mode; 5] = [
    Mode::Once(Lie::Nothing),
    Mode::Once(Lie::Next),
    Mode::Always(Lie::Least),
    Mode::Always(Lie::Greatest),
    Mode::Always(Lie::Front),
];

/// Who lives, and which step is the hostile one.
#[derive(Default)]
pub struct World {
    live: RefCell<HashSet<u32>>,
    born: Cell<u32>,
    /// How many steps are left until then; none, if no step is.
    left: Cell<u32>,
    mode: Cell<Option<Mode>>,
    has_struck: Cell<bool>,
}

pub type W = Rc<World>;

impl World {
    pub fn arm(&self, step: u32, mode: Mode) {
        self.left.set(step);
        self.mode.set(Some(mode));
    }

    /// Tells whether the step was there.
    pub fn disarm(&self) -> bool {
        self.left.set(0);
        self.has_struck.get()
    }

    pub fn live(&self) -> usize {
        self.live.borrow().len()
    }

    /// A step: it panics, or tells what is to be told in the place of the truth.
    pub fn step(&self) -> Option<Mode> {
        match self.left.get() {
            0 => return None,
            1 => {}
            left => {
                self.left.set(left - 1);
                return None;
            }
        }
        self.has_struck.set(true);
        let mode = self.mode.get();
        if !matches!(mode, Some(Mode::Always(_))) {
            self.left.set(0);
        }
        assert!(mode != Some(Mode::Panic), "hostile");
        mode
    }

    fn lies(&self) -> bool {
        matches!(self.step(), Some(Mode::Once(_) | Mode::Always(_)))
    }

    fn birth(&self) -> u32 {
        self.born.set(self.born.get() + 1);
        self.live.borrow_mut().insert(self.born.get());
        self.born.get()
    }

    fn death(&self, of: u32) {
        assert!(self.live.borrow_mut().remove(&of), "dropped twice");
    }
}

/// A key.
pub struct Evil {
    pub id: u32,
    born: u32,
    pub world: W,
}

/// A value.
pub struct Val {
    pub number: u32,
    born: u32,
    world: W,
}

/// Bytes that are hostile where they are looked at and where they go.
pub struct Told {
    bytes: [u8; 4],
    other: Cell<Option<Lie>>,
    least: [u8; 4],
    greatest: [u8; 4],
    next: [u8; 4],
    world: W,
}

impl Evil {
    pub fn new(id: u32, world: &W) -> Evil {
        Evil { id, born: world.birth(), world: world.clone() }
    }
}

impl Val {
    pub fn new(world: &W) -> Val {
        Val { number: 0, born: world.birth(), world: world.clone() }
    }
}

impl Drop for Evil {
    fn drop(&mut self) {
        self.world.death(self.born);
        self.world.step();
    }
}

impl Drop for Val {
    fn drop(&mut self) {
        self.world.death(self.born);
        self.world.step();
    }
}

impl Drop for Told {
    fn drop(&mut self) {
        self.world.step();
    }
}

impl Clone for Evil {
    fn clone(&self) -> Evil {
        let id = if self.world.lies() { self.id + 1 } else { self.id };
        Evil::new(id, &self.world)
    }
}

impl Clone for Val {
    fn clone(&self) -> Val {
        self.world.step();
        Val::new(&self.world)
    }
}

impl AsRef<[u8]> for Told {
    fn as_ref(&self) -> &[u8] {
        if let Some(Mode::Once(lie) | Mode::Always(lie)) = self.world.step() {
            self.other.set(Some(lie));
        }
        match self.other.take() {
            None => &self.bytes,
            Some(Lie::Nothing) => &[],
            Some(Lie::Least) => &self.least,
            Some(Lie::Greatest) => &self.greatest,
            Some(Lie::Next) => &self.next,
            Some(Lie::Front) => &self.bytes[..2],
        }
    }
}

impl Key for Evil {
    type Bytes<'a> = Told;

    fn to_bytes(&self) -> Result<Told, AllocError> {
        let mut other = None;
        match self.world.step() {
            Some(Mode::Error) => return Err(AllocError),
            Some(Mode::Once(lie) | Mode::Always(lie)) => other = Some(lie),
            _ => {}
        }
        Ok(Told {
            bytes: self.id.to_be_bytes(),
            other: Cell::new(other),
            least: [0; 4],
            greatest: [255; 4],
            next: (self.id + 1).to_be_bytes(),
            world: self.world.clone(),
        })
    }

    fn without_end(&self) -> Option<&[u8]> {
        match self.world.step() {
            Some(Mode::Once(Lie::Nothing) | Mode::Always(Lie::Nothing)) => Some(&[]),
            Some(Mode::Once(Lie::Least) | Mode::Always(Lie::Least)) => Some(&[0, 0, 0]),
            _ => None,
        }
    }
}

impl NoPrefixes for Evil {}

impl Ordered for Evil {}

/// A prefix, which no one else makes: it is that of an array.
impl KeyPrefix<Evil> for W2<'_> {
    fn to_prefix(&self) -> Result<PrefixBytes<'_>, AllocError> {
        match self.0.step() {
            Some(Mode::Error) => Err(AllocError),
            Some(Mode::Once(_) | Mode::Always(_)) => <[u8] as KeyPrefix<Evil>>::to_prefix(&[0, 0, 0][..]),
            _ => <[u8] as KeyPrefix<Evil>>::to_prefix(&[][..]),
        }
    }
}

/// A hostile prefix.
pub struct W2<'a>(pub &'a W);

impl PartialEq for Evil {
    fn eq(&self, other: &Evil) -> bool {
        (self.id == other.id) != self.world.lies()
    }
}

impl Eq for Evil {}

impl PartialOrd for Evil {
    fn partial_cmp(&self, other: &Evil) -> Option<Ordering> {
        Some(self.cmp(other))
    }
}

impl Ord for Evil {
    fn cmp(&self, other: &Evil) -> Ordering {
        let truth = self.id.cmp(&other.id);
        if self.world.lies() { truth.reverse() } else { truth }
    }
}

impl Hash for Evil {
    fn hash<H: Hasher>(&self, state: &mut H) {
        state.write_u32(if self.world.lies() { 0 } else { self.id });
    }
}

impl fmt::Debug for Evil {
    fn fmt(&self, to: &mut fmt::Formatter<'_>) -> fmt::Result {
        self.world.step();
        self.id.fmt(to)
    }
}

impl PartialEq for Val {
    fn eq(&self, _: &Val) -> bool {
        !self.world.lies()
    }
}

impl Eq for Val {}

impl PartialOrd for Val {
    fn partial_cmp(&self, other: &Val) -> Option<Ordering> {
        Some(self.cmp(other))
    }
}

impl Ord for Val {
    fn cmp(&self, _: &Val) -> Ordering {
        if self.world.lies() { Ordering::Less } else { Ordering::Equal }
    }
}

impl Hash for Val {
    fn hash<H: Hasher>(&self, state: &mut H) {
        self.world.step();
        state.write_u32(0);
    }
}

impl fmt::Debug for Val {
    fn fmt(&self, to: &mut fmt::Formatter<'_>) -> fmt::Result {
        self.world.step();
        to.write_str("it")
    }
}

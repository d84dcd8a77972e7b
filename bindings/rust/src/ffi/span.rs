//! What a walk goes between, and what came of a put.

/// Where a walk begins.
#[derive(Clone, Copy)]
pub(crate) enum From<'a> {
    /// At its end of the map.
    End,
    /// With the pair of the key, if it is stored.
    Key(&'a [u8]),
    /// With the pair after the key.
    After(&'a [u8]),
}

/// Where a walk ends.
#[derive(Clone, Copy)]
pub(crate) enum To<'a> {
    End,
    /// With the pair of the key, if it is stored.
    Key(&'a [u8]),
    /// With the pair before the key.
    Before(&'a [u8]),
    /// With the last one whose key begins with these bytes.
    Prefix(&'a [u8]),
}

/// What came of a put.
#[derive(Clone, Copy, PartialEq, Eq, Debug)]
pub(crate) enum Put {
    New,
    /// The word that it had.
    Replaced(u64),
    Conflict,
}

/// Why pairs were not all put in.
#[derive(Clone, Copy, PartialEq, Eq, Debug)]
pub(crate) enum Stop {
    Conflict,
    /// A key is not above the one before it.
    NotAbove,
    Memory,
}

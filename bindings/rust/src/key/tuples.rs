//! Tuples and options: the bytes of their parts in order.
use crate::error::AllocError;
use crate::room::Room;
use crate::{Key, NoPrefixes, Ordered};

/// Parts that no other begins, and then one of any kind.
macro_rules! tuples {
    ($(($($part:ident $at:tt),*; $last:ident $last_at:tt);)*) => {$(
        impl<$($part: NoPrefixes,)* $last: Key> Key for ($($part,)* $last,) {
            type Bytes<'a> = Room where Self: 'a;

            fn to_bytes(&self) -> Result<Room, AllocError> {
                let mut room = Room::new();
                $(room.push(self.$at.to_bytes()?.as_ref())?;)*
                room.push(self.$last_at.to_bytes()?.as_ref())?;
                Ok(room)
            }
        }

        impl<$($part: NoPrefixes,)* $last: NoPrefixes> NoPrefixes for ($($part,)* $last,) {}

        impl<$($part: NoPrefixes + Ordered,)* $last: Ordered> Ordered for ($($part,)* $last,) {}
    )*};
}

tuples! {
    (; A 0);
    (A 0; B 1);
    (A 0, B 1; C 2);
    (A 0, B 1, C 2; D 3);
    (A 0, B 1, C 2, D 3; E 4);
    (A 0, B 1, C 2, D 3, E 4; F 5);
}

/// A byte tells whether there is a key, and then it comes.
impl<T: Key> Key for Option<T> {
    type Bytes<'a>
        = Room
    where
        Self: 'a;

    fn to_bytes(&self) -> Result<Room, AllocError> {
        let mut room = Room::of(&[u8::from(self.is_some())])?;
        if let Some(key) = self {
            room.push(key.to_bytes()?.as_ref())?;
        }
        Ok(room)
    }
}

impl<T: NoPrefixes> NoPrefixes for Option<T> {}

impl<T: Ordered> Ordered for Option<T> {}

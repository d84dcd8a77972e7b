//! Numbers, `bool` and `char`, and lists of numbers. The highest byte comes first, and the sign of signed ones is flipped,
//! so that they ascend as numbers do.
use super::{KeyPrefix, PrefixBytes, fixed};
use crate::error::AllocError;
use crate::room::Room;
use crate::{Key, NoPrefixes, Ordered};
use std::num::NonZero;

/// A number as bytes.
trait Number: Copy {
    type Array: AsRef<[u8]>;
    fn array(self) -> Self::Array;
}

/// The bytes of one number after the other.
fn in_a_row<N: Number>(numbers: &[N]) -> Result<Room, AllocError> {
    let mut room = Room::new();
    for it in numbers {
        room.push(it.array().as_ref())?;
    }
    Ok(room)
}

macro_rules! prefixes {
    ([$($of:tt)*] $key:ty, $prefix:ty) => {
        impl<$($of)*> KeyPrefix<$key> for $prefix {
            fn to_prefix(&self) -> Result<PrefixBytes<'_>, AllocError> {
                Ok(PrefixBytes::made(in_a_row(self)?))
            }
        }
    };
}

macro_rules! lists {
    ($($of:ty)*) => {$(
        impl<const N: usize> Key for [$of; N] {
            type Bytes<'a> = Room;

            fn to_bytes(&self) -> Result<Room, AllocError> {
                in_a_row(self)
            }
        }

        impl<const N: usize> NoPrefixes for [$of; N] {}
        impl<const N: usize> Ordered for [$of; N] {}

        impl Key for [$of] {
            type Bytes<'a> = Room;

            fn to_bytes(&self) -> Result<Room, AllocError> {
                in_a_row(self)
            }
        }

        impl Ordered for [$of] {}

        impl Key for Vec<$of> {
            type Bytes<'a> = Room;

            fn to_bytes(&self) -> Result<Room, AllocError> {
                in_a_row(self)
            }
        }

        impl Ordered for Vec<$of> {}

        prefixes! { [const N: usize, const M: usize] [$of; M], [$of; N] }
        prefixes! { [const N: usize] [$of; N], [$of] }
        prefixes! { [const N: usize] Vec<$of>, [$of; N] }
        prefixes! { [] Vec<$of>, [$of] }
    )*};
}

macro_rules! numbers {
    ($($of:ty, $unsigned:ty, $flip:expr;)*) => {$(
        impl Number for $of {
            type Array = [u8; size_of::<$of>()];

            #[inline]
            #[allow(clippy::cast_sign_loss, reason = "the bits are taken as they are")]
            fn array(self) -> Self::Array {
                (self as $unsigned ^ $flip).to_be_bytes()
            }
        }

        fixed! {
            $of, size_of::<$of>(), self, self.array();
            NonZero<$of>, size_of::<$of>(), self, self.get().array();
        }
    )*};
}

numbers! {
    u8, u8, 0;
    u16, u16, 0;
    u32, u32, 0;
    u64, u64, 0;
    u128, u128, 0;
    usize, usize, 0;
    i8, u8, 1 << 7;
    i16, u16, 1 << 15;
    i32, u32, 1 << 31;
    i64, u64, 1 << 63;
    i128, u128, 1 << 127;
    isize, usize, 1 << (usize::BITS - 1);
}

// (those of u8 are bytes as they are)
lists! { u16 u32 u64 u128 usize i8 i16 i32 i64 i128 isize }

fixed! {
    bool, 1, self, [u8::from(*self)];
    char, 4, self, u32::from(*self).to_be_bytes();
    (), 0, self, [];
}

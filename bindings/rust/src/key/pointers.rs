//! What points to a key has its bytes.
use super::sealed::Sealed;
use super::{KeyPrefix, PrefixBytes};
use crate::error::AllocError;
use crate::{Key, NoPrefixes, Ordered};
use std::borrow::Cow;
use std::rc::Rc;
use std::sync::Arc;

macro_rules! pointers {
    ($($of:ty;)*) => {$(
        impl<T: Key + ?Sized> Key for $of {
            type Bytes<'a> = T::Bytes<'a> where Self: 'a;

            #[inline]
            fn to_bytes(&self) -> Result<T::Bytes<'_>, AllocError> {
                T::to_bytes(self)
            }

            #[inline]
            fn with_bytes<R>(&self, by: Sealed, call: impl FnOnce(&[u8]) -> R) -> Result<R, AllocError> {
                T::with_bytes(self, by, call)
            }

            #[inline]
            fn push_bytes(&self, by: Sealed, to: &mut Vec<u8>) -> Result<(), AllocError> {
                T::push_bytes(self, by, to)
            }

            #[inline]
            fn without_end(&self) -> Option<&[u8]> {
                T::without_end(self)
            }

            #[inline]
            fn has_end(by: Sealed) -> bool {
                T::has_end(by)
            }
        }

        impl<T: NoPrefixes + ?Sized> NoPrefixes for $of {}

        impl<T: Ordered + ?Sized> Ordered for $of {}

        impl<K: ?Sized, T: KeyPrefix<K> + ?Sized> KeyPrefix<K> for $of {
            fn to_prefix(&self) -> Result<PrefixBytes<'_>, AllocError> {
                T::to_prefix(self)
            }
        }
    )*};
}

pointers! {
    &T;
    Box<T>;
    Rc<T>;
    Arc<T>;
}

impl<B: Key + ToOwned + ?Sized> Key for Cow<'_, B> {
    type Bytes<'a>
        = B::Bytes<'a>
    where
        Self: 'a;

    fn to_bytes(&self) -> Result<B::Bytes<'_>, AllocError> {
        B::to_bytes(self)
    }

    #[inline]
    fn with_bytes<R>(&self, by: Sealed, call: impl FnOnce(&[u8]) -> R) -> Result<R, AllocError> {
        B::with_bytes(self, by, call)
    }

    #[inline]
    fn push_bytes(&self, by: Sealed, to: &mut Vec<u8>) -> Result<(), AllocError> {
        B::push_bytes(self, by, to)
    }

    #[inline]
    fn without_end(&self) -> Option<&[u8]> {
        B::without_end(self)
    }

    #[inline]
    fn has_end(by: Sealed) -> bool {
        B::has_end(by)
    }
}

impl<B: NoPrefixes + ToOwned + ?Sized> NoPrefixes for Cow<'_, B> {}

impl<B: Ordered + ToOwned + ?Sized> Ordered for Cow<'_, B> {}

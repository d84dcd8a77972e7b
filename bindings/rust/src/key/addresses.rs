//! Addresses: their octets, then the port. A byte before those that may be of either kind tells the kind.
use super::fixed;
use crate::error::AllocError;
use crate::room::Room;
use crate::{Key, NoPrefixes, Ordered};
use std::net::{IpAddr, Ipv4Addr, Ipv6Addr, SocketAddr, SocketAddrV4, SocketAddrV6};

fixed! {
    Ipv4Addr, 4, self, self.octets();
    Ipv6Addr, 16, self, self.octets();
    SocketAddrV4, 6, self, v4_bytes(*self);
    SocketAddrV6, 26, self, v6_bytes(self);
}

fn v4_bytes(of: SocketAddrV4) -> [u8; 6] {
    let mut bytes = [0; 6];
    bytes[..4].copy_from_slice(&of.ip().octets());
    bytes[4..].copy_from_slice(&of.port().to_be_bytes());
    bytes
}

fn v6_bytes(of: &SocketAddrV6) -> [u8; 26] {
    let mut bytes = [0; 26];
    bytes[..16].copy_from_slice(&of.ip().octets());
    bytes[16..18].copy_from_slice(&of.port().to_be_bytes());
    bytes[18..22].copy_from_slice(&of.flowinfo().to_be_bytes());
    bytes[22..].copy_from_slice(&of.scope_id().to_be_bytes());
    bytes
}

/// The number of the kind, and then the address.
macro_rules! either {
    ($($of:ident)*) => {$(
        impl Key for $of {
            type Bytes<'a> = Room;

            fn to_bytes(&self) -> Result<Room, AllocError> {
                let (kind, bytes) = match self {
                    $of::V4(it) => (4, Room::of(&it.to_bytes()?)?),
                    $of::V6(it) => (6, Room::of(&it.to_bytes()?)?),
                };
                let mut room = Room::of(&[kind])?;
                room.push(bytes.bytes())?;
                Ok(room)
            }
        }

        impl NoPrefixes for $of {}

        impl Ordered for $of {}
    )*};
}

either! { IpAddr SocketAddr }

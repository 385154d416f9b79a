//! A datagram.

use std::fmt;
use std::ops::Deref;

const MOST: usize = 256;

/// The bytes of a datagram: at most 256.
#[derive(Clone, Copy, PartialEq, Eq)]
pub struct Packet {
    bytes: [u8; MOST],
    len: usize,
}

impl Deref for Packet {
    type Target = [u8];

    fn deref(&self) -> &[u8] {
        &self.bytes[..self.len]
    }
}

impl fmt::Debug for Packet {
    fn fmt(&self, f: &mut fmt::Formatter<'_>) -> fmt::Result {
        (**self).fmt(f)
    }
}

/// What a call copies, if there is such a datagram.
pub(crate) fn packet(call: impl FnOnce(*mut u8, usize, *mut usize) -> u8) -> Option<Packet> {
    let mut packet = Packet {
        bytes: [0; MOST],
        len: 0,
    };
    let status = call(packet.bytes.as_mut_ptr(), MOST, &mut packet.len);
    (status == 0).then_some(packet)
}

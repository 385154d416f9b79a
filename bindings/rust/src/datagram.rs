//! What a datagram says.

use crate::fault::Fault;
use crate::raw::{self, RawDatagram};
use crate::reading::Aim;

/// Who points, and how.
#[derive(Clone, Copy, Debug, PartialEq, Eq)]
pub struct Pointing {
    pub who: u8,
    pub down: bool,
    pub aim: Aim,
}

/// What a datagram says, for a program that carries it.
#[derive(Clone, Copy, Debug, PartialEq, Eq)]
#[non_exhaustive]
pub enum Datagram {
    /// From the host: an input. Without a pointer it is a clock.
    Input {
        number: u64,
        time: i64,
        pointing: Option<Pointing>,
    },
    /// From a viewer: an offer of this number in this boot.
    Offer {
        boot: u32,
        number: u32,
        pointing: Pointing,
    },
    /// From a viewer: it lacks the inputs from this number on.
    Ask { who: u8, next: u64 },
    /// From the host: that many offers of this viewer in this boot are numbered.
    Ack { who: u8, boot: u32, count: u32 },
    /// From the host: the floor.
    Floor(u64),
    /// From a viewer: a piece of a snapshot.
    Piece { boot: u32, applied: u64 },
}

impl Datagram {
    /// Reads a datagram. The scene's mark is not looked at.
    pub fn read(bytes: &[u8]) -> Result<Datagram, Fault> {
        let mut raw = RawDatagram::default();
        // SAFETY: the bytes are lent for the call, which keeps nothing.
        let status = unsafe { raw::x3d_datagram_read(bytes.as_ptr(), bytes.len(), &mut raw) };
        Fault::told(status)?;
        Ok(datagram_of(&raw))
    }

    /// The viewer that an offer or an ask is of.
    #[must_use]
    pub fn sender(&self) -> Option<u8> {
        match self {
            Datagram::Offer { pointing, .. } => Some(pointing.who),
            Datagram::Ask { who, .. } => Some(*who),
            _ => None,
        }
    }
}

fn pointing_of(raw: &RawDatagram) -> Pointing {
    let aim = &raw.aim;
    Pointing {
        who: raw.who,
        down: raw.point == 2,
        aim: Aim::new(
            [aim.origin_x, aim.origin_y, aim.origin_z],
            [aim.direction_x, aim.direction_y, aim.direction_z],
        ),
    }
}

/// The number of an offer, or of offers.
fn offer_number(raw: &RawDatagram) -> u32 {
    u32::try_from(raw.number).expect("the number of an offer has 32 bits")
}

fn datagram_of(raw: &RawDatagram) -> Datagram {
    let (who, boot, number) = (raw.who, raw.boot, raw.number);
    match raw.tag {
        1 => Datagram::Input {
            number,
            time: raw.time,
            pointing: (raw.point != 0).then(|| pointing_of(raw)),
        },
        2 => Datagram::Offer {
            boot,
            number: offer_number(raw),
            pointing: pointing_of(raw),
        },
        3 => Datagram::Ask { who, next: number },
        4 => Datagram::Ack {
            who,
            boot,
            count: offer_number(raw),
        },
        5 => Datagram::Floor(number),
        _ => Datagram::Piece {
            boot,
            applied: number,
        },
    }
}

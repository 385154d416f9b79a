//! The host of a shared world.

use crate::fault::{Fault, LogRefusal};
use crate::packet::{Packet, packet};
use crate::raw::{self, RawHost, RawReply};
use std::ptr;

/// What a host made of a datagram.
#[derive(Clone, Copy, Debug, PartialEq, Eq)]
pub enum Reply {
    /// These inputs were asked for: `count` of them, at most 64, from number `first` on.
    Asked {
        first: u64,
        count: u64,
    },
    /// The offer is the input of this number.
    Numbered(u64),
    /// The offer has been numbered before.
    Repeat,
    /// An offer before this one has not come yet.
    Ahead,
    /// The offer is of a boot that is over.
    OldBoot,
    /// Inputs were asked for that the host has no more; it has those from this number on.
    Below(u64),
    NothingToDo,
}

fn reply_of(raw: &RawReply) -> Reply {
    match raw.kind {
        0 => Reply::Asked {
            first: raw.number,
            count: raw.count,
        },
        1 => Reply::Numbered(raw.number),
        2 => Reply::Repeat,
        3 => Reply::Ahead,
        4 => Reply::OldBoot,
        5 => Reply::Below(raw.number),
        _ => Reply::NothingToDo,
    }
}

/// What a host that was resumed wants stored: bytes for its log's end, and the token by which
/// `Host::stored` is told of it. Without bytes nothing waits.
#[derive(Clone, Debug, PartialEq, Eq)]
pub struct Append {
    pub token: u32,
    pub bytes: Vec<u8>,
}

const STORED: u8 = 0;
const ROOM: u8 = 12;

/// The host of a scene: it numbers what happens, and hands it out. Of the scene it keeps the mark
/// of its text alone, and does not look at it.
pub struct Host {
    handle: RawHost,
}

// SAFETY: what a handle owns may go to another thread: this is proved of `HostHandle` (its `Send`, in
// crates/embed_handles). The library keeps nothing beside its handles but what malloc keeps, which
// is for all threads. (Not `Sync`: calls on one handle come one at a time, as `&mut` has it.)
unsafe impl Send for Host {}

impl Host {
    /// The host of a scene's text for 1 to 64 viewers, which are numbered from 0.
    pub fn new(text: &[u8], viewers: u8) -> Result<Host, Fault> {
        let mut host = Host {
            handle: RawHost {
                at: ptr::null_mut(),
            },
        };
        // SAFETY: the handle is null, and the bytes are lent for the call. So it is in each call
        // below, where the handle is as the last call left it.
        let status =
            unsafe { raw::x3d_host_open(&mut host.handle, text.as_ptr(), text.len(), viewers) };
        Fault::told(status)?;
        Ok(host)
    }

    /// The host of a scene's text for 1 to 64 viewers that the bytes of its log make: all of them,
    /// and none at first. What it numbers then waits until it is stored (`append`), and only after
    /// that it shows it.
    pub fn resume(text: &[u8], viewers: u8, log: &[u8]) -> Result<Host, LogRefusal> {
        let mut host = Host {
            handle: RawHost {
                at: ptr::null_mut(),
            },
        };
        let mut entry = 0;
        // SAFETY: as in `new`.
        let status = unsafe {
            raw::x3d_host_resume(
                &mut host.handle,
                text.as_ptr(),
                text.len(),
                viewers,
                log.as_ptr(),
                log.len(),
                &mut entry,
            )
        };
        match Fault::told(status) {
            Ok(()) => Ok(host),
            Err(fault) => Err(LogRefusal {
                fault,
                entry: (entry != 0).then_some(entry),
            }),
        }
    }

    /// The append that is under way, or else a new one of all entries that wait. Store its bytes at
    /// the log's end, durably, and then call `stored`. Faults: `NotLasting`, `Memory`.
    pub fn append(&mut self) -> Result<Append, Fault> {
        let (mut token, mut wanted, mut bytes) = (0, 0, Vec::new());
        loop {
            let room = bytes.len();
            let out: *mut u8 = bytes.as_mut_ptr();
            let status = unsafe {
                raw::x3d_host_pending(&mut self.handle, &mut token, out, room, &mut wanted)
            };
            if status != ROOM {
                Fault::told(status)?;
                bytes.truncate(wanted);
                return Ok(Append { token, bytes });
            }
            bytes.resize(wanted, 0);
        }
    }

    /// Takes it that the log has the bytes of the append with this token, for good: the host shows
    /// its inputs from now on. If the log has other entries there, or that is in doubt, drop the
    /// host instead, read the log, and resume. Faults: `NotLasting`, `NotAwaited`.
    pub fn stored(&mut self, token: u32) -> Result<(), Fault> {
        Fault::told(unsafe { raw::x3d_host_stored(&mut self.handle, token, STORED) })
    }

    /// Numbers a clock at a time of 1 to 10^18 microseconds, above that of the last input, and
    /// gives its number.
    pub fn clock(&mut self, time: i64) -> Result<u64, Fault> {
        let mut number = 0;
        Fault::told(unsafe { raw::x3d_host_clock(&mut self.handle, time, &mut number) })?;
        Ok(number)
    }

    /// Takes a datagram of a viewer.
    pub fn take(&mut self, datagram: &[u8]) -> Result<Reply, Fault> {
        let mut reply = RawReply::default();
        let status = unsafe {
            raw::x3d_host_take(
                &mut self.handle,
                datagram.as_ptr(),
                datagram.len(),
                &mut reply,
            )
        };
        Fault::told(status)?;
        Ok(reply_of(&reply))
    }

    /// Takes a datagram that came from viewer `who`. An offer or an ask of another viewer is refused
    /// as `BadViewer`, and nothing changes.
    pub fn take_from(&mut self, who: u8, datagram: &[u8]) -> Result<Reply, Fault> {
        let mut reply = RawReply::default();
        let status = unsafe {
            raw::x3d_host_take_from(
                &mut self.handle,
                who,
                datagram.as_ptr(),
                datagram.len(),
                &mut reply,
            )
        };
        Fault::told(status)?;
        Ok(reply_of(&reply))
    }

    /// The highest number that viewer `who` has asked from: it has all inputs below. `None` if it
    /// has not asked.
    pub fn heard(&mut self, who: u8) -> Result<Option<u64>, Fault> {
        let mut asked = 0;
        Fault::told(unsafe { raw::x3d_host_heard(&mut self.handle, who, &mut asked) })?;
        Ok((asked != 0).then_some(asked))
    }

    /// Drops the inputs that every viewer that asked has, but for the last `count` of them.
    pub fn keep(&mut self, count: u64) {
        unsafe { raw::x3d_host_keep(&mut self.handle, count) };
    }

    /// The datagram of the input of this number, from the floor on.
    pub fn packet(&mut self, number: u64) -> Option<Packet> {
        packet(|out, room, wanted| unsafe {
            raw::x3d_host_packet(&mut self.handle, number, out, room, wanted)
        })
    }

    /// What belongs to a reply: the inputs that were asked for, or the floor where they are below
    /// it.
    pub fn packets(&mut self, reply: Reply) -> Vec<Packet> {
        match reply {
            Reply::Asked { first, count } => {
                let mut packets = Vec::new();
                for number in first..first + count {
                    packets.extend(self.packet(number));
                }
                packets
            }
            Reply::Below(_) => vec![self.floor_packet()],
            _ => Vec::new(),
        }
    }

    /// The datagram that tells a viewer how many of its offers are numbered, if there is such a
    /// viewer.
    pub fn ack(&mut self, who: u8) -> Option<Packet> {
        packet(|out, room, wanted| unsafe {
            raw::x3d_host_ack(&mut self.handle, who, out, room, wanted)
        })
    }

    /// The number from which on there are datagrams of inputs: 1 at first.
    pub fn floor(&mut self) -> u64 {
        let mut number = 0;
        unsafe { raw::x3d_host_floor(&mut self.handle, &mut number) };
        number
    }

    /// The datagram that tells it.
    pub fn floor_packet(&mut self) -> Packet {
        packet(|out, room, wanted| unsafe {
            raw::x3d_host_floor_packet(&mut self.handle, out, room, wanted)
        })
        .expect("there is always a floor")
    }

    /// Drops the inputs below this number: their memory is used again or freed.
    pub fn drop_below(&mut self, number: u64) -> Result<(), Fault> {
        Fault::told(unsafe { raw::x3d_host_drop_below(&mut self.handle, number) })
    }

    /// How many inputs are numbered.
    pub fn count(&mut self) -> u64 {
        let mut count = 0;
        unsafe { raw::x3d_host_count(&mut self.handle, &mut count) };
        count
    }

    /// The time of the last input that is numbered, in microseconds, or 0 before the first.
    pub fn time(&mut self) -> i64 {
        let mut time = 0;
        unsafe { raw::x3d_host_time(&mut self.handle, &mut time) };
        time
    }

    /// How many viewers there are.
    pub fn viewers(&mut self) -> u32 {
        let mut count = 0;
        unsafe { raw::x3d_host_viewers(&mut self.handle, &mut count) };
        count
    }
}

impl Drop for Host {
    fn drop(&mut self) {
        unsafe { raw::x3d_host_close(&mut self.handle) }
    }
}

//! A viewer of a shared world.

use crate::changed::{ChangedFields, FieldType};
use crate::changes::Changes;
use crate::fault::{Fault, Refusal};
use crate::packet::{Packet, packet};
use crate::raw::{self, RawField, RawMet, RawTaken, RawViewer};
use crate::reading::{Aim, Meeting, Route, copied, readable, routes_of, scripts_of};
use crate::world::Kind;
use std::ptr;

/// What a viewer made of a datagram.
#[derive(Clone, Copy, Debug, PartialEq, Eq)]
pub enum Taken {
    /// The input has been applied before.
    Old,
    /// The input is more than 64 ahead.
    Beyond,
    /// The input is kept until those before it have come.
    Kept,
    /// So many inputs were applied.
    Applied(u64),
    /// What the host tells of offers, or of its floor, was noted.
    Noted,
    /// The host has the next input no more: only a snapshot helps.
    Behind,
}

/// What a viewer made of a piece of a snapshot.
#[derive(Clone, Copy, Debug, PartialEq, Eq)]
pub enum Gathered {
    /// It is kept, and others are missing.
    New,
    /// It has come before.
    Again,
    /// It is kept, and none is missing.
    Whole,
    /// It is of another snapshot than the one that was begun.
    Other,
}

/// A viewer of a scene: it holds the world, offers what it points at, and applies the host's inputs
/// in turn. Methods that only read take `&mut self` too: each call takes the viewer out of its
/// handle.
pub struct Viewer {
    handle: RawViewer,
    keeps_lines: bool,
}

// SAFETY: what a handle owns may go to another thread: this is proved of `ViewerHandle` (its `Send`, in
// crates/embed_handles). The library keeps nothing beside its handles but what malloc keeps, which
// is for all threads. (Not `Sync`: calls on one handle come one at a time, as `&mut` has it.)
unsafe impl Send for Viewer {}

impl Viewer {
    /// The viewer of a scene's text (Classic encoding), as a boot, 1 to 2^32 - 1, of viewer `who`,
    /// 0 to 63. Where these are out of range the refusal's line is empty.
    pub fn open(text: &[u8], who: u8, boot: u32) -> Result<Viewer, Refusal> {
        let mut viewer = Viewer {
            handle: RawViewer {
                at: ptr::null_mut(),
            },
            keeps_lines: false,
        };
        let (mut line, mut wanted) = ([0; 64], 0);
        // SAFETY: the handle is null, and the bytes are lent for the call. So it is in each call
        // below, where the handle is as the last call left it.
        let status = unsafe {
            raw::x3d_viewer_open(
                &mut viewer.handle,
                text.as_ptr(),
                text.len(),
                who,
                boot,
                line.as_mut_ptr(),
                line.len(),
                &mut wanted,
            )
        };
        if status == 0 {
            return Ok(viewer);
        }
        Err(Refusal::of(text, status, &line[..wanted]))
    }

    /// How many inputs were applied, or had been when memory was refused.
    pub fn applied(&mut self) -> u64 {
        let mut count = 0;
        unsafe { raw::x3d_viewer_applied(&mut self.handle, &mut count) };
        count
    }

    /// Its boot.
    pub fn boot(&mut self) -> u32 {
        let mut boot = 0;
        unsafe { raw::x3d_viewer_boot(&mut self.handle, &mut boot) };
        boot
    }

    /// How many offers wait: at most 64.
    pub fn waiting(&mut self) -> u32 {
        let mut count = 0;
        unsafe { raw::x3d_viewer_waiting(&mut self.handle, &mut count) };
        count
    }

    /// Takes a datagram of the host.
    pub fn take(&mut self, datagram: &[u8]) -> Result<Taken, Fault> {
        let mut taken = RawTaken::default();
        let status = unsafe {
            raw::x3d_viewer_take(
                &mut self.handle,
                datagram.as_ptr(),
                datagram.len(),
                &mut taken,
            )
        };
        Fault::told(status)?;
        Ok(match taken.kind {
            0 => Taken::Old,
            1 => Taken::Beyond,
            2 => Taken::Kept,
            3 => Taken::Applied(taken.count),
            4 => Taken::Noted,
            _ => Taken::Behind,
        })
    }

    /// Offers what is pointed at, with the button down or not, and gives the offer's number in this
    /// boot.
    pub fn offer(&mut self, down: bool, aim: &Aim) -> Result<u32, Fault> {
        let mut number = 0;
        let status =
            unsafe { raw::x3d_viewer_offer(&mut self.handle, down, &aim.raw(), &mut number) };
        Fault::told(status)?;
        Ok(number)
    }

    /// The datagram of the offer that waits at a place, from 0.
    pub fn resend(&mut self, place: u32) -> Option<Packet> {
        packet(|out, room, wanted| unsafe {
            raw::x3d_viewer_resend(&mut self.handle, place, out, room, wanted)
        })
    }

    /// The datagrams of all offers that wait, in order.
    pub fn offers(&mut self) -> Vec<Packet> {
        (0..self.waiting())
            .map_while(|place| self.resend(place))
            .collect()
    }

    /// The datagram that asks for the inputs from the first that it lacks.
    pub fn ask(&mut self) -> Packet {
        packet(|out, room, wanted| unsafe {
            raw::x3d_viewer_ask(&mut self.handle, out, room, wanted)
        })
        .expect("a viewer can always ask")
    }

    /// The snapshot of its world, as its boot.
    pub fn snapshot(&mut self) -> Result<Vec<u8>, Fault> {
        Fault::told(unsafe { raw::x3d_viewer_make_snapshot(&mut self.handle) })?;
        Ok(self.text())
    }

    /// Begins again in the world of a snapshot, as another boot, above its own and the snapshot's,
    /// and gives how many inputs that has had. No offer waits then.
    pub fn rewind(&mut self, snapshot: &[u8], boot: u32) -> Result<u64, Fault> {
        let mut applied = 0;
        let status = unsafe {
            raw::x3d_viewer_rewind(
                &mut self.handle,
                boot,
                snapshot.as_ptr(),
                snapshot.len(),
                &mut applied,
            )
        };
        Fault::told(status)?;
        Ok(applied)
    }

    /// How many pieces the bytes of a snapshot have: 0 where they do not begin as one. Bytes of more
    /// than 2^26 are refused as `TooLarge`.
    pub fn piece_count(&mut self, snapshot: &[u8]) -> Result<u32, Fault> {
        let mut count = 0;
        let status = unsafe {
            raw::x3d_viewer_piece_count(
                &mut self.handle,
                snapshot.as_ptr(),
                snapshot.len(),
                &mut count,
            )
        };
        Fault::told(status)?;
        Ok(count)
    }

    /// The datagrams of a snapshot for another viewer of the scene: none where `piece_count` is 0
    /// or refused.
    pub fn pieces(&mut self, snapshot: &[u8]) -> Vec<Packet> {
        let count = self.piece_count(snapshot).unwrap_or(0);
        (0..count)
            .map_while(|index| {
                packet(|out, room, wanted| unsafe {
                    raw::x3d_viewer_piece(
                        &mut self.handle,
                        snapshot.as_ptr(),
                        snapshot.len(),
                        index,
                        out,
                        room,
                        wanted,
                    )
                })
            })
            .collect()
    }

    /// Gathers a datagram that is a piece of a snapshot.
    pub fn gather(&mut self, datagram: &[u8]) -> Result<Gathered, Fault> {
        let mut gathered = 0;
        let status = unsafe {
            raw::x3d_viewer_gather(
                &mut self.handle,
                datagram.as_ptr(),
                datagram.len(),
                &mut gathered,
            )
        };
        Fault::told(status)?;
        Ok(match gathered {
            0 => Gathered::New,
            1 => Gathered::Again,
            2 => Gathered::Whole,
            _ => Gathered::Other,
        })
    }

    /// Begins again in the snapshot that was gathered, as `rewind` does. What was gathered is kept
    /// where that is refused.
    pub fn join(&mut self, boot: u32) -> Result<u64, Fault> {
        let mut applied = 0;
        Fault::told(unsafe { raw::x3d_viewer_join(&mut self.handle, boot, &mut applied) })?;
        Ok(applied)
    }

    /// Lets go what was gathered.
    pub fn forget(&mut self) {
        unsafe { raw::x3d_viewer_forget(&mut self.handle) };
    }
}

impl Drop for Viewer {
    fn drop(&mut self) {
        unsafe { raw::x3d_viewer_close(&mut self.handle) }
    }
}

readable!(
    Viewer,
    x3d_viewer_copy_changed,
    x3d_viewer_copy_numbers,
    x3d_viewer_copy_text,
    x3d_viewer_field_count,
    x3d_viewer_field_named,
    x3d_viewer_field_type,
    x3d_viewer_forget_below,
    x3d_viewer_list_changed,
    x3d_viewer_list_children,
    x3d_viewer_list_roots,
    x3d_viewer_list_routes,
    x3d_viewer_list_scripts,
    x3d_viewer_list_value,
    x3d_viewer_make_changes,
    x3d_viewer_make_field_name,
    x3d_viewer_make_label,
    x3d_viewer_make_scene,
    x3d_viewer_make_trace,
    x3d_viewer_make_type,
    x3d_viewer_make_value,
    x3d_viewer_meet,
    x3d_viewer_node_count,
    x3d_viewer_node_named,
    x3d_viewer_replace_script,
    x3d_viewer_script_count,
    x3d_viewer_time
);

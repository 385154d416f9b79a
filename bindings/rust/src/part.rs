//! The part of a text that the core can run.

use crate::fault::Refusal;
use crate::raw::{self, RawPart};
use crate::reading::copied;
use std::ptr;

/// What was left out of a text.
#[derive(Clone, Copy, Debug, PartialEq, Eq)]
#[non_exhaustive]
pub enum LeftKind {
    Node,
    /// A node that became a group.
    Grouped,
    Field,
    /// A rotation that turns.
    Turned,
    /// A USE of a name that no node of the part has.
    Use,
    /// A ROUTE with an end that no node of the part has.
    Route,
    /// A PROTO without a node in its body.
    Proto,
    /// What was refused by a fault of its line.
    Refused,
    ExternProto,
    Import,
    Export,
    Unit,
    /// The declaration of a field of another type.
    Declaration,
    /// A kind of a later library.
    Other(i64),
}

const KINDS: [LeftKind; 13] = [
    LeftKind::Node,
    LeftKind::Grouped,
    LeftKind::Field,
    LeftKind::Turned,
    LeftKind::Use,
    LeftKind::Route,
    LeftKind::Proto,
    LeftKind::Refused,
    LeftKind::ExternProto,
    LeftKind::Import,
    LeftKind::Export,
    LeftKind::Unit,
    LeftKind::Declaration,
];

/// What was left out, and the line of the text that it is on.
#[derive(Clone, Copy, Debug, PartialEq, Eq)]
pub struct LeftOut {
    pub line: i64,
    pub kind: LeftKind,
}

/// The part of a text that the core can run: without the nodes, fields and statements that it
/// doesn't know. `World::of_part` opens its world; of its text open hosts and viewers.
pub struct Part {
    handle: RawPart,
}

// SAFETY: what a handle owns may go to another thread: this is proved of `PartHandle` (its `Send`, in
// crates/embed_handles). (Not `Sync`: calls on one handle come one at a time, as `&mut` has it.)
unsafe impl Send for Part {}

impl Part {
    /// The part of a text (Classic encoding).
    pub fn open(text: &[u8]) -> Result<Part, Refusal> {
        let mut part = Part {
            handle: RawPart {
                at: ptr::null_mut(),
            },
        };
        let (mut line, mut wanted) = ([0; 64], 0);
        // SAFETY: the handle is null, and the bytes are lent for the call. So it is in each call
        // below, where the handle is as the last call left it.
        let status = unsafe {
            raw::x3d_part_open(
                &mut part.handle,
                text.as_ptr(),
                text.len(),
                line.as_mut_ptr(),
                line.len(),
                &mut wanted,
            )
        };
        if status == 0 {
            return Ok(part);
        }
        Err(Refusal::of(text, status, &line[..wanted]))
    }

    pub(crate) fn handle(&mut self) -> &mut RawPart {
        &mut self.handle
    }

    /// The text of the part.
    pub fn text(&mut self) -> Vec<u8> {
        let mut text = Vec::new();
        copied(&mut text, |out, room, wanted| unsafe {
            raw::x3d_part_copy_text(&mut self.handle, out, room, wanted)
        });
        text
    }

    /// A line for each thing that was left out, and a last line of counts, as `x3d_share part`
    /// prints them.
    pub fn notes(&mut self) -> String {
        let mut notes = Vec::new();
        copied(&mut notes, |out, room, wanted| unsafe {
            raw::x3d_part_copy_notes(&mut self.handle, out, room, wanted)
        });
        String::from_utf8_lossy(&notes).into_owned()
    }

    /// What was left out, in the order of those lines.
    pub fn left_out(&mut self) -> Vec<LeftOut> {
        let mut numbers = Vec::new();
        copied(&mut numbers, |out, room, wanted| unsafe {
            raw::x3d_part_copy_numbers(&mut self.handle, out, room, wanted)
        });
        numbers.chunks_exact(2).map(left_out).collect()
    }
}

fn left_out(pair: &[i64]) -> LeftOut {
    let kind = usize::try_from(pair[1]).ok();
    let known = kind.and_then(|kind| KINDS.get(kind).copied());
    LeftOut {
        line: pair[0],
        kind: known.unwrap_or(LeftKind::Other(pair[1])),
    }
}

impl Drop for Part {
    fn drop(&mut self) {
        unsafe { raw::x3d_part_close(&mut self.handle) }
    }
}

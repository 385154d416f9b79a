//! A world.

use crate::changed::{ChangedFields, FieldType};
use crate::changes::Changes;
use crate::fault::{Fault, Refusal};
use crate::part::Part;
use crate::raw::{self, RawField, RawMet, RawSaved, RawWork, RawWorld};
use crate::reading::{Aim, Meeting, Route, copied, readable, routes_of, scripts_of};
use std::ptr;

/// What an input gave rise to.
#[derive(Clone, Copy, Debug, PartialEq, Eq)]
pub struct Work {
    /// How many outputs sent.
    pub sends: usize,
    /// How many routes were followed.
    pub deliveries: usize,
    /// How many scripts settled.
    pub settles: usize,
}

/// Of which boot a snapshot was, and how many inputs its world had applied.
#[derive(Clone, Copy, Debug, PartialEq, Eq)]
pub struct Saved {
    pub boot: u32,
    pub applied: u64,
}

/// The kind of a script.
#[derive(Clone, Copy, Debug, PartialEq, Eq)]
#[repr(u8)]
pub enum Kind {
    Counter = 0,
    Gate = 1,
    Adder = 2,
    Batch = 3,
    Mover = 4,
    Meter = 5,
}

/// The world of a scene. Methods that only read take `&mut self` too: each call takes the world out
/// of its handle.
pub struct World {
    handle: RawWorld,
    keeps_lines: bool,
}

// SAFETY: what a handle owns may go to another thread: this is proved of `WorldHandle` (its `Send`, in
// crates/embed_handles). The library keeps nothing beside its handles but what malloc keeps, which
// is for all threads. (Not `Sync`: calls on one handle come one at a time, as `&mut` has it.)
unsafe impl Send for World {}

impl World {
    /// The world of a scene's text (Classic encoding) before any input.
    pub fn open(text: &[u8]) -> Result<World, Refusal> {
        let mut world = World {
            handle: RawWorld {
                at: ptr::null_mut(),
            },
            keeps_lines: false,
        };
        let (mut line, mut wanted) = ([0; 64], 0);
        // SAFETY: the handle is null, and the bytes are lent for the call. So it is in each call
        // below, where the handle is as the last call left it.
        let status = unsafe {
            raw::x3d_world_open(
                &mut world.handle,
                text.as_ptr(),
                text.len(),
                line.as_mut_ptr(),
                line.len(),
                &mut wanted,
            )
        };
        if status == 0 {
            return Ok(world);
        }
        Err(Refusal::of(text, status, &line[..wanted]))
    }

    /// The world of a part, before any input.
    pub fn of_part(part: &mut Part) -> Result<World, Refusal> {
        let mut world = World {
            handle: RawWorld {
                at: ptr::null_mut(),
            },
            keeps_lines: false,
        };
        let (mut line, mut wanted) = ([0; 64], 0);
        let status = unsafe {
            raw::x3d_world_open_part(
                &mut world.handle,
                part.handle(),
                line.as_mut_ptr(),
                line.len(),
                &mut wanted,
            )
        };
        if status == 0 {
            return Ok(world);
        }
        Err(Refusal::of(&part.text(), status, &line[..wanted]))
    }

    /// How many inputs were applied: the next one has the number behind it.
    pub fn applied(&mut self) -> u64 {
        let mut count = 0;
        unsafe { raw::x3d_world_applied(&mut self.handle, &mut count) };
        count
    }

    /// Applies a clock: number 1 to 2^48 - 1, time 1 to 10^18 microseconds.
    pub fn clock(&mut self, number: u64, time: i64) -> Result<Work, Fault> {
        let mut work = RawWork::default();
        Fault::told(unsafe { raw::x3d_world_clock(&mut self.handle, number, time, &mut work) })?;
        Ok(work_of(&work))
    }

    /// Applies the pointer of a viewer, 0 to 63, whose button is down or not.
    pub fn point(
        &mut self,
        number: u64,
        time: i64,
        viewer: u8,
        down: bool,
        aim: &Aim,
    ) -> Result<Work, Fault> {
        let mut work = RawWork::default();
        let status = unsafe {
            raw::x3d_world_point(
                &mut self.handle,
                number,
                time,
                viewer,
                down,
                &aim.raw(),
                &mut work,
            )
        };
        Fault::told(status)?;
        Ok(work_of(&work))
    }

    /// The snapshot of the world, taken as a boot.
    pub fn snapshot(&mut self, boot: u32) -> Result<Vec<u8>, Fault> {
        Fault::told(unsafe { raw::x3d_world_make_snapshot(&mut self.handle, boot) })?;
        Ok(self.text())
    }

    /// Puts the world of a snapshot in place of what there was, a spoiled one too: a snapshot of
    /// this scene, of a boot below `boot`.
    pub fn load(&mut self, boot: u32, bytes: &[u8]) -> Result<Saved, Fault> {
        let mut saved = RawSaved::default();
        let status = unsafe {
            raw::x3d_world_load(
                &mut self.handle,
                boot,
                bytes.as_ptr(),
                bytes.len(),
                &mut saved,
            )
        };
        Fault::told(status)?;
        Ok(Saved {
            boot: saved.boot,
            applied: saved.applied,
        })
    }
}

impl Drop for World {
    fn drop(&mut self) {
        unsafe { raw::x3d_world_close(&mut self.handle) }
    }
}

fn work_of(raw: &RawWork) -> Work {
    Work {
        sends: raw.sends,
        deliveries: raw.deliveries,
        settles: raw.settles,
    }
}

readable!(
    World,
    x3d_world_copy_changed,
    x3d_world_copy_numbers,
    x3d_world_copy_text,
    x3d_world_field_count,
    x3d_world_field_named,
    x3d_world_field_type,
    x3d_world_forget_below,
    x3d_world_list_changed,
    x3d_world_list_children,
    x3d_world_list_roots,
    x3d_world_list_routes,
    x3d_world_list_scripts,
    x3d_world_list_value,
    x3d_world_make_changes,
    x3d_world_make_field_name,
    x3d_world_make_label,
    x3d_world_make_scene,
    x3d_world_make_trace,
    x3d_world_make_type,
    x3d_world_make_value,
    x3d_world_meet,
    x3d_world_node_count,
    x3d_world_node_named,
    x3d_world_replace_script,
    x3d_world_script_count,
    x3d_world_time
);

//! The calls as C sees them. scripts/header compares include/x3d.h with the library, and
//! `scripts/bindings` this file with the header.

use std::ffi::{c_char, c_void};

/// The number of the binary interface that the declarations below are of.
pub const ABI: u32 = 1;

#[repr(C)]
pub struct RawWorld {
    pub at: *mut c_void,
}

#[repr(C)]
pub struct RawHost {
    pub at: *mut c_void,
}

#[repr(C)]
pub struct RawViewer {
    pub at: *mut c_void,
}

#[repr(C)]
pub struct RawLog {
    pub at: *mut c_void,
}

#[repr(C)]
pub struct RawPart {
    pub at: *mut c_void,
}

#[repr(C)]
#[derive(Default)]
pub struct RawWork {
    pub sends: usize,
    pub deliveries: usize,
    pub settles: usize,
}

#[repr(C)]
#[derive(Default)]
pub struct RawAim {
    pub origin_x: i64,
    pub origin_y: i64,
    pub origin_z: i64,
    pub direction_x: i64,
    pub direction_y: i64,
    pub direction_z: i64,
}

#[repr(C)]
#[derive(Default)]
pub struct RawMet {
    pub n: u64,
    pub m: u64,
}

#[repr(C)]
#[derive(Default)]
pub struct RawSaved {
    pub applied: u64,
    pub boot: u32,
}

#[repr(C)]
#[derive(Default)]
pub struct RawReply {
    pub number: u64,
    pub count: u64,
    pub kind: u32,
}

#[repr(C)]
#[derive(Default)]
pub struct RawTaken {
    pub count: u64,
    pub kind: u32,
}

/// A field that was set, as C has it.
#[repr(C)]
#[derive(Clone, Copy, Debug, Default, PartialEq, Eq)]
pub struct RawChange {
    pub node: u32,
    pub field: u16,
    pub value_type: u8,
    pub first: u32,
    pub count: u32,
}

#[repr(C)]
#[derive(Default)]
pub struct RawField {
    pub value_type: u8,
    pub access: u8,
}

#[repr(C)]
#[derive(Default)]
pub struct RawDatagram {
    pub tag: u8,
    pub who: u8,
    pub point: u8,
    pub boot: u32,
    pub number: u64,
    pub time: i64,
    pub aim: RawAim,
}

unsafe extern "C" {
    pub fn x3d_datagram_read(bytes: *const u8, length: usize, datagram: *mut RawDatagram) -> u8;
    pub fn x3d_text_instance(text: *const u8, length: usize, line: *mut u32) -> u8;
    pub fn x3d_part_open(
        part: *mut RawPart,
        text: *const u8,
        length: usize,
        refusal: *mut u8,
        room: usize,
        wanted: *mut usize,
    ) -> u8;
    pub fn x3d_part_close(part: *mut RawPart);
    pub fn x3d_part_copy_text(
        part: *mut RawPart,
        out: *mut u8,
        room: usize,
        wanted: *mut usize,
    ) -> u8;
    pub fn x3d_part_copy_notes(
        part: *mut RawPart,
        out: *mut u8,
        room: usize,
        wanted: *mut usize,
    ) -> u8;
    pub fn x3d_part_copy_numbers(
        part: *mut RawPart,
        out: *mut i64,
        room: usize,
        wanted: *mut usize,
    ) -> u8;
    pub fn x3d_world_open(
        world: *mut RawWorld,
        text: *const u8,
        length: usize,
        refusal: *mut u8,
        room: usize,
        wanted: *mut usize,
    ) -> u8;
    pub fn x3d_world_open_part(
        world: *mut RawWorld,
        part: *mut RawPart,
        refusal: *mut u8,
        room: usize,
        wanted: *mut usize,
    ) -> u8;
    pub fn x3d_world_close(world: *mut RawWorld);
    pub fn x3d_world_applied(world: *mut RawWorld, count: *mut u64) -> u8;
    pub fn x3d_world_clock(world: *mut RawWorld, number: u64, time: i64, work: *mut RawWork) -> u8;
    pub fn x3d_world_point(
        world: *mut RawWorld,
        number: u64,
        time: i64,
        viewer: u8,
        down: bool,
        aim: *const RawAim,
        work: *mut RawWork,
    ) -> u8;
    pub fn x3d_world_meet(world: *mut RawWorld, aim: *const RawAim, met: *mut RawMet) -> u8;
    pub fn x3d_world_make_trace(world: *mut RawWorld, first: u64) -> u8;
    pub fn x3d_world_make_changes(world: *mut RawWorld, first: u64) -> u8;
    pub fn x3d_world_make_scene(world: *mut RawWorld) -> u8;
    pub fn x3d_world_make_type(world: *mut RawWorld, node: u32) -> u8;
    pub fn x3d_world_make_label(world: *mut RawWorld, node: u32) -> u8;
    pub fn x3d_world_make_field_name(world: *mut RawWorld, node: u32, field: u16) -> u8;
    pub fn x3d_world_make_value(world: *mut RawWorld, node: u32, field: u16) -> u8;
    pub fn x3d_world_make_snapshot(world: *mut RawWorld, boot: u32) -> u8;
    pub fn x3d_world_copy_text(
        world: *mut RawWorld,
        out: *mut u8,
        room: usize,
        wanted: *mut usize,
    ) -> u8;
    pub fn x3d_world_node_count(world: *mut RawWorld, count: *mut usize) -> u8;
    pub fn x3d_world_field_count(world: *mut RawWorld, node: u32, count: *mut u32) -> u8;
    pub fn x3d_world_field_named(
        world: *mut RawWorld,
        node: u32,
        name: *const u8,
        length: usize,
        field: *mut u16,
    ) -> u8;
    pub fn x3d_world_field_type(
        world: *mut RawWorld,
        node: u32,
        field: u16,
        told: *mut RawField,
    ) -> u8;
    pub fn x3d_world_node_named(
        world: *mut RawWorld,
        name: *const u8,
        length: usize,
        node: *mut u32,
    ) -> u8;
    pub fn x3d_world_time(world: *mut RawWorld, time: *mut i64) -> u8;
    pub fn x3d_world_list_scripts(world: *mut RawWorld) -> u8;
    pub fn x3d_world_list_routes(world: *mut RawWorld) -> u8;
    pub fn x3d_world_list_roots(world: *mut RawWorld) -> u8;
    pub fn x3d_world_list_children(world: *mut RawWorld, node: u32) -> u8;
    pub fn x3d_world_list_value(world: *mut RawWorld, node: u32, field: u16) -> u8;
    pub fn x3d_world_copy_numbers(
        world: *mut RawWorld,
        out: *mut i64,
        room: usize,
        wanted: *mut usize,
    ) -> u8;
    pub fn x3d_world_forget_below(world: *mut RawWorld, below: u64) -> u8;
    pub fn x3d_world_list_changed(world: *mut RawWorld, since: u64) -> u8;
    pub fn x3d_world_copy_changed(
        world: *mut RawWorld,
        out: *mut RawChange,
        room: usize,
        wanted: *mut usize,
    ) -> u8;
    pub fn x3d_world_load(
        world: *mut RawWorld,
        boot: u32,
        bytes: *const u8,
        length: usize,
        saved: *mut RawSaved,
    ) -> u8;
    pub fn x3d_world_script_count(world: *mut RawWorld, count: *mut usize) -> u8;
    pub fn x3d_world_replace_script(world: *mut RawWorld, k: usize, kind: u8) -> u8;
    pub fn x3d_host_open(host: *mut RawHost, text: *const u8, length: usize, viewers: u8) -> u8;
    pub fn x3d_host_close(host: *mut RawHost);
    pub fn x3d_host_clock(host: *mut RawHost, time: i64, number: *mut u64) -> u8;
    pub fn x3d_host_take(
        host: *mut RawHost,
        bytes: *const u8,
        length: usize,
        reply: *mut RawReply,
    ) -> u8;
    pub fn x3d_host_take_from(
        host: *mut RawHost,
        who: u8,
        bytes: *const u8,
        length: usize,
        reply: *mut RawReply,
    ) -> u8;
    pub fn x3d_host_heard(host: *mut RawHost, who: u8, asked: *mut u64) -> u8;
    pub fn x3d_host_keep(host: *mut RawHost, count: u64) -> u8;
    pub fn x3d_host_packet(
        host: *mut RawHost,
        number: u64,
        out: *mut u8,
        room: usize,
        wanted: *mut usize,
    ) -> u8;
    pub fn x3d_host_ack(
        host: *mut RawHost,
        who: u8,
        out: *mut u8,
        room: usize,
        wanted: *mut usize,
    ) -> u8;
    pub fn x3d_host_floor(host: *mut RawHost, number: *mut u64) -> u8;
    pub fn x3d_host_floor_packet(
        host: *mut RawHost,
        out: *mut u8,
        room: usize,
        wanted: *mut usize,
    ) -> u8;
    pub fn x3d_host_drop_below(host: *mut RawHost, number: u64) -> u8;
    pub fn x3d_host_count(host: *mut RawHost, count: *mut u64) -> u8;
    pub fn x3d_host_viewers(host: *mut RawHost, count: *mut u32) -> u8;
    pub fn x3d_host_time(host: *mut RawHost, time: *mut i64) -> u8;
    pub fn x3d_host_resume(
        host: *mut RawHost,
        text: *const u8,
        length: usize,
        viewers: u8,
        log: *const u8,
        log_length: usize,
        entry: *mut u64,
    ) -> u8;
    pub fn x3d_host_pending(
        host: *mut RawHost,
        token: *mut u32,
        out: *mut u8,
        room: usize,
        wanted: *mut usize,
    ) -> u8;
    pub fn x3d_host_stored(host: *mut RawHost, token: u32, answer: u8) -> u8;
    pub fn x3d_log_make(
        log: *mut RawLog,
        path: *const u8,
        path_length: usize,
        text: *const u8,
        length: usize,
        viewers: u8,
    ) -> u8;
    pub fn x3d_log_open(
        log: *mut RawLog,
        path: *const u8,
        path_length: usize,
        text: *const u8,
        length: usize,
        viewers: u8,
        place: *mut u64,
    ) -> u8;
    pub fn x3d_log_close(log: *mut RawLog);
    pub fn x3d_log_append(log: *mut RawLog, bytes: *const u8, length: usize) -> u8;
    pub fn x3d_log_read(log: *mut RawLog, out: *mut u8, room: usize, wanted: *mut usize) -> u8;
    pub fn x3d_log_count(log: *mut RawLog, count: *mut u64) -> u8;
    pub fn x3d_log_viewers(log: *mut RawLog, count: *mut u32) -> u8;
    pub fn x3d_log_copy_run(log: *mut RawLog, out: *mut u8, room: usize, wanted: *mut usize) -> u8;
    pub fn x3d_viewer_open(
        viewer: *mut RawViewer,
        text: *const u8,
        length: usize,
        who: u8,
        boot: u32,
        refusal: *mut u8,
        room: usize,
        wanted: *mut usize,
    ) -> u8;
    pub fn x3d_viewer_close(viewer: *mut RawViewer);
    pub fn x3d_viewer_applied(viewer: *mut RawViewer, count: *mut u64) -> u8;
    pub fn x3d_viewer_boot(viewer: *mut RawViewer, boot: *mut u32) -> u8;
    pub fn x3d_viewer_waiting(viewer: *mut RawViewer, count: *mut u32) -> u8;
    pub fn x3d_viewer_take(
        viewer: *mut RawViewer,
        bytes: *const u8,
        length: usize,
        taken: *mut RawTaken,
    ) -> u8;
    pub fn x3d_viewer_offer(
        viewer: *mut RawViewer,
        down: bool,
        aim: *const RawAim,
        number: *mut u32,
    ) -> u8;
    pub fn x3d_viewer_resend(
        viewer: *mut RawViewer,
        place: u32,
        out: *mut u8,
        room: usize,
        wanted: *mut usize,
    ) -> u8;
    pub fn x3d_viewer_ask(
        viewer: *mut RawViewer,
        out: *mut u8,
        room: usize,
        wanted: *mut usize,
    ) -> u8;
    pub fn x3d_viewer_make_snapshot(viewer: *mut RawViewer) -> u8;
    pub fn x3d_viewer_rewind(
        viewer: *mut RawViewer,
        boot: u32,
        bytes: *const u8,
        length: usize,
        applied: *mut u64,
    ) -> u8;
    pub fn x3d_viewer_piece_count(
        viewer: *mut RawViewer,
        bytes: *const u8,
        length: usize,
        count: *mut u32,
    ) -> u8;
    pub fn x3d_viewer_piece(
        viewer: *mut RawViewer,
        bytes: *const u8,
        length: usize,
        index: u32,
        out: *mut u8,
        room: usize,
        wanted: *mut usize,
    ) -> u8;
    pub fn x3d_viewer_gather(
        viewer: *mut RawViewer,
        bytes: *const u8,
        length: usize,
        gathered: *mut u32,
    ) -> u8;
    pub fn x3d_viewer_join(viewer: *mut RawViewer, boot: u32, applied: *mut u64) -> u8;
    pub fn x3d_viewer_forget(viewer: *mut RawViewer) -> u8;
    pub fn x3d_viewer_make_trace(viewer: *mut RawViewer, first: u64) -> u8;
    pub fn x3d_viewer_make_changes(viewer: *mut RawViewer, first: u64) -> u8;
    pub fn x3d_viewer_make_scene(viewer: *mut RawViewer) -> u8;
    pub fn x3d_viewer_make_type(viewer: *mut RawViewer, node: u32) -> u8;
    pub fn x3d_viewer_make_label(viewer: *mut RawViewer, node: u32) -> u8;
    pub fn x3d_viewer_make_field_name(viewer: *mut RawViewer, node: u32, field: u16) -> u8;
    pub fn x3d_viewer_make_value(viewer: *mut RawViewer, node: u32, field: u16) -> u8;
    pub fn x3d_viewer_copy_text(
        viewer: *mut RawViewer,
        out: *mut u8,
        room: usize,
        wanted: *mut usize,
    ) -> u8;
    pub fn x3d_viewer_node_count(viewer: *mut RawViewer, count: *mut usize) -> u8;
    pub fn x3d_viewer_field_count(viewer: *mut RawViewer, node: u32, count: *mut u32) -> u8;
    pub fn x3d_viewer_field_named(
        viewer: *mut RawViewer,
        node: u32,
        name: *const u8,
        length: usize,
        field: *mut u16,
    ) -> u8;
    pub fn x3d_viewer_field_type(
        viewer: *mut RawViewer,
        node: u32,
        field: u16,
        told: *mut RawField,
    ) -> u8;
    pub fn x3d_viewer_node_named(
        viewer: *mut RawViewer,
        name: *const u8,
        length: usize,
        node: *mut u32,
    ) -> u8;
    pub fn x3d_viewer_time(viewer: *mut RawViewer, time: *mut i64) -> u8;
    pub fn x3d_viewer_list_scripts(viewer: *mut RawViewer) -> u8;
    pub fn x3d_viewer_list_routes(viewer: *mut RawViewer) -> u8;
    pub fn x3d_viewer_list_roots(viewer: *mut RawViewer) -> u8;
    pub fn x3d_viewer_list_children(viewer: *mut RawViewer, node: u32) -> u8;
    pub fn x3d_viewer_list_value(viewer: *mut RawViewer, node: u32, field: u16) -> u8;
    pub fn x3d_viewer_copy_numbers(
        viewer: *mut RawViewer,
        out: *mut i64,
        room: usize,
        wanted: *mut usize,
    ) -> u8;
    pub fn x3d_viewer_forget_below(viewer: *mut RawViewer, below: u64) -> u8;
    pub fn x3d_viewer_list_changed(viewer: *mut RawViewer, since: u64) -> u8;
    pub fn x3d_viewer_copy_changed(
        viewer: *mut RawViewer,
        out: *mut RawChange,
        room: usize,
        wanted: *mut usize,
    ) -> u8;
    pub fn x3d_viewer_script_count(viewer: *mut RawViewer, count: *mut usize) -> u8;
    pub fn x3d_viewer_replace_script(viewer: *mut RawViewer, k: usize, kind: u8) -> u8;
    pub fn x3d_viewer_meet(viewer: *mut RawViewer, aim: *const RawAim, met: *mut RawMet) -> u8;
    pub fn x3d_version() -> *const c_char;
    pub fn x3d_abi() -> u32;
    pub fn x3d_status_text(status: u8) -> *const c_char;
}

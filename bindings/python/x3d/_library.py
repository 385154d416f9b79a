"""The calls as C sees them: include/x3d.h declares them."""

import ctypes
import os
from ctypes import POINTER, Structure, c_bool, c_char_p, c_int64, c_size_t, c_uint8, c_uint16, c_uint32, c_uint64, c_void_p
from pathlib import Path
from typing import Any, Callable, Dict


class Handle(Structure):
    _fields_ = [("at", c_void_p)]


class RawWork(Structure):
    _fields_ = [("sends", c_size_t), ("deliveries", c_size_t), ("settles", c_size_t)]


class RawAim(Structure):
    _fields_ = [(f"{part}_{axis}", c_int64) for part in ("origin", "direction") for axis in "xyz"]


class RawMet(Structure):
    _fields_ = [("n", c_uint64), ("m", c_uint64)]


class RawSaved(Structure):
    _fields_ = [("applied", c_uint64), ("boot", c_uint32)]


class RawReply(Structure):
    _fields_ = [("number", c_uint64), ("count", c_uint64), ("kind", c_uint32)]


class RawTaken(Structure):
    _fields_ = [("count", c_uint64), ("kind", c_uint32)]


class RawChange(Structure):
    _fields_ = [
        ("node", c_uint32),
        ("field", c_uint16),
        ("value_type", c_uint8),
        ("first", c_uint32),
        ("count", c_uint32),
    ]


class RawField(Structure):
    _fields_ = [("value_type", c_uint8), ("access", c_uint8)]


class RawDatagram(Structure):
    _fields_ = [
        ("tag", c_uint8),
        ("who", c_uint8),
        ("point", c_uint8),
        ("boot", c_uint32),
        ("number", c_uint64),
        ("time", c_int64),
        ("aim", RawAim),
    ]


_WORLD = POINTER(Handle)
_HOST = POINTER(Handle)
_VIEWER = POINTER(Handle)
_LOG = POINTER(Handle)
_PART = POINTER(Handle)
_COUNT = POINTER(c_uint32)
_SIZE = POINTER(c_size_t)
# What each call is passed; each answers a status, but those that close, which answer nothing.
CALLS = {
    "x3d_world_open": [_WORLD, c_char_p, c_size_t, c_char_p, c_size_t, _SIZE],
    "x3d_world_open_part": [_WORLD, _PART, c_char_p, c_size_t, _SIZE],
    "x3d_world_close": [_WORLD],
    "x3d_world_applied": [_WORLD, POINTER(c_uint64)],
    "x3d_world_clock": [_WORLD, c_uint64, c_int64, POINTER(RawWork)],
    "x3d_world_point": [_WORLD, c_uint64, c_int64, c_uint8, c_bool, POINTER(RawAim), POINTER(RawWork)],
    "x3d_world_meet": [_WORLD, POINTER(RawAim), POINTER(RawMet)],
    "x3d_world_make_trace": [_WORLD, c_uint64],
    "x3d_world_make_changes": [_WORLD, c_uint64],
    "x3d_world_make_scene": [_WORLD],
    "x3d_world_make_type": [_WORLD, c_uint32],
    "x3d_world_make_label": [_WORLD, c_uint32],
    "x3d_world_make_field_name": [_WORLD, c_uint32, c_uint16],
    "x3d_world_make_value": [_WORLD, c_uint32, c_uint16],
    "x3d_world_make_snapshot": [_WORLD, c_uint32],
    "x3d_world_copy_text": [_WORLD, c_char_p, c_size_t, _SIZE],
    "x3d_world_node_count": [_WORLD, _SIZE],
    "x3d_world_field_count": [_WORLD, c_uint32, _COUNT],
    "x3d_world_field_named": [_WORLD, c_uint32, c_char_p, c_size_t, POINTER(c_uint16)],
    "x3d_world_field_type": [_WORLD, c_uint32, c_uint16, POINTER(RawField)],
    "x3d_world_node_named": [_WORLD, c_char_p, c_size_t, _COUNT],
    "x3d_world_time": [_WORLD, POINTER(c_int64)],
    "x3d_world_list_roots": [_WORLD],
    "x3d_world_list_children": [_WORLD, c_uint32],
    "x3d_world_list_value": [_WORLD, c_uint32, c_uint16],
    "x3d_world_copy_numbers": [_WORLD, POINTER(c_int64), c_size_t, _SIZE],
    "x3d_world_list_changed": [_WORLD, c_uint64],
    "x3d_world_copy_changed": [_WORLD, POINTER(RawChange), c_size_t, _SIZE],
    "x3d_world_forget_below": [_WORLD, c_uint64],
    "x3d_world_load": [_WORLD, c_uint32, c_char_p, c_size_t, POINTER(RawSaved)],
    "x3d_world_script_count": [_WORLD, _SIZE],
    "x3d_world_list_scripts": [_WORLD],
    "x3d_world_list_routes": [_WORLD],
    "x3d_world_replace_script": [_WORLD, c_size_t, c_uint8],
    "x3d_host_open": [_HOST, c_char_p, c_size_t, c_uint8],
    "x3d_host_close": [_HOST],
    "x3d_host_clock": [_HOST, c_int64, POINTER(c_uint64)],
    "x3d_host_take": [_HOST, c_char_p, c_size_t, POINTER(RawReply)],
    "x3d_host_take_from": [_HOST, c_uint8, c_char_p, c_size_t, POINTER(RawReply)],
    "x3d_host_heard": [_HOST, c_uint8, POINTER(c_uint64)],
    "x3d_host_keep": [_HOST, c_uint64],
    "x3d_host_packet": [_HOST, c_uint64, c_char_p, c_size_t, _SIZE],
    "x3d_host_ack": [_HOST, c_uint8, c_char_p, c_size_t, _SIZE],
    "x3d_host_floor": [_HOST, POINTER(c_uint64)],
    "x3d_host_floor_packet": [_HOST, c_char_p, c_size_t, _SIZE],
    "x3d_host_drop_below": [_HOST, c_uint64],
    "x3d_host_count": [_HOST, POINTER(c_uint64)],
    "x3d_host_viewers": [_HOST, _COUNT],
    "x3d_host_time": [_HOST, POINTER(c_int64)],
    "x3d_host_resume": [_HOST, c_char_p, c_size_t, c_uint8, c_char_p, c_size_t, POINTER(c_uint64)],
    "x3d_host_pending": [_HOST, POINTER(c_uint32), c_char_p, c_size_t, _SIZE],
    "x3d_host_stored": [_HOST, c_uint32, c_uint8],
    "x3d_log_make": [_LOG, c_char_p, c_size_t, c_char_p, c_size_t, c_uint8],
    "x3d_log_open": [_LOG, c_char_p, c_size_t, c_char_p, c_size_t, c_uint8, POINTER(c_uint64)],
    "x3d_log_close": [_LOG],
    "x3d_log_append": [_LOG, c_char_p, c_size_t],
    "x3d_log_read": [_LOG, c_char_p, c_size_t, _SIZE],
    "x3d_log_count": [_LOG, POINTER(c_uint64)],
    "x3d_log_viewers": [_LOG, _COUNT],
    "x3d_log_copy_run": [_LOG, c_char_p, c_size_t, _SIZE],
    "x3d_viewer_open": [_VIEWER, c_char_p, c_size_t, c_uint8, c_uint32, c_char_p, c_size_t, _SIZE],
    "x3d_viewer_close": [_VIEWER],
    "x3d_viewer_applied": [_VIEWER, POINTER(c_uint64)],
    "x3d_viewer_boot": [_VIEWER, _COUNT],
    "x3d_viewer_waiting": [_VIEWER, _COUNT],
    "x3d_viewer_take": [_VIEWER, c_char_p, c_size_t, POINTER(RawTaken)],
    "x3d_viewer_offer": [_VIEWER, c_bool, POINTER(RawAim), _COUNT],
    "x3d_viewer_resend": [_VIEWER, c_uint32, c_char_p, c_size_t, _SIZE],
    "x3d_viewer_ask": [_VIEWER, c_char_p, c_size_t, _SIZE],
    "x3d_viewer_make_snapshot": [_VIEWER],
    "x3d_viewer_rewind": [_VIEWER, c_uint32, c_char_p, c_size_t, POINTER(c_uint64)],
    "x3d_viewer_piece_count": [_VIEWER, c_char_p, c_size_t, _COUNT],
    "x3d_viewer_piece": [_VIEWER, c_char_p, c_size_t, c_uint32, c_char_p, c_size_t, _SIZE],
    "x3d_viewer_gather": [_VIEWER, c_char_p, c_size_t, _COUNT],
    "x3d_viewer_join": [_VIEWER, c_uint32, POINTER(c_uint64)],
    "x3d_viewer_forget": [_VIEWER],
    "x3d_viewer_meet": [_VIEWER, POINTER(RawAim), POINTER(RawMet)],
    "x3d_viewer_make_trace": [_VIEWER, c_uint64],
    "x3d_viewer_make_changes": [_VIEWER, c_uint64],
    "x3d_viewer_make_scene": [_VIEWER],
    "x3d_viewer_make_type": [_VIEWER, c_uint32],
    "x3d_viewer_make_label": [_VIEWER, c_uint32],
    "x3d_viewer_make_field_name": [_VIEWER, c_uint32, c_uint16],
    "x3d_viewer_make_value": [_VIEWER, c_uint32, c_uint16],
    "x3d_viewer_copy_text": [_VIEWER, c_char_p, c_size_t, _SIZE],
    "x3d_viewer_node_count": [_VIEWER, _SIZE],
    "x3d_viewer_field_count": [_VIEWER, c_uint32, _COUNT],
    "x3d_viewer_field_named": [_VIEWER, c_uint32, c_char_p, c_size_t, POINTER(c_uint16)],
    "x3d_viewer_field_type": [_VIEWER, c_uint32, c_uint16, POINTER(RawField)],
    "x3d_viewer_node_named": [_VIEWER, c_char_p, c_size_t, _COUNT],
    "x3d_viewer_time": [_VIEWER, POINTER(c_int64)],
    "x3d_viewer_list_roots": [_VIEWER],
    "x3d_viewer_list_children": [_VIEWER, c_uint32],
    "x3d_viewer_list_value": [_VIEWER, c_uint32, c_uint16],
    "x3d_viewer_copy_numbers": [_VIEWER, POINTER(c_int64), c_size_t, _SIZE],
    "x3d_viewer_forget_below": [_VIEWER, c_uint64],
    "x3d_viewer_list_changed": [_VIEWER, c_uint64],
    "x3d_viewer_copy_changed": [_VIEWER, POINTER(RawChange), c_size_t, _SIZE],
    "x3d_viewer_script_count": [_VIEWER, _SIZE],
    "x3d_viewer_list_scripts": [_VIEWER],
    "x3d_viewer_list_routes": [_VIEWER],
    "x3d_viewer_replace_script": [_VIEWER, c_size_t, c_uint8],
    "x3d_part_open": [_PART, c_char_p, c_size_t, c_char_p, c_size_t, _SIZE],
    "x3d_part_close": [_PART],
    "x3d_part_copy_text": [_PART, c_char_p, c_size_t, _SIZE],
    "x3d_part_copy_notes": [_PART, c_char_p, c_size_t, _SIZE],
    "x3d_part_copy_numbers": [_PART, POINTER(c_int64), c_size_t, _SIZE],
    "x3d_text_instance": [c_char_p, c_size_t, _COUNT],
    "x3d_datagram_read": [c_char_p, c_size_t, POINTER(RawDatagram)],
    "x3d_version": [],
    "x3d_abi": [],
    "x3d_status_text": [c_uint8],
}
# What those calls answer that answer something else.
_ANSWERS = {"x3d_version": c_char_p, "x3d_abi": c_uint32, "x3d_status_text": c_char_p}
# The number of the binary interface that the declarations above are of.
ABI = 1


def _path() -> str:
    here = Path(__file__).resolve().parent
    named = os.environ.get("X3D_SO")
    if named:
        return named
    for path in (here / "libx3d.so", here.parents[2] / "out/libx3d.so"):
        if path.exists():
            return str(path)
    return f"libx3d.so.{ABI}"


def _loaded(path: str) -> Any:
    """The library, if it is there and has the binary interface of this module."""
    try:
        found = ctypes.CDLL(path)
    except OSError as missing:
        raise ImportError(f"no libx3d: {missing}; X3D_SO names one, and `make library` builds it") from missing
    abi = found.x3d_abi() if hasattr(found, "x3d_abi") else "unknown"
    if abi != ABI:
        raise ImportError(f"{path} has the binary interface {abi}, and this module is for {ABI}")
    return found


# Calls that are over in a microsecond or two, whatever the world: to let other threads run meanwhile takes longer.
_SHORT = {
    "x3d_world_applied",
    "x3d_world_node_count",
    "x3d_world_field_count",
    "x3d_host_take",
    "x3d_host_take_from",
    "x3d_host_heard",
    "x3d_datagram_read",
    "x3d_host_packet",
    "x3d_host_ack",
    "x3d_host_floor",
    "x3d_host_floor_packet",
    "x3d_host_count",
    "x3d_host_viewers",
    "x3d_host_time",
    "x3d_log_count",
    "x3d_log_viewers",
    "x3d_log_copy_run",
    "x3d_viewer_applied",
    "x3d_viewer_boot",
    "x3d_viewer_waiting",
    "x3d_viewer_offer",
    "x3d_viewer_resend",
    "x3d_viewer_ask",
    "x3d_viewer_node_count",
    "x3d_viewer_field_count",
}
library = _loaded(_path())
_alone = ctypes.PyDLL(_path())


def _call(name: str) -> Callable[..., Any]:
    """The call of this name, with the types that it is passed and answers."""
    call: Callable[..., Any] = getattr(_alone if name in _SHORT else library, name)
    call.argtypes = CALLS[name]  # type: ignore[attr-defined]
    call.restype = None if name.endswith("_close") else _ANSWERS.get(name, c_uint8)  # type: ignore[attr-defined]
    return call


def calls_of(kind: str) -> Dict[str, Callable[..., Any]]:
    """The calls on a world, a host, a viewer, a log or a part, by what their names have behind `x3d_KIND_`."""
    before = f"x3d_{kind}_"
    return {name[len(before) :]: _call(name) for name in CALLS if name.startswith(before)}


def read_datagram(datagram: bytes, told: RawDatagram) -> int:
    """Writes what a datagram says, and returns the status."""
    return int(_READ(datagram, len(datagram), told))


_READ = _call("x3d_datagram_read")


def text_instance(text: bytes) -> int:
    """The line of the instance that a text is refused for, or 0. 0 too if memory is refused."""
    line = c_uint32()
    return line.value if _call("x3d_text_instance")(text, len(text), line) == 0 else 0


def version() -> str:
    """The library's version, as `0.3.0`; `0.3.0-unproved` if it was built without a proof."""
    return str(_call("x3d_version")().decode())


def status_text(status: int) -> str:
    """What a status means, in a few words."""
    return str(_call("x3d_status_text")(status).decode())

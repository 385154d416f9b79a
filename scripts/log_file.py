"""The file of a world's log, by hand: crates/share_entries and crates/share_log say how its bytes lie."""
import hashlib
import struct
from typing import NamedTuple

# The most entries of a frame, and the kinds of a frame of entries and of a base.
MOST, ENTRIES, BASE = 977, 0, 1


def digest(data, size):
    return hashlib.sha256(data).digest()[:size]


def head(mark, run, viewers=2):
    front = b"X3DL" + bytes([1, viewers, 0, 0]) + mark + run
    return front + digest(front, 8)


def clock(time):
    """An entry of a clock at a time in microseconds."""
    return struct.pack(">qB", time, 0)


def offer(time, who, down, origin, direction, boot, number):
    """An entry of a point that a viewer offered; coordinates in millionths."""
    return struct.pack(">qBBB6qII", time, 1, who, down, *origin, *direction, boot, number)


def linked(chain, entries):
    """The chain after entries."""
    for entry in entries:
        chain = digest(chain + entry, 16)
    return chain


def frame(chain, first, entries):
    """The payload of entries, the first with this number, after a log with this chain."""
    return struct.pack(">BHQ", ENTRIES, len(entries), first) + b"".join(entries) + linked(chain, entries)


def base(kept, number, time, chain, snapshot):
    """The payload of a base: the boot and the count of each viewer, the last entry's number and time, the chain, and the
    SHA-256 of a snapshot."""
    seats = b"".join(struct.pack(">II", boot, count) for boot, count in kept)
    front = bytes([BASE, len(kept)]) + seats + struct.pack(">Qq", number, time) + chain + snapshot
    return front + digest(front, 8)


def gated(*payloads):
    """The payloads in a file: each after an open gate, and a shut one at the end."""
    return b"".join(b"\1" + struct.pack(">H", len(payload)) + payload for payload in payloads) + b"\0"


def log(mark, run, parts, viewers=2):
    """The file of a log, of which each part is the entries of one frame."""
    payloads, chain, number = [head(mark, run, viewers)], run, 1
    for entries in parts:
        payloads.append(frame(chain, number, entries))
        chain, number = linked(chain, entries), number + len(entries)
    return gated(*payloads)


# ---- reading


class Damage(Exception):
    """Why bytes are no log, by the name that the program has for it."""


class Entry(NamedTuple):
    """An input: its time in microseconds, and the viewer that offered it, or None for a clock."""

    time: int
    who: int


class Found(NamedTuple):
    viewers: int
    mark: bytes
    run: bytes
    entries: list
    cut: int
    # The number of the last entry below the base, and the SHA-256 of the snapshot there.
    below: int = 0
    snapshot: bytes = b""


def whole_frames(data):
    """The payloads of the valid frames, and the bytes after them."""
    payloads = []
    while len(data) >= 3 and data[0] == 1:
        size = int.from_bytes(data[1:3], "big")
        if not 1 <= size <= len(data) - 3:
            break
        payloads.append(data[3:3 + size])
        data = data[3 + size:]
    return payloads, data


def texts_of(payload):
    """The bytes of each entry of a frame, as far as they are there."""
    at = 11
    for _ in range(int.from_bytes(payload[1:3], "big")):
        text = payload[at:at + (67 if payload[at + 8:at + 9] == b"\1" else 9)]
        yield text
        at += len(text)


def read_entries(chain, first, payload):
    """The entries of a frame and the chain after them, or None if it isn't the next of a log."""
    if len(payload) < 11 or payload[0] != ENTRIES or int.from_bytes(payload[3:11], "big") != first:
        return None
    entries, at = [], 11
    for text in texts_of(payload):
        if len(text) < 9 or text[8] > 1 or len(text) < (67 if text[8] else 9):
            return None
        entries.append(Entry(int.from_bytes(text[:8], "big"), text[9] if text[8] else None))
        chain, at = digest(chain + text, 16), at + len(text)
    return (entries, chain) if payload[at:] == chain else None


def read_base(viewers, payload):
    """The number, the chain and the snapshot's sum of a base for so many viewers, or None if it isn't one."""
    if len(payload) != 2 + 8 * viewers + 72 or payload[1] != viewers or payload[-8:] != digest(payload[:-8], 8):
        return None
    number, _, chain, snapshot = struct.unpack(">Qq16s32s", payload[2 + 8 * viewers:-8])
    return number, chain, snapshot


def read(data):
    """The log that these bytes are, or Damage."""
    payloads, rest = whole_frames(data)
    if not payloads or payloads[0] != head_again(payloads[0]):
        raise Damage("BadHead")
    first = payloads[0]
    viewers, mark, run, entries = first[5], first[8:40], first[40:56], []
    below, chain, snapshot, frames = 0, run, b"", payloads[1:]
    if frames and frames[0][0] == BASE:
        found = read_base(viewers, frames[0])
        if not found:
            raise Damage("LogDamaged frame 1")
        (below, chain, snapshot), frames = found, frames[1:]
    for number, payload in enumerate(frames, len(payloads) - len(frames)):
        found = read_entries(chain, below + len(entries) + 1, payload)
        if not found:
            raise Damage(f"LogDamaged frame {number}")
        entries, chain = entries + found[0], found[1]
    size, last = int.from_bytes(rest[1:3], "big"), below + len(entries)
    hidden = len(rest) > 3 + size and rest[3 + size] == 1 and read_entries(chain, last + 1, rest[3:3 + size])
    if not rest or rest[0] == 1 or hidden:
        raise Damage(f"LogDamaged frame {len(payloads)}")
    return Found(viewers, mark, run, entries, len(rest) - 1, below, snapshot)


def head_again(payload):
    """The head that has the viewers, the mark and the run of these bytes, or None if there can be none."""
    if len(payload) < 56 or not 1 <= payload[5] <= 64:
        return None
    return head(payload[8:40], payload[40:56], payload[5])

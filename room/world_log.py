"""A run as a world's log, `.x3dlog`: frames, of which the first is a head, and entries in each other one. Their bytes are
those of crates/share_log, crates/share_entries and crates/share_file."""
import hashlib
import struct

from inputs import Inputs
from library import wire

MAGIC, OPEN, SHUT = b"X3DL", b"\1", b"\0"
HEAD, SUM = struct.Struct(">4sBBxx32s16s"), 8
FRONT, STAMP, OFFER = struct.Struct(">BHQ"), struct.Struct(">qB"), struct.Struct(">BB6qII")
# How many bytes a log without entries has.
EMPTY = 3 + HEAD.size + SUM + 1
# How many entries a frame has at most, how many bytes a chain, and the ranges of entries.
MOST, CHAIN, VIEWERS, LAST, FAR = 977, 16, 64, 10**18, 10**15


class Damaged(ValueError):
    """A file that is no log: which frame isn't the next, counted from the head."""

    def __init__(self, frame):
        super().__init__(f"frame {frame} of the log is damaged" if frame else "the log has no head")


# Writing.


def framed(payload):
    """A frame: its gate, which is open, its length, and its payload."""
    return OPEN + struct.pack(">H", len(payload)) + payload


def head_of(mark, viewers, run):
    front = HEAD.pack(MAGIC, 1, viewers, mark, run)
    return front + hashlib.sha256(front).digest()[:SUM]


def entry_of(each, offer):
    """An entry: an input, and for a pointer the boot and the number of its offer."""
    if not each.point:
        return STAMP.pack(each.time, 0)
    who, down, ray = each.point
    return STAMP.pack(each.time, 1) + OFFER.pack(who, down, *ray, *offer)


def link(chain, entry):
    """The chain after one entry more."""
    return hashlib.sha256(chain + entry).digest()[:CHAIN]


class Writer:
    """Writes the log of inputs as they come. After the last frame of a file stands a shut gate."""

    def __init__(self, inputs):
        self.inputs, self.chain, self.count = inputs, inputs.run, 0

    def frames(self):
        """The frames of the inputs that came since."""
        found = []
        while more := min(len(self.inputs) - self.count, MOST):
            first = self.count + 1
            entries = [entry_of(*self.inputs.offered_at(number)) for number in range(first, first + more)]
            for entry in entries:
                self.chain = link(self.chain, entry)
            found.append(framed(FRONT.pack(0, more, first) + b"".join(entries) + self.chain))
            self.count += more
        return b"".join(found)

    def whole(self, mark):
        """A file of all of them."""
        return framed(head_of(mark, VIEWERS, self.inputs.run)) + self.frames() + SHUT


# Reading.


def payload_at(whole, at):
    """The payload of the frame there; nothing where its gate isn't open, or it isn't whole."""
    size = int.from_bytes(whole[at + 1 : at + 3], "big")
    payload = whole[at + 3 : at + 3 + size]
    return payload if whole[at : at + 1] == OPEN and len(payload) == size else b""


def entry_at(payload, at):
    """The time, the point and the offer of an entry, and where the next one begins. Raises ValueError, struct.error."""
    time, kind = STAMP.unpack_from(payload, at)
    at += STAMP.size
    if kind > 1 or not 1 <= time <= LAST:
        raise ValueError(kind, time)
    if not kind:
        return time, None, None, at
    who, down, *ray, boot, number = OFFER.unpack_from(payload, at)
    if who >= VIEWERS or down > 1 or not (boot and number and any(ray[3:])) or max(map(abs, ray)) > FAR:
        raise ValueError(who, down, ray, boot, number)
    return time, wire.Point(who, down, tuple(ray)), (boot, number), at + OFFER.size


def entries_in(payload, first, chain):
    """The entries of the payload that comes next, and the chain after them. Raises ValueError, struct.error."""
    kind, count, number = FRONT.unpack_from(payload)
    found, at = [], FRONT.size
    for _ in range(count):
        *entry, after = entry_at(payload, at)
        chain, at = link(chain, payload[at:after]), after
        found.append(entry)
    if kind or number != first or payload[at:] != chain:
        raise ValueError(kind, number)
    return found, chain


def is_next(payload, first, chain):
    try:
        return bool(entries_in(payload, first, chain))
    except (ValueError, struct.error):
        return False


def is_log(whole):
    return whole[:1] == OPEN and whole[3:7] == MAGIC


def read_log(whole):
    """The mark of a log's scene, and its inputs: but for what was appended last, where that didn't end. Raises Damaged."""
    head = payload_at(whole, 0)
    if len(head) != HEAD.size + SUM:
        raise Damaged(0)
    _, _, viewers, mark, run = HEAD.unpack_from(head)
    if head != head_of(mark, viewers, run) or not 1 <= viewers <= VIEWERS:
        raise Damaged(0)
    inputs, chain, at, frame = Inputs(run), run, 3 + len(head), 1
    while payload := payload_at(whole, at):
        try:
            found, chain = entries_in(payload, len(inputs) + 1, chain)
        except (ValueError, struct.error):
            raise Damaged(frame) from None
        for entry in found:
            inputs.add(*entry)
        at, frame = at + 3 + len(payload), frame + 1
    check_end(whole[at:], frame, len(inputs) + 1, chain)
    return mark, inputs


def check_end(tail, frame, first, chain):
    """After the frames is a gate, which is shut; and after it no frame that was once part of the log."""
    hidden = payload_at(OPEN + tail[1:], 0)
    once = hidden and tail[3 + len(hidden) :][:1] == OPEN and is_next(hidden, first, chain)
    if not tail or tail[:1] == OPEN or once:
        raise Damaged(frame)

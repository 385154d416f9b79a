"""Places of windows in a room: one's viewer runs here, another's in its window."""
import hashlib
import itertools
import struct
from typing import NamedTuple

from library import wire, x3d

# Of how many numbers a viewer's digests are remembered.
DIGESTS = 64
# Of how many of the last inputs a world that is saved keeps the lines of its trace; page/own.js has the same number,
# since the digest of a world has its trace. A window that lacks more inputs gets the whole scene.
LINES = 300
# The boot in a snapshot and its seal (crates/snapshot_codec/README.md) are no part of a world.
BOOT, SEAL = slice(37, 41), 32
# What an offer begins with, after the head, and all of an ask, by its tag: with a number up to 2^20 + 1, or a long one;
# and the tags of a piece (crates/share_wire/README.md).
OFFER = struct.Struct(">BII")
ASKS = {bytes([wire.ASK]): struct.Struct(">BI"), bytes([10]): struct.Struct(">BQ")}
PIECES = wire.PIECE, 12


def digest_of(snapshot):
    """The digest of the world that a snapshot is of, whoever took it."""
    world = snapshot[: BOOT.start] + snapshot[BOOT.stop : -SEAL]
    return hashlib.sha256(world).hexdigest()[:16]


def forget(world):
    """Forgets the lines of a world's trace that no window gets any more."""
    world.forget_below(max(0, world.applied() + 1 - LINES))


class Joining(NamedTuple):
    """How a viewer joins: the number of a snapshot, its pieces round and round, how many a turn."""

    number: int
    pieces: itertools.cycle
    batch: int


class Place:
    """What all places have. One stays while its viewer is killed and starts again."""

    far = False

    def __init__(self, who):
        self.who, self.digests, self.joins, self.marked = who, {}, None, 0

    def note(self, number, digest):
        """Notes the digest of the viewer's world at a number."""
        self.marked, self.digests[number] = number, digest
        if len(self.digests) > DIGESTS:
            del self.digests[min(self.digests)]

    def status(self):
        """What windows show of the viewer."""
        if not self.runs:
            return {"who": self.who, "runs": False, "far": self.far}
        about = {"who": self.who, "runs": True, "far": self.far, "n": self.applied(), "waiting": self.waiting()}
        return {**about, "at": self.marked, "digest": self.digests.get(self.marked, "")}


class Seat(Place):
    """A place whose viewer runs here."""

    def __init__(self, who, names):
        super().__init__(who)
        self.names, self.viewer, self.saved = names, None, None
        self.begin()

    def begin(self):
        """The viewer has another world: it has sent the window none of it yet (`told`)."""
        self.digests, self.points, self.joins, self.told = {}, [], None, None
        # Whether an input came in this turn before one that is lacking.
        self.lacks = False

    @property
    def runs(self):
        return self.viewer is not None

    def applied(self):
        return self.viewer.applied()

    def waiting(self):
        return self.viewer.waiting()

    def start(self, room):
        """Starts the viewer: in its snapshot, if one was saved, or else at the beginning."""
        viewer = x3d.Viewer(room.text, self.who, next(room.boots))
        if self.saved:
            viewer.rewind(self.saved, next(room.boots))
        self.viewer = viewer
        self.begin()

    def stop(self):
        if self.viewer:
            self.viewer.close()
            self.viewer = None

    def mark(self):
        """Saves the viewer where it stands, without old lines of its trace, and notes its digest; the number and the
        snapshot."""
        forget(self.viewer)
        self.saved = self.viewer.snapshot()
        self.note(self.viewer.applied(), digest_of(self.saved))
        return self.marked, self.saved

    def news(self):
        """What the window has to be told, with its kind: what the last inputs changed, or all."""
        number = self.viewer.applied()
        if number == self.told:
            return None
        first, self.told = self.told, number
        here = [each for each in self.points if each.number <= number]
        self.points = [each for each in self.points if each.number > number]
        told = {"n": number, "points": latest(here)}
        if first is None or number - first > LINES:
            return "scene", {**told, **self.names.scene(self.viewer)}
        return "news", {**told, **self.names.news(self.viewer, first)}


class Far(Place):
    """A place whose viewer its window holds. `send` sends the window a datagram, `tell` an event with its kind; `takes`
    is asked whether one more offer may be numbered."""

    far, viewer = True, None

    def __init__(self, who, send, tell, takes):
        super().__init__(who)
        self.send, self.tell, self.takes = send, tell, takes
        self.runs, self.number, self.told_waiting = False, 0, 0
        # The boot that the viewer was given last; the boot and the number of its last offer that was numbered; its ask
        # for what isn't numbered yet.
        self.boot, self.offered, self.waits = 0, (0, 0), None

    def applied(self):
        return self.number

    def waiting(self):
        return self.told_waiting

    def start(self, room):
        """Has the window start its viewer: in the snapshot that it saved in this life of the room, if it has one, or
        else at the beginning."""
        self.runs, self.digests, self.joins, self.number, self.waits = True, {}, None, 0, None
        text = room.text.decode()
        self.tell("start", {"who": self.who, "boot": self.give_boot(room), "life": room.life, "text": text})

    def give_boot(self, room):
        """A boot above all that the viewer had."""
        self.boot = next(room.boots)
        return self.boot

    def stop(self):
        if self.runs:
            self.runs, self.joins = False, None
            self.tell("stop", {})

    def stand(self, number, digest, waiting):
        """The window says at which number its world has which digest, and how many offers wait."""
        self.told_waiting = waiting
        if digest and number not in self.digests:
            self.note(number, digest)

    def speaks(self, datagram):
        """Whether a datagram is an ask or an offer of this viewer, in a boot that it was given."""
        kind, body = datagram[5:6], datagram[wire.HEAD.size :]
        if kind in ASKS:
            return len(body) == ASKS[kind].size and body[0] == self.who
        if kind != bytes([wire.OFFER]) or len(body) < OFFER.size:
            return False
        who, boot, _ = OFFER.unpack_from(body)
        return who == self.who and boot <= self.boot

    def admits(self, datagram):
        """Whether the host may have a datagram now: an offer that it would number has to keep the pace."""
        if datagram[5] != wire.OFFER:
            return True
        _, boot, offer = OFFER.unpack_from(datagram, wire.HEAD.size)
        last_boot, last = self.offered
        # Others are repeats, or come before one that is lacking.
        if (boot, offer) != (last_boot, last + 1) and not (boot > last_boot and offer == 1):
            return True
        if not self.takes():
            return False
        self.offered = boot, offer
        return True


def input_in(datagram):
    """The input of a datagram that is one."""
    told = x3d.datagram(datagram)
    point = told.aim and wire.Point(told.who, int(told.down), (*told.aim.origin, *told.aim.direction))
    return wire.Input(told.number, told.time, point)


def latest(inputs):
    """The last pointer of each viewer in inputs."""
    return [*{each.point.who: each.point for each in sorted(inputs)}.values()]

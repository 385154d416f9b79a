"""A world."""

from typing import NamedTuple, Union

from ._library import RawSaved, RawWork
from ._part import Part
from ._reading import Aim, Readable, fits, raw_aim, signed


class Work(NamedTuple):
    """What an input gave rise to: how many outputs sent, routes were followed and scripts settled."""

    sends: int
    deliveries: int
    settles: int


class Saved(NamedTuple):
    """Of which boot a snapshot was, and how many inputs its world had applied."""

    boot: int
    applied: int


class World(Readable):
    """The world of a scene's text in the Classic encoding, before any input. Refused text raises
    Refusal."""

    _KIND = "world"

    def __init__(self, text: Union[bytes, str]) -> None:
        super().__init__()
        self._open(text.encode() if isinstance(text, str) else bytes(text))

    @classmethod
    def of_part(cls, part: Part) -> "World":
        """The world of a part, before any input."""
        world = cls.__new__(cls)
        Readable.__init__(world)
        world._opened("open_part", part._handle)
        return world

    def clock(self, number: int, time: int) -> Work:
        """Applies a clock: number 1 to 2^48 - 1, time 1 to 10^18 microseconds, above that of the last
        input."""
        work = RawWork()
        self._call("clock", fits(number, 64), signed(time), work)
        return Work(work.sends, work.deliveries, work.settles)

    def point(self, number: int, time: int, viewer: int, down: bool, aim: Aim) -> Work:
        """Applies the pointer of a viewer, 0 to 63, whose button is down or not."""
        work = RawWork()
        self._call("point", fits(number, 64), signed(time), fits(viewer, 8), down, raw_aim(aim), work)
        return Work(work.sends, work.deliveries, work.settles)

    def snapshot(self, boot: int) -> bytes:
        """The snapshot of the world, taken as a boot."""
        self._call("make_snapshot", fits(boot, 32))
        return self._bytes()

    def load(self, boot: int, snapshot: bytes) -> Saved:
        """Puts the world of a snapshot in place of what there was, a spoiled one too: a snapshot of
        this scene, of a boot below `boot`."""
        saved = RawSaved()
        self._call("load", fits(boot, 32), snapshot, len(snapshot), saved)
        return Saved(saved.boot, saved.applied)

    def __enter__(self) -> "World":
        return self

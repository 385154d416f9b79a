"""The nodes of a shared world: the host that numbers inputs, and viewers that apply them."""

import ctypes
from typing import Any, List, NamedTuple, Optional, Union

from ._faults import Fault
from ._library import RawDatagram, RawReply, RawTaken, read_datagram
from ._reading import Aim, Held, Readable, fits, raw_aim, signed

_NO_PACKET = 25
_PACKET = 256
_REPLIES = ("Asked", "Numbered", "Repeat", "Ahead", "OldBoot", "Below", "NothingToDo")
_TAKEN = ("Old", "Beyond", "Kept", "Applied", "Noted", "Behind")
_ANSWERS = ("Stored", "Taken", "InDoubt")
_ROOM = 12
_GATHERED = ("New", "Again", "Whole", "Other")


_TAGS = ("", "Input", "Offer", "Ask", "Ack", "Floor", "Piece")
_NO_VIEWER = 255


class Datagram(NamedTuple):
    """What a datagram says, by its `kind`:

    - `Input`, of the host: its number and its time; with a pointer also who pointed, and `aim`;
    - `Offer`, of viewer `who`: its number in its boot, and `aim`;
    - `Ask`, of viewer `who`: the number of the first input that it lacks;
    - `Ack`, of the host: the number of offers of viewer `who` in that boot that are numbered;
    - `Floor`, of the host; `Piece`, of a viewer: the boot of the snapshot, and the number of inputs
      that its world has had."""

    kind: str
    who: Optional[int]
    boot: int
    number: int
    time: int
    down: bool
    aim: Optional[Aim]


def datagram(packet: bytes) -> Datagram:
    """What a datagram says; the scene's mark is not looked at. Faults: `BadPacket`, `BadVersion`,
    `BadTag`, `BadRange`, `ZeroRay`."""
    told = RawDatagram()
    if status := read_datagram(packet, told):
        raise Fault(status)
    sides = [getattr(told.aim, name) for name, _ in told.aim._fields_]
    aim = Aim((sides[0], sides[1], sides[2]), (sides[3], sides[4], sides[5])) if told.point else None
    who = None if told.who == _NO_VIEWER else told.who
    return Datagram(_TAGS[told.tag], who, told.boot, told.number, told.time, told.point == 2, aim)


class Reply(NamedTuple):
    """What a host made of a datagram, by its `kind`:

    - `Asked`: `count` inputs were asked for, from `number` on (`Host.packets` has them);
    - `Numbered`: the offer is the input `number`;
    - `Repeat`, `Ahead`, `OldBoot`: the offer has been numbered before; one before it has not come
      yet; it is of a boot that is over;
    - `Below`: inputs were asked for that the host has no more; it has those from `number` on;
    - `NothingToDo`."""

    kind: str
    number: int
    count: int


class Taken(NamedTuple):
    """What a viewer made of a datagram, by its `kind`:

    - `Applied`: `count` inputs were applied;
    - `Kept`: the input is kept until those before it have come;
    - `Old`, `Beyond`: the input has been applied before; it is more than 64 ahead;
    - `Noted`: what the host tells of offers, or of its floor, was noted;
    - `Behind`: the host has the next input no more: only a snapshot helps (`Viewer.gather` and
      `Viewer.join`)."""

    kind: str
    count: int


class Append(NamedTuple):
    """What a host that was resumed wants stored: bytes for its log's end, and the token by which
    `Host.stored` is told of it. Without bytes nothing waits."""

    token: int
    bytes: bytes


class _Node(Held):
    """What sends datagrams."""

    def __init__(self) -> None:
        super().__init__()
        self._sent = ctypes.create_string_buffer(_PACKET)

    def _packet(self, name: str, *passed: Any) -> Optional[bytes]:
        """A datagram, if there is one: at most 256 bytes."""
        status = self._status(name, *passed, self._sent, _PACKET, self._wanted)
        if status == _NO_PACKET:
            return None
        self._good(status)
        return ctypes.string_at(self._sent, self._wanted.value)

    def _sure(self, name: str, *passed: Any) -> bytes:
        """A datagram that there always is."""
        packet = self._packet(name, *passed)
        assert packet is not None
        return packet


class Host(_Node):
    """The host of a scene, for viewers that are numbered from 0, 1 to 64 of them: it numbers what
    happens, and hands it out.

    Of the scene it keeps the SHA-256 of its text alone, so that it takes datagrams of no other; it
    does not look at it. Its life is: `take` each datagram that comes, send back `packets(reply)`
    and, for who offered or asked, `ack(who)`; and number a `clock` as often as the world should
    move on. Another number of viewers raises Fault `Range`."""

    _KIND = "host"

    def __init__(self, scene: Union[bytes, str], viewers: int) -> None:
        super().__init__()
        self._reply = RawReply()
        text = scene.encode() if isinstance(scene, str) else bytes(scene)
        self._call("open", text, len(text), fits(viewers, 8))

    @classmethod
    def resume(cls, scene: Union[bytes, str], viewers: int, log: bytes = b"") -> "Host":
        """The host of a scene that the bytes of its log make: all of them, and none at first. What
        it numbers then waits until it is stored (`append`), and only after that it shows it.

        Faults: `Range` (another number of viewers), `WrongScene`; `LogGap` and `NotALog`, with the
        number of the first wrong entry; `Memory`."""
        host = cls.__new__(cls)
        _Node.__init__(host)
        host._reply, entry = RawReply(), ctypes.c_uint64()
        text = scene.encode() if isinstance(scene, str) else bytes(scene)
        status = host._status("resume", text, len(text), fits(viewers, 8), log, len(log), entry)
        if status:
            raise Fault(status, entry.value)
        return host

    def append(self) -> Append:
        """The append that is under way, or else a new one of all entries that wait. Store its bytes
        at the log's end, durably, and then call `stored`. Faults: `NotLasting` (the host was not
        resumed), `Memory`."""
        token, room = ctypes.c_uint32(), 4096
        while True:
            out = ctypes.create_string_buffer(room)
            status = self._status("pending", token, out, room, self._wanted)
            if status != _ROOM:
                self._good(status)
                return Append(token.value, ctypes.string_at(out, self._wanted.value))
            room = self._wanted.value

    def stored(self, token: int, answer: str = "Stored") -> None:
        """Says what the log answered to the append with this token: `Stored`, for good, and the
        host shows its inputs from now on; or `Taken` (the log has other entries there) or `InDoubt`:
        the host is then closed. Read the log, and resume. Faults: `NotLasting`, `NotAwaited`."""
        if answer not in _ANSWERS:
            raise Fault(11)
        self._call("stored", fits(token, 32), _ANSWERS.index(answer))

    def time(self) -> int:
        """The time of the last input that is numbered, in microseconds, or 0 before the first."""
        time = ctypes.c_int64()
        self._call("time", time)
        return time.value

    def clock(self, time: int) -> int:
        """Numbers a clock at a time of 1 to 10^18 microseconds, above that of the last input, and
        tells its number.

        Faults: `WorldFull` (2^48 - 1 inputs are numbered), `TimeNotLater`, `TimeRange`, `Memory`;
        nothing has then changed."""
        return self._input("clock", signed(time))

    def take(self, datagram: bytes) -> Reply:
        """Takes a datagram of a viewer: an offer is numbered 1 microsecond after the last input.

        Faults: `BadPacket`, `BadVersion`, `BadTag`, `BadRange`, `ZeroRay` (these bytes are no
        datagram), `WrongScene`, `BadViewer`, and for an offer those of `clock`; nothing has then
        changed."""
        reply = self._reply
        self._call("take", datagram, len(datagram), reply)
        return Reply(_REPLIES[reply.kind], reply.number, reply.count)

    def take_from(self, who: int, datagram: bytes) -> Reply:
        """Takes a datagram that came from viewer `who`, like `take`. An offer or an ask of another
        viewer raises Fault `BadViewer`, and nothing changes."""
        reply = self._reply
        self._call("take_from", fits(who, 8), datagram, len(datagram), reply)
        return Reply(_REPLIES[reply.kind], reply.number, reply.count)

    def heard(self, who: int) -> Optional[int]:
        """The highest number that viewer `who` has asked from: it has all inputs below. None if it
        has not asked. A viewer that there isn't: Fault `Range`."""
        return self._input("heard", fits(who, 8)) or None

    def keep(self, count: int) -> None:
        """Drops the inputs that every viewer that asked has, but for the last `count` of them."""
        self._call("keep", fits(count, 64))

    def packet(self, number: int) -> Optional[bytes]:
        """The datagram of the input of this number, if it is numbered and not below the floor."""
        return self._packet("packet", fits(number, 64))

    def packets(self, reply: Reply) -> List[bytes]:
        """What belongs to a reply: the inputs that were asked for, at most 64, or the floor where
        they are below it."""
        if reply.kind == "Below":
            return [self.floor_packet()]
        if reply.kind != "Asked":
            return []
        found = (self.packet(number) for number in range(reply.number, reply.number + reply.count))
        return [packet for packet in found if packet is not None]

    def ack(self, who: int) -> bytes:
        """The datagram that tells a viewer how many of its offers are numbered. A viewer that there
        isn't: Fault `Range`."""
        return self._sure("ack", fits(who, 8))

    def floor(self) -> int:
        """The number from which on there are datagrams of inputs: 1 at first."""
        return self._input("floor")

    def floor_packet(self) -> bytes:
        """The datagram that tells the floor."""
        return self._sure("floor_packet")

    def drop_below(self, number: int) -> None:
        """Drops the inputs below this number: their memory is used again or freed.

        Faults: `FloorBack` (below the floor), `FloorAhead` (above the number of the next input)."""
        self._call("drop_below", fits(number, 64))

    def viewers(self) -> int:
        """How many viewers there are."""
        return self._number("viewers")

    def __len__(self) -> int:
        """How many inputs are numbered: at most 2^48 - 1."""
        return self._input("count")

    def __bool__(self) -> bool:
        return True

    def __enter__(self) -> "Host":
        return self


class Viewer(_Node, Readable):
    """A viewer of a scene, as boot `boot` (1 to 2^32 - 1) of viewer `who` (0 to 63): it holds the
    world, offers what it points at, and applies the host's inputs in turn. All that is read of a
    World is read of it: `changes`, `value`, `meet`, ..

    Its life is: `offer` what is pointed at; send `resend()` and `ask()` to the host again and
    again, as datagrams may be lost; `take` each datagram that comes. A text that is refused raises
    Refusal, numbers out of range Fault `Range`. Where memory was refused at an input the viewer is
    spoiled: `take`, `offer`, `snapshot` and what is read of its world raise Fault `Spoiled`, and
    `rewind` or `join` brings it back."""

    _KIND = "viewer"

    def __init__(self, scene: Union[bytes, str], who: int, boot: int) -> None:
        super().__init__()
        self._taken = RawTaken()
        self._open(scene.encode() if isinstance(scene, str) else bytes(scene), fits(who, 8), fits(boot, 32))

    def boot(self) -> int:
        """Its boot."""
        return self._number("boot")

    def take(self, datagram: bytes) -> Taken:
        """Takes a datagram of the host.

        Faults: `Spoiled`; `BadPacket`, `BadVersion`, `BadTag`, `BadRange`, `ZeroRay` (these bytes
        are no datagram); `WrongScene`; `NotForMe`: nothing has then changed. `TimeNotLater`: that
        input is dropped. `Memory`: the viewer is spoiled."""
        taken = self._taken
        self._call("take", datagram, len(datagram), taken)
        return Taken(_TAKEN[taken.kind], taken.count)

    def offer(self, down: bool, aim: Aim) -> int:
        """Offers a point, with the button down or not, and tells the offer's number in this boot,
        from 1. It waits, for `resend`, until the host numbered it.

        Faults: `Spoiled`, `ZeroRay`, `PointRange` (a coordinate of a size above 10^15 millionths),
        `OfferFull` (64 wait), `OffersSpent`."""
        return self._number("offer", down, raw_aim(aim))

    def waiting(self) -> int:
        """How many offers wait: at most 64."""
        return self._number("waiting")

    def resend(self) -> List[bytes]:
        """The datagrams of all offers that wait, in order."""
        found = (self._packet("resend", place) for place in range(self.waiting()))
        return [packet for packet in found if packet is not None]

    def ask(self) -> bytes:
        """The datagram that asks for the inputs from the first that the viewer lacks, at most 64 of
        them."""
        return self._sure("ask")

    def snapshot(self) -> bytes:
        """The snapshot of its world, as its boot. Faults: `Spoiled`, `Memory`."""
        self._call("make_snapshot")
        return self._bytes()

    def rewind(self, snapshot: bytes, boot: int) -> int:
        """Begins again in the world of a snapshot, as another boot, above its own and the
        snapshot's, and tells how many inputs that world has had. No offer waits then, and offers
        are numbered from 1.

        Faults: `BootNotNew` (not above its own); then as `World.load`; nothing has then changed,
        but `Memory` spoils it."""
        return self._input("rewind", fits(boot, 32), snapshot, len(snapshot))

    def pieces(self, snapshot: Optional[bytes] = None) -> List[bytes]:
        """The datagrams of a snapshot, or else of its own as it is now, for another viewer that is
        `Behind`; none where the bytes do not begin as a snapshot. Fault `TooLarge` for more than
        2^26 bytes."""
        whole = self.snapshot() if snapshot is None else bytes(snapshot)
        count = self._number("piece_count", whole, len(whole))
        found = (self._packet("piece", whole, len(whole), index) for index in range(count))
        return [packet for packet in found if packet is not None]

    def gather(self, datagram: bytes) -> str:
        """Gathers a piece of a snapshot: `New`, `Again` (it has come before), `Whole` (none is
        missing: `join`), or `Other` (it is of another snapshot than the one that was begun:
        `forget` lets that go).

        Faults: those of a datagram, `WrongScene`, `NotPiece`, `Memory`; nothing has then
        changed."""
        return _GATHERED[self._number("gather", datagram, len(datagram))]

    def join(self, boot: int) -> int:
        """Begins again in the snapshot that was gathered, as `rewind` does. Faults: `NotWhole`,
        then as `rewind`; what was gathered is then kept."""
        return self._input("join", fits(boot, 32))

    def forget(self) -> None:
        """Lets go what was gathered."""
        self._call("forget")

    def __enter__(self) -> "Viewer":
        return self

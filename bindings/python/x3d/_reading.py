"""What a library's object holds, and what is read of a world."""

import ctypes
from typing import Any, Callable, Dict, Iterator, List, NamedTuple, Optional, Tuple

from ._faults import Fault, Refusal
from ._library import Handle, RawAim, RawChange, RawField, RawMet, calls_of, text_instance

DONE = 0
_MEMORY = 5
_NO_SUCH_NODE = 23


class Aim(NamedTuple):
    """What a viewer points with, in millionths of a unit."""

    origin: Tuple[int, int, int]
    direction: Tuple[int, int, int]


class Meeting(NamedTuple):
    """What a ray would hit: where it enters, at n / m of the way along its direction, and the
    sensors that this concerns."""

    entry: Tuple[int, int]
    sensors: List[int]


_TYPES = (
    "SFBool SFInt32 SFFloat SFTime SFString SFVec2f SFVec3f SFColor SFNode "
    "MFBool MFInt32 MFFloat MFTime MFString MFVec2f MFVec3f MFColor MFNode SFRotation"
).split()


_ACCESSES = ("inputOnly", "outputOnly", "inputOutput", "initializeOnly")
_KINDS = ("counter", "gate", "adder", "batch", "mover", "meter")


class FieldType(NamedTuple):
    """The type of a field's values, as `SFVec3f`, and its access, as `inputOutput`. A field that is
    `inputOnly` or `outputOnly` holds no value."""

    type: str
    access: str


class Script(NamedTuple):
    """The node of a script that runs, and its kind, as `counter`."""

    node: int
    kind: str


class Route(NamedTuple):
    """A route: the node and the field that send, and those that take."""

    source: Tuple[int, int]
    target: Tuple[int, int]


class Changed(NamedTuple):
    """A field that was set, with the type and the numbers of its current value; a string has no
    numbers."""

    node: int
    field: int
    type: str
    numbers: List[int]


class Change(NamedTuple):
    """An event that was sent: which value a node's field sent, at which input, at which time in
    microseconds. The field may have been set again after that: read its value to draw it."""

    input: int
    time: int
    node: int
    field: int
    value: str


def fits(number: int, bits: int) -> int:
    """The number, which ctypes would take modulo 2^bits."""
    if not 0 <= number < 1 << bits:
        raise Fault(11)
    return number


def signed(number: int) -> int:
    """The same of 64 bits with a sign."""
    if not -(1 << 63) <= number < 1 << 63:
        raise Fault(11)
    return number


def raw_aim(aim: Aim) -> RawAim:
    return RawAim(*map(signed, (*aim.origin, *aim.direction)))


def _lines(text: str) -> Iterator[str]:
    """The lines, which end at a line feed that stands in no string."""
    start, quoted, escaped = 0, False, False
    for place, letter in enumerate(text):
        if escaped:
            escaped = False
        elif letter == "\\" and quoted:
            escaped = True
        elif letter == '"':
            quoted = not quoted
        elif letter == "\n" and not quoted:
            yield text[start:place]
            start = place + 1


def _microseconds(text: str) -> int:
    whole, _, part = text.partition(".")
    return int(whole) * 1_000_000 + int(part.ljust(6, "0") or "0")


def _change(line: str) -> Change:
    number, time, node, field, value = line.split(" ", 4)
    return Change(int(number), _microseconds(time), int(node), int(field), value)


def _type(number: int) -> str:
    return _TYPES[number] if number < len(_TYPES) else f"Type{number}"


class Held:
    """What a handle holds. It is closed by `close`, at the end of a `with`, or when it is no longer
    used; each call after that raises Fault `Closed`. It is not for two threads at once: ctypes lets
    other threads run during all but the shortest calls."""

    _KIND = ""
    _CALLS: Dict[str, Callable[..., Any]] = {}

    def __init_subclass__(cls) -> None:
        cls._CALLS = calls_of(cls._KIND)

    def __init__(self) -> None:
        self._handle = Handle()
        # What calls tell is written here: a place for each call anew takes longer than most calls.
        self._told, self._long = ctypes.c_uint32(), ctypes.c_uint64()
        self._wanted = ctypes.c_size_t()

    def _open(self, text: bytes, *numbers: int) -> None:
        """Opens what a scene's text and numbers give, or raises the refusal."""
        self._opened("open", text, len(text), *numbers, text=text)

    def _opened(self, name: str, *passed: Any, text: bytes = b"") -> None:
        """Opens what was passed, or raises the refusal, with the instance of the text that was."""
        line, wanted = ctypes.create_string_buffer(64), ctypes.c_size_t()
        status = self._status(name, *passed, line, 64, wanted)
        if status == _MEMORY:
            raise MemoryError
        if status == 1:
            raise Refusal(line.raw[: wanted.value].decode(), text_instance(text))
        self._good(status)

    def _status(self, name: str, *passed: Any) -> int:
        return int(self._CALLS[name](self._handle, *passed))

    def _good(self, status: int) -> None:
        if status != DONE:
            raise Fault(status)

    def _call(self, name: str, *passed: Any) -> None:
        if status := self._CALLS[name](self._handle, *passed):
            raise Fault(status)

    def _number(self, name: str, *passed: Any) -> int:
        """What a call that tells one number of 32 bits tells."""
        self._call(name, *passed, self._told)
        return self._told.value

    def _input(self, name: str, *passed: Any) -> int:
        """What a call that tells the number of an input tells, or how many inputs there are."""
        self._call(name, *passed, self._long)
        return self._long.value

    def _copied(self, name: str) -> bytes:
        """The bytes that a call copies."""
        self._status(name, ctypes.create_string_buffer(1), 0, self._wanted)
        size = self._wanted.value
        out = ctypes.create_string_buffer(size + 1)
        self._call(name, out, size, self._wanted)
        return out.raw[:size]

    def _numbers(self) -> List[int]:
        """The numbers that were listed last."""
        self._status("copy_numbers", (ctypes.c_int64 * 1)(), 0, self._wanted)
        size = self._wanted.value
        out = (ctypes.c_int64 * (size + 1))()
        self._call("copy_numbers", out, size, self._wanted)
        return list(out[:size])

    def close(self) -> None:
        """Frees it. Closing twice is allowed."""
        self._CALLS["close"](self._handle)

    def __exit__(self, *_: object) -> None:
        self.close()

    def __del__(self) -> None:
        if hasattr(self, "_handle"):
            self.close()


class Readable(Held):
    """What is read of a world, of a World and of a Viewer alike. Where memory was refused at an
    input all of it raises Fault `Spoiled`, but what a scene says by itself."""

    keep_lines = False
    """Whether lines stay that were read. If not, `trace`, `changes` and `changed` forget the lines
    below the number they read from, since a program that reads on has read those: so its memory
    doesn't grow. Set it to keep the whole trace."""

    def _bytes(self) -> bytes:
        """The bytes that were made last."""
        return self._copied("copy_text")

    def _text(self, name: str, *passed: Any) -> str:
        self._call(name, *passed)
        return self._bytes().decode()

    def applied(self) -> int:
        """How many inputs were applied: the next one has the number behind it."""
        return self._input("applied")

    def meet(self, aim: Aim) -> Optional[Meeting]:
        """What a ray would hit; the world stays as it is."""
        met = RawMet()
        self._call("meet", raw_aim(aim), met)
        return Meeting((met.n, met.m), self._numbers()) if met.m else None

    def trace(self, first: int = 0) -> str:
        """The lines of the trace that are of inputs from a number on; from 0 on it is the whole
        trace. Then forgets the lines below that number (see `keep_lines`)."""
        text = self._text("make_trace", fits(first, 64))
        self._forget_read(first)
        return text

    def changes(self, first: int = 0) -> List[Change]:
        """The lines that `trace` gives, by the numbers of nodes and fields. Then forgets those below
        that number, like `trace`."""
        text = self._text("make_changes", fits(first, 64))
        self._forget_read(first)
        return [_change(line) for line in _lines(text)]

    def changed(self, since: int = 0) -> List[Changed]:
        """The fields that inputs after number `since` set, each once, with their current values.
        `since` is 0, or what `applied` was when the world was drawn last. A field that only sends
        holds no value and is left out. Then forgets the lines of inputs up to `since` (see
        `keep_lines`)."""
        self._call("list_changed", fits(since, 64))
        self._status("copy_changed", (RawChange * 1)(), 0, self._wanted)
        size = self._wanted.value
        out = (RawChange * (size + 1))()
        self._call("copy_changed", out, size, self._wanted)
        numbers = self._numbers()
        self._forget_read(since + 1)
        return [
            Changed(one.node, one.field, _type(one.value_type), numbers[one.first : one.first + one.count])
            for one in out[:size]
        ]

    def _forget_read(self, first: int) -> None:
        """Forgets the lines below a number that was read from, unless they are kept."""
        if not self.keep_lines:
            self._call("forget_below", min(first, self.applied() + 1))

    def forget_below(self, below: int) -> None:
        """Forgets the lines of the trace that are of inputs below a number, which is at most that of
        the next input: `trace`, `changes` and `changed` tell only of those that are left, and so does
        a snapshot. Nothing else changes. Faults: `Spoiled`, `Range`."""
        self._call("forget_below", fits(below, 64))

    def scene(self) -> str:
        """The text of the scene as it is now."""
        return self._text("make_scene")

    def node_count(self) -> int:
        """How many nodes the scene has, which are numbered from 0."""
        count = ctypes.c_size_t()
        self._call("node_count", count)
        return count.value

    def roots(self) -> List[int]:
        """The roots of the scene."""
        self._call("list_roots")
        return self._numbers()

    def children(self, node: int) -> List[int]:
        """The nodes in the field `children` of a node; none where it has no such field."""
        self._call("list_children", fits(node, 32))
        return self._numbers()

    def node_type(self, node: int) -> str:
        """The word for a node's type, as `Transform`."""
        return self._text("make_type", fits(node, 32))

    def label(self, node: int) -> str:
        """The name of a node that no other node has: its DEF name, where it is alone, or else `N`
        and its number."""
        return self._text("make_label", fits(node, 32))

    def field_count(self, node: int) -> int:
        """How many fields a node has, which are numbered from 0; 0 where there is no such node."""
        return self._number("field_count", fits(node, 32))

    def field_name(self, node: int, field: int) -> str:
        """The name of a field of a node, as `translation`."""
        return self._text("make_field_name", fits(node, 32), fits(field, 16))

    def field_named(self, node: int, name: str) -> int:
        """The number of the field of that name of a node: of its type, or one that a Script
        declares."""
        text, field = name.encode(errors="surrogatepass"), ctypes.c_uint16()
        self._call("field_named", fits(node, 32), text, len(text), field)
        return field.value

    def field_type(self, node: int, field: int) -> FieldType:
        """The type and the access of a field of a node."""
        told = RawField()
        self._call("field_type", fits(node, 32), fits(field, 16), told)
        return FieldType(_type(told.value_type), _ACCESSES[told.access])

    def node_named(self, name: str) -> Optional[int]:
        """The number of the node with this DEF name, if one node alone has it."""
        text = name.encode(errors="surrogatepass")
        status = self._status("node_named", text, len(text), self._told)
        if status == _NO_SUCH_NODE:
            return None
        self._good(status)
        return self._told.value

    def time(self) -> int:
        """The time of the last input in microseconds, or 0 before the first."""
        time = ctypes.c_int64()
        self._call("time", time)
        return time.value

    def routes(self) -> List[Route]:
        """The routes of the scene, in the order of the text; one that the text repeats is listed
        once."""
        self._call("list_routes")
        numbers = self._numbers()
        fours = zip(numbers[::4], numbers[1::4], numbers[2::4], numbers[3::4])
        return [Route((node, field), (to, to_field)) for node, field, to, to_field in fours]

    def scripts(self) -> List[Script]:
        """The scripts that the scene runs; their places in this list are their numbers."""
        self._call("list_scripts")
        numbers = self._numbers()
        return [Script(node, _KINDS[kind]) for node, kind in zip(numbers[::2], numbers[1::2])]

    def replace_script(self, script: int, kind: str) -> None:
        """Puts a new box of a kind, as `counter`, in the place of a script, which goes on in its
        state. Faults: `Range`, `NoSuchScript`, `KindDiffers`, `Memory`."""
        if kind not in _KINDS:
            raise Fault(11)
        self._call("replace_script", fits(script, 64), _KINDS.index(kind))

    def value(self, node: int, field: int) -> str:
        """The text of the value that a field has now, as `0 1.5 0`; nodes have none."""
        return self._text("make_value", fits(node, 32), fits(field, 16))

    def numbers(self, node: int, field: int) -> List[int]:
        """The numbers of that value: truths as 1 and 0, integers, millionths and microseconds as
        they are, vectors and colors part by part, nodes as their numbers; a text has none."""
        self._call("list_value", fits(node, 32), fits(field, 16))
        return self._numbers()

"""The part of a text that the core can run."""

from typing import List, NamedTuple, Union

from ._reading import Held

_KINDS = (
    "Node Grouped Field Turned Use Route Proto Refused ExternProto Import Export Unit Declaration"
).split()


class LeftOut(NamedTuple):
    """What was left out of a text: its line, what it is, and the words on it, such as
    `node Teapot left out (field geometry)`. The kinds are `Node`, `Grouped` (a node that became a
    group), `Field`, `Turned` (a rotation that turns), `Use`, `Route`, `Proto`, `Refused` (by a
    fault of its line), `ExternProto`, `Import`, `Export`, `Unit` and `Declaration`."""

    line: int
    kind: str
    words: str


class Part(Held):
    """The part of a text in the Classic encoding that the core can run: without the nodes, fields
    and statements that it doesn't know. `World.of_part` opens its world; of its `text` open Hosts
    and Viewers. Text that has no part raises Refusal."""

    _KIND = "part"

    def __init__(self, text: Union[bytes, str]) -> None:
        super().__init__()
        self._open(text.encode() if isinstance(text, str) else bytes(text))

    @property
    def text(self) -> bytes:
        """The text of the part."""
        return self._copied("copy_text")

    @property
    def notes(self) -> str:
        """A line for each thing that was left out, and a last line of counts, as
        `x3d_share part` prints them."""
        return self._copied("copy_notes").decode(errors="replace")

    def left_out(self) -> List[LeftOut]:
        """What was left out, in the order of those lines."""
        numbers = self._numbers()
        words = [line.partition(": ")[2] for line in self.notes.split("\n")]
        pairs = zip(numbers[::2], numbers[1::2])
        return [
            LeftOut(line, _KINDS[kind] if kind < len(_KINDS) else f"Left{kind}", words[place])
            for place, (line, kind) in enumerate(pairs)
        ]

    def __enter__(self) -> "Part":
        return self

"""The part of a scene that the core can run, and what was left out of the scene for it."""
import re
from typing import NamedTuple

from library import x3d

NOTE = re.compile(r"line (\d+): (.*)")


class Part(NamedTuple):
    """A text that the core runs; lines of the scene, with what was left out there; and how much that was, in words."""

    text: bytes
    left: tuple = ()
    count: str = ""


def part_of(text):
    """The part of a text. Raises x3d.Refusal for a text that has none."""
    with x3d.Part(text) as part:
        *lines, count = part.notes.strip("\n").split("\n")
        left = tuple((int(found[1]), found[2]) for found in map(NOTE.fullmatch, lines) if found)
        return Part(part.text, left, count)

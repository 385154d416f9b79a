"""Why a call is refused."""

from typing import Dict, Optional

from ._library import status_text


class Refusal(Exception):
    """Why a scene's text is no world. Its `line` is the one that the program prints, such as
    `refused UnknownNode line 3`. `instance` is the line of the instance whose braces hold the
    refused value, or None; the message has both."""

    def __init__(self, line: str, instance: int = 0) -> None:
        self.line = line
        self.instance: Optional[int] = instance or None
        super().__init__(f"{line}, in the instance on line {instance}" if instance else line)


class Fault(Exception):
    """Why a call on a world is refused: its `name` and its `status`. A status of a later library
    that this module has no name for is named `Status` and its number. `entry` is the number of the
    first wrong entry of a log (`Host.resume`), or None; `frame` that of its damaged frame
    (`Log`), or None.

    Nothing has then changed, but that after `Memory` at an input, or while a snapshot is loaded,
    the world is spoiled: only a snapshot brings one back."""

    NAMES: Dict[int, str] = {
        5: "Memory",
        10: "Closed",
        11: "Range",
        13: "Misuse",
        20: "Spoiled",
        21: "NotNext",
        22: "TimeNotLater",
        23: "NoSuchNode",
        24: "NoSuchField",
        25: "NoPacket",
        26: "NoSuchScript",
        27: "KindDiffers",
        28: "NoValue",
        30: "Short",
        31: "BadMagic",
        32: "BadVersion",
        33: "WrongScene",
        34: "BadDigest",
        35: "NotCanonical",
        36: "BootNotNew",
        37: "ScriptState",
        40: "BadPacket",
        41: "BadTag",
        42: "BadRange",
        43: "ZeroRay",
        44: "BadViewer",
        45: "WorldFull",
        46: "TimeRange",
        47: "FloorBack",
        48: "FloorAhead",
        50: "NotForMe",
        51: "PointRange",
        52: "OfferFull",
        53: "OffersSpent",
        54: "NotPiece",
        55: "NotWhole",
        56: "TooLarge",
        60: "NotALog",
        61: "LogGap",
        62: "NotLasting",
        63: "NotAwaited",
        70: "NoLog",
        71: "LogBusy",
        72: "Device",
        73: "NotEmpty",
        74: "BadHead",
        75: "WrongSeats",
        76: "LogDamaged",
        77: "NotEntries",
        78: "LogFull",
        79: "InDoubt",
        80: "HasBase",
    }

    def __init__(self, status: int, entry: int = 0, frame: Optional[int] = None) -> None:
        self.status = status
        self.name = self.NAMES.get(status, f"Status{status}")
        self.entry: Optional[int] = entry or None
        self.frame = frame
        place = f", entry {entry}" if entry else f", frame {frame}" if frame is not None else ""
        super().__init__(self.name + place)

    @property
    def text(self) -> str:
        """What the status means, in a few words of the library."""
        return status_text(self.status)

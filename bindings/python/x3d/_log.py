"""The log of a host in a file."""

import ctypes
import os
from typing import Union

from ._faults import Fault
from ._reading import Held, fits

_ROOM = 12
_DAMAGED = 76
Path = Union[str, bytes, "os.PathLike[str]", "os.PathLike[bytes]"]


class Log(Held):
    """The log of a host in a file, which this process has locked until the log is closed: the file
    of the program's `host --log`. `Host.append` makes the bytes that it stores, and `Host.resume`
    takes those that it has:

        log = Log(path, scene)  # or Log.make(path, scene, viewers)
        host = Host.resume(scene, log.viewers(), log.read())
        host.clock(10_000_000)
        append = host.append()
        log.append(append.bytes)  # it is on the disk
        host.stored(append.token)  # and is shown

    Faults of opening, in this order: `NoLog`, `LogBusy`, `BadHead`, `WrongScene`, `WrongSeats` (of
    another number of viewers, if one is given), `LogDamaged` with the frame's number, `HasBase`
    (its first entries are not in the file), `LogFull`; and `Device` and `Memory` at any time."""

    _KIND = "log"

    def __init__(self, path: Path, scene: Union[bytes, str], viewers: int = 0) -> None:
        super().__init__()
        name, text = os.fsencode(path), scene.encode() if isinstance(scene, str) else bytes(scene)
        place = ctypes.c_uint64()
        status = self._status("open", name, len(name), text, len(text), fits(viewers, 8), place)
        if status:
            raise Fault(status, frame=place.value if status == _DAMAGED else None)
        #: How many bytes were cut after the last entry: those of an append that was not finished.
        self.cut = place.value

    @classmethod
    def make(cls, path: Path, scene: Union[bytes, str], viewers: int) -> "Log":
        """Makes the log of a scene for 1 to 64 viewers, in a file that is missing or empty. Faults:
        `Range`, `NoLog` (no such folder), `LogBusy`, `NotEmpty`, `Device`, `Memory`."""
        log = cls.__new__(cls)
        Held.__init__(log)
        name, text = os.fsencode(path), scene.encode() if isinstance(scene, str) else bytes(scene)
        log._call("make", name, len(name), text, len(text), fits(viewers, 8))
        log.cut = 0
        return log

    def append(self, append: bytes) -> None:
        """Appends the bytes of an append of a host; then they are on the disk. Faults: `InDoubt`
        (close the host and the log, open the log again, and resume), `NotEntries`, `LogFull`,
        `Memory`: nothing is appended then."""
        self._call("append", append, len(append))

    def read(self) -> bytes:
        """The bytes of all entries, for `Host.resume`. Fault: `Memory`."""
        room = 4096
        while True:
            out = ctypes.create_string_buffer(room)
            status = self._status("read", out, room, self._wanted)
            if status != _ROOM:
                self._good(status)
                return ctypes.string_at(out, self._wanted.value)
            room = self._wanted.value

    def __len__(self) -> int:
        """The number of entries."""
        return self._input("count")

    def viewers(self) -> int:
        """The number of viewers that the log was made for."""
        return self._number("viewers")

    def run(self) -> bytes:
        """What names this log: 16 bytes, which no other has."""
        out = ctypes.create_string_buffer(16)
        self._call("copy_run", out, 16, self._wanted)
        return out.raw

    def __enter__(self) -> "Log":
        return self

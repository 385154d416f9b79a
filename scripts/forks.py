"""Runs the proved program many times in a second: forks.c is compiled and preloaded into it, so that
each run is a fork of one that is about to begin. $PROGRAM, if given, is run in the place of
crates/x3d_share/out/x3d_share; $CC, if given, compiles in the place of cc."""
import os
import socket
import struct
import subprocess
import tempfile
from concurrent.futures import ThreadPoolExecutor
from pathlib import Path
from typing import NamedTuple

from case_files import TOP, stop

PROGRAM = os.environ.get("PROGRAM") or str(TOP / "crates/x3d_share/out/x3d_share")
# How many processes there are for many runs, so that none of the machine's is idle while one waits for
# the other; and how many runs one of them has at least.
SIDE_BY_SIDE, RUNS_OF_ONE = 8 * (os.cpu_count() or 1), 8


class Ran(NamedTuple):
    """How a run ended: its status (above 1000 the number of a signal), and what it wrote; and how
    many blocks of memory it asked for, new ones and larger ones."""

    status: int
    output: bytes
    error: bytes
    growths: int


class Program:
    """The program with these words."""

    def __init__(self, words, library):
        self.link, other = socket.socketpair()
        environment = {**os.environ, "LD_PRELOAD": library, "FORKS": str(other.fileno())}
        self.process = subprocess.Popen([PROGRAM, *words], env=environment, pass_fds=[other.fileno()])
        other.close()

    def taken(self, length):
        parts = []
        while length:
            parts.append(self.link.recv(length))
            if not parts[-1]:
                stop(f"{PROGRAM} ended before it answered; is it linked to the C library at run time?")
            length -= len(parts[-1])
        return b"".join(parts)

    def run(self, given, first=0, last=0):
        """A run on this input, with the growths from `first` to `last` refused, counted from 1."""
        self.link.sendall(struct.pack("<3Q", first, last, len(given)) + given)
        status, growths, output, error = struct.unpack("<4Q", self.taken(32))
        return Ran(status, self.taken(output), self.taken(error), growths)

    def close(self):
        self.link.close()
        self.process.wait()


class Programs:
    """The program for many runs: `each` does a piece of work for each thing of a list, side by side."""

    def __enter__(self):
        if not os.access(PROGRAM, os.X_OK):
            stop(f"there is no program {PROGRAM}; `make run` builds it")
        self.folder = tempfile.TemporaryDirectory()
        self.library = os.path.join(self.folder.name, "forks.so")
        compiler = os.environ.get("CC") or "cc"
        source = str(Path(__file__).with_name("forks.c"))
        subprocess.run([compiler, "-O2", "-shared", "-fPIC", "-o", self.library, source], check=True)
        return self

    def __exit__(self, *_):
        self.folder.cleanup()

    def each(self, words, work, things, at_most=SIDE_BY_SIDE):
        """What `work` of a Program with these words and a thing gives, for each thing; `at_most` so many
        processes side by side."""
        things = list(things)
        count = min(at_most, -(-len(things) // RUNS_OF_ONE))
        parts = [things[start::count] for start in range(count)]

        def part(things):
            program = Program(words, self.library)
            try:
                return [work(program, thing) for thing in things]
            finally:
                program.close()

        with ThreadPoolExecutor(len(parts) or 1) as pool:
            return [result for results in pool.map(part, parts) for result in results]

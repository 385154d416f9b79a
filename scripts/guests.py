"""Viewers of worlds that `serve` serves, and the worlds of a folder, for tests and measurements."""
import os
import resource
import signal
import subprocess
import time
from pathlib import Path

import sessions
import wire
from case_files import stop
from nodes import PATIENCE, PROGRAM, free_port, text_of

# A line of what the processor was given: user and system time, in ticks.
TICKS = os.sysconf("SC_CLK_TCK")


class Guest(sessions.Viewer):
    """A viewer of the world with this name. A host that answers strangers with no more than they sent welcomes it twice:
    the second Hello brings back the cookie of the first Welcome."""

    def __init__(self, host, mark, who, name):
        super().__init__(host, mark, who)
        self.name = name

    def greet(self, name=b"", cookie=sessions.NO_COOKIE):
        nonce = os.urandom(16)
        self.tell(sessions.hello(self.mark, self.who, nonce, name or self.name, cookie))
        try:
            while True:
                packet = self.end.recv(2048)
                if packet[4:6] == bytes([2, sessions.WELCOME]) and sessions.read_welcome(packet).nonce == nonce:
                    return sessions.read_welcome(packet)
        except TimeoutError:
            return None

    def arrive(self):
        found = super().arrive()
        if not self.greet(cookie=found.cookie):
            raise TimeoutError(f"the host at port {self.host} welcomes {self.name} once only")
        return found


class Served:
    """A process that serves a folder, at a port that is free if none is named. With a limit no file gets longer."""

    def __init__(self, folder, *words, program=PROGRAM, listen=None, port=None, limit=None):

        def limited():
            signal.signal(signal.SIGXFSZ, signal.SIG_IGN)
            resource.setrlimit(resource.RLIMIT_FSIZE, (limit, limit))

        self.folder, self.port = Path(folder), port or free_port()
        self.told = Path(folder).parent / f"told-{self.port}-{time.monotonic_ns()}"
        with open(self.told, "wb") as told:
            place = ["--listen", text_of(listen, self.port)] if listen else ["--port", str(self.port)]
            words = [program, "serve", str(folder), *place, "-v", *map(str, words)]
            self.process = subprocess.Popen(words, stdin=subprocess.DEVNULL, stderr=told,
                                            preexec_fn=limited if limit else None)

    def __enter__(self):
        return self

    def __exit__(self, *_):
        self.kill()

    def kill(self):
        if self.process.poll() is None:
            self.process.kill()
        self.process.wait()

    def lines(self):
        return self.told.read_text().splitlines()

    def await_line(self, wanted, times=1):
        """Waits until a line was told so many times."""
        limit = time.monotonic() + PATIENCE
        while self.lines().count(wanted) < times:
            if self.process.poll() is not None or time.monotonic() > limit:
                stop(f"no line {wanted!r} in {self.lines()[-5:]}")
            time.sleep(0.02)

    def spent(self):
        """The seconds of a processor that it has had."""
        fields = Path(f"/proc/{self.process.pid}/stat").read_text().rpartition(")")[2].split()
        return (int(fields[11]) + int(fields[12])) / TICKS

    def resident(self):
        """Its memory, in bytes."""
        for line in Path(f"/proc/{self.process.pid}/status").read_text().splitlines():
            if line.startswith("VmRSS:"):
                return int(line.split()[1]) << 10
        return 0


def job_text(lines, scene):
    return "".join(f"{line}\n" for line in [*lines, "scene"]).encode() + scene


def put(folder, name, lines, scene):
    """Puts a job into a folder, whole at once."""
    place = Path(folder, f"{name}.job")
    beside = place.with_suffix(".new")
    beside.write_bytes(job_text(lines, scene))
    os.replace(beside, place)
    return place

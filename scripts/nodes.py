"""Hosts and viewers of the program as processes, for tests."""
import os
import socket
import subprocess
import tempfile
import time
from pathlib import Path

import wire
from case_files import TOP, stop

PROGRAM = os.environ.get("PROGRAM") or str(TOP / "crates/x3d_share/out/x3d_share")
SCENE = b"#X3D V3.0 utf8\nDEF T TimeSensor { cycleInterval 7 loop TRUE }\n"
OTHER = SCENE + b"# another\n"
# Seconds that a process is given.
PATIENCE = 60


def free_port():
    with socket.socket(socket.AF_INET, socket.SOCK_DGRAM) as end:
        end.bind((wire.HERE, 0))
        return end.getsockname()[1]


def text_of(address, port):
    """An address and a port in one word."""
    return f"[{address}]:{port}" if ":" in address else f"{address}:{port}"


def clocks(*seconds):
    return [f"clock {second}" for second in seconds]


class Nodes:
    """Processes that end with what is looked at."""

    def __enter__(self):
        self.folder, self.started, self.port = tempfile.TemporaryDirectory(prefix="hosts-"), [], free_port()
        return self

    def __exit__(self, *_):
        for process in self.started:
            if process.poll() is None:
                process.kill()
            process.communicate()
        self.folder.cleanup()

    def start(self, words, lines, scene, inside=()):
        """A process of the program, its words after others, such as those of a namespace."""
        given = Path(self.folder.name, f"{len(self.started)}")
        given.write_bytes("".join(f"{line}\n" for line in [*lines, "scene"]).encode() + scene)
        with open(given, "rb") as into:
            streams = {"stdin": into, "stdout": subprocess.PIPE, "stderr": subprocess.PIPE}
            process = subprocess.Popen([*inside, PROGRAM, *map(str, words)], **streams)
        self.started.append(process)
        return process

    def host(self, *words, lines=(), scene=SCENE):
        process = self.start(["host", "--port", self.port, *words], lines, scene)
        limit = time.monotonic() + PATIENCE
        while f":{self.port:04X} " not in Path("/proc/net/udp").read_text():
            if process.poll() is not None or time.monotonic() > limit:
                stop(f"no host at port {self.port}: {process.stderr.read()}")
            time.sleep(0.01)
        return process

    def view(self, who, *words, boot=1, lines=(), scene=SCENE):
        named = [] if boot is None else ["--boot", boot]
        return self.start(["view", "--port", self.port, "--who", who, *named, *words], lines, scene)

    def listen(self, address, *words, lines=(), inside=()):
        """A host at an address, with its socket bound."""
        words = ["host", "-v", "--listen", text_of(address, self.port), *words]
        process = self.start(words, lines, SCENE, inside)
        while (line := process.stderr.readline()) != f"bound to port {self.port}\n".encode():
            if not line:
                stop(f"no host at {address}")
        return process

    def visit(self, address, who, *words, boot=1, lines=()):
        """A viewer of the host at an address."""
        words = ["view", "--host", text_of(address, self.port), "--who", who, "--boot", boot, *words]
        return self.start(words, lines, SCENE)


def ended(process, status=0):
    """What it printed and told, where it ends with that status."""
    try:
        printed, told = process.communicate(timeout=PATIENCE)
    except subprocess.TimeoutExpired:
        stop(f"{process.args} hasn't ended")
    if process.returncode != status:
        stop(f"{process.args} ended with status {process.returncode}, not {status}: {told.decode()}")
    return printed, told.decode().splitlines()


def same(found, wanted, what):
    if found != wanted:
        stop(f"{what}: {found!r}, and not {wanted!r}")

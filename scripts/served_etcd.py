"""Worlds of a folder whose logs are in etcd, and the processes that serve them, for tests."""
import os
import subprocess
import tempfile
import time
from pathlib import Path

import etcd
import guests
import wire
from case_files import TOP, stop
from etcds import PROGRAM as ETCD, Etcds, load
from nodes import PROGRAM, SCENE, clocks, text_of

LINES = clocks(1, 2, 3)


def scene_of(name):
    return SCENE + f"# {name}\n".encode()


def points(who):
    """What viewer `who` offers."""
    return [wire.Point(who, number % 2, (number, who, 10 * wire.MILLION, 0, 0, -1)).line() for number in range(10)]


def ran(words, given):
    found = subprocess.run([*map(str, words)], input=given, capture_output=True, check=False)
    if found.returncode:
        stop(f"{words} ended with {found.returncode}: {found.stderr.decode()}")
    return found.stdout


class Place:
    """A folder of worlds, an etcd, and the processes that serve the worlds."""

    def __enter__(self):
        self.top = tempfile.TemporaryDirectory(prefix="worlds-")
        self.path = Path(self.top.name, "worlds")
        self.path.mkdir()
        self.etcds, self.started, self.login = Etcds(self.top.name, 1).__enter__(), [], None
        return self

    def __exit__(self, *_):
        for each in self.started:
            each.kill()
        self.etcds.__exit__()
        self.top.cleanup()

    def put(self, name, lines=LINES, scene=None):
        guests.put(self.path, name, lines, scene or scene_of(name))

    def serve(self, *words, port=None):
        """A process that serves the worlds."""
        served = guests.Served(self.path, "--etcd", self.etcds.addresses[0], *words, port=port)
        self.started.append(served)
        return served

    def start_again(self, served, *words):
        """Kills a process, and starts another one at its port."""
        served.kill()
        return self.serve(*words, port=served.port)

    def view(self, name, who, ports, *words, lines=(), boot=1, is_served=True):
        """A viewer of a world at several processes, in this order, which serve it, or are its hosts alone."""
        hosts = ",".join(text_of(wire.HERE, port) for port in ports)
        world = ["--world", name] if is_served else []
        words = ["view", "--host", hosts, *world, "--who", who, "--boot", boot, *words]
        process = subprocess.Popen([PROGRAM, *map(str, words)], stdin=subprocess.PIPE, stdout=subprocess.PIPE,
                                   stderr=subprocess.PIPE)
        process.stdin.write(guests.job_text(lines, scene_of(name)))
        process.stdin.close()
        process.stdin = None
        return process

    def log(self, name):
        login = ["--login", self.login] if self.login else []
        return ran([TOP / "scripts/etcd_log", *login, self.etcds.addresses[0], name], b"")

    def text(self, name, count):
        """What a viewer prints of the first inputs of a world's log."""
        lines = ran([PROGRAM, "recall", "--until", count], self.log(name)).decode().splitlines()
        return ran([PROGRAM, "run"], guests.job_text(lines, scene_of(name)))

    def inputs(self, name):
        """How many inputs a world's log has, or -1 if there is none."""
        try:
            return etcd.payloads_of(self.etcds.addresses[0], name)[1]
        except etcd.Refused:
            return -1

    def await_inputs(self, name, count):
        limit = time.monotonic() + 20 * load()
        while self.inputs(name) < count:
            if time.monotonic() > limit:
                stop(f"{name} has {self.inputs(name)} inputs, and not {count}")
            time.sleep(0.05)


def printed(process, what):
    """What a viewer printed that has ended well."""
    out, told = process.communicate(timeout=60 * load())
    if process.returncode:
        stop(f"{what} ended with {process.returncode}: {told.decode()}")
    return out


def run_parts(name, parts):
    """Runs the parts of a test, and says how long each took."""
    if not os.access(PROGRAM, os.X_OK):
        stop(f"there is no program {PROGRAM}; `make run` builds it")
    if not ETCD:
        print(f"{name}: no etcd (Debian's package etcd-server)")
        return
    for part in parts:
        began = time.monotonic()
        part()
        print(f"{name}: {part.__name__}: well, in {time.monotonic() - began:.1f} s", flush=True)

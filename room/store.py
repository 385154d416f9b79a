"""A run on disk: the scene, its inputs as a world's log, the newest snapshot, and what was done. A file is written whole
beside its name and then renamed, but for the two lists, which grow: what wasn't finished at their end is left out."""
import json
import os
import time
from pathlib import Path

from explain import Unshown
from inputs import Inputs
from library import wire
from world_log import EMPTY, OPEN, SHUT, Damaged, Writer, read_log
from record import Entry

SCENE, INPUTS, SNAPSHOT, DONE = "scene.x3dv", "inputs.x3dlog", "snapshot", "log.jsonl"
FILES = SCENE, INPUTS, SNAPSHOT, DONE


class BadLine(ValueError):
    """A line of a list of inputs that is none."""


def millionths(numeral):
    """The whole number that a numeral of a job is, times a million."""
    whole, _, part = numeral.lstrip("-").partition(".")
    number = int(whole or "0") * wire.MILLION + int(part.ljust(6, "0") or "0")
    return -number if numeral.startswith("-") else number


def add_line(inputs, line):
    """Appends the input of a job's line: a pointer is a microsecond after what came before it."""
    word, *numbers = line.split()
    if word == "clock" and len(numbers) == 1:
        return inputs.add(millionths(numbers[0]))
    if word != "point" or len(numbers) != 8:
        raise BadLine(line)
    who, down, *ray = numbers
    last = inputs.time(len(inputs)) if len(inputs) else 0
    return inputs.add(last + 1, wire.Point(int(who), int(down), tuple(map(millionths, ray))))


def read_inputs(text):
    """The inputs of whole lines of a job. Raises BadLine."""
    inputs = Inputs()
    for count, line in enumerate(text.split("\n")[:-1], 1):
        try:
            add_line(inputs, line)
        except ValueError:
            raise BadLine(f"line {count} is no clock and no point: {line[:60]}") from None
    return inputs


class Store:
    """The folder of a room."""

    def __init__(self, folder):
        self.folder = Path(folder)
        self.folder.mkdir(parents=True, exist_ok=True)
        self.writer, self.logged, self.lists = None, 0, []

    def load(self, text):
        """What was kept of a run of this scene: its inputs, its log, and a number with a snapshot. Raises Unshown."""
        scene, path = self.path(SCENE), self.path(INPUTS)
        if not scene.exists() or scene.read_bytes() != text or not path.exists():
            return None
        try:
            mark, inputs = read_log(path.read_bytes())
        except Damaged as damaged:
            raise Unshown(str(path), 0, "", str(damaged)) from None
        if mark != wire.mark_of(text):
            return None
        log = [Entry(*json.loads(line)) for line in self.read(DONE).split("\n")[:-1]]
        saved = self.snapshot(len(inputs))
        return inputs, log, saved

    def snapshot(self, most):
        """The newest snapshot with its number, where the list goes as far."""
        path = self.path(SNAPSHOT)
        if not path.exists():
            return None
        number, whole = path.read_bytes().split(b"\n", 1)
        return (int(number), whole) if int(number) <= most else None

    def begin(self, record):
        """Goes on with a run; what was kept of another one is put aside."""
        self.close()
        kept = self.path(SCENE)
        if kept.exists() and (kept.read_bytes() != record.text or not len(record.inputs)):
            self.put_aside()
        self.replace(SCENE, record.text)
        # What a crash left unfinished isn't written again.
        self.writer, self.logged = Writer(record.inputs), record.said
        self.replace(INPUTS, self.writer.whole(wire.mark_of(record.text)))
        self.replace(DONE, "".join(map(entry_line, record.log)).encode())
        self.lists = [self.path(INPUTS).open("r+b"), self.path(DONE).open("a")]

    def put_aside(self):
        """An earlier run goes to a folder of its own, where it has inputs."""
        if not self.path(INPUTS).exists() or self.path(INPUTS).stat().st_size <= EMPTY:
            return
        aside = self.folder / time.strftime("run-%Y%m%d-%H%M%S")
        while aside.exists():
            aside = aside.with_name(f"{aside.name}-")
        aside.mkdir()
        for name in FILES:
            if self.path(name).exists():
                self.path(name).rename(aside / name)

    def append(self, record):
        """Writes what came since. The gate before new frames is opened last: so all of them are there, or none."""
        inputs, done = self.lists
        if frames := self.writer.frames():
            gate = inputs.seek(-1, os.SEEK_END)
            for place, part in ((gate + 1, frames[1:] + SHUT), (gate, OPEN)):
                inputs.seek(place)
                inputs.write(part)
                inputs.flush()
        new = max(0, record.said - self.logged)
        done.writelines(map(entry_line, record.log[len(record.log) - new :]))
        done.flush()
        self.logged = record.said

    def save(self, record):
        """The world as it is now, so that a start needs no input before it."""
        self.append(record)
        number, snapshot = record.save()
        self.replace(SNAPSHOT, b"%d\n" % number + snapshot)

    def path(self, name):
        return self.folder / name

    def read(self, name):
        path = self.path(name)
        return path.read_text() if path.exists() else ""

    def replace(self, name, content):
        new = self.path(f"{name}.new")
        new.write_bytes(content)
        new.replace(self.path(name))

    def close(self):
        for file in self.lists:
            file.close()
        self.lists = []


def entry_line(entry):
    return json.dumps(entry) + "\n"

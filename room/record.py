"""Everything that happened in a run of a room: its inputs, its world as they make it, and who pressed what."""
import re
import time
from typing import NamedTuple

from inputs import Inputs
from library import wire, x3d
from world_log import Writer
from scene import Names
from seat import LINES, forget, latest

# A snapshot is kept every 600 inputs; of too many every second goes.
EVERY, SNAPSHOTS = 600, 32
# A record's own snapshots are of this boot: whoever begins in one has a later boot.
BOOT = 1
LOGGED = 2000
UNNAMED = re.compile(r"N\d+")
# A line of the trace, as `3 3 Door.translation 1 0 0`.
LINE = re.compile(r"^(\d+) \S+ (\S+)\.(\S+) (.*)$", re.M)
SENSORS = {"TouchSensor": {"TRUE": "pressed"}, "PlaneSensor": {"TRUE": "took", "FALSE": "put down"}}


def apply(world, each):
    """Applies an input to a world."""
    if each.point:
        aim = x3d.Aim(each.point.ray[:3], each.point.ray[3:])
        world.point(each.number, each.time, each.point.who, bool(each.point.down), aim)
    else:
        world.clock(each.number, each.time)


class Entry(NamedTuple):
    """Something that was done: at which input, when by the clock, by which viewer, under which name."""

    n: int
    at: float
    who: int
    name: str
    color: str
    text: str


class Record:
    """The inputs of a run as they come, and the world that they make."""

    def __init__(self, text, inputs=None, log=(), saved=None):
        """Of an earlier run its inputs, its log, and a number with the snapshot there."""
        self.text, self.world = text, x3d.World(text)
        self.names, self.inputs, self.log = Names(self.world), inputs or Inputs(), [*log]
        self.snapshots, self.every = {0: self.world.snapshot(BOOT)}, EVERY
        if saved:
            self.world.load(BOOT + 1, saved[1])
            self.snapshots[saved[0]] = saved[1]
        # How much was ever logged, of which the log has the last.
        self.points, self.said = [], len(self.log)
        for number in range(self.world.applied() + 1, len(self.inputs) + 1):
            apply(self.world, self.inputs.at(number))
            if number >= max(self.snapshots) + self.every:
                self.save()

    def follow(self, room, people):
        """Takes what the room's host has numbered since. `people` has the name and the color of a viewer."""
        first = len(self.inputs) + 1
        for number in range(first, len(room.host) + 1):
            each = room.read(room.host.packet(number))
            self.inputs.add(each.time, each.point, room.offers.pop(number, None))
            apply(self.world, each)
            if each.point:
                self.points.append(each)
        self.note(first, people)
        if len(self.inputs) >= max(self.snapshots) + self.every:
            self.save()

    def save(self):
        """Keeps a snapshot, without old lines of the trace; the number and the snapshot."""
        number = self.world.applied()
        forget(self.world)
        self.snapshots[number] = self.world.snapshot(BOOT)
        if len(self.snapshots) > SNAPSHOTS:
            self.every *= 2
            for late in sorted(self.snapshots)[1:-1:2]:
                del self.snapshots[late]
        return number, self.snapshots[number]

    def note(self, first, people):
        """Logs who pressed what."""
        if len(self.inputs) < first:
            return
        for number, label, name, value in LINE.findall(self.world.trace(first)):
            done = name == "isActive" and self.done_to(label, value)
            point = done and self.inputs.at(int(number)).point
            if point:
                self.say(point.who, *people(point.who), done, int(number))

    def done_to(self, label, value):
        """What is said of a sensor that is pressed, or that is no longer."""
        node = self.names.nodes.get(label)
        verb = node is not None and SENSORS.get(self.names.kinds[node], {}).get(value)
        if not verb:
            return None
        given = self.names.text(self.world, node, "description")
        # What has neither a description nor a name of its own isn't spoken of.
        return None if not given and UNNAMED.fullmatch(label) else f"{verb} {given or label}"

    def say(self, who, name, color, text, number=None):
        """Logs what was done; of too much the oldest goes."""
        self.log.append(Entry(number or len(self.inputs), time.time(), who, name, color, text))
        self.said += 1
        del self.log[:-LOGGED]

    def news(self, told):
        """What a window without a seat has to be told of this world, with its kind."""
        number = self.world.applied()
        if number == told:
            return None
        about = {"n": number, "points": latest(each for each in self.points if each.number > (told or 0))}
        if told is None or number - told > LINES:
            return "scene", {**about, **self.names.scene(self.world)}
        return "news", {**about, **self.names.news(self.world, told)}

    def forget_points(self):
        """All windows were told."""
        self.points = []

    def job(self):
        """The run as a job."""
        return self.inputs.lines(1).encode() + b"scene\n" + self.text

    def x3dlog(self):
        """The run as a world's log, which names its scene by its mark alone."""
        return Writer(self.inputs).whole(wire.mark_of(self.text))

"""A renderer with a file of its own: it draws the whole file, and the core runs the part of it that it
can. This prints what the core leaves out of a Classic file, and which of the file's nodes move: it
presses what it finds by rays from the front, lets five seconds go by, and compares each field that was
set with its value at first. A renderer draws those fields in its own tree: DEF names tie the two.

usage: python3 moves.py [FILE]     else a file of Debian's castle-game-engine examples, if it is there"""

import sys
from pathlib import Path

from x3d import Aim, Fault, Part, Refusal, World

# Where Debian's packages of the Castle Game Engine have their examples.
PLACES = ("/usr/share/doc", "/usr/src", "/usr/share")
INSTALLED = "*castle-game-engine*/**/*.x3dv"
SECOND, TICK = 1_000_000, 50_000
FRONT, STEP, SIDE = 1_000_000_000, 250_000, 12


def file_of(words):
    """The file that is named, or one that is installed."""
    if words:
        return Path(words[0])
    found = (file for top in PLACES for file in sorted(Path(top).glob(INSTALLED)))
    return next(found, None) or sys.exit("moves: name a file: no castle-game-engine example is installed")


class Clock:
    """The inputs of a world, one after another."""

    def __init__(self, world):
        self.world, self.number, self.time = world, 0, SECOND

    def tick(self):
        self.number, self.time = self.number + 1, self.time + TICK
        self.world.clock(self.number, self.time)

    def press(self, aim):
        for down in (True, False):
            self.number, self.time = self.number + 1, self.time + 1
            self.world.point(self.number, self.time, 0, down, aim)


def press_all(clock):
    """Presses each sensor that a ray from the front meets, once."""
    pressed = set()
    for x in range(-SIDE, SIDE + 1):
        for y in range(-SIDE, SIDE + 1):
            aim = Aim((x * STEP, y * STEP, FRONT), (0, 0, -SECOND))
            met = clock.world.meet(aim)
            if met and not pressed.issuperset(met.sensors):
                pressed.update(met.sensors)
                clock.press(aim)


def values(world):
    """The text of each field that has a value, by the node's label and the field's name."""
    found = {}
    for node in range(world.node_count()):
        for field in range(world.field_count(node)):
            try:
                found[world.label(node), world.field_name(node, field)] = world.value(node, field)
            except Fault:  # a field that only sends holds no value
                pass
    return found


def main():
    file = file_of(sys.argv[1:])
    try:
        with Part(file.read_bytes()) as part, World.of_part(part) as world:
            print(part.notes, end="")
            before = values(world)
            clock = Clock(world)
            clock.tick()
            press_all(clock)
            for _ in range(5 * SECOND // TICK):
                clock.tick()
            drawn = {(one.node, one.field) for one in world.changed(0)}
            for node, field in sorted(drawn):
                name = world.label(node), world.field_name(node, field)
                kind, now = world.node_type(node), world.value(node, field)
                if not kind.endswith(("Sensor", "Interpolator")) and now != before[name]:
                    print(f"{kind} {'.'.join(name)}: {before[name]} becomes {now}")
    except Refusal as refusal:
        sys.exit(f"{file}: {refusal}")


main()

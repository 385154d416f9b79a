"""Runs a plain job, as bindings/c/jobs.c does. With `drawn` it also draws the fields that each three
inputs set, and ends with 9 where a field is then drawn with another value than it has."""

import sys

from x3d import Aim, Fault, Refusal, World

EACH = 3


def picture(world):
    """The text of each field that holds a value."""
    found = {}
    for node in range(world.node_count()):
        for field in range(world.field_count(node)):
            try:
                found[node, field] = world.value(node, field)
            except Fault as fault:
                if fault.name != "NoValue":
                    raise
    return found


class Drawn:
    """What a program has drawn of a world, by its lists of changed fields."""

    def __init__(self, world):
        # The whole trace is printed at the end.
        world.keep_lines = True
        self.world, self.picture, self.since = world, picture(world), 0

    def draw(self):
        for one in self.world.changed(self.since):
            self.picture[one.node, one.field] = self.world.value(one.node, one.field)
        self.since = self.world.applied()
        if self.picture != picture(self.world):
            sys.exit(9)


def apply(world, line):
    word, *numbers = line.split(" ")
    n = [int(number) for number in numbers]
    if word == "clock":
        world.clock(*n)
    else:
        world.point(n[0], n[1], n[2], n[3] == 1, Aim((n[4], n[5], n[6]), (n[7], n[8], n[9])))


def main():
    job = sys.stdin.buffer.read()
    steps, _, scene = (b"\n" + job).partition(b"\nscene\n")
    try:
        world = World(scene)
    except Refusal as refusal:
        print(refusal.line, file=sys.stderr)
        sys.exit(1)
    drawn = Drawn(world) if sys.argv[1:] == ["drawn"] else None
    lines = steps.decode().split("\n")[1:]
    for number, line in enumerate(lines, 1):
        apply(world, line)
        if drawn and (number % EACH == 1 or number == len(lines)):
            drawn.draw()
    sys.stdout.buffer.write(world.trace().encode() + world.scene().encode())
    world.close()


main()

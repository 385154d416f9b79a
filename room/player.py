"""What a window sees that looks at what happened: a world of its own, at any input of a record."""
import itertools

from library import x3d
from record import BOOT, apply

SPEEDS = (1, 4, 16)
# A room rests while it is empty: of a longer gap, in microseconds, this much is played.
GAP = 2_000_000
# How many inputs are applied in a turn, at most.
BATCH = 4000


class Player:
    """A record as it is played: from any input on, at a speed."""

    def __init__(self, record):
        self.record, self.boots = record, itertools.count(BOOT + 1)
        self.world, self.points = x3d.World(record.text), []
        self.told, self.playing, self.speed, self.due = None, False, 1, 0

    def seek(self, number):
        """Goes to an input, by the nearest snapshot before it or from where it is."""
        number = max(0, min(number, len(self.record.inputs)))
        nearest = max(each for each in self.record.snapshots if each <= number)
        if not nearest <= self.world.applied() <= number:
            self.world.load(next(self.boots), self.record.snapshots[nearest])
        self.points, self.told, self.due = [], None, 0
        while self.world.applied() < number:
            self.apply()

    def play(self, playing, speed):
        """Plays on or stops; at the end it begins again."""
        if playing and self.world.applied() == len(self.record.inputs):
            self.seek(0)
        self.playing, self.speed, self.due = playing, speed, 0

    def apply(self):
        each = self.record.inputs.at(self.world.applied() + 1)
        apply(self.world, each)
        if each.point:
            self.points.append(each)
        return each.time

    def turn(self, passed):
        """Microseconds pass; what the window is to be sent, with its kind, if anything."""
        inputs, count = self.record.inputs, len(self.record.inputs)
        if self.playing:
            self.due += passed * self.speed
        for _ in range(BATCH):
            number = self.world.applied()
            if not self.playing or number >= count:
                break
            wait = min(GAP, inputs.time(number + 1) - inputs.time(number)) if number else 0
            if wait > self.due:
                break
            self.due -= wait
            self.apply()
        self.playing = self.playing and self.world.applied() < count
        return self.news()

    def news(self):
        number = self.world.applied()
        if number == self.told:
            return None
        first, self.told = self.told, number
        points = [*{each.point.who: each.point for each in self.points}.values()]
        self.points = []
        names = self.record.names
        kind, told = ("scene", names.scene(self.world)) if first is None else ("news", names.news(self.world, first))
        # The lines of these inputs are not needed again.
        self.world.forget_below(number + 1)
        return kind, {"n": number, "points": points, **told}

    def status(self):
        """Where it is: its input, seconds from the first on, whether it plays."""
        inputs, number = self.record.inputs, self.world.applied()
        begun = inputs.time(1) if len(inputs) else 0
        at = inputs.time(number) - begun if number else 0
        return {
            "n": number, "of": len(inputs), "seconds": at / 1e6,
            "whole": (inputs.time(len(inputs)) - begun) / 1e6 if len(inputs) else 0,
            "playing": self.playing, "speed": self.speed,
        }

    def close(self):
        self.world.close()

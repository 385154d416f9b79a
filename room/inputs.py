"""The inputs of a run, as the room keeps them."""
import secrets
from array import array

from library import wire

# What an array holds of an input: its time, 2 * viewer + button or -1 for a clock, its ray, and the boot and the number
# of its offer.
WIDTH = 10


class Inputs:
    """The inputs of a run, which are numbered from 1 on. 16 bytes name the run."""

    def __init__(self, run=None):
        self.run, self.numbers = run or secrets.token_bytes(16), array("q")
        # The boot and the number of the last offer of each viewer.
        self.offered = {}

    def __len__(self):
        return len(self.numbers) // WIDTH

    def add(self, time, point=None, offer=None):
        """Appends an input. A pointer whose offer isn't known is the viewer's next one."""
        if not point:
            return self.numbers.extend((time, -1, *[0] * 8))
        boot, number = offer or (lambda boot, last: (boot, last + 1))(*self.offered.get(point.who, (1, 0)))
        self.offered[point.who] = boot, number
        self.numbers.extend((time, 2 * point.who + point.down, *point.ray, boot, number))

    def time(self, number):
        return self.numbers[WIDTH * (number - 1)]

    def at(self, number):
        return self.offered_at(number)[0]

    def offered_at(self, number):
        """An input; and the boot and the number of its offer, which are 0 of a clock."""
        start = WIDTH * (number - 1)
        when, about, *ray, boot, offer = self.numbers[start : start + WIDTH]
        point = wire.Point(about >> 1, about & 1, tuple(ray)) if about >= 0 else None
        return wire.Input(number, when, point), (boot, offer)

    def lines(self, first):
        """Inputs from a number on as lines of a job."""
        return "".join(f"{self.at(number).line()}\n" for number in range(first, len(self) + 1))

"""What a schedule's log may say: the rules of docs/AGREEMENT.md over a host, its viewers, and every
packet and snapshot that was made. Scenes are not run here: what a viewer shows at n is what `run`
prints for the first n inputs that the host numbered."""
import copy
import re
from fractions import Fraction

MOST_INPUTS, MOST_WAITING, WINDOW, MOST_ASKED, MOST_OFFERS = 2**20, 64, 64, 64, 2**32 - 1
MOST_TIME, MOST_COORDINATE = 10**18, 10**15


def millionths(word):
    """A numeral's value, rounded half away from zero."""
    exact = abs(Fraction(word.decode())) * 10**6
    return (-1 if word.startswith(b"-") else 1) * int((2 * exact + 1) // 2)


class Viewer:
    def __init__(self, who):
        self.who, self.boot, self.applied, self.spoiled = who, 1, 0, False
        self.begin()

    def begin(self):
        self.made, self.waiting, self.window = 0, [], set()

    def offer(self, down, *ray):
        coordinates = [millionths(word) for word in ray]
        if self.spoiled:
            return "Spoiled"
        if not any(coordinates[3:]):
            return "ZeroRay"
        if max(map(abs, coordinates)) > MOST_COORDINATE:
            return "PointRange"
        if len(self.waiting) >= MOST_WAITING:
            return "OfferFull"
        if self.made >= MOST_OFFERS:
            return "OffersSpent"
        self.made += 1
        self.waiting.append((self.made, b" ".join([b"point %d" % self.who, down, *ray])))
        return f"Offered {self.made}"

    def resend(self, place):
        waits = int(place) < len(self.waiting)
        return ("offer", self.who, self.boot, *self.waiting[int(place)]) if waits else None

    def ask(self):
        return "ask", self.who, self.applied + 1

    def take(self, kind, who_or_number, *rest):
        if self.spoiled:
            return "Spoiled"
        if kind == "input":
            return self.input_comes(who_or_number)
        if kind != "ack" or who_or_number != self.who:
            return "NotForMe"
        boot, count = rest
        if boot == self.boot:
            self.waiting = [offer for offer in self.waiting if offer[0] > count]
        return "Noted"

    def input_comes(self, number):
        if number <= self.applied:
            return "Old"
        if number > self.applied + WINDOW:
            return "Beyond"
        self.window.add(number)
        before = self.applied
        while self.applied + 1 in self.window:
            self.applied += 1
            self.window.remove(self.applied)
        return f"Applied {self.applied - before}" if self.applied > before else "Kept"

    def rewind(self, taken, applied, boot):
        if boot <= self.boot or boot <= taken:
            return "BootNotNew"
        self.boot, self.applied, self.spoiled = boot, applied, False
        self.begin()
        return f"Rewound {applied}"


class Host:
    def __init__(self, viewers):
        self.inputs = []  # the time of each, and its line in a job
        self.kept = [(0, 0)] * viewers  # of each viewer a boot, and how many of its offers are numbered

    def last(self):
        return self.inputs[-1][0] if self.inputs else 0

    def number(self, time, line):
        if len(self.inputs) >= MOST_INPUTS:
            return "WorldFull"
        if time <= self.last():
            return "TimeNotLater"
        if time > MOST_TIME:
            return "TimeRange"
        self.inputs.append((time, line))
        return f"Numbered {len(self.inputs)}"

    def packet(self, number):
        return ("input", number) if 1 <= number <= len(self.inputs) else None

    def take(self, kind, *rest):
        if kind == "offer":
            return self.offer_comes(*rest)
        count = len(self.inputs) + 1 - rest[1] if kind == "ask" else 0
        return f"Asked {rest[1]} {min(count, MOST_ASKED)}" if count > 0 else "NothingToDo"

    def offer_comes(self, who, boot, number, line):
        kept, count = self.kept[who]
        if boot < kept:
            return "OldBoot"
        count = count if boot == kept else 0
        if number != count + 1:
            return "Repeat" if number <= count else "Ahead"
        answer = self.number(self.last() + 1, line)
        if answer.startswith("Numbered"):
            self.kept[who] = boot, number
        return answer


class Network:
    def __init__(self, viewers):
        self.host = Host(viewers)
        self.viewers = [Viewer(who) for who in range(viewers)]
        self.packets, self.snapshots = [], []

    def send(self, packet):
        if packet is None:
            return "None"
        self.packets.append(packet)
        return f"Packet {len(self.packets) - 1}"

    def step(self, line):
        """What a step answers where memory is there for it, which is done."""
        word, *rest = line.split(b" ")
        if word == b"clock":
            return self.host.number(millionths(rest[0]), line)
        if word == b"packet":
            return self.send(self.host.packet(int(rest[0])))
        receiver = self.receiver(word, rest)
        if receiver is None:
            return "NoSuch"
        if word == b"ack":
            return self.send(("ack", receiver.who, *self.host.kept[receiver.who]))
        if word == b"give":
            there = int(rest[0]) < len(self.packets)
            return receiver.take(*self.packets[int(rest[0])]) if there else "NoSuch"
        if word == b"offer":
            return receiver.offer(*rest[1:])
        if word == b"resend":
            return self.send(receiver.resend(rest[1]))
        if word == b"ask":
            return self.send(receiver.ask())
        return self.save(receiver) if word == b"save" else self.rewind(receiver, *map(int, rest[1:]))

    def receiver(self, word, rest):
        """The node that a step speaks of, if there is one."""
        number = rest[1] if word == b"give" else rest[0]
        if number == b"host":
            return self.host
        return self.viewers[int(number)] if int(number) < len(self.viewers) else None

    def save(self, viewer):
        if viewer.spoiled:
            return "Spoiled"
        self.snapshots.append((viewer.boot, viewer.applied))
        return f"Saved {len(self.snapshots) - 1}"

    def rewind(self, viewer, snapshot, boot):
        if snapshot >= len(self.snapshots):
            return "NoSuch"
        return viewer.rewind(*self.snapshots[snapshot], boot)

    def refused(self, line):
        """The networks that a step may leave in which memory is refused: a clock, a numbering and a
        snapshot then change nothing; a take spoils its viewer behind some of the inputs that it would
        have applied, and a rewind spoils it where it stands. None, where the step takes no memory."""
        answer, _, count = copy.deepcopy(self).step(line).partition(" ")
        if answer in ("Numbered", "Saved"):
            return [self]
        if answer in ("Applied", "Rewound"):
            word, *rest = line.split(b" ")
            return [self.spoiled(word, rest, more) for more in range(int(count) if answer == "Applied" else 1)]
        return []

    def spoiled(self, word, rest, more):
        left = copy.deepcopy(self)
        viewer = left.receiver(word, rest)
        viewer.applied += more
        viewer.spoiled = True
        return left


def read_schedule(given):
    """The lines of a schedule's steps, and the bytes of its scene."""
    steps, scene = re.split(rb"^scene\r?\n", given, maxsplit=1, flags=re.M)
    return [line.removesuffix(b"\r") for line in steps.split(b"\n")[:-1]], scene


def fault_of(steps, scene, viewers, log, world):
    """Why a host and its viewers can't have left this log, or None; `world` gives what `run` prints."""
    lines = log.split(b"\n")
    left = [Network(viewers)]
    for place, (step, line) in enumerate(zip(steps, lines), 1):
        answer = line.decode().removeprefix(f"{place} ")
        if answer == "Memory":
            left = [after for network in left for after in network.refused(step)]
        else:
            left = [network for network in left if network.step(step) == answer]
        if not left:
            return f"step {place}, {step.decode()}, answers {answer}"
    endings = b"\n".join(lines[len(steps) :])
    if any(endings == endings_of(network, scene, world) for network in left):
        return None
    return "what viewers are left with isn't what the inputs give"


def endings_of(network, scene, world):
    parts = []
    for viewer in network.viewers:
        if viewer.spoiled:
            parts.append(b"viewer %d spoiled\n" % viewer.who)
            continue
        inputs = b"".join(line + b"\n" for _, line in network.host.inputs[: viewer.applied])
        parts.append(b"viewer %d at %d boot %d\n" % (viewer.who, viewer.applied, viewer.boot))
        parts.append(world(inputs + b"scene\n" + scene))
    return b"".join(parts)

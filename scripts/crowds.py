"""What many worlds cost a process that serves them, each with two viewers."""
import select
import time

import guests
import sessions
import wire
from case_files import stop
from nodes import SCENE, clocks

WORLDS, VIEWERS = 1_000, 2
# How long nothing comes, and which share of one processor and how many bytes a world may cost then.
IDLE, SHARE, BYTES = 10, 0.01, 20 << 10
# How many points a viewer offers before it waits for their acks.
AT_ONCE = 8


def name_of(number):
    return f"world-{number}"


def scene_of(number):
    return SCENE + f"# {number}\n".encode()


def put_all(folder):
    for number in range(WORLDS):
        guests.put(folder, name_of(number), clocks(1), scene_of(number))


def await_all(served):
    """Waits until all worlds are opened."""
    limit = time.monotonic() + 600
    while sum("inputs in the log" in line for line in served.lines()) < WORLDS:
        if served.process.poll() is not None or time.monotonic() > limit:
            stop(f"not all worlds were opened: {served.lines()[-3:]}")
        time.sleep(0.1)


def arrived(served):
    """Viewers of each world, which are known there and have its inputs."""
    found = []
    for number in range(WORLDS):
        for who in range(VIEWERS):
            guest = guests.Guest(served.port, wire.mark_of(scene_of(number)), who, name_of(number).encode())
            guest.arrive()
            guest.catch_up(1)
            found.append(guest)
    return found


class Offering:
    """A viewer that offers points, some at once, as soon as the ones before are acked."""

    def __init__(self, guest):
        self.guest, self.acked, self.offered, self.sent = guest, guest.offers, guest.offers, 0
        self.session, self.first = guest.session(), guest.offers
        self.guest.end.setblocking(False)

    def send(self, now):
        for number in range(self.acked + 1, self.acked + AT_ONCE + 1):
            point = wire.Point(self.guest.who, number % 2, (number, 0, 10 * wire.MILLION, 0, 0, -1))
            self.guest.tell(sessions.offer(self.session, self.guest.boot, number, point))
        self.offered, self.sent = self.acked + AT_ONCE, now

    def hear(self, now):
        """Takes what came."""
        try:
            while True:
                packet = self.guest.end.recv(2048)
                if packet[5] == wire.ACK and packet[6:22] == self.session:
                    self.acked = max(self.acked, sessions.read_ack(packet)[1])
        except BlockingIOError:
            pass
        if self.acked >= self.offered:
            self.send(now)

    def done(self):
        self.guest.offers = self.acked
        self.guest.end.setblocking(True)
        self.guest.end.settimeout(1)
        return self.acked - self.first


def inputs_of(crowd, seconds):
    """How many points the worlds of these viewers numbered, a second."""
    offering = {guest.end.fileno(): Offering(guest) for guest in crowd}
    ready = select.epoll()
    for number in offering:
        ready.register(number, select.EPOLLIN)
    begun = now = time.monotonic()
    for each in offering.values():
        each.send(now)
    while now < begun + seconds:
        for number, _ in ready.poll(0.2):
            offering[number].hear(now)
        now = time.monotonic()
        for each in offering.values():
            if each.sent < now - 1:
                each.send(now)
    ready.close()
    return sum(each.done() for each in offering.values()) / (now - begun)


def resident_alone(folder):
    """The memory of a process that serves no world."""
    with guests.Served(folder) as served:
        time.sleep(1)
        return served.resident()


def measure(folder, seconds):
    alone = resident_alone(folder)
    put_all(folder)
    with guests.Served(folder) as served:
        await_all(served)
        crowd = arrived(served)
        time.sleep(2)
        spent, taken = served.spent(), (served.resident() - alone) / WORLDS
        time.sleep(IDLE)
        share = (served.spent() - spent) / IDLE
        print(f"worlds: {WORLDS} worlds of {VIEWERS} viewers: {100 * share:.2f} % of a processor while nothing comes, "
              f"{taken / 1024:.1f} KB each", flush=True)
        one = inputs_of(crowd[:VIEWERS], seconds)
        before = served.spent()
        many = inputs_of(crowd, seconds)
        print(f"worlds: {many:.0f} inputs a second of all worlds by {(served.spent() - before) / seconds:.2f} processors, "
              f"{one:.0f} of one world alone", flush=True)
        for guest in crowd:
            guest.end.close()
        if share > SHARE or taken > BYTES:
            stop(f"more than {100 * SHARE:.0f} % of a processor, or than {BYTES >> 10} KB for each world")

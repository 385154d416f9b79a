"""The datagrams of a shared world, as crates/share_wire/README.md has them, and the list of inputs of a
host, which is asked for it."""
import hashlib
import socket
import struct
from typing import NamedTuple

HERE = "127.0.0.1"
HEAD = struct.Struct(">4sBB32s")
INPUT, OFFER, ASK, ACK, FLOOR, PIECE = 1, 2, 3, 4, 5, 6
MILLION = 10**6
# How often a host is asked, a second apart, before it counts as gone.
TRIES = 60


class Point(NamedTuple):
    """A viewer's pointer: whether its button is down, and its ray in millionths."""

    who: int
    down: int
    ray: tuple

    def line(self):
        return " ".join(["point", str(self.who), str(self.down), *map(numeral, self.ray)])


class Input(NamedTuple):
    """An input that a host numbered: its time in microseconds, and a point, or None for a clock."""

    number: int
    time: int
    point: Point

    def line(self):
        return self.point.line() if self.point else f"clock {numeral(self.time)}"


def numeral(millionths):
    """Millionths as a numeral of a job."""
    whole, rest = divmod(abs(millionths), MILLION)
    return ("-" if millionths < 0 else "") + (f"{whole}.{rest:06}".rstrip("0") if rest else str(whole))


def mark_of(scene):
    return hashlib.sha256(scene).digest()


def datagram(tag, mark, body):
    return HEAD.pack(b"X3DS", 1, tag, mark) + body


def ask(mark, who, first):
    return datagram(ASK, mark, struct.pack(">BI", who, first))


def offer(mark, boot, number, point):
    return datagram(OFFER, mark, struct.pack(">BIIB6q", point.who, boot, number, point.down, *point.ray))


def ack(mark, who, boot, count):
    return datagram(ACK, mark, struct.pack(">BII", who, boot, count))


def clock(mark, number, time):
    return datagram(INPUT, mark, struct.pack(">IqB", number, time, 0))


def read_input(packet):
    """The input of a datagram that is one."""
    number, time, is_point = struct.unpack_from(">IqB", packet, HEAD.size)
    if not is_point:
        return Input(number, time, None)
    who, down, *ray = struct.unpack_from(">BB6q", packet, HEAD.size + 13)
    return Input(number, time, Point(who, down, tuple(ray)))


def answer(end, host, request):
    """The inputs by which a host answers an ask; behind them comes an ack."""
    for _ in range(TRIES):
        end.sendto(request, (HERE, host))
        found = []
        try:
            while not found or found[-1][5] != ACK:
                found.append(end.recv(2048))
            return [read_input(each) for each in found[:-1]]
        except TimeoutError:
            pass
    raise TimeoutError(f"the host at port {host} doesn't answer")


def ask_once(host, mark, who, first):
    """Asks the host at this port for the inputs from a number on, as by this viewer, until it has heard it."""
    with socket.socket(socket.AF_INET, socket.SOCK_DGRAM) as end:
        end.settimeout(1)
        for _ in range(TRIES):
            end.sendto(ask(mark, who, first), (HERE, host))
            try:
                end.recv(2048)
                return
            except TimeoutError:
                pass
    raise TimeoutError(f"the host at port {host} doesn't answer")


def await_floor(host, mark, floor=2):
    """Waits until this host has dropped the inputs below a number. It is asked for the first as by viewer 0."""
    with socket.socket(socket.AF_INET, socket.SOCK_DGRAM) as end:
        end.settimeout(0.1)
        for _ in range(10 * TRIES):
            end.sendto(ask(mark, 0, 1), (HERE, host))
            try:
                while True:
                    packet = end.recv(2048)
                    if packet[5] == FLOOR and int.from_bytes(packet[38:42], "big") >= floor:
                        return
            except TimeoutError:
                pass
    raise TimeoutError(f"the host at port {host} hasn't dropped the inputs below {floor}")


def inputs_of(host, mark):
    """The inputs that the host at this port has numbered: it is asked for them as by viewer 0. What was
    sent to the host before the last ask, it has taken."""
    with socket.socket(socket.AF_INET, socket.SOCK_DGRAM) as end:
        end.settimeout(1)
        found = []
        while more := answer(end, host, ask(mark, 0, len(found) + 1)):
            # What came late answers an earlier ask, and what is lost is asked for again.
            for each in more:
                if each.number == len(found) + 1:
                    found.append(each)
        return found

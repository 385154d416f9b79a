"""The datagrams of version 2, as crates/share_session/README.md has them, and a viewer that speaks it."""
import hashlib
import os
import socket
import struct
from typing import NamedTuple

import log_file
import wire

HEAD = struct.Struct(">4sBB")
HELLO, WELCOME = 7, 8
# Where the body of a datagram of a session begins, and how long Hellos and Welcomes are.
BODY, HELLO_SIZE, WELCOME_SIZE = 22, 128, 84
NO_COOKIE = bytes(8)


class OtherList(Exception):
    """An input that follows on another list."""


class Welcome(NamedTuple):
    who: int
    cookie: bytes
    nonce: bytes
    run: bytes
    viewers: int
    kept: int


class Linked(NamedTuple):
    """An input of version 2: the chain before it, the bytes of its entry, and what it is in version 1."""

    chain: bytes
    entry: bytes
    said: wire.Input


def version_of(packet):
    return packet[4]


def session_of(mark, run):
    return hashlib.sha256(mark + run).digest()[:16]


def hello(mark, who, nonce, name=b"", cookie=NO_COOKIE):
    body = bytes([who]) + cookie + nonce + bytes([len(name)]) + name.ljust(64, b"\0")
    return HEAD.pack(b"X3DS", 2, HELLO) + mark + body


def said(tag, session, body):
    return HEAD.pack(b"X3DS", 2, tag) + session + body


def ask(session, who, first):
    return said(wire.ASK, session, struct.pack(">BQ", who, first))


def offer(session, boot, number, point):
    return said(wire.OFFER, session, struct.pack(">BIIB6q", point.who, boot, number, point.down, *point.ray))


def read_welcome(packet):
    """The Welcome of a datagram that is one."""
    who, cookie, nonce, run, viewers, kept = struct.unpack_from(">B8s16s16sBI", packet, HEAD.size + 32)
    return Welcome(who, cookie, nonce, run, viewers, kept)


def read_ack(packet):
    """The boot and the count of a datagram that is an ack."""
    return struct.unpack_from(">II", packet, BODY + 1)


def read_input(packet):
    """The input of a datagram that is one."""
    chain, number = struct.unpack_from(">16sQ", packet, BODY)
    entry = packet[BODY + 24:]
    time, is_point = struct.unpack_from(">qB", entry)
    point = None
    if is_point:
        who, down, *ray = struct.unpack_from(">BB6q", entry, 9)
        point = wire.Point(who, down, tuple(ray))
    return Linked(chain, entry, wire.Input(number, time, point))


class Viewer:
    """A viewer of version 2 at a port of its own, which keeps the list of inputs that it has applied."""

    def __init__(self, host, mark, who):
        self.host, self.mark, self.who = host, mark, who
        self.end = socket.socket(socket.AF_INET, socket.SOCK_DGRAM)
        self.end.settimeout(1)
        self.list, self.run, self.chain, self.boot, self.offers = [], None, None, 1, 0

    def __enter__(self):
        return self

    def __exit__(self, *_):
        self.end.close()

    def tell(self, packet):
        self.end.sendto(packet, (wire.HERE, self.host))

    def session(self):
        return session_of(self.mark, self.run)

    def greet(self, name=b""):
        """Says Hello once. The Welcome to it, or None if none comes within a second."""
        nonce = os.urandom(16)
        self.tell(hello(self.mark, self.who, nonce, name))
        try:
            while True:
                packet = self.end.recv(2048)
                if packet[4:6] == bytes([2, WELCOME]) and read_welcome(packet).nonce == nonce:
                    if len(packet) != WELCOME_SIZE:
                        raise ValueError(f"a Welcome of {len(packet)} bytes")
                    return read_welcome(packet)
        except TimeoutError:
            return None

    def arrive(self):
        """Says Hello until it is welcomed, and is then in that run, with a boot that the host hasn't heard."""
        for _ in range(wire.TRIES):
            if found := self.greet():
                self.run, self.chain, self.boot = found.run, found.run, found.kept + 1
                return found
        raise TimeoutError(f"the host at port {self.host} welcomes no one")

    def follow(self, found):
        """Applies an input, if it is the next one."""
        if found.said.number != len(self.list) + 1:
            return
        if found.chain != self.chain:
            raise OtherList(found.said.number)
        self.chain = log_file.linked(self.chain, [found.entry])
        self.list.append(found.said)

    def hear(self):
        """What comes up to the next ack of its session, all of version 2: the boot and the count of that ack."""
        front = HEAD.pack(b"X3DS", 2, wire.ACK) + self.session()
        while True:
            packet = self.end.recv(2048)
            if version_of(packet) != 2:
                raise ValueError(f"an answer of version {version_of(packet)}")
            if packet[6:BODY] == self.session() and packet[5] == wire.INPUT:
                self.follow(read_input(packet))
            if packet.startswith(front):
                return read_ack(packet)

    def hear_all(self, packet):
        """Sends a datagram until its answers have come."""
        for _ in range(wire.TRIES):
            self.tell(packet)
            try:
                return self.hear()
            except TimeoutError:
                pass
        raise TimeoutError(f"the host at port {self.host} doesn't answer viewer {self.who} in its run")

    def catch_up(self, until=0):
        """Asks until it has that many inputs, and as long as there are more."""
        had = -1
        while had < len(self.list) or had < until:
            had = len(self.list)
            self.hear_all(ask(self.session(), self.who, had + 1))
        return self.list

    def point(self, down, ray):
        """Offers a point until the host has numbered it."""
        self.offers += 1
        packet = offer(self.session(), self.boot, self.offers, wire.Point(self.who, down, ray))
        while self.hear_all(packet) < (self.boot, self.offers):
            pass

"""A host that speaks version 2 of datagrams alone, for tests of viewers: a list of clocks in a run, and nothing else.
crates/share_session/README.md has the bytes."""
import hashlib
import socket
import struct
import threading
import time

import wire

HELLO, WELCOME = 7, 8
# Lengths of a head with its session, and of a Hello.
HEAD, HELLO_LENGTH = 22, 128
MOST = 64


def session_of(mark, run):
    return hashlib.sha256(mark + run).digest()[:16]


def link(chain, entry):
    """The chain after an entry."""
    return hashlib.sha256(chain + entry).digest()[:16]


def clock_entry(micros):
    return struct.pack(">qB", micros, 0)


class RunHost:
    """A host of a scene, in a run, whose inputs are clocks at these times in microseconds. It answers until it is
    closed. `cookies`: an address is answered only once it brought the cookie back."""

    def __init__(self, scene, run, times, port=0, welcomes=True, cookies=True):
        self.mark, self.welcomes, self.cookies = wire.mark_of(scene), welcomes, cookies
        self.heard, self.hellos, self.asks, self.offers, self.ended = [], [], [], [], False
        self.lock = threading.Lock()
        self.swap(run, times)
        self.end = socket.socket(socket.AF_INET, socket.SOCK_DGRAM)
        self.end.settimeout(0.05)
        self.end.bind((wire.HERE, port))
        self.port = self.end.getsockname()[1]
        self.work = threading.Thread(target=self.serve, daemon=True)
        self.work.start()

    def __enter__(self):
        return self

    def __exit__(self, *_):
        self.ended = True
        self.work.join()
        self.end.close()

    def swap(self, run, times):
        """Goes on as the host of this run."""
        with self.lock:
            self.run, self.session, self.inputs, chain = run, session_of(self.mark, run), [], run
            for number, micros in enumerate(times, 1):
                entry = clock_entry(micros)
                self.inputs.append(chain + struct.pack(">Q", number) + entry)
                chain = link(chain, entry)
            self.known = set()

    def said(self, tag, body, session=None):
        return b"X3DS" + bytes([2, tag]) + (session or self.session) + body

    def tell(self, peer, count, session=None):
        """Sends the first inputs to a peer, as in another session if one is given."""
        for body in self.inputs[:count]:
            self.end.sendto(self.said(wire.INPUT, body, session), peer)

    def greet(self, packet, peer):
        """Notes a Hello, and answers it."""
        who, cookie, nonce = packet[38], packet[39:47], packet[47:63]
        self.hellos.append((time.monotonic(), who, cookie, nonce))
        if not self.welcomes:
            return
        own = hashlib.sha256(repr(peer).encode()).digest()[:8]
        if cookie == own or not self.cookies:
            self.known.add(peer)
        body = self.mark + bytes([who]) + own + nonce + self.run + bytes([2]) + bytes(4)
        self.end.sendto(b"X3DS" + bytes([2, WELCOME]) + body, peer)

    def answer(self, packet, peer):
        if packet[:5] != b"X3DS\x02":
            self.heard.append(packet)
        elif packet[5] == HELLO and len(packet) == HELLO_LENGTH and packet[6:38] == self.mark:
            self.greet(packet, peer)
        elif packet[6:22] == self.session and peer in self.known:
            self.obey(packet[5], packet[HEAD:], peer)

    def obey(self, tag, body, peer):
        """Answers an ask with the inputs from its number on and an ack; notes an offer."""
        if tag == wire.ASK:
            who, first = struct.unpack(">BQ", body)
            self.asks.append((peer, first))
            for each in self.inputs[first - 1 : first - 1 + MOST]:
                self.end.sendto(self.said(wire.INPUT, each), peer)
            self.end.sendto(self.said(wire.ACK, struct.pack(">BII", who, 1, 0)), peer)
        elif tag == wire.OFFER:
            self.offers.append(body)

    def serve(self):
        while not self.ended:
            try:
                packet, peer = self.end.recvfrom(2048)
            except TimeoutError:
                continue
            with self.lock:
                self.answer(packet, peer)

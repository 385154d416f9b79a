"""Connections and their limits: how many there may be, of one address and in all, and how long each may take until it
is a window's. What is no window's is over after that, however slowly it is sent or read."""
import asyncio
from collections import Counter

# Seconds for a request and its answer, and how many connections there may be at once.
PATIENCE, CONNECTIONS = 15, 600


class Guard:
    """Counts connections by address."""

    def __init__(self, each, make):
        self.each, self.make, self.open = each, make, Counter()
        self.timers = {}

    def __call__(self):
        return Guarded(self, self.make())

    def admits(self, address):
        return self.open.total() < CONNECTIONS and (not self.each or self.open[address] < self.each)

    def begin(self, address, transport):
        self.open[address] += 1
        self.timers[transport] = asyncio.get_running_loop().call_later(PATIENCE, transport.abort)

    def connected(self, transport):
        """The connection is a window's: it may last."""
        timer = self.timers.pop(transport, None)
        if timer:
            timer.cancel()

    def end(self, address, transport):
        self.open[address] -= 1
        self.open += Counter()
        self.connected(transport)


class Guarded(asyncio.Protocol):
    """A connection: hands all to the protocol of aiohttp, if it is admitted."""

    def __init__(self, guard, inner):
        self.guard, self.inner, self.address, self.transport = guard, inner, None, None

    def connection_made(self, transport):
        address = (transport.get_extra_info("peername") or ("?",))[0]
        if not self.guard.admits(address):
            return transport.abort()
        self.address, self.transport = address, transport
        self.guard.begin(address, transport)
        self.inner.connection_made(transport)

    def connection_lost(self, fault):
        if self.transport:
            self.guard.end(self.address, self.transport)
            self.inner.connection_lost(fault)

    def data_received(self, data):
        if self.transport:
            self.inner.data_received(data)

    def eof_received(self):
        return self.inner.eof_received() if self.transport else None

    def pause_writing(self):
        self.inner.pause_writing()

    def resume_writing(self):
        self.inner.resume_writing()

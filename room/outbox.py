"""What a window is to be sent, by a WebSocket of aiohttp."""
import asyncio
import collections
import functools
import struct

from aiohttp import WSCloseCode

from service import WAITING

# How many bytes of datagrams may wait in a connection, and how many datagrams before they come there.
UNSENT, BATCH = 1 << 18, 4096


@functools.lru_cache(4096)
def frame_of(datagram):
    """A binary message of one datagram, at most 256 bytes, as a server sends it (RFC 6455, 5.2)."""
    size = len(datagram)
    return (bytes((0x82, size)) if size < 126 else struct.pack(">BBH", 0x82, 126, size)) + datagram


class Outbox:
    """What a window is to be sent: events, and lists of datagrams. Of what waits there is so much at most."""

    def __init__(self, transport):
        self.transport, self.waiting, self.wakes = transport, collections.deque(), asyncio.Event()
        self.open, self.code = True, WSCloseCode.GOING_AWAY

    def put(self, told):
        """Puts an event; false where too much waits, and then the connection ends."""
        if len(self.waiting) >= WAITING:
            self.close()
        if self.open:
            self.waiting.append(told)
            self.wakes.set()
        return self.open

    def carry(self, datagram):
        """Puts a datagram. It is lost where the window doesn't take what it was sent before."""
        if not self.open or self.transport.get_write_buffer_size() > UNSENT:
            return
        if not self.waiting or isinstance(self.waiting[-1], str):
            self.waiting.append([])
            self.wakes.set()
        if len(self.waiting[-1]) < BATCH:
            self.waiting[-1].append(datagram)

    def close(self, code=WSCloseCode.GOING_AWAY):
        """Nothing more is sent, and the connection ends."""
        if self.open:
            self.open, self.code = False, code
            self.waiting.clear()
            self.wakes.set()

    async def send_to(self, connection):
        while self.open:
            await self.wakes.wait()
            self.wakes.clear()
            while self.waiting:
                told = self.waiting.popleft()
                if isinstance(told, str):
                    await connection.send_str(told)
                else:
                    # Whole messages at once: sent one by one they take too long.
                    self.transport.write(b"".join(map(frame_of, told)))
        await connection.close(code=self.code)

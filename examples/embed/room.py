"""A room with asyncio: a server with the host, and clients with a viewer each, over TCP. The server
believes no viewer number in a datagram: a connection is of one viewer. A client that comes late, when
the host has dropped its first inputs, joins by pieces of another client's snapshot.

A frame is two bytes of length, one letter, and the rest: `d` a datagram, `j` of a client that wants
to join, or of the server to one that is to give; `b` and a number: the boot to join under."""

import asyncio
import struct
import sys

from x3d import Aim, Fault, Host, Viewer, datagram

SCENE = """#X3D V3.0 utf8
DEF Motor TimeSensor { cycleInterval 2 }
DEF Slide PositionInterpolator { key [ 0, 1 ] keyValue [ 0 0 0, 1 0 0 ] }
DEF Door Transform {
  children [
    DEF Knob TouchSensor {}
    Shape { geometry Box { size 1 2 0.1 } }
  ]
}
ROUTE Knob.touchTime TO Motor.startTime
ROUTE Motor.fraction_changed TO Slide.set_fraction
ROUTE Slide.value_changed TO Door.translation
"""
VIEWERS, CLOCKS, TICK, KEPT = 3, 150, 0.01, 20
AIM = Aim((0, 0, 10_000_000), (0, 0, -1_000_000))


def send(writer, letter, rest=b""):
    writer.write(struct.pack(">H", len(rest) + 1) + letter + rest)


async def receive(reader):
    """The letter of the next frame, and the rest."""
    (size,) = struct.unpack(">H", await reader.readexactly(2))
    frame = await reader.readexactly(size)
    return frame[:1], frame[1:]


class Server:
    """The host, and who is connected."""

    def __init__(self):
        self.host = Host(SCENE, VIEWERS)
        self.writers, self.joining, self.boots = {}, set(), 1
        self.tasks = []

    def take(self, who, packet):
        """Takes a datagram of a connection, and sends what belongs to it."""
        try:
            reply = self.host.take_from(who, packet)
        except Fault as fault:
            print(f"viewer {who}: {fault}", file=sys.stderr)
            return
        for answer in self.host.packets(reply):
            send(self.writers[who], b"d", answer)
        send(self.writers[who], b"d", self.host.ack(who))

    def begin_join(self, who):
        """Another client gives its snapshot, to be joined under the next boot."""
        givers = [other for other in self.writers if other != who and other not in self.joining]
        if not givers:
            return
        self.joining.add(who)
        self.boots += 1
        send(self.writers[who], b"b", struct.pack(">I", self.boots))
        send(self.writers[givers[0]], b"j")

    async def serve(self, reader, writer):
        self.tasks.append(asyncio.current_task())
        who = len(self.writers)
        self.writers[who] = writer
        writer.write(bytes([who]))
        try:
            while True:
                letter, rest = await receive(reader)
                if letter == b"j":
                    self.begin_join(who)
                elif datagram(rest).kind == "Piece":
                    for other in self.joining - {who}:
                        send(self.writers[other], b"d", rest)
                else:
                    self.take(who, rest)
                    if datagram(rest).kind == "Ask":
                        self.joining.discard(who)
        except asyncio.IncompleteReadError:
            writer.close()

    async def run(self):
        # Only clients that have asked hold the floor back.
        while None in (self.host.heard(0), self.host.heard(1)):
            await asyncio.sleep(TICK)
        for clock in range(CLOCKS):
            self.host.clock(10_000_000 + clock * 20_000)
            self.host.keep(KEPT)
            await asyncio.sleep(TICK)


class Client:
    """A viewer, its connection, and what it drew: the numbers of each field."""

    def __init__(self, reader, writer, who):
        self.reader, self.writer = reader, writer
        self.viewer = Viewer(SCENE, who, 1)
        self.picture, self.drawn, self.boot, self.joins = {}, 0, 0, 0
        self.is_joining = False

    def take(self, packet):
        try:
            if self.viewer.take(packet).kind == "Behind" and not self.is_joining:
                self.is_joining = True
                send(self.writer, b"j")
        except Fault as fault:
            if fault.name not in ("NotForMe", "Spoiled"):
                raise
            if self.is_joining and self.viewer.gather(packet) == "Whole":
                self.viewer.join(self.boot)
                self.is_joining, self.joins = False, self.joins + 1
                self.draw_all()

    def draw_all(self):
        """Draws each field that holds a value: a snapshot lacks the lines that its viewer forgot."""
        for node in range(self.viewer.node_count()):
            for field in range(self.viewer.field_count(node)):
                try:
                    self.picture[node, field] = self.viewer.numbers(node, field)
                except Fault:  # a field that only sends holds no value
                    pass
        self.drawn = self.viewer.applied()

    def draw(self):
        """Draws the fields that were set since the last time."""
        for field in self.viewer.changed(self.drawn):
            self.picture[field.node, field.field] = field.numbers
        self.drawn = self.viewer.applied()

    async def listen(self):
        while True:
            letter, rest = await receive(self.reader)
            if letter == b"d":
                self.take(rest)
            elif letter == b"b":
                (self.boot,) = struct.unpack(">I", rest)
            else:
                for piece in self.viewer.pieces():
                    send(self.writer, b"d", piece)

    async def run(self, until):
        listening = asyncio.ensure_future(self.listen())
        while self.viewer.applied() < until:
            if not self.is_joining:
                for offer in self.viewer.resend():
                    send(self.writer, b"d", offer)
                send(self.writer, b"d", self.viewer.ask())
            self.draw()
            await asyncio.sleep(TICK)
            if listening.done():
                raise listening.exception() or EOFError
        self.draw()
        listening.cancel()
        self.writer.close()


async def connect(port):
    reader, writer = await asyncio.open_connection("127.0.0.1", port)
    (who,) = await reader.readexactly(1)
    return Client(reader, writer, who)


def is_right(client):
    """Whether each field that was drawn is drawn as it is."""
    return all(client.viewer.numbers(*place) == numbers for place, numbers in client.picture.items())


async def main():
    server = Server()
    listening = await asyncio.start_server(server.serve, "127.0.0.1", 0)
    port = listening.sockets[0].getsockname()[1]
    clients = [await connect(port) for _ in range(2)]
    for down in (True, False):
        clients[0].viewer.offer(down, AIM)
    until = CLOCKS + 2
    tasks = [asyncio.ensure_future(client.run(until)) for client in clients]
    clocks = asyncio.ensure_future(server.run())
    await asyncio.sleep(CLOCKS * TICK / 2)
    clients.append(await connect(port))
    tasks.append(asyncio.ensure_future(clients[-1].run(until)))
    await asyncio.wait_for(asyncio.gather(clocks, *tasks), 60)
    scenes = {client.viewer.scene() for client in clients}
    good = len(scenes) == 1 and clients[-1].joins == 1 and all(map(is_right, clients))
    print(f"{len(server.host)} inputs, floor {server.host.floor()}, {len(scenes)} scene at {len(clients)} clients")
    listening.close()
    await asyncio.gather(*server.tasks)
    return 0 if good else 1


if __name__ == "__main__":
    sys.exit(asyncio.run(main()))

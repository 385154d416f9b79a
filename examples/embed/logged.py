"""A host over a log file, that of the program's `host --log`: it shows what is on the disk alone, and a host
that is resumed from that file is the host that it was. Two viewers go on beside it. This kills it
(SIGKILL) again and again, and compares the viewers with the world of the file's entries."""

import os
import pickle
import random
import signal
import subprocess
import sys
import tempfile

from x3d import Aim, Fault, Host, Log, Viewer, World, datagram

SCENE = """#X3D V3.0 utf8
DEF Motor TimeSensor { cycleInterval 2 loop TRUE }
DEF Slide PositionInterpolator { key [ 0, 1 ] keyValue [ 0 0 0, 1 0 0 ] }
DEF Door Transform {
  children [
    DEF Knob TouchSensor {}
    Shape { geometry Box { size 1 2 0.1 } }
  ]
}
ROUTE Motor.fraction_changed TO Slide.set_fraction
ROUTE Slide.value_changed TO Door.translation
"""
VIEWERS, TURNS, TICK, SECOND = 2, 200, 50_000, 1_000_000
AIM = Aim((0, 0, 10_000_000), (0, 0, -1_000_000))


class LoggedHost:
    """A host over the log in a file, which is made if it is missing."""

    def __init__(self, file, scene, viewers):
        try:
            self.log = Log(file, scene, viewers)
        except Fault as fault:
            if fault.name not in ("NoLog", "BadHead"):  # it is missing, or its making was cut off
                raise
            self.log = Log.make(file, scene, viewers)
        self.host = Host.resume(scene, viewers, self.log.read())

    def turn(self, time, arrived):
        """Numbers a clock, if there is a time, takes datagrams, each with the viewer that it is from, and
        stores what was numbered. Then it returns what to send: asks are answered by what was stored
        before. After an error begin again with a new one."""
        if time:
            self.host.clock(time)
        replies = []
        for who, packet in arrived:
            try:
                replies.append((who, self.host.take_from(who, packet)))
            except Fault:  # refused: nothing has changed
                continue
        append = self.host.append()
        if append.bytes:
            self.log.append(append.bytes)  # on the disk, or it raises Fault
            self.host.stored(append.token)
        return [(who, packet) for who, reply in replies for packet in (*self.host.packets(reply), self.host.ack(who))]


def serve(file):
    """A process with a host: it reads turns, and writes what is to be sent."""
    host = LoggedHost(file, SCENE, VIEWERS)
    while True:
        time, arrived = pickle.load(sys.stdin.buffer)
        sys.stdout.buffer.write(pickle.dumps(host.turn(time, arrived)))
        sys.stdout.buffer.flush()


def started(file):
    words = [sys.executable, __file__, "serve", file]
    return subprocess.Popen(words, stdin=subprocess.PIPE, stdout=subprocess.PIPE)


def exchanged(process, time, arrived, dies):
    """What the host answers, or nothing if it is killed meanwhile."""
    process.stdin.write(pickle.dumps((time, arrived)))
    process.stdin.flush()
    if dies:
        os.kill(process.pid, signal.SIGKILL)
    try:
        return pickle.load(process.stdout)
    except EOFError:
        return []


def replayed(file):
    """The scene of the file's entries, and how many there are."""
    host = LoggedHost(file, SCENE, VIEWERS)
    with World(SCENE) as world:
        for number in range(1, len(host.host) + 1):
            told = datagram(host.host.packet(number))
            if told.aim is None:
                world.clock(number, told.time)
            else:
                world.point(number, told.time, told.who, told.down, told.aim)
        return world.scene(), len(host.host)


def main(file):
    dice, killed, time = random.Random(1), 0, SECOND
    viewers = [Viewer(SCENE, who, 1) for who in range(VIEWERS)]
    process = started(file)
    for turn in range(TURNS):
        time += TICK
        for who, viewer in enumerate(viewers):
            if turn % 7 == who and viewer.waiting() < 64:
                viewer.offer(turn % 2 == 0, AIM)
        arrived = [(who, packet) for who, viewer in enumerate(viewers) for packet in (*viewer.resend(), viewer.ask())]
        dies = dice.random() < 0.1 and turn < TURNS - 3
        for who, packet in exchanged(process, time, arrived, dies):
            viewers[who].take(packet)
        if dies:
            process.communicate()
            process, killed = started(file), killed + 1
    for _ in range(2 + TURNS // 32):  # at most 64 inputs an ask
        for who, packet in exchanged(process, None, [(who, viewer.ask()) for who, viewer in enumerate(viewers)], False):
            viewers[who].take(packet)
    process.kill()
    process.communicate()
    scene, count = replayed(file)
    for viewer in viewers:
        assert viewer.applied() == count and viewer.scene() == scene, "a viewer has another world"
        assert viewer.waiting() == 0, "an offer was lost"
    print(f"killed {killed} times: {count} inputs, and each viewer has them")


if sys.argv[1:2] == ["serve"]:
    serve(sys.argv[2])
else:
    with tempfile.TemporaryDirectory() as folder:
        main(os.path.join(folder, "world.log"))

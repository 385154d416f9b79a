"""Tests of viewers that windows hold: without a browser, and without the library for windows."""
import random

from channel import Channel
from library import wire, x3d
from room import CHECK, KEPT
from crowd import AIM, Holder, Windowed, press
from served import AT_BUTTON, TRAINER, Served, library_for_windows
from tests_room import Turned


class Held(Turned):
    """A room whose windows hold their viewers."""

    def __init__(self, count):
        super().__init__()
        self.holders, self.boxes = {}, {}
        for _ in range(count):
            self.join()

    def join(self):
        holder, box = Holder(), []
        who = self.room.join(box.append, holder.told, lambda: True)
        self.holders[who], self.boxes[who] = holder, box
        return holder

    def turns(self, count):
        for _ in range(count):
            super().turns(1)
            for who, holder in self.holders.items():
                for datagram in holder.says():
                    self.room.receive(who, datagram)
            self.room.carry()
            for who, holder in self.holders.items():
                seat, box = self.room.seats[who], self.boxes[who]
                for datagram in box:
                    holder.take(datagram, lambda: seat.give_boot(self.room))
                box.clear()
                if holder.viewer:
                    seat.stand(*holder.stands, holder.viewer.waiting())


def test_viewers_in_windows_are_equal_over_a_bad_channel():
    held = Held(3)
    # One more runs in the server.
    near = held.room.join()
    held.room.channel = Channel(0.3, 0.2, 0.3, random.Random(2))
    held.turns(3)
    press(held.holders[1].viewer)
    held.turns(300)
    held.equal()
    held.room.channel.loss = held.room.channel.repeat = held.room.channel.reorder = 0
    held.turns(20)
    worlds = {holder.viewer.trace() + holder.viewer.scene() for holder in held.holders.values()}
    assert len(worlds) == 1 and "Door.translation 1.1 0 0\n" in worlds.pop()
    assert held.viewer(near).applied() == held.holders[0].viewer.applied()
    assert all(held.room.status()["viewers"][who]["lost"] for who in range(4))


def test_a_viewer_in_a_window_is_stopped_and_restarts():
    held = Held(2)
    held.turns(CHECK + 20)
    held.room.kill(1)
    stopped = held.holders[1]
    assert stopped.viewer is None and not held.room.status()["viewers"][1]["runs"]
    press(held.holders[0].viewer)
    held.turns(20)
    old = stopped.boot
    held.room.start(1)
    assert stopped.viewer.applied() == CHECK and stopped.boot > old
    held.turns(CHECK)
    assert held.equal() >= 2 * CHECK
    assert held.holders[0].viewer.trace() == stopped.viewer.trace()


def test_a_late_window_joins_its_viewer_by_pieces():
    held = Held(1)
    held.turns(KEPT + 200)
    # Where no viewer runs in the server, its record has the snapshot.
    held.room.renew(held.holders[0].viewer.applied(), held.holders[0].viewer.snapshot())
    held.turns(50)
    held.room.channel = Channel(0.3, 0.2, 0.3, random.Random(3))
    floor, late = held.room.host.floor(), held.join()
    held.turns(1)
    assert floor > 1 and late.viewer.applied() == 0
    held.turns(60)
    assert late.viewer.applied() > floor and held.room.seats[1].joins is None, held.room.status()
    held.turns(2 * CHECK)
    held.equal()


def test_a_windows_datagrams_are_its_own_viewers():
    held = Held(2)
    held.turns(2)
    room, one = held.room, held.holders[0]
    count = lambda: held.turns(1) or sum(1 for n in range(1, len(room.host) + 1) if room.read(room.host.packet(n)).point)
    # Those of another viewer, of a boot that wasn't given, and what is none.
    for who, boot in ((1, one.boot), (0, one.boot + 1), (0, 2**32 - 1)):
        foreign = x3d.Viewer(room.text, who, boot)
        foreign.offer(True, AIM)
        room.receive(0, foreign.resend()[0])
        room.receive(0, foreign.ask() if who else b"X3DS")
    room.receive(0, b"")
    room.receive(0, bytes(100))
    room.receive(0, wire.datagram(wire.INPUT, wire.mark_of(room.text), bytes(13)))
    assert count() == 0
    # Its own are numbered, as far as its pace allows.
    room.seats[0].takes = iter((True, True, False)).__next__
    press(one.viewer)
    assert count() == 2 and one.viewer.waiting() == 1


def started(viewer):
    """When the motor of the door was started."""
    motor = viewer.node_named("Motor")
    return float(viewer.value(motor, viewer.field_named(motor, "startTime")))


def last(client, kind):
    return next((told for told in reversed(client.events) if told["kind"] == kind), {})


def test_a_window_of_a_server_holds_its_viewer():
    with library_for_windows() as folder:
        with Served(more=("--each", "64", "--wasm", folder)) as served:
            assert b'<body data-library="x3d">' in served.ask("GET", "/door/")[1]
            ana, tina = Windowed(served, name="Ana"), served.client(name="Tina", trainer=TRAINER)
            told = lambda: last(ana, "status")
            ana.run(lambda: len(told().get("viewers", ())) == 2 and (told()["equal_at"] or 0) >= CHECK)
            viewers = last(ana, "status")["viewers"]
            assert [(each["far"], each["runs"]) for each in viewers] == [(True, True), (False, True)], viewers
            press(ana.holder.viewer)
            said = "pressed the door's button"
            ana.run(lambda: any(each["text"] == said for each in last(ana, "log")["log"]))
            assert last(ana, "log")["log"][-1]["name"] == "Ana" and ana.status("point", down=True, aim=AT_BUTTON) == 409
            assert ana.status("stand", at=10**9, digest=None, waiting=0) == 400
            assert ana.status("stand", at=1, digest="x", waiting=0) == 400
            assert tina.status("stand", at=1, digest=None, waiting=0) == tina.status("boot") == 409
            boot = ana.holder.boot
            assert tina.status("kill", who=0) == 200
            ana.run(lambda: ana.holder.viewer is None)
            assert ana.status("start") == 200 and ana.holder.boot > boot
            number = ana.holder.viewer.applied()
            ana.run(lambda: ana.holder.viewer.applied() > number + 60)
            assert number >= CHECK and started(ana.holder.viewer) > 0


def test_a_server_without_the_library_runs_all_viewers():
    with Served(more=("--wasm", "/none")) as served:
        client = served.client(holds=True)
        assert client.until("scene")["roots"] and not client.until("status")["viewers"][0]["far"]
        assert b"<body>" in served.ask("GET", "/door/")[1] and served.get("/static/x3d/index.js") == 404
        client.socket.send(b"datagram", 2)
        assert client.until("answer")["status"] == 415


def altered(chance, datagram):
    """Bytes that are no datagram, or one of which some are others."""
    kind = chance.randrange(3)
    if kind == 0:
        return bytes(chance.randrange(256) for _ in range(chance.randrange(300)))
    if kind == 1:
        return datagram[: chance.randrange(len(datagram))]
    changed = bytearray(datagram)
    for _ in range(chance.randrange(1, 4)):
        changed[chance.randrange(len(changed))] = chance.randrange(256)
    return bytes(changed)


def test_hostile_datagrams_never_stop_it():
    """Nor do wrong words on how a viewer stands. The window's viewer goes on, and no one else is pointed for."""
    chance, odd = random.Random(6), (None, -1, 1.5, "0" * 16, [0], 2**70, True)
    with library_for_windows() as folder, Served(more=("--each", "64", "--wasm", folder)) as served:
        ana, other = Windowed(served), served.client()
        ana.run(lambda: ana.holder.viewer.applied() > 10)
        ana.holder.viewer.offer(False, AIM)
        true = ana.holder.says()
        for _ in range(2000):
            ana.socket.send(altered(chance, chance.choice(true)), 2)
            if chance.random() < 0.02:
                told = ana.status("stand", at=chance.choice(odd), digest=chance.choice(odd), waiting=chance.choice(odd))
                assert told in (400, 429), told
        number = ana.holder.viewer.applied()
        ana.run(lambda: ana.holder.viewer.applied() > number + 60)
        other.events.clear()
        viewers = other.until("status")["viewers"]
        assert [each["runs"] for each in viewers] == [True, True] and served.client().seat["kind"] == "you"

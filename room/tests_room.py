"""Tests of the room without a server: its network, its viewers, its record, what is kept, what is refused."""
import random
import re
import tempfile
from pathlib import Path

from channel import Channel
from explain import Unshown, read_scene_file, refused
from player import Player
from record import Record, apply
from library import x3d
from room import CHECK, KEPT, Room
from scene import Names
from seat import LINES, digest_of
from served import AT_BUTTON, scene, scene_file
from store import Store, millionths, read_inputs


class Turned:
    """A room whose time passes as the test says, thirty turns a second."""

    def __init__(self, text=None):
        self.room, self.time = Room(text or scene()), 10**7

    def turns(self, count):
        for _ in range(count):
            self.time += 33_333
            self.room.turn(self.time)

    def viewer(self, who):
        return self.room.seats[who].viewer

    def click(self, who):
        for down in (False, True, False):
            self.viewer(who).offer(down, x3d.Aim(AT_BUTTON[:3], AT_BUTTON[3:]))

    def equal(self):
        """The number at which all are equal, which has to be a late one; nothing may differ."""
        status = self.room.status()
        assert not status["different"] and status["equal_at"] is not None, status
        assert status["equal_at"] > status["numbered"] - 3 * CHECK, status
        return status["equal_at"]


def test_the_channel_loses_and_repeats():
    channel = Channel(loss=0.3, repeat=0.2, chance=random.Random(1))
    for number in range(10_000):
        channel.send(0, True, number)
    arrived = len(channel.arrived())
    assert 8_000 < arrived < 8_800 and arrived + channel.lost[0] - 10_000 > 1_700


def test_the_channel_reorders():
    channel, got = Channel(reorder=0.5, chance=random.Random(1)), []
    for number in range(110):
        if number < 100:
            channel.send(0, True, number)
        got += [datagram for _, _, datagram in channel.arrived()]
        channel.pass_turn()
    assert got != sorted(got) and sorted(got) == [*range(100)]


def test_viewers_are_equal_over_a_bad_channel():
    turned = Turned()
    room = turned.room
    first, second = room.join(), room.join()
    room.channel = Channel(0.3, 0.2, 0.3, random.Random(2))
    turned.turns(3)
    turned.click(first)
    turned.turns(60)
    trace = turned.viewer(second).trace()
    assert [line.split()[2:] for line in trace.splitlines() if "Button.isActive" in line] == [
        ["Button.isActive", "TRUE"],
        ["Button.isActive", "FALSE"],
    ], trace
    turned.turns(240)
    turned.equal()
    room.channel.loss = room.channel.repeat = room.channel.reorder = 0
    turned.turns(20)
    one, other = (
        (viewer.applied(), viewer.trace(), viewer.scene())
        for viewer in (turned.viewer(first), turned.viewer(second))
    )
    assert one == other and "Door.translation 1.1 0 0\n" in one[1]


def test_a_killed_viewer_restarts_from_its_snapshot():
    turned = Turned()
    first, second = turned.room.join(), turned.room.join()
    turned.turns(CHECK + 20)
    turned.room.kill(second)
    turned.click(first)
    turned.turns(20)
    turned.room.start(second)
    assert turned.viewer(second).applied() == CHECK
    turned.turns(CHECK)
    assert turned.equal() >= 2 * CHECK
    assert turned.viewer(first).trace() == turned.viewer(second).trace()


def was_started(world):
    """Whether the motor of the door was started once: a click does so."""
    return bool(re.search(r"\bstartTime [1-9]", world.scene()))


def test_a_saved_world_keeps_the_last_lines_alone():
    run = Recorded()
    first, second = run.room.join(), run.room.join()
    run.turns(30)
    run.click(first)
    run.turns(LINES // 2)
    assert "Door.translation 1.1 0 0\n" in run.viewer(second).trace()
    run.turns(3 * CHECK)
    # One that begins in an older snapshot is equal at the next mark.
    run.room.kill(second)
    run.turns(CHECK)
    run.room.start(second)
    run.turns(KEPT)
    run.equal()
    for world in (run.viewer(first), run.viewer(second), run.record.world):
        assert world.trace() == "" and was_started(world)
    # A window that lacks more gets all; one that lacks less, what was changed.
    number = run.record.world.applied()
    assert [run.record.news(number - lacks)[0] for lacks in (1, LINES, LINES + 1)] == ["news", "news", "scene"]


def test_a_late_window_joins_by_pieces():
    turned = Turned()
    turned.room.join()
    turned.turns(KEPT + 3 * CHECK)
    turned.room.channel = Channel(0.3, 0.2, 0.3, random.Random(3))
    floor = turned.room.host.floor()
    late = turned.room.join()
    turned.turns(1)
    assert floor > 1 and turned.viewer(late).applied() == 0, floor
    turned.turns(60)
    assert turned.viewer(late).applied() > floor, turned.room.status()
    turned.turns(2 * CHECK)
    turned.equal()


def test_a_world_without_windows_rests_and_is_kept():
    turned = Turned()
    turned.room.join()
    turned.click(0)
    turned.turns(KEPT + 3 * CHECK)
    turned.room.leave(0)
    numbered = len(turned.room.host)
    turned.turns(50)
    assert len(turned.room.host) == numbered
    late = turned.room.join()
    turned.turns(60)
    assert turned.viewer(late).applied() == numbered + 60, turned.room.status()
    assert was_started(turned.viewer(late))


def test_a_window_is_told_what_changed():
    turned = Turned()
    turned.room.join()
    turned.turns(3)
    seat = turned.room.seats[0]
    kind, told = seat.news()
    nodes = told["nodes"]
    assert (kind, told["n"], nodes[0]["kind"]) == ("scene", 3, "Viewpoint"), told["n"]
    turned.click(0)
    turned.turns(40)
    kind, told = seat.news()
    assert (kind, told["n"], [point.who for point in told["points"]]) == ("news", 46, [0])
    fields = lambda nodes: {(k, name): held for k, node in enumerate(nodes) for name, held in node["fields"].items()}
    old, new = fields(nodes), fields(seat.names.scene(seat.viewer)["nodes"])
    now = {(node, name): told for node, name, _, told in told["now"]}
    assert {each for each in new if new[each] != old[each]} <= set(now) <= set(new) and len(now) == len(told["now"])
    for (node, name), told in now.items():
        assert told == seat.viewer.numbers(node, seat.viewer.field_named(node, name)), (node, name)


# Two interpolators go to one field. At 0.5 of the cycle the first sets 0.5 0 0, which is sent; the second sets
# 0 2.5 0, which isn't, since the field has sent at that time.
TWICE = """#X3D V3.0 utf8
DEF Door Transform { children Shape { geometry Box {} } }
DEF Motor TimeSensor { cycleInterval 2 loop TRUE startTime 10 }
DEF One PositionInterpolator { key [ 0 1 ] keyValue [ 0 0 0, 1 0 0 ] }
DEF Other PositionInterpolator { key [ 0 1 ] keyValue [ 0 0 0, 0 5 0 ] }
ROUTE Motor.fraction_changed TO One.set_fraction
ROUTE Motor.fraction_changed TO Other.set_fraction
ROUTE One.value_changed TO Door.translation
ROUTE Other.value_changed TO Door.translation
"""


def test_news_say_what_a_field_holds_and_not_its_last_line():
    world = x3d.World(TWICE)
    names = Names(world)
    world.clock(1, 10_000_000)
    world.clock(2, 11_000_000)
    told = names.news(world, 1)
    lines = [line for line in told["trace"].splitlines() if " Door." in line]
    assert lines == ["2 11 Door.translation 0.5 0 0"], lines
    door = names.nodes["Door"]
    assert [each for each in told["now"] if each[0] == door] == [[door, "translation", "SFVec3f", [0, 2_500_000, 0]]]
    assert "translation 0 2.5 0" in world.scene()


UNNAMED = """#X3D V3.0 utf8
Group {
  children [
    Transform { children [ TouchSensor {} Shape { geometry DEF Twice Box {} } ] }
    DEF Twice Transform { children Shape { geometry USE Twice } }
    DEF Own Script {
      url "x3dshare:counter" initializeOnly SFInt32 start 4 initializeOnly SFInt32 step 1
      inputOnly SFBool tick outputOnly SFInt32 count
    }
  ]
}
"""


def test_a_scene_is_told_by_nodes():
    world = x3d.World(UNNAMED)
    told = Names(world).scene(world)
    kinds = "TouchSensor Box Shape Transform Shape Transform Script Group".split()
    assert [node["kind"] for node in told["nodes"]] == kinds and told["roots"] == [7]
    assert [node["label"] for node in told["nodes"]] == [*(f"N{k}" for k in range(6)), "Own", "N7"]
    fields = [node["fields"] for node in told["nodes"]]
    assert fields[1]["size"] == "2 2 2" and fields[2]["geometry"] == fields[4]["geometry"] == [1]
    assert fields[7]["children"] == [3, 5, 6] and fields[6]["start"] == "4", fields


class Recorded(Turned):
    """A room with its record."""

    def __init__(self):
        super().__init__()
        self.record = Record(self.room.text)

    def turns(self, count):
        for _ in range(count):
            super().turns(1)
            self.record.follow(self.room, lambda who: ("Ana", "#123456"))


def recorded(turns):
    """A room in which Ana pressed the button early, after `turns` more."""
    run = Recorded()
    run.room.join()
    run.turns(30)
    run.click(0)
    run.turns(turns)
    return run


def test_a_record_has_what_happened():
    run = recorded(60)
    record, viewer = run.record, run.viewer(0)
    assert record.world.trace() == viewer.trace() and len(record.inputs) == 93
    # 30 clocks, the clock of the turn, and the pointer with its button up come before it.
    assert [(entry.name, entry.text, entry.n) for entry in record.log] == [("Ana", "pressed the door's button", 33)]


def test_a_record_is_a_job_that_makes_the_same_world():
    record = recorded(60).record
    steps, _, text = record.job().partition(b"scene\n")
    again = Record(text, read_inputs(steps.decode()))
    assert again.world.trace() == record.world.trace() and again.world.scene() == record.world.scene()
    assert [millionths(each) for each in ("0", "-0.5", "12.000001", "-3")] == [0, -500_000, 12_000_001, -3_000_000]


def test_a_replay_shows_each_input_by_the_nearest_snapshot():
    record = recorded(1500).record
    assert sorted(record.snapshots) == [0, 600, 1200], [*record.snapshots]
    player = Player(record)
    for number in (0, 1300, 40, 700, 650, 1201):
        player.seek(number)
        plain = x3d.World(record.text)
        for each in range(1, number + 1):
            apply(plain, record.inputs.at(each))
        plain.forget_below(number + 1)
        assert player.world.applied() == number and player.news()[0] == "scene"
        assert digest_of(player.world.snapshot(5)) == digest_of(plain.snapshot(5)), number


def test_a_replay_takes_as_long_as_its_speed_says():
    record = recorded(300).record
    # Of 333 inputs 330 are clocks, 33,333 microseconds apart: some eleven seconds.
    for speed, turns in ((1, 330), (4, 83), (16, 21)):
        player = Player(record)
        player.play(True, speed)
        count = 0
        while player.playing:
            player.turn(33_333)
            count += 1
        assert abs(count - turns) <= 3 and player.world.applied() == 333, (speed, count)


def test_a_run_is_kept_and_goes_on():
    with tempfile.TemporaryDirectory() as folder:
        run = recorded(100)
        store = Store(folder)
        store.begin(run.record)
        store.save(run.record)
        run.turns(50)
        store.append(run.record)
        store.close()
        # A crash left half a line.
        with Path(folder, "inputs.job").open("a") as file:
            file.write("clock 99")
        kept = Store(folder).load(run.room.text)
        assert len(kept[0]) == 183 and kept[2][0] == 133, (len(kept[0]), kept[2][0])
        again, room = Record(run.room.text, *kept), Room(run.room.text)
        assert again.world.trace() == run.record.world.trace() and again.log == run.record.log
        room.resume(again.inputs, again.save())
        assert len(room.host) == 183
        first, second = room.join(), room.join()
        for turn in range(3 * CHECK):
            room.turn(run.time + 33_333 * (turn + 1))
        assert room.seats[first].viewer.applied() == room.seats[second].viewer.applied() == 183 + 3 * CHECK
        assert was_started(room.seats[first].viewer)
        # What is offered then is numbered, though the server was started in the same second.
        for down in (False, True, False):
            room.seats[first].viewer.offer(down, x3d.Aim(AT_BUTTON[:3], AT_BUTTON[3:]))
        room.turn(run.time + 33_333 * (3 * CHECK + 1))
        assert len(room.host) == 183 + 3 * CHECK + 4, len(room.host)
        assert Store(folder).load(b"#X3D V3.0 utf8\n") is None


FAULTY = (
    (b"#X3D V3.0 utf8\nGroup {\n  children Teapot {}\n}\n", 3, 'node type "Teapot" isn\'t read'),
    (b"#X3D V3.0 utf8\nGrup {}\n", 2, 'node type "Grup" isn\'t read: Group?'),
    (b"clock 1\nscene\n#X3D V3.0 utf8\n\nBox {}\nGroup { size 1 }\n", 6, "the node has no such field"),
    (b"#X3D V3.0 utf8\n# caf\xe9\n", 2, "the byte 0xe9 isn't UTF-8"),
    (b"\x1f\x8b\x08\0\0", 0, "packed by gzip"),
    (b'<?xml version="1.0"?><X3D/>', 0, "XML"),
    (b"\xff\xfe#\0X\0", 0, "UTF-16"),
    (b"", 1, "not a header"),
)


def test_a_faulty_file_is_explained_with_its_line():
    with scene_file("") as file:
        for content, line, what in FAULTY:
            file.write_bytes(content)
            try:
                read_scene_file(file)
                raise AssertionError(content)
            except Unshown as unshown:
                assert unshown.line == line and what in unshown.what, (content, unshown.line, unshown.what)
                lines = content.split(b"\n")
                assert unshown.text == (lines[line - 1].decode(errors="replace") if line else ""), unshown.text


def test_a_fault_of_an_instance_has_its_line():
    """The library says it of a value that comes into a prototype by an IS."""
    refusal = x3d.Refusal("refused ValueRange line 3")
    for instance, ends in ((7, ", in the instance on line 17"), (None, ")")):
        refusal.instance = instance
        unshown = refused("a.job", "one\ntwo\nthree\n", 11, refusal)
        assert (unshown.line, unshown.text) == (13, "three") and unshown.what.endswith(ends), unshown.what

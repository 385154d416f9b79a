"""Tests of a run as a world's log: its bytes by hand, what is refused, what a crash leaves, and that the program reads it."""
import os
import socket
import subprocess
import tempfile
from pathlib import Path

from explain import Unshown
from inputs import Inputs
from library import TOP, wire, x3d
from world_log import EMPTY, SHUT, Damaged, Writer, entry_of, framed, head_of, read_log
from record import Record, apply
from replay import read_run
from served import DRILL, LATER, Skipped, scene
from store import Store
from tests_room import recorded

RUN, MARK = bytes([9]) * 16, bytes([7]) * 32
# The file by hand of crates/share_file/src/tests.rt: a head of two viewers, a frame of a clock at 5 microseconds, a frame
# of clocks at 6 and 7, and a shut gate.
FILE = bytes.fromhex(
    "01 0040 5833444c 01 02 0000" + "07" * 32 + "09" * 16 + "0b519eac10a4bf63"
    "01 0024 00 0001 0000000000000001 0000000000000005 00 692c3c2043fb2b8a5a1c0ba01a6fe5b5"
    "01 002d 00 0002 0000000000000002 0000000000000006 00 0000000000000007 00 2be028db85b1024ad0e63aa0c5ef0458 00"
)
# Viewer 3 presses at 258 microseconds, as the second offer of its boot 4: from 1 0 -1 along 0 0 -2, in millionths.
POINT = wire.Point(3, 1, (1, 0, -1, 0, 0, -2))
ENTRY = bytes.fromhex(
    "0000000000000102 01 03 01" "0000000000000001" "0000000000000000" "ffffffffffffffff"
    "0000000000000000" "0000000000000000" "fffffffffffffffe" "00000004" "00000002"
)
# Where the last frame begins, and its gate; and where the file ends.
LAST, END = FILE.index(bytes.fromhex("01002d")), len(FILE) - 1


def by_hand():
    """The file as it is written, with an append for each frame."""
    inputs = Inputs(RUN)
    writer, written = Writer(inputs), framed(head_of(MARK, 2, RUN))
    for times in ((5,), (6, 7)):
        for time in times:
            inputs.add(time)
        written += writer.frames()
    return written + SHUT, inputs


def damaged_frame(whole):
    """Which frame isn't the next, or how many inputs there are."""
    try:
        return f"{len(read_log(whole)[1])} inputs"
    except Damaged as damaged:
        return str(damaged)


def test_a_log_has_its_bytes():
    written, inputs = by_hand()
    assert written == FILE and Writer(Inputs(RUN)).frames() == b""
    mark, read = read_log(FILE)
    assert (mark, read.run, [*read.numbers]) == (MARK, RUN, [*inputs.numbers])
    assert entry_of(wire.Input(1, 258, POINT), (4, 2)) == ENTRY and len(ENTRY) == 67
    assert len(Writer(Inputs(RUN)).whole(MARK)) == EMPTY


def test_a_log_of_many_inputs_is_read_again():
    """Frames have 977 entries at most. Which offer a pointer was is known, or else the next one of its viewer."""
    inputs = Inputs()
    for number in range(1, 2500):
        point = wire.Point(number % 64, number % 2, (number, -number, 10**15, 0, 0, -number)) if number % 3 else None
        inputs.add(10 * number, point, (number, 7) if number % 5 == 0 else None)
    whole = Writer(inputs).whole(MARK)
    mark, read = read_log(whole)
    assert mark == MARK and read.run == inputs.run and read.numbers == inputs.numbers
    assert [read.offered_at(number)[1] for number in (1, 3, 5, 65, 133, 129)] == [(1, 1), (0, 0), (5, 7), (65, 7), (5, 8), (0, 0)]
    grown, writer = b"", Writer(inputs)
    while frames := writer.frames():
        grown += frames
    assert whole == framed(head_of(MARK, 64, inputs.run)) + grown + SHUT


def test_a_damaged_log_is_refused_and_an_unfinished_append_is_left_out():
    head, one = "the log has no head", "frame 1 of the log is damaged"
    assert damaged_frame(b"") == damaged_frame(SHUT) == damaged_frame(FILE[:60]) == head
    assert damaged_frame(FILE.replace(b"X3DL\1\2", b"X3DL\1\3")) == damaged_frame(FILE.replace(b"X3DL", b"X3DM")) == head
    # What was appended last and didn't end; and what can't be that.
    assert damaged_frame(FILE[:LAST] + SHUT + FILE[LAST + 1 :]) == "1 inputs"
    assert damaged_frame(FILE[:LAST] + SHUT + FILE[LAST + 1 : LAST + 20]) == damaged_frame(FILE[:LAST] + SHUT) == "1 inputs"
    assert damaged_frame(FILE + b"anything") == "3 inputs"
    assert damaged_frame(FILE[:END]) == "frame 3 of the log is damaged"
    assert damaged_frame(FILE[:LAST] + SHUT + FILE[LAST + 1 : END] + FILE[LAST:]) == "frame 2 of the log is damaged"
    # Another kind of frame, count, number, time, kind of entry; and another chain.
    for at, byte in ((70, 1), (72, 2), (80, 2), (88, 6), (88, 0), (89, 1), (89, 2), (90, 0)):
        assert damaged_frame(FILE[:at] + bytes([byte]) + FILE[at + 1 :]) == one, at
    for at in range(3, END):
        changed = damaged_frame(FILE[:at] + bytes([FILE[at] ^ 64]) + FILE[at + 1 :])
        assert "damaged" in changed or changed in (head, "0 inputs", "1 inputs"), (at, changed)


def test_a_crash_leaves_what_was_appended_whole():
    """However far the last append was written: gates are opened last."""
    with tempfile.TemporaryDirectory() as folder:
        run, path = recorded(10), Path(folder, "inputs.x3dlog")
        store = Store(folder)
        store.begin(run.record)
        first, before = path.read_bytes(), len(run.record.inputs)
        run.turns(5)
        store.append(run.record)
        store.close()
        second = path.read_bytes()
        assert second[: len(first) - 1] == first[:-1] and len(read_log(second)[1]) == before + 5
        for size in range(len(first), len(second) + 1):
            torn = first[:-1] + SHUT + second[len(first) : size]
            assert len(read_log(torn)[1]) == before, size
            path.write_bytes(torn)
        kept = Store(folder).load(run.record.text)
        assert len(kept[0]) == before and kept[0].run == run.record.inputs.run
        # A log of another scene is none of this one, and a damaged one is said.
        path.write_bytes(Writer(kept[0]).whole(MARK))
        assert Store(folder).load(run.record.text) is None
        path.write_bytes(second[:200] + b"?" + second[201:])
        try:
            raise AssertionError(Store(folder).load(run.record.text))
        except Unshown as unshown:
            assert unshown.what == "frame 1 of the log is damaged", unshown


def test_a_log_has_the_offers_that_the_host_numbered():
    """Their boots and numbers are those that viewers gave. A run that goes on has them too."""
    run = recorded(5)
    run.room.kill(0)
    run.room.start(0)
    run.click(0)
    run.turns(5)
    inputs = run.record.inputs
    offers = [inputs.offered_at(number)[1] for number in range(1, len(inputs) + 1) if inputs.at(number).point]
    first, second = offers[0][0], offers[3][0]
    assert offers == [*((first, k) for k in (1, 2, 3)), *((second, k) for k in (1, 2, 3))] and second > first > 1, offers
    again = Record(run.record.text, read_log(run.record.x3dlog())[1])
    assert again.x3dlog() == run.record.x3dlog() and again.job() == run.record.job() and not run.room.offers
    assert again.world.trace() == run.record.world.trace()


def test_a_log_is_replayed_by_its_scene():
    """The scene is one of those that are given, or lies beside the log: it is the one with the log's mark."""
    record = recorded(20).record
    with tempfile.TemporaryDirectory() as folder:
        file = Path(folder, "run.x3dlog")
        file.write_bytes(record.x3dlog())
        # The door's own file is one of the examples.
        again = read_run(file)
        assert again.world.trace() == record.world.trace() and again.log[0].text == "pressed the door's button"
        other = Record(scene().replace("0.2 0.45 0.7", "0.9 0.1 0.1").encode(), record.inputs)
        file.write_bytes(other.x3dlog())
        try:
            raise AssertionError(read_run(file))
        except Unshown as unshown:
            assert "its scene isn't here" in unshown.what, unshown
        beside = Path(folder, "other.x3dv")
        beside.write_bytes(other.text)
        assert read_run(file).text == read_run(file, [beside]).text == other.text
        for content, what in ((file.read_bytes()[:-1], "damaged"), (b"\1\0\x40X3DL", "no head"), (b"\1", "not a header")):
            file.write_bytes(content)
            try:
                raise AssertionError(read_run(file))
            except Unshown as unshown:
                assert what in unshown.what, unshown


def program():
    """A program that has `recall`."""
    found = os.environ.get("PROGRAM")
    places = [found] if found else [TOP / "crates/x3d_share/out/x3d_share", TOP / "out/quick/x3d_share"]
    for place in filter(os.path.exists, places):
        told = subprocess.run([place, "--help"], capture_output=True, text=True, check=False)
        if "recall" in told.stdout + told.stderr:
            return place
    raise Skipped("there is no program that has `recall`")


def whole_world(record):
    """The trace and the scene that a record's inputs make; the record's own world has forgotten old lines."""
    world = x3d.World(record.text)
    for number in range(1, len(record.inputs) + 1):
        apply(world, record.inputs.at(number))
    return world.trace() + world.scene()


def test_the_program_recalls_the_log_as_the_job():
    """`recall` of the log that is downloaded is the job that is downloaded, but for its scene."""
    place = program()
    does = lambda word, given: subprocess.run([place, word], input=given, capture_output=True, check=True).stdout
    for record in (recorded(1200).record, Record(scene().encode()), Record(scene(DRILL).encode())):
        told = does("recall", record.x3dlog())
        assert told + b"scene\n" + record.text == record.job(), (told[:300], record.job()[:300])
        world = whole_world(record)
        assert does("run", record.job()).decode() == world, world[:300]


def free_port():
    """A port of UDP that no one has."""
    with socket.socket(socket.AF_INET, socket.SOCK_DGRAM) as end:
        end.bind(("127.0.0.1", 0))
        return str(end.getsockname()[1])


def test_the_program_goes_on_with_the_log_and_the_room_with_its():
    """A host over the room's log numbers one clock more; its viewer has the room's world then, and the room reads it."""
    record, place = recorded(300).record, program()
    before = len(record.inputs)
    until = ("--until", str(before + 1))
    with tempfile.TemporaryDirectory() as folder:
        job, log = Path(folder, "door.job"), Path(folder, "door.x3dlog")
        job.write_bytes(b"clock %d\nscene\n" % (record.inputs.time(before) // wire.MILLION + 1) + record.text)
        log.write_bytes(record.x3dlog())
        log.chmod(0o600)
        ends = "--port", free_port()
        with job.open() as steps:
            host = subprocess.Popen([place, "host", *ends, "--log", log, *until], stdin=steps)
        try:
            words = [place, "view", *ends, "--who", "1", "--boot", str(2**31), *until]
            given = {"input": b"scene\n" + record.text, "timeout": 3 * LATER}
            told = subprocess.run(words, **given, capture_output=True, check=True).stdout
            assert host.wait(3 * LATER) == 0
        finally:
            host.kill()
            host.wait()
        again = read_run(log)
        assert len(again.inputs) == before + 1 and again.inputs.run == record.inputs.run
        assert told.decode() == again.world.trace() + again.world.scene()
        assert again.job().startswith(record.inputs.lines(1).encode())

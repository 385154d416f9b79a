"""Tests of the rooms of examples/rooms, each in a browser: what its text says can be done."""
import re

from served import ASSEMBLY, DRILL, LATER, PANEL, QUIZ, ROOMS, Windows, scene, spot, wait_equal


def shows(page, text):
    """Whether the picture shows a Text of this one line: it stands below no Switch that hides it."""
    return page.value(
        "Boolean(room.drawn.content) && (() => { let found = false; room.drawn.content.traverseVisible((thing) => {"
        "const node = room.state.nodes[thing.userData.node];"
        "const form = node && node.kind === 'Shape' && room.state.nodes[node.fields.geometry[0]];"
        f"found = found || Boolean(form && form.kind === 'Text' && String(form.fields.string) === '{text}'); }});"
        "return found; })()"
    )


def wait_shown(pages, text):
    for page in pages:
        page.wait("Boolean(room.drawn.content) && room.drawn.stale.size === 0", LATER)
        for _ in range(int(10 * LATER)):
            if shows(page, text):
                break
            page.value("new Promise((resolve) => setTimeout(resolve, 100))")
        else:
            raise AssertionError(f"{text} isn't shown; {page.value('room.told()')}")


def hold(page, place):
    """The mouse goes down on a place of the scene."""
    page.mouse("mouseMoved", spot(page, place))
    page.mouse("mousePressed", spot(page, place), 1)


def release(page, place):
    page.mouse("mouseReleased", spot(page, place))


def said_by(page, text):
    """Who did a thing, by the log: names, one after the other."""
    return page.value(
        f"[...document.querySelectorAll('#log li')].filter((each) => each.textContent.endsWith(' {text}'))"
        ".map((each) => each.querySelector('b').textContent).join()"
    )


def test_each_room_is_short_and_told_in_three_lines():
    told = dict(re.findall(r"^## \[(\w+)\.job\]\(\w+\.job\)\n((?:.+\n)+)", (ROOMS / "README.md").read_text(), re.M))
    assert sorted(told) == sorted(job.stem for job in ROOMS.glob("*.job")) and len(told) == 5, told
    for name, text in told.items():
        assert text.count("\n") == 3 and scene(ROOMS / f"{name}.job").count("\n") < 200, name


def test_the_panels_flow_needs_the_pump_and_the_valve():
    with Windows(2, PANEL) as windows:
        one, other = windows.pages
        flows = "room.value('FlowPump', 'whichChoice') === {} && room.value('FlowValve', 'whichChoice') === {}"
        one.click(spot(one, [-1, -0.5, 0.2]))
        other.wait(flows.format(1, 0), LATER)
        other.click(spot(other, [1, -0.5, 0.2]))
        for page in windows.pages:
            page.wait(flows.format(1, 1), LATER)
        one.click(spot(one, [-1, -0.5, 0.2]))
        other.wait(flows.format(0, 1), LATER)
        wait_equal(windows.pages)
        assert (said_by(other, "pressed the pump"), said_by(one, "pressed the valve")) == ("Ana,Ana", "Ben")


def test_the_quiz_says_who_was_first():
    with Windows(3, QUIZ) as windows:
        ana, ben, chloe = windows.pages
        ben.click(spot(ben, [0, 0, 0.2]))
        wait_shown(windows.pages, "GREEN WAS FIRST")
        # The pads are gone: who comes later presses nothing.
        ana.click(spot(ana, [-2, 0, 0.2]))
        chloe.wait("document.getElementById('said').textContent === 'Ben pressed green first'", LATER)
        chloe.click(spot(chloe, [0, -1.6, 0.1]))
        for page in windows.pages:
            page.wait("room.value('Table', 'whichChoice') === 0", LATER)
        chloe.click(spot(chloe, [2, 0, 0.2]))
        wait_shown(windows.pages, "BLUE WAS FIRST")
        firsts = [said_by(ana, f"pressed {color} first") for color in ("red", "green", "blue")]
        assert firsts == ["", "Ben", "Chloe"], firsts
        wait_equal(windows.pages)


# Of each part where it lies at first, and its place.
PARTS = {"roof": ([-2.9, 1.4, 0.15], [1.6, 1.2, 0.65]), "wall": ([-2.9, 0, 0.15], [1.6, 0.25, 0.65]),
    "base": ([-2.9, -1.4, 0.15], [1.6, -0.65, 0.65])}


def put(page, start, end):
    """Drags from one place of the scene to another."""
    hold(page, start)
    page.mouse("mouseMoved", spot(page, end), 1)
    page.value("new Promise((resolve) => setTimeout(resolve, 500))")
    release(page, end)


def test_the_assemblys_parts_snap_into_their_places():
    with Windows(2, ASSEMBLY) as windows:
        one, other = windows.pages
        # Put down elsewhere, and before another part's place, it stays where it is.
        put(one, PARTS["wall"][0], [-0.6, 0.2, 0.15])
        # The other window shows it there, or else would press nothing.
        wait_equal(windows.pages)
        other.wait("room.state.n >= room.state.status.equal_at")
        put(other, [-0.6, 0.2, 0.15], [*PARTS["base"][1][:2], 0.65])
        one.wait("room.state.people.length === 2 && document.querySelectorAll('#log li').length >= 4", LATER)
        wait_equal(windows.pages)
        assert shows(one, "0 OF 3") and shows(other, "0 OF 3")
        put(one, PARTS["roof"][0], PARTS["roof"][1])
        wait_shown(windows.pages, "1 OF 3")
        put(other, PARTS["base"][0], PARTS["base"][1])
        wait_shown(windows.pages, "2 OF 3")
        # The pointer over a place in which a part is counts nothing.
        other.mouse("mouseMoved", spot(other, PARTS["roof"][1]))
        wait_equal(windows.pages)
        assert shows(one, "2 OF 3") and not shows(one, "DONE")


def test_the_drill_takes_two_people_in_order():
    key, start, valve, report = ([x, 0, 0.2] for x in (-2.7, -0.9, 0.9, 2.7))
    with Windows(2, DRILL) as windows:
        ana, ben = windows.pages
        # Out of order, or alone: nothing happens.
        ben.click(spot(ben, valve))
        ben.click(spot(ben, start))
        ana.wait("document.querySelectorAll('#log li').length === 1", LATER)
        assert shows(ana, "ONE HOLDS THE KEY, ANOTHER STARTS")
        hold(ana, key)
        ben.wait("room.value('Latch', 'isOpen') === true", LATER)
        ben.click(spot(ben, start))
        wait_shown(windows.pages, "OPEN THE VALVE")
        release(ana, key)
        ben.click(spot(ben, valve))
        wait_shown(windows.pages, "REPORT")
        ana.click(spot(ana, report))
        wait_shown(windows.pages, "DONE")
        ana.wait("room.value('Clock', 'isActive') === false", LATER)
        taken = ana.value("room.value('Clock', 'elapsedTime')")
        hand = ana.value("room.value('Hand', 'translation')[0]")
        # The mark stands where the time is on a scale of six units for 60 seconds.
        assert 0 < taken < 60 and abs(hand - (-3 + taken / 10)) < 0.01, (taken, hand)
        wait_equal(windows.pages)
        windows.shoot("drill")
        # Its replay ends alike.
        ana.value("document.getElementById('past').click()")
        ana.wait("room.state.replay && room.state.replay.n === 0", LATER)
        wait_shown([ana], "ONE HOLDS THE KEY, ANOTHER STARTS")
        ana.value("document.getElementById('speed').value = 16; document.getElementById('play').click()")
        wait_shown([ana], "DONE")
        assert [said_by(ben, f"pressed {what}") for what in ("the key", "start", "the valve", "report")] == [
            "Ana", "Ben,Ben", "Ben", "Ana"]

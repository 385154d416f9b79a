"""Tests of windows of a browser: what is pressed, dragged, drawn, said and kept from breaking."""
import os
import random
import re
import statistics
import time

import browser
from clicks import click, note
from crowd import Crowd
from served import BUTTON, LATER, PANEL, Windows, library_for_windows, places_of_viewers, scene, scene_file, spot, wait_equal
from tests_room import TWICE

SECONDS = int(os.environ.get("SECONDS", "60"))
# A door moves in all windows so soon, in seconds, where the machine has nothing else to do.
SOON = 1.0


def slow_door():
    """The door, which opens as soon and then stands open for a minute."""
    text = scene().replace("cycleInterval 6", "cycleInterval 75")
    return scene_file(text.replace("0, 0.25, 0.75, 1", "0, 0.02, 0.98, 1"), "door.x3dv")


def is_door(red, green, blue):
    return blue > 110 and blue - red > 60 and blue - green > 30


def assert_door_is_seen(page):
    """In a screenshot the middle of what is blue is where the door stands: how far across."""
    wide, high = page.value("room.stage.size")
    band = [0, 0.5 * high, wide, 0.1 * high]
    rows, parts = browser.pixels(page.picture(band))
    columns = range(0, len(rows[0]), parts)
    found = [at // parts for row in rows for at in columns if is_door(*row[at : at + 3])]
    wanted = page.value("room.spotOf([room.placeOf('Door')[0], 1.05, 0.21])[0]")
    seen = sum(found) / max(1, len(found))
    assert len(found) > 1000 and abs(seen - wanted) < 8, (len(found), seen, wanted)
    return seen / wide


def click_to_change(windows, crowd=None):
    """Clicks in the last window; seconds until the door moves, of each window, and of those of a crowd."""
    note(windows.pages)
    took, pressed = click(windows.pages, windows.pages[-1])
    took += [at - pressed for at in (crowd.moved() if crowd else ())]
    print(f"{len(took)} windows: median {statistics.median(took):.2f} s, worst {max(took):.2f} s", end=", ")
    if browser.busy() > 1:
        print(f"where {browser.busy():.1f} times as much wants to run as can", end=", ")
    return took


def test_a_click_in_one_window_opens_the_door_in_both():
    with slow_door() as job, Windows(2, job) as windows:
        shut = [assert_door_is_seen(page) for page in windows.pages]
        windows.shoot("closed")
        took = click_to_change(windows)
        assert max(took) < SOON * browser.busy(), took
        for page in windows.pages:
            page.wait("room.placeOf('Door')[0] > 1.09", LATER)
            page.wait("!room.drawn.stale.size && !room.drawn.dirty")
        time.sleep(0.5)
        opened = [assert_door_is_seen(page) for page in windows.pages]
        windows.shoot("open")
        assert max(shut) - min(shut) < 0.02 and max(opened) - min(opened) < 0.02, (shut, opened)
        assert opened[0] - shut[0] > 0.08, (shut, opened)
        windows.pages[0].wait("document.getElementById('badge').textContent === 'All 2 viewers agree'")
        title = windows.pages[0].value("document.getElementById('badge').title")
        assert re.fullmatch(r"All see the same: equal at input \d+, digest [0-9a-f]{16}", title), title


def assert_second_route_is_drawn(page):
    """The door stands where the second route put it, though the last line of the trace is of the first one."""
    page.wait("room.state.n && room.value('Door', 'translation')[1] > 2", LATER)
    x, y, _ = page.value("room.value('Door', 'translation')")
    drawn = page.value("room.placeOf('Door')")
    line = page.value("room.state.lanes.get('Door.translation').slice(-1)[0].line")
    assert x == 0 and abs(y - 2.5) < 0.01 and abs(drawn[0]) < 1e-6 and abs(drawn[1] - 2.5) < 0.01, (x, y, drawn)
    assert re.fullmatch(r"\d+ [\d.]+ Door.translation 0.5(\d*) 0 0", line), line


def test_a_page_draws_what_fields_hold():
    """What was set, and not the last line: wherever the viewer runs, and where the page replays."""
    # Its cycle is so long that it stands, for the test, where it was when it began; the start is a while ago.
    text = TWICE.replace("startTime 10", f"startTime {time.time() - 5e5:.6f}").replace("cycleInterval 2 ", "cycleInterval 1000000 ")
    for words, where in places_of_viewers():
        with scene_file(text) as file, Windows(1, file, more=words) as windows:
            (page,) = windows.pages
            assert page.value("Boolean(room.own.viewer)") == (where == "in this window")
            assert_second_route_is_drawn(page)
            page.value("document.getElementById('past').click()")
            page.wait("room.state.replay && room.state.n === 0", LATER)
            assert page.value("room.placeOf('Door')") == [0, 0, 0]
            page.value("document.getElementById('play').click()")
            assert_second_route_is_drawn(page)


# Of each type what a field holds as it is told, and as the page has it: numbers in millionths and microseconds.
VALUES = """[
  ["SFBool", [1], true], ["MFBool", [1, 0], [true, false]], ["SFInt32", [-3], -3], ["MFInt32", [5], [5]],
  ["SFFloat", [250000], 0.25], ["MFFloat", [1000000], [1]], ["SFTime", [10000001], 10.000001], ["MFTime", [], []],
  ["SFVec2f", [0, 500000], [0, 0.5]], ["SFVec3f", [500000, 0, -1], [0.5, 0, -0.000001]], ["MFVec3f", [], []],
  ["SFColor", [1000000, 0, 333333], [1, 0, 0.333333]], ["SFNode", [7], [7]], ["SFNode", [], []], ["MFNode", [1, 2], [1, 2]],
  ["SFString", '"a \\\\"b\\\\" 1"', 'a "b" 1'], ["MFString", '["a" "2"]', ["a", "2"]], ["MFString", "[]", []],
]"""


def test_values_are_read_by_their_types():
    with Windows(1) as windows:
        told = windows.pages[0].value(
            f"import('/static/core.js').then(({{ valueBy }}) => {VALUES}"
            ".filter(([type, told, held]) => JSON.stringify(valueBy(type, told)) !== JSON.stringify(held)))"
        )
        assert told == [], told


def test_a_click_opens_the_door_whatever_came_before():
    with Windows(1) as windows:
        (page,) = windows.pages
        place = spot(page, BUTTON)
        # The right button moves the camera, and a press whose end never came is ended.
        page.mouse("mouseMoved", place)
        page.mouse("mousePressed", place, 2)
        page.mouse("mouseReleased", place, 2)
        page.click(place)
        page.wait("room.value('Motor', 'startTime')", LATER)
        first = page.value("room.value('Motor', 'startTime')")
        page.wait("room.value('Motor', 'isActive') === false", LATER)
        page.value("room.pointer.down = true")
        page.click(place)
        page.wait(f"room.value('Motor', 'startTime') > {first}", LATER)
        answers = page.value("room.pointer.answers")
        assert [*answers] == ["200"], answers


# A ring goes out within a second: they are counted as they come.
COUNT_RINGS = """window.rings = 0;
new MutationObserver((changes) => changes.forEach((change) => change.addedNodes.forEach((node) => {
  if (node.classList && node.classList.contains("hit")) window.rings += 1;
}))).observe(document.body, { childList: true, subtree: true });
true"""


def test_a_hand_and_a_tooltip_show_what_can_be_pressed():
    with Windows(1) as windows:
        (page,) = windows.pages
        page.wait("document.querySelectorAll('.hint').length === 1")
        tip = "document.getElementById('tip')"
        page.mouse("mouseMoved", spot(page, BUTTON))
        page.wait(f"!{tip}.hidden && {tip}.textContent === `the door's button`")
        assert page.value("document.getElementById('view').style.cursor") == "pointer"
        # The lamp is a sphere, and a wall has no sensor.
        page.mouse("mouseMoved", spot(page, [1.4, 1.05, 0.1]))
        page.wait(f"{tip}.hidden")
        assert page.value("document.getElementById('view').style.cursor") == ""
        page.value(COUNT_RINGS)
        page.click(spot(page, BUTTON))
        page.wait("document.querySelectorAll('.hint').length === 0 && window.rings > 0", LATER)


def test_windows_show_one_world(count=16):
    with slow_door() as job, Windows(count, job) as windows:
        assert sorted(page.value("room.state.who") for page in windows.pages) == [*range(count)]
        click_to_change(windows)
        wait_equal(windows.pages)
        badge = windows.pages[0].value("document.getElementById('badge').textContent")
        assert badge == f"All {count} viewers agree", badge
        windows.shoot("sixteen")


def test_sixty_four_windows_show_one_world():
    """Two of a browser, and others that hold their viewers without one."""
    with slow_door() as job, library_for_windows() as folder:
        more = "--each", "64", "--wasm", folder
        with Windows(2, job, more=more) as windows, Crowd(windows.served, 62) as crowd:
            windows.pages[0].wait("room.state.status.viewers.length === 64")
            wait_equal(windows.pages)
            click_to_change(windows, crowd)
            wait_equal(windows.pages)
            badge = windows.pages[0].value("document.getElementById('badge').textContent")
            assert badge == "All 64 viewers agree", badge


# Two squares side by side: by face, by face and index, by corner, by corner and index. The colors are red, green and blue.
SQUARES = """#X3D V3.0 utf8
Viewpoint { position 1 0.5 4 }
Shape {
  geometry IndexedFaceSet {
    coord Coordinate { point [ 0 0 0, 1 0 0, 1 1 0, 0 1 0, 2 0 0, 2 1 0 ] } coordIndex [ 0 1 2 3 -1 1 4 5 2 -1 ]
    color Color { color [ 1 0 0, 0 1 0, 0 0 1, 1 0 0, 0 0 1, 0 0 1 ] } %s
  }
}
"""


def test_faces_have_their_colors():
    red, green, blue = (255, 0, 0), (0, 255, 0), (0, 0, 255)
    # Of each square what its middle has, and at last what the far corner of the second one has.
    ways = (
        ("colorPerVertex FALSE", red, green, green),
        ("colorPerVertex FALSE colorIndex [ 2 0 ]", blue, red, red),
        ("colorIndex [ 0 0 0 0 -1 1 1 2 1 -1 ]", red, None, blue),
        ("", None, None, blue),
    )
    with scene_file(SQUARES % ways[0][0]) as file, Windows(1, file) as windows:
        (page,) = windows.pages
        for run, (way, *seen) in enumerate(ways, 1):
            file.write_text(SQUARES % way)
            page.wait(f"room.state.run === {run} && room.drawn.content && room.state.nodes.length === 5", LATER)
            page.wait("!room.drawn.stale.size && !room.drawn.dirty", LATER)
            time.sleep(0.3)
            for place, wanted in zip(([0.5, 0.5, 0], [1.5, 0.5, 0], [1.99, 0.99, 0]), seen):
                rows, _ = browser.pixels(page.picture([*spot(page, place), 1, 1]))
                near = wanted is None or all(abs(part - one) < 12 for part, one in zip(rows[0], wanted))
                assert near, (way, place, [*rows[0]])


# Whether the handle of the panel's slider stands so far along its groove.
HANDLE_AT = """(([x, y, z]) => Math.abs(x - {}) < 0.03 && !y && !z)(room.value('Handle', 'translation'))"""


def drag(page, start, end):
    """The mouse presses where one place of the scene is seen, and goes to where another is."""
    spots = [spot(page, place) for place in (start, end)]
    page.mouse("mouseMoved", spots[0])
    page.mouse("mousePressed", spots[0], 1)
    page.mouse("mouseMoved", spots[1], 1)
    return spots[1]


def test_a_slider_is_dragged_outside_of_its_box():
    """One window drags it with the pointer far above, and past its end; the other takes it from there."""
    ended = "room.value('Slider', 'isActive') === false && room.value('Slider', 'offset')[0]"
    with Windows(2, PANEL) as windows:
        one, other = windows.pages
        drag(one, [-1, -1, 0.2], [0, 0.9, 0.2])
        one.wait(HANDLE_AT.format(1), LATER)
        one.mouse("mouseMoved", [899, 500], 1)
        one.wait(HANDLE_AT.format(2), LATER)
        one.mouse("mouseReleased", [899, 500])
        for page in windows.pages:
            page.wait(f"{ended} === 2 && {HANDLE_AT.format(2)}", LATER)
        # It was pressed beside the middle, and goes as far as the pointer does.
        end = drag(other, [1.1, -0.95, 0.2], [-0.4, -0.2, 0.2])
        other.wait(HANDLE_AT.format(0.5), LATER)
        other.mouse("mouseReleased", end)
        for page in windows.pages:
            page.wait(f"Math.abs({ended} - 0.5) < 0.03 && {HANDLE_AT.format(0.5)}", LATER)
        wait_equal(windows.pages)


def test_the_keyboard_opens_the_door():
    with Windows() as windows:
        one, other = windows.pages
        one.value("document.getElementById('view').focus()")
        assert not one.value("document.body.classList.contains('keys')")
        (wide, high), (x, y) = one.value("room.stage.size"), spot(one, BUTTON)
        across, up = (2 * x / wide - 1) / 0.05, (1 - 2 * y / high) / 0.05
        for key, count in (
            ("ArrowLeft" if across < 0 else "ArrowRight", abs(across)),
            ("ArrowDown" if up < 0 else "ArrowUp", abs(up)),
        ):
            for _ in range(round(count)):
                one.press(key)
        assert one.value("document.body.classList.contains('keys')")
        one.key(" ")
        one.wait("room.value('Button', 'isActive') === true", LATER)
        one.key(" ", down=False)
        other.wait("room.placeOf('Door')[0] > 0.01", LATER)


def test_the_keyboard_reaches_all():
    with slow_door() as job, Windows(1, job) as windows:
        (page,) = windows.pages
        page.click(spot(page, BUTTON))
        page.wait("room.state.lanes.size > 10")
        page.value("document.getElementById('inside').open = true")
        reached, wanted = [], "home hand rename share past reset done inside lanes loss repeat reorder".split()
        page.value("document.getElementById('view').focus()")
        # From the last of them it goes round again.
        while wanted[-1] not in reached and len(reached) < 30:
            page.press("Tab")
            reached.append(page.value("document.activeElement.id || document.activeElement.parentNode.id"))
            if reached[-1] == "lanes":
                page.wait("room.marks().length > 10")
                for _ in range(page.value("[...room.state.lanes.keys()].indexOf('Door.translation')")):
                    page.press("ArrowDown")
                page.press("ArrowLeft")
                line = page.value("document.getElementById('line').textContent")
                assert re.match(r"\d+ [\d.]+ Door.translation ", line), line
        assert [each for each in reached if each in wanted][: len(wanted)] == wanted, reached


SLIDERS = (
    "for (const [id, ways] of [['loss', [5, 60, 30]], ['repeat', [50, 20]], ['reorder', [1, 2, 3, 45, 30]]])"
    " for (const way of ways) { document.getElementById(id).value = way;"
    " document.getElementById(id).dispatchEvent(new Event('input')); }"
)
BAD = "JSON.stringify(room.state.status.channel) === JSON.stringify({loss: 0.3, repeat: 0.2, reorder: 0.3})"


def test_the_sliders_of_the_network_are_all_set():
    """Each is moved to several values at once, the last of which counts. They are the trainer's alone."""
    with Windows() as windows:
        one, other = windows.pages
        for _ in range(4):
            one.value(SLIDERS)
            one.wait(BAD, LATER)
            time.sleep(0.5)
            assert one.value(BAD) and other.value(BAD), other.value("room.state.status.channel")
            assert not other.value("document.getElementById('bad').hidden")
            one.value(SLIDERS.replace("30]", "0]").replace("20]", "0]"))
            one.wait("Object.values(room.state.status.channel).every((share) => share === 0)", LATER)
        # One button lets all arrive again, and no window says then that the network is bad.
        one.value(SLIDERS)
        one.wait(BAD, LATER)
        one.value("document.getElementById('good').click()")
        for page in windows.pages:
            page.wait("document.getElementById('bad').hidden", LATER)
        shown = "getComputedStyle(document.getElementById('network')).display"
        one.value("document.getElementById('inside').open = true")
        other.value("document.getElementById('inside').open = true")
        assert one.value(shown) != "none" and other.value(shown) == "none"


def test_random_clicks_over_a_bad_network_end_equal():
    with Windows() as windows:
        one, other = windows.pages
        one.value(SLIDERS)
        one.wait(BAD, LATER)
        chance, begun, clicks = random.Random(4), time.monotonic(), 0
        while time.monotonic() - begun < SECONDS:
            page = chance.choice(windows.pages)
            wander = [part + chance.uniform(-0.15, 0.15) for part in BUTTON[:2]]
            page.click(spot(page, [*wander, BUTTON[2]]))
            clicks += 1
            assert not page.value("room.state.status.different")
            time.sleep(chance.uniform(0, 0.4))
        # It ran under all three: as the server has them, and by what was lost.
        ran = one.value("room.state.status.channel")
        assert ran == {"loss": 0.3, "repeat": 0.2, "reorder": 0.3}, ran
        last = wait_equal(windows.pages)
        lost = one.value("room.state.status.viewers.reduce((sum, viewer) => sum + viewer.lost, 0)")
        pressed = one.value("document.querySelectorAll('#log li').length")
        assert lost > 0 and pressed > 0, (lost, pressed)
        print(f"{clicks} clicks, {pressed} presses, {lost} datagrams lost, network {ran}, equal at {last}", end=", ")

"""Tests of scenes that aren't read whole: their part is shown, and what was left out stands behind a fold."""
import time

import browser
from explain import Unshown, read_part_of_file, read_scene_file
from library import x3d
from served import LATER, Served, Windows, scene_file, spot

# A file of VRML 97. The wall hides the box, unless its Switch, which the text names wrongly, goes.
REAL = """#VRML V2.0 utf8
EXTERNPROTO Lamp [ ] "lamp.wrl"
Viewpoint { position 0 0 8 description "front" }
Transform {
  rotation 0 1 0 1.5
  children [
    Shape { geometry Teapot { } }
    TouchSensor { description "the red box" }
    Shape { appearance Appearance { material Material { diffuseColor 1 0 0 emissiveColor 1 0 0 } } geometry Box { } }
    DEF Beside Anchor { children Transform { translation 3 0 0 children Shape { geometry Sphere { } } } url "x.wrl" }
    Lamp { }
  ]
}
ROUTE Nobody.isActive TO Beside.children
"""
# What turned a Viewpoint is left out, so that nothing is seen from it; and a world of millimeters has none.
AWAY = """#VRML V2.0 utf8
Transform { rotation 0 1 0 3.14159 children Viewpoint { position 0 0 8 orientation 0 1 0 3.14159 } }
Shape { appearance Appearance { material Material { diffuseColor 0 0 0 emissiveColor 1 0 0 } } geometry Box { size 2 2 2 } }
"""
LARGE = """#VRML V2.0 utf8
Anchor { }
Shape { appearance Appearance { material Material { diffuseColor 0 0 0 emissiveColor 1 0 0 } } geometry Box { size 9000 9000 9000 } }
"""
# Lines of the file, and how what is said of them begins.
LEFT = [
    (2, "EXTERNPROTO Lamp left out"),
    (5, "field rotation left out: it turns, which changes the picture"),
    (7, "node Teapot left out (field geometry)"),
    (10, "node Anchor read as a group"),
    (10, "field url left out"),
    (11, "node Lamp left out"),
    (14, "ROUTE left out"),
]
AT_BOX = [0, 0, 8_000_000, 0, 0, -1_000_000]
PRESS = "pressed the red box"


def is_left(told, lines=0):
    """Whether that was left out, in a file in which so many lines come before."""
    return len(told) == len(LEFT) and all(
        line == at + lines and what.startswith(begins) for (line, what), (at, begins) in zip(told, LEFT)
    )


def why(file, whole):
    try:
        raise AssertionError(read_part_of_file(file, whole))
    except Unshown as unshown:
        return unshown.line, unshown.what


def test_a_scene_that_isnt_read_is_read_by_its_part():
    with scene_file(REAL) as file:
        part = read_part_of_file(file)
        assert is_left(part.left) and part.count == "6 left out, 1 read as groups", part
        world = x3d.World(part.text)
        kinds = [world.node_type(node) for node in range(world.node_count())]
        assert kinds.count("Shape") == 3 and "Sphere" in kinds and "Group" in kinds and "Teapot" not in kinds, kinds
        assert why(file, True)[0] == 1 and read_part_of_file(file) == part
        # A job says it by its own lines.
        file.write_text(f"clock 1\nscene\n{REAL}")
        assert is_left(read_part_of_file(file).left, 2)
        # What is read has no part, and nothing left out; what is no text of the encoding has none either.
        whole = REAL.replace("#VRML V2.0 utf8", "#X3D V3.0 utf8").split("EXTERNPROTO")[0] + "Group {}\n"
        file.write_text(whole)
        assert read_part_of_file(file) == (whole.encode(), (), "") and read_scene_file(file) == whole.encode()
        file.write_text(REAL.rstrip("\n") + "\n}\n")
        line, what = why(file, False)
        assert line == 15 and what.startswith("a token is not allowed here (Unexpected"), (line, what)
        file.write_text("#VRML V1.0 ascii\nSeparator { }\n")
        assert why(file, False)[0] == 1


def test_a_room_shows_a_part_and_says_what_was_left_out():
    with scene_file(REAL) as file, Served(file) as served:
        client = served.client(name="Ana")
        left = client.until("left")
        assert left["file"] == "scene.x3dv" and is_left([tuple(each) for each in left["left"]]), left
        for down in (False, True, False):
            assert client.status("point", down=down, aim=AT_BOX) == 200
        # It may be logged before the last point is answered.
        while not any(each["text"] == PRESS for event in client.events for each in event.get("log", ())):
            client.until("log")
        mine = {"X-Room-Token": client.seat["token"]}
        stored = served.ask("GET", f"/{served.room}/x3dlog", **mine)[1]
        # A change is shown by its part too, with what it leaves out: once more where the part is another one.
        fewer = REAL.replace("    Lamp { }\n", "")
        file.write_text(fewer)
        assert len(client.until("left")["left"]) == len(LEFT) - 1
        file.write_text(fewer.replace("Sphere", "Cone"))
        assert client.until("run")["run"] == 2 and len(client.until("left")["left"]) == len(LEFT) - 1
        # What has no part is at fault.
        file.write_text(REAL + "}\n")
        while not (fault := client.until("fault")["fault"]):
            pass
        assert (fault["file"], fault["line"], fault["text"]) == ("scene.x3dv", 15, "}"), fault
        assert client.until("left")["count"] == "5 left out, 1 read as groups"
        # What is shown whole isn't shown by a part then: what was changed is at fault.
        whole = "#X3D V3.0 utf8\nShape { geometry Box {} }\n"
        file.write_text(whole)
        assert client.until("run")["run"] == 3 and client.until("left")["left"] == []
        file.write_text(whole.replace("Box", "Boxx"))
        while not (fault := client.until("fault")["fault"]):
            pass
        assert (fault["line"], fault["what"]) == (2, 'node type "Boxx" isn\'t read: Box?'), fault
        # A log of the part is shown again by the file beside it.
        file.write_text(REAL)
        file.with_name("run.x3dlog").write_bytes(stored)
        with Served(None, more=("--replay", str(file.with_name("run.x3dlog")))) as served:
            assert served.client().until("log")["log"][0]["text"] == PRESS


def test_a_page_draws_a_part_and_lists_what_was_left_out():
    with scene_file(REAL) as file, Windows(2, file) as windows:
        one, other = windows.pages
        fold = "document.getElementById('left')"
        assert not one.value(f"{fold}.hidden || {fold}.open")
        assert one.value(f"{fold}.querySelector('summary').textContent") == "6 left out, 1 read as groups"
        one.value(f"{fold}.open = true")
        told = one.value(f"[...{fold}.querySelectorAll('li')].map((each) => [each.value, each.innerText])")
        assert is_left([tuple(each) for each in told]), told
        # The box is red and unturned; the sphere has no look, so it is unlit and white.
        time.sleep(1)
        for place, seen in (([0, 0, 1], (255, 0, 0)), ([0.9, -0.9, 1], (255, 0, 0)), ([3, 0, 1], (255, 255, 255))):
            x, y = spot(other, place)
            rows, _ = browser.pixels(other.picture([x, y, 1, 1]))
            assert all(abs(part - wanted) < 8 for part, wanted in zip(rows[0], seen)), (place, [*rows[0]])
        other.click(spot(other, [0, 0, 1]))
        one.wait(f"document.getElementById('said').textContent === 'Ben {PRESS}'", LATER)
        windows.shoot("part")
        # All is shown, if a Viewpoint shows nothing, or where there is none.
        for run, text in enumerate((AWAY, LARGE, LARGE.replace("9000", "0.02")), 2):
            file.write_text(text)
            for page in windows.pages:
                page.wait(f"room.state.run === {run} && room.drawn.content && room.state.nodes.some(({{ kind }}) => kind === 'Box')", LATER)
                page.wait("!room.drawn.stale.size && !room.drawn.dirty", LATER)
                time.sleep(0.5)
                rows, parts = browser.pixels(page.picture([*spot(page, [0, 0, 0]), 1, 1]))
                assert rows[0][0] > 150 and max(rows[0][1:3]) < 60, (text, [*rows[0]])
        # What is read whole has no such fold.
        file.write_text("#X3D V3.0 utf8\nShape { geometry Box {} }\n")
        for page in windows.pages:
            page.wait(f"{fold}.hidden && room.state.run === 5", LATER)

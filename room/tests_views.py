"""Tests of windows of a browser: where each looks from, of which the world knows nothing."""
from served import LATER, Windows, scene_file

# Two Viewpoints, of which one moves with a Transform, and one that has no name.
VIEWS = """#X3D V3.0 utf8
Viewpoint { position 0 0 10 description "in front" }
Transform { translation 0 5 0 children Viewpoint { position 0 1 10 fieldOfView 1 description "from above" } }
Viewpoint { position 10 0 0 orientation 0 1 0 1.5708 }
Shape { geometry Box {} }
"""


def test_the_camera_is_each_windows_own():
    """It turns, moves and zooms by mouse, wheel, keys and two fingers, and nothing is sent."""
    with Windows(2) as windows:
        one, other = windows.pages
        pose = "[...room.camera.position.toArray(), ...room.camera.quaternion.toArray()].map((part) => part.toFixed(4)).join()"
        there, begun = other.value(pose), one.value(pose)
        offers = "Object.values(room.pointer.answers).reduce((sum, part) => sum + part, 0)"
        seen = [begun]

        def changed(what):
            now = one.value(pose)
            assert now not in seen, what
            seen.append(now)

        empty = [120, 700]
        one.mouse("mouseMoved", empty)
        one.wait("room.pointer.due === null && !room.pointer.busy && !room.pointer.waits.length")
        before = one.value(offers)
        for buttons, what in ((1, "orbit"), (2, "pan")):
            one.mouse("mousePressed", empty, buttons)
            one.mouse("mouseMoved", [260, 640], buttons)
            one.mouse("mouseReleased", [260, 640], buttons)
            changed(what)
        one.call("Input.dispatchMouseEvent", type="mouseWheel", x=300, y=400, deltaX=0, deltaY=-120)
        one.wait(f"{pose} !== '{seen[-1]}'", LATER)
        changed("zoom")
        one.value("document.getElementById('view').focus()")
        for key in ("a", "w", "+"):
            one.press(key)
            changed(key)
        fingers = lambda apart: [{"x": 450 - apart, "y": 850, "id": 0}, {"x": 450 + apart, "y": 850, "id": 1}]
        for kind, points in (("touchStart", fingers(40)), ("touchMove", fingers(90)), ("touchEnd", [])):
            one.call("Input.dispatchTouchEvent", type=kind, touchPoints=points)
        changed("pinch")
        assert one.value(offers) == before and other.value(pose) == there
        one.press("Home")
        assert one.value(pose) == begun
        assert one.value("[...document.getElementById('views').options].map((each) => each.text).join()") == "in front"


def test_viewpoints_are_listed_and_chosen():
    """By the list, by their numbers and by Home; what is chosen stays until the camera is moved."""
    with scene_file(VIEWS) as file, Windows(1, file) as windows:
        (page,) = windows.pages
        stands = "room.camera.position.toArray().map((part) => Math.round(1000 * part) / 1000).join()"
        views = "document.getElementById('views')"
        assert not page.value(f"{views}.hidden") and page.value(stands) == "0,0,10"
        assert page.value(f"[...{views}.options].map((each) => each.text)") == ["in front", "from above", "view 3"]
        page.value(f"{views}.value = 1; {views}.dispatchEvent(new Event('change'))")
        assert page.value(stands) == "0,6,10" and page.value("room.state.n > 0")
        # A narrow window sees a quarter more across than the shorter side was asked for.
        half = "Math.tan(1 / 2) * Math.max(1, 1.25 / (innerWidth / innerHeight))"
        assert page.value(f"Math.abs(Math.tan(room.camera.fov * Math.PI / 360) - {half}) < 1e-6")
        page.value("document.getElementById('view').focus()")
        for key, place in (("3", "10,0,0"), ("1", "0,0,10"), ("2", "0,6,10"), ("Home", "0,0,10"), ("9", "0,0,10")):
            page.press(key)
            page.wait(f"{stands} === '{place}'", LATER)
        assert page.value("Object.keys(room.pointer.answers).length") == 0

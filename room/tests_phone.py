"""Tests of windows of a browser: as wide as a phone, and with fingers in place of a mouse."""
from served import ASSEMBLY, BUTTON, DOOR, DRILL, LATER, Windows, spot

POSE = "[...room.camera.position.toArray(), ...room.camera.quaternion.toArray()]"
# How far the camera is from what it turns round, if it stands there still.
NEAR = 0.001


def touch(page, kind, *places):
    points = [{"x": x, "y": y, "id": number} for number, (x, y) in enumerate(places)]
    page.call("Input.dispatchTouchEvent", type=kind, touchPoints=points)


def moved(page, start, end):
    """Fingers go down at places, and then to others; the camera before and after."""
    before = page.value(POSE)
    touch(page, "touchStart", *start)
    touch(page, "touchMove", *end)
    touch(page, "touchEnd")
    return before, page.value(POSE)


def same(one, other):
    return all(abs(a - b) < NEAR for a, b in zip(one, other))


def test_the_picture_is_the_page():
    """On every screen: the canvas is as large as the window, nothing scrolls, and no button is beside it."""
    lost = """[...document.querySelectorAll('button, summary, .chip, h1, #badge')].filter((each) => {
      const box = each.getBoundingClientRect();
      return each.checkVisibility() && (box.left < 0 || box.top < 0 || box.right > innerWidth || box.bottom > innerHeight);
    }).map((each) => each.textContent)"""
    for wide, high in ((390, 844), (844, 390), (1280, 800)):
        for job in (DOOR, DRILL):
            with Windows(2, job, size=(wide, high)) as windows:
                page = windows.pages[0]
                box = page.value("(({ left, top, width, height }) => [left, top, width, height])(room.stage.view.getBoundingClientRect())")
                assert box == [0, 0, wide, high], box
                assert page.value("[document.documentElement.scrollWidth, document.documentElement.scrollHeight]") == [wide, high]
                assert page.value(lost) == [], (wide, job.name, page.value(lost))
                # Before the scene and its sky are there, a background is; and edges are smooth where WebGL can.
                page.value("room.stage.view.style.background = ''")
                assert "gradient" in page.value("getComputedStyle(room.stage.view).backgroundImage")
                assert page.value("room.stage.renderer.getContext().getContextAttributes().antialias")


def test_a_finger_presses_drags_and_turns():
    with Windows(2, size=(390, 844)) as windows:
        one, other = windows.pages
        one.value("window.rings = []; new MutationObserver((all) => all.forEach((each) => each.addedNodes.forEach((made) =>"
            " rings.push(made.className)))).observe(document.getElementById('over'), { childList: true }); true")
        touch(one, "touchStart", spot(one, BUTTON))
        touch(one, "touchEnd")
        for page in windows.pages:
            page.wait("room.value('Motor', 'startTime') > 0", LATER)
        # There is a ring, and neither a frame of the keyboard, nor its pointer, nor a tooltip.
        assert one.value("rings.includes('ring hit') && !document.body.classList.contains('keys')")
        assert one.value("getComputedStyle(room.stage.view).outlineStyle") == "none"
        assert one.value("document.getElementById('tip').hidden && getComputedStyle(document.getElementById('aim')).display === 'none'")
        # One finger turns, two together move and don't zoom; nothing of it is sent.
        sent = one.value("JSON.stringify(room.pointer.answers)")
        before, turned = moved(one, [(60, 700)], [(160, 660)])
        assert not same(before[:3], turned[:3]) and not same(before[3:], turned[3:])
        before, panned = moved(one, [(100, 650), (200, 650)], [(140, 690), (240, 690)])
        assert not same(before[:3], panned[:3]) and same(before[3:], panned[3:]), (before, panned)
        before, nearer = moved(one, [(150, 650), (250, 650)], [(100, 650), (300, 650)])
        assert same(before[3:], nearer[3:]) and not same(before[:3], nearer[:3]), (before, nearer)
        assert one.value("JSON.stringify(room.pointer.answers)") == sent
    with Windows(2, ASSEMBLY, size=(390, 844)) as windows:
        one, other = windows.pages
        start, end = spot(one, [-2.9, 1.4, 0.15]), spot(one, [1.6, 1.2, 0.65])
        before = one.value(POSE)
        touch(one, "touchStart", start)
        touch(one, "touchMove", end)
        one.value("new Promise((resolve) => setTimeout(resolve, 500))")
        touch(one, "touchEnd")
        other.wait("[...document.querySelectorAll('#log li')].some((each) => each.textContent.includes('Ana put down'))", LATER)
        assert one.value(POSE) == before

"""Tests of windows of a browser: where their viewers are, and what is shown where one is stopped, hidden or alone."""
from served import BUTTON, LATER, Served, Windows, places_of_viewers, spot, wait_equal
from tests_windows import assert_door_is_seen, slow_door


def test_a_killed_viewer_comes_back():
    """The trainer stops it; its picture is grey and says what to do."""
    with Windows() as windows:
        trainer, one = windows.pages
        trainer.value("document.getElementById('inside').open = true")
        trainer.wait("document.querySelectorAll('#viewers .kill').length === 2")
        trainer.value("document.querySelectorAll('#viewers .kill')[1].click()")
        one.wait("!document.getElementById('stopped').hidden && document.body.classList.contains('grey')")
        assert trainer.value("document.getElementById('stopped').hidden")
        one.wait("document.getElementById('log').textContent.includes('Ana stopped the viewer of Ben')", LATER)
        trainer.wait("document.getElementById('badge').textContent === '1 of 2 viewers runs'", LATER)
        trainer.value("document.getElementById('inside').open = false")
        trainer.click(spot(trainer, BUTTON))
        trainer.wait("room.placeOf('Door')[0] > 0.01", LATER)
        pressed = "room.value('Motor', 'startTime')"
        stands, start = one.value("room.placeOf('Door')[0]"), one.value(pressed)
        assert abs(stands) < 1e-6 and not start, (stands, start)
        one.value("document.getElementById('start').click()")
        one.wait("room.state.status.viewers.every((viewer) => viewer.runs)")
        one.wait(f"{pressed} === {trainer.value(pressed)}")
        one.wait("document.getElementById('stopped').hidden && !document.body.classList.contains('grey')")
        wait_equal([one])


def test_a_hidden_window_shows_what_happened_once_it_is_seen():
    """A hidden window draws nothing, and goes on: what it shows when it is seen again is the world as it then is."""
    with slow_door() as job, Windows(2, job) as windows:
        hidden, other = windows.pages
        windows.browser.show(hidden, "minimized")
        hidden.wait("document.hidden", LATER)
        draws = hidden.value("room.stage.draws")
        other.click(spot(other, BUTTON))
        other.wait("room.placeOf('Door')[0] > 1.09", LATER)
        # It goes on meanwhile: what it has applied is compared with the others.
        wait_equal([other])
        assert hidden.value("document.hidden && room.stage.draws") == draws
        windows.browser.show(hidden, "normal")
        hidden.wait(f"!document.hidden && room.stage.draws > {draws} && room.placeOf('Door')[0] > 1.09", LATER)
        hidden.wait("!room.drawn.stale.size && !room.drawn.dirty")
        assert abs(assert_door_is_seen(hidden) - assert_door_is_seen(other)) < 0.02


def test_the_viewer_is_in_the_window_where_the_library_is():
    """Else it is in the server. The page says which, and each window has its digest of itself."""
    for words, where in places_of_viewers():
        with Windows(2, more=words) as windows:
            here, _, (one, other) = where == "in this window", wait_equal(windows.pages), windows.pages
            assert where in one.value("document.getElementById('where').textContent")
            far = [viewer["far"] for viewer in one.value("room.state.status.viewers")]
            assert far == [here] * 2 and one.value("Boolean(room.own.viewer)") == here
            if here:
                marks = "room.state.status.viewers.map(({ at, digest }) => `${at} ${digest}`)"
                one.wait(f"{marks}.every((mark) => mark === `${{room.own.at}} ${{room.own.digest}}`)", LATER)
                other.click(spot(other, BUTTON))
                one.wait("room.own.viewer.trace().includes('Button.isActive TRUE')", LATER)
                one.wait("room.value('Motor', 'startTime')", LATER)


def test_it_says_when_the_server_is_gone():
    with Windows() as windows:
        windows.served.stop()
        for page in windows.pages:
            page.wait("!document.getElementById('gone').hidden", LATER)
            assert page.value("document.getElementById('badge').textContent") == "Not connected"
        # Another server at the same address: the windows come back.
        with Served(port=windows.served.port):
            for page in windows.pages:
                page.wait("document.getElementById('gone').hidden && room.state.status.viewers.length === 2")
                page.wait("room.state.status.equal_at > 5")

"""Tests of windows of a browser: people, replay, and what is said of a faulty scene."""
import time

import browser
from served import BUTTON, LATER, TRAINER, Windows, scene, scene_file, spot
from tests_windows import slow_door


def test_people_have_names_and_pointers():
    with Windows(3) as windows:
        ana, ben, chloe = windows.pages
        chips = "[...document.querySelectorAll('.chip > span:nth-child(2)')].map((each) => each.textContent).join()"
        ben.wait(f"{chips} === 'Ben (you),Ana,Chloe'")
        ana.mouse("mouseMoved", spot(ana, [1.4, 1.05, 0.1]))
        tag = "[...document.querySelectorAll('.tag')].find((each) => each.textContent === 'Ana' && !each.hidden)"
        # An element itself would come here as an empty object.
        ben.wait(f"Boolean({tag})", LATER)
        # The tip of its arrow is where she points, and the name beside it.
        x, y = spot(ben, [1.4, 1.05, 0.1])
        box = ben.value(f"(({{left, top}}) => [left, top])({tag}.lastChild.getBoundingClientRect())")
        assert 5 < box[0] - x < 40 and 5 < box[1] - y < 40, (box, x, y)
        ana.click(spot(ana, BUTTON))
        said = "document.getElementById('said')"
        ben.wait(f"!{said}.hidden && {said}.textContent === `Ana pressed the door's button`", LATER)
        chloe.value("document.getElementById('hand').click()")
        ben.wait("document.querySelectorAll('.chip .hand').length === 1", LATER)
        chloe.wait("document.getElementById('hand').textContent === 'Lower hand'", LATER)
        ben.value("document.getElementById('your-name').value = 'Benno'; document.getElementById('naming').requestSubmit()")
        chloe.wait(f"{chips} === 'Chloe (you),Ana,Benno'", LATER)
        ben.value("document.getElementById('share').click()")
        ben.wait("document.getElementById('code').naturalWidth > 0 || document.getElementById('code').hidden", LATER)
        assert ben.value("document.getElementById('link').value") == windows.served.address


def test_a_trainers_link_isnt_sent_on():
    """Its secret leaves the address, and stays with the window. It may be opened where the room is open already."""
    is_trainer = "document.body.classList.contains('trainer') && room.state.id > 0"
    with Windows(2) as windows:
        trainer, one = windows.pages
        assert trainer.value(f"{is_trainer} && location.hash") == "#name=Ana"
        trainer.value("document.getElementById('share').click()")
        assert trainer.value("document.getElementById('link').value") == windows.served.address
        trainer.value("location.reload()")
        trainer.wait(f"window.room && {is_trainer}", LATER)
        seat = one.value("room.state.who")
        assert not one.value(is_trainer) and one.value("getComputedStyle(document.getElementById('reset')).display") == "none"
        one.value(f"location.href = '{windows.served.address}#trainer={TRAINER}'")
        one.wait(f"window.room && {is_trainer} && location.href === '{windows.served.address}'", LATER)
        assert one.value("room.state.who") == seat
        one.value("document.getElementById('reset').click(); document.getElementById('sure').click()")
        one.wait("room.state.run === 2", LATER)


def test_an_invitation_is_for_other_machines_where_these_reach_the_room():
    named = ("--address", "0.0.0.0", "--name", "room.example")
    with Windows(0, more=named, flags=("--host-resolver-rules=MAP room.example 127.0.0.1",)) as windows:
        address, shown = windows.served.address, "document.getElementById('{}').hidden"
        for opened in (address, address.replace("room.example", "127.0.0.1")):
            page = windows.browser.open(opened)
            page.wait("window.room && room.state.id", LATER)
            page.value("document.getElementById('share').click()")
            assert page.value("document.getElementById('link').value") == address and page.value(shown.format("only-here"))
            page.wait(f"{shown.format('code')} || document.getElementById('code').naturalWidth > 0", LATER)
            assert page.value("document.getElementById('second').href") == opened


def test_who_comes_beyond_the_seats_watches():
    with slow_door() as job, Windows(0, job, more=("--each", "1")) as windows:
        for number in (0, 1):
            windows.pages.append(windows.open(number))
            windows.pages[-1].wait("window.room && room.state.id", LATER)
        for page in windows.pages:
            page.wait("room.drawn.content && room.stage.draws && room.state.people.length === 2", LATER)
        one, watches = windows.pages
        assert one.value("room.state.who") == 0 and watches.value("room.state.who") is None
        assert one.value("document.querySelector('.chip:nth-child(2) small').textContent") == "watches"
        # What can be pressed isn't shown to it, and a click turns its view at most.
        assert watches.value("document.getElementById('first').hidden && !document.querySelector('.hint')")
        watches.click(spot(watches, BUTTON))
        assert watches.value("room.pointer.answers") == {}
        one.click(spot(one, BUTTON))
        watches.wait("room.placeOf('Door')[0] > 1.09", LATER)
        # Its hand is seen.
        watches.value("document.getElementById('hand').click()")
        one.wait("document.querySelectorAll('.chip .hand').length === 1", LATER)


def test_each_window_asks_for_a_name_of_its_own():
    """Also where the browser knows one that someone here has; the field is selected, so that what is typed is the name."""
    hidden, name = "document.getElementById('naming').hidden", "room.state.people.find(({ id }) => id === room.state.id).name"
    with Windows(0) as windows:
        for typed in ("Tina", "Uwe"):
            page = windows.browser.open(windows.served.address)
            page.wait("window.room && room.state.people.length && room.stage.draws", LATER)
            assert not page.value(hidden) and page.value("document.activeElement.id") == "your-name"
            page.call("Input.insertText", text=typed)
            page.press("Enter")
            page.wait(f"{hidden} && {name} === '{typed}'", LATER)
            windows.pages.append(page)
        # Each keeps its own, though another one was given last in this browser.
        for page, typed in zip(windows.pages, ("Tina", "Uwe")):
            page.value("sessionStorage.removeItem('room /door/'); location.reload()")
            page.wait(f"window.room && room.state.id && room.state.people.length && {hidden}", LATER)


def middle(page, what):
    """The middle of an element, as it is seen."""
    box = f"document.querySelector('{what}').getBoundingClientRect()"
    return page.value(f"((box) => [box.left + box.width / 2, box.top + box.height / 2])({box})")


def test_a_stranger_invites_and_presses_within_a_minute():
    """By what the page shows alone: a ring on what can be pressed, a line that says so, a button that invites."""
    with Windows(0) as windows:
        begun, pages = time.monotonic(), []
        for address in (windows.served.address, None):
            if address is None:
                pages[0].wait("document.getElementById('badge').textContent === 'Only you so far'", LATER)
                assert pages[0].value("document.body.classList.contains('alone')")
                pages[0].click(middle(pages[0], "#share"))
                pages[0].wait("document.getElementById('invite').open", LATER)
                address = pages[0].value("document.getElementById('second').href")
            pages.append(windows.browser.open(address))
            shape = {"width": 390, "height": 844, "deviceScaleFactor": 1, "mobile": False}
            pages[-1].call("Emulation.setDeviceMetricsOverride", **shape)
            pages[-1].wait("window.room && room.stage.size.join() === '390,844'")
            pages[-1].wait("document.querySelectorAll('.hint').length === 1 && !document.getElementById('first').hidden")
        one, other = pages
        one.click(middle(one, "#shut"))
        other.click(middle(other, ".hint"))
        for page in pages:
            page.wait("document.getElementById('said').textContent === `Guest 2 pressed the door's button`", LATER)
            page.wait("room.value('Door', 'translation')[0] > 0", LATER)
        print(f"after {time.monotonic() - begun:.0f} s", end=", ")
        assert time.monotonic() - begun < 60 * browser.busy()
        # The line has had its time, and what is said covers no one's name.
        assert other.value("document.getElementById('first').hidden")
        edge = "document.getElementById('{}').getBoundingClientRect().{}"
        assert other.value(f"{edge.format('said', 'bottom')} <= {edge.format('naming', 'top')}")


def test_the_trainer_replays_and_begins_again():
    with slow_door() as job, Windows(2, job) as windows:
        trainer, one = windows.pages
        trainer.click(spot(trainer, BUTTON))
        one.wait("room.placeOf('Door')[0] > 1", LATER)
        trainer.value("document.getElementById('past').click()")
        trainer.wait("room.state.replay && room.state.replay.n === 0 && !document.getElementById('replay').hidden", LATER)
        assert trainer.value("room.placeOf('Door')[0]") < 0.01 and not one.value("room.state.replay")
        trainer.wait("document.querySelectorAll('#marks i').length === 1", LATER)
        trainer.value("document.getElementById('speed').value = 16; document.getElementById('play').click()")
        trainer.wait("room.placeOf('Door')[0] > 0.5", LATER)
        # Whose mark was passed is said.
        trainer.wait("document.getElementById('said').textContent === `Ana pressed the door's button`", LATER)
        trainer.value("const bar = document.getElementById('time'); bar.value = 3; bar.dispatchEvent(new Event('input'))")
        trainer.wait("room.state.replay.n === 3 && room.placeOf('Door')[0] < 0.01", LATER)
        # What happened is saved, as a job and as a log.
        trainer.value("window.saved = []; HTMLAnchorElement.prototype.click = function () { saved.push(this.download); }")
        for kind in ("job", "x3dlog"):
            trainer.value(f"document.getElementById('{kind}').click()")
            trainer.wait(f"saved.includes('door.{kind}')", LATER)
        trainer.value("document.getElementById('now').click()")
        trainer.wait("!room.state.replay && room.state.n > 30", LATER)
        # It asks before it begins again.
        trainer.value("document.getElementById('reset').click()")
        assert trainer.value("document.getElementById('again').open && room.state.run === 1")
        trainer.value("document.getElementById('sure').click()")
        for page in windows.pages:
            page.wait("room.state.status.run === 2 && room.state.status.numbered < 300", LATER)
            page.wait("room.state.n && !room.value('Motor', 'startTime')", LATER)
        one.click(spot(one, BUTTON))
        trainer.wait("room.placeOf('Door')[0] > 0.01", LATER)


def test_a_faulty_scene_is_shown_over_the_picture():
    with scene_file(scene()) as file, Windows(2, file) as windows:
        file.write_text(scene().replace("DEF Lamp PointLight", "DEF Lamp Teapot"))
        line = 1 + scene()[: scene().index("DEF Lamp PointLight")].count("\n")
        for page in windows.pages:
            page.wait("!document.getElementById('fault').hidden", LATER)
            told = page.value("document.getElementById('fault').innerText")
            assert f"scene.x3dv:{line}" in told and 'node type "Teapot" isn\'t read' in told, told
        windows.shoot("fault")
        narrow = {"width": 390, "height": 844, "deviceScaleFactor": 1, "mobile": False}
        windows.pages[0].call("Emulation.setDeviceMetricsOverride", **narrow)
        windows.pages[0].wait("room.stage.size[0] === 390", LATER)
        box = windows.pages[0].value("(({ left, right }) => [left, right])(document.getElementById('fault').getBoundingClientRect())")
        assert 0 <= box[0] < box[1] <= 390, box
        file.write_text(scene().replace("0.2 0.45 0.7", "0.9 0.1 0.1"))
        for page in windows.pages:
            page.wait("document.getElementById('fault').hidden && room.state.run === 2", LATER)
            page.wait("room.state.nodes.some((node) => String(node.fields.diffuseColor) === '0.9,0.1,0.1')", LATER)

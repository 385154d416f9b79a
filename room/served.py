"""What tests of the room share: a server of its own, clients without a browser, and windows of one browser."""
import contextlib
import http.client
import json
import os
import re
import subprocess
import sys
import tempfile
import time
from pathlib import Path

import browser
from library import WASM

HERE = Path(__file__).resolve().parent
ROOMS = HERE.parent / "examples/rooms"
DOOR, PANEL, QUIZ, ASSEMBLY, DRILL = (ROOMS / f"{name}.job" for name in ("door", "panel", "quiz", "assembly", "drill"))
TRAINER = "trainer-of-the-tests"
# The button of the door, and a ray at it.
BUTTON, AT_BUTTON = [-1, 1.2, 0.16], [-1_000_000, 1_200_000, 5_000_000, 0, 0, -1_000_000]
LATER = 20.0 * browser.busy()
NAMES = "Ana Ben Chloe Dev Elif Finn Gita Hugo Ines Jonas Kaya Liam Mina Noor Omar Pia".split()


class Skipped(Exception):
    """There is nothing to test it with."""


def scene(job=DOOR):
    return ("\n" + job.read_text()).partition("\nscene\n")[2]


@contextlib.contextmanager
def scene_file(text, name="scene.x3dv"):
    """A scene in a file of its own."""
    with tempfile.TemporaryDirectory() as folder:
        file = Path(folder, name)
        file.write_text(text)
        yield file


@contextlib.contextmanager
def library_for_windows():
    """The folder that says that windows may hold their viewers: where the library isn't built for them, an empty one. A
    browser doesn't load that, but windows without one need none."""
    if (WASM / "x3d.wasm").exists():
        yield str(WASM)
        return
    with tempfile.TemporaryDirectory() as folder:
        Path(folder, "x3d.wasm").write_bytes(b"")
        yield folder


def places_of_viewers():
    """Words for a server, and where viewers run by them: in the server, and in windows where the library for these is."""
    held = (WASM / "x3d.wasm").exists()
    if not held:
        print("there is no library for windows (make wasm)", end=", ")
    each = "--each", "64"
    return [((*each, "--wasm", "/none"), "in the server"), *([(each, "in this window")] if held else [])]


class Served:
    """A server of its own on a port of its own."""

    def __init__(self, job=DOOR, port=0, more=("--each", "64")):
        self.job, self.port, self.more = job, port, more

    def __enter__(self):
        three = ["--three", os.environ["THREE"]] if os.environ.get("THREE") else []
        words = [sys.executable, HERE / "server.py", "--port", str(self.port), "--trainer", TRAINER, *three]
        jobs = [self.job] if self.job else []
        self.process = subprocess.Popen([*words, *self.more, *jobs], stdout=subprocess.PIPE, text=True)
        self.address = self.process.stdout.readline().strip()
        if not self.address:
            raise AssertionError("the server didn't start")
        self.port = int(re.search(r":(\d+)/", self.address)[1])
        self.room = self.address.rstrip("/").rpartition("/")[2]
        return self

    def __exit__(self, *_):
        self.stop()
        self.process.stdout.close()

    def stop(self):
        self.process.terminate()
        self.process.wait(20)

    def ask(self, method, path, body=None, **headers):
        link = http.client.HTTPConnection("127.0.0.1", self.port, timeout=60)
        link.request(method, path, body, headers)
        answer = link.getresponse()
        content = answer.read()
        link.close()
        return answer.status, content

    def get(self, path, **headers):
        return self.ask("GET", path, **headers)[0]

    def client(self, **given):
        return Client(self, **given)


class Client:
    """A window without a browser."""

    def __init__(self, served, more=(), **given):
        self.socket = browser.Socket(f"ws://127.0.0.1:{served.port}/{served.room}/socket", more)
        self.socket.link.settimeout(40)
        self.number, self.events = 0, []
        self.socket.send(json.dumps({"do": "enter", **given}))
        self.seat = self.until("you", "refused")

    def until(self, *kinds):
        """The next event of one of these kinds; those before it are kept in `events`."""
        begun = time.monotonic()
        while True:
            assert time.monotonic() - begun < 3 * LATER, f"not told within {3 * LATER:.0f} s: {' or '.join(kinds)}"
            told = json.loads(self.socket.receive())
            self.note(told)
            if told["kind"] in kinds:
                return told

    def note(self, event):
        self.events.append(event)

    def ask(self, command, **body):
        """The answer to a command."""
        self.number += 1
        self.socket.send(json.dumps({"do": command, "id": self.number, **body}))
        while (told := self.until("answer"))["id"] != self.number:
            pass
        return told

    def status(self, command, **body):
        return self.ask(command, **body)["status"]

    def close(self):
        """Goes as a page does that is closed."""
        with contextlib.suppress(OSError):
            self.socket.send((1001).to_bytes(2, "big"), 8)
        self.socket.close()


class Windows:
    """Windows of one room, in one browser; the first is the trainer's."""

    def __init__(self, count=2, job=DOOR, size=(900, 1000), more=("--each", "64"), flags=()):
        self.count, self.job, self.size, self.more, self.flags = count, job, size, more, flags

    def __enter__(self):
        if not browser.installed():
            raise Skipped("no chromium is installed")
        with contextlib.ExitStack() as stack:
            self.served = stack.enter_context(Served(self.job, more=self.more))
            self.browser = stack.enter_context(contextlib.closing(browser.Browser(self.size, self.flags)))
            self.pages = []
            for number in range(self.count):
                if not self.fits(number):
                    break
                self.pages.append(self.open(number))
                # People are listed, and have seats, in the order in which they come in.
                self.pages[-1].wait("window.room && room.state.id")
            size = ",".join(map(str, self.size))
            for page in self.pages:
                page.wait("room.drawn.content && room.state.status && room.stage.draws")
                # Else a place is looked for where it was before the window had its size.
                page.wait(f"room.stage.size.join() === '{size}'")
                page.wait("room.state.replay || room.state.status.equal_at > 5")
            self.ends = stack.pop_all()
        return self

    def fits(self, number):
        """Whether there is place for a window of that number."""
        return True

    def open(self, number):
        """One more window, of a person of that number."""
        name = NAMES[number % len(NAMES)] + (str(number) if number >= len(NAMES) else "")
        trainer = f"&trainer={TRAINER}" if number == 0 else ""
        page = self.browser.open(f"{self.served.address}#name={name}{trainer}")
        given = {"width": self.size[0], "height": self.size[1], "deviceScaleFactor": 1, "mobile": False}
        page.call("Emulation.setDeviceMetricsOverride", **given)
        return page

    def __exit__(self, kind, fault, _):
        if isinstance(fault, AssertionError):
            for page in self.pages:
                print(f"\n  {page.value('window.room ? room.told() : document.URL')}", end="", flush=True)
        self.ends.close()

    def shoot(self, name):
        folder = os.environ.get("SHOTS")
        for number, page in enumerate(self.pages if folder else []):
            Path(folder, f"{name}-{number}.png").write_bytes(page.picture())


def spot(page, place):
    """Where a place of the scene is seen in a window."""
    return page.value(f"room.spotOf({list(place)})")


def wait_equal(pages):
    """Waits until all that was numbered by now is known to be equal in all viewers."""
    last = max(page.value("room.state.status.numbered") for page in pages)
    for page in pages:
        page.wait(f"room.state.status.equal_at >= {last}")
        assert not page.value("room.state.status.different")
    return last

"""Chromium without a screen, driven over its remote debugging port, as far as tests of the room
want it."""
import base64
import json
import os
import shutil
import socket
import struct
import subprocess
import tempfile
import time
import zlib
from pathlib import Path

# Of each key its code, its number in Windows, by which chromium goes, and what it types.
ARROWS = ("ArrowLeft", "ArrowUp", "ArrowRight", "ArrowDown")
KEYS = {" ": ("Space", 32, " "), "Tab": ("Tab", 9, ""), "Enter": ("Enter", 13, "\r")}
KEYS.update({name: (name, number, "") for number, name in enumerate(ARROWS, 37)})
NAMES = ("chromium", "chromium-browser", "google-chrome")


def busy():
    """How many times longer all takes, as more wants to run than there are processors."""
    return max(1.0, os.getloadavg()[0] / os.cpu_count())


SECONDS = 60 * busy()


def installed():
    """The path of a browser, if there is one."""
    return next(filter(None, map(shutil.which, NAMES)), None)


def pixels(png):
    """The rows of a picture as chromium writes it (PNG, 8 bits a part), and how many parts a pixel
    has."""
    at, data, parts = 8, b"", 0
    while at < len(png):
        size, kind = struct.unpack_from(">I4s", png, at)
        if kind == b"IHDR":
            wide, _, _, color = struct.unpack_from(">IIBB", png, at + 8)
            parts = {2: 3, 6: 4}[color]
        elif kind == b"IDAT":
            data += png[at + 8 : at + 8 + size]
        at += size + 12
    data, rows, above, length = zlib.decompress(data), [], bytes(wide * parts), wide * parts + 1
    for start in range(0, len(data), length):
        above = unfiltered(data[start], bytearray(data[start + 1 : start + length]), above, parts)
        rows.append(above)
    return rows, parts


def unfiltered(kind, row, above, parts):
    """A row from what was stored of it (PNG, section 9)."""
    for k, stored in enumerate(row):
        left, up = (row[k - parts] if k >= parts else 0), above[k]
        corner = above[k - parts] if k >= parts else 0
        if kind == 4:
            far = abs(up - corner), abs(left - corner), abs(left + up - 2 * corner)
            near = left if far[0] == min(far) else up if far[1] <= far[2] else corner
            row[k] = (stored + near) & 255
        else:
            row[k] = (stored + (0, left, up, (left + up) // 2)[kind]) & 255
    return row


class Socket:
    """A WebSocket (RFC 6455) as a client: whole texts, in one frame each way or several; binary messages that came
    before one are in `datagrams`. `more` are lines of its request's head."""

    def __init__(self, address, more=()):
        host, path = address.removeprefix("ws://").split("/", 1)
        name, port = host.split(":")
        self.link = socket.create_connection((name, int(port)), timeout=SECONDS)
        self.datagrams, key = [], base64.b64encode(os.urandom(16)).decode()
        ask = (
            f"GET /{path} HTTP/1.1\r\nHost: {host}\r\nUpgrade: websocket\r\n"
            f"Connection: Upgrade\r\nSec-WebSocket-Key: {key}\r\nSec-WebSocket-Version: 13\r\n"
        )
        self.link.sendall("".join([ask, *(f"{line}\r\n" for line in more), "\r\n"]).encode())
        self.file = self.link.makefile("rb")
        status = self.file.readline()
        if b"101" not in status:
            self.close()
            raise ConnectionError(f"no WebSocket: {status.decode(errors='replace').strip()}")
        while self.file.readline().strip():
            pass

    def close(self):
        self.file.close()
        self.link.close()

    def send(self, text, kind=1):
        """Sends a text, or the bytes of a frame of another kind."""
        data, mask = text.encode() if isinstance(text, str) else text, os.urandom(4)
        size = len(data)
        head = bytes([0x80 | kind]) + (
            bytes([0x80 | size])
            if size < 126
            else bytes([0xFE]) + struct.pack(">H", size)
            if size < 1 << 16
            else bytes([0xFF]) + struct.pack(">Q", size)
        )
        masked = bytes(byte ^ mask[k % 4] for k, byte in enumerate(data))
        self.link.sendall(head + mask + masked)

    def has_more(self):
        """Whether some of a message is there."""
        self.link.setblocking(False)
        try:
            return bool(self.file.peek(1))
        finally:
            self.link.settimeout(SECONDS)

    def receive(self):
        """The next text. Raises ConnectionError where the other side ends."""
        while (text := self.receive_any()) is None:
            pass
        return text

    def receive_any(self):
        """The next text, or none of a binary message, which is the last of `datagrams` then."""
        whole = b""
        while True:
            begins = self.file.read(2)
            if len(begins) < 2 or begins[0] & 0x0F == 8:
                raise ConnectionError("closed")
            first, second = begins
            size = second & 0x7F
            if size > 125:
                size = int.from_bytes(self.file.read(2 if size == 126 else 8), "big")
            data = self.file.read(size)
            if first & 0x0F == 9:
                self.send(data, 10)
            if first & 0x0F == 2:
                self.datagrams.append(data)
                return None
            if first & 0x0F in (0, 1):
                whole += data
                if first & 0x80:
                    return whole.decode()


class Page:
    """One window of the browser."""

    def __init__(self, address):
        self.socket, self.number = Socket(address), 0

    def call(self, method, **given):
        self.number += 1
        self.socket.send(json.dumps({"id": self.number, "method": method, "params": given}))
        while True:
            answer = json.loads(self.socket.receive())
            if answer.get("id") == self.number:
                if "error" in answer:
                    raise RuntimeError(f"{method}: {answer['error']}")
                return answer["result"]

    def value(self, expression):
        """What an expression of JavaScript is in the page."""
        given = {"expression": expression, "returnByValue": True, "awaitPromise": True}
        answer = self.call("Runtime.evaluate", **given)
        if "exceptionDetails" in answer:
            raise RuntimeError(json.dumps(answer["exceptionDetails"])[:600])
        return answer["result"].get("value")

    def wait(self, expression, seconds=SECONDS):
        """Waits until an expression is true, so many seconds at most; how long it was."""
        begun = time.monotonic()
        while not self.value(expression):
            if time.monotonic() - begun > seconds:
                told = self.value("window.room ? room.told() : 'no page'")
                raise AssertionError(f"not within {seconds:.0f} s: {expression}; {told}")
            time.sleep(0.05)
        return time.monotonic() - begun

    def mouse(self, kind, spot, buttons=0):
        """The mouse moves or is pressed; buttons are 1 for the left one and 2 for the right."""
        given = {"type": kind, "x": spot[0], "y": spot[1], "button": "left" if buttons else "none"}
        if kind != "mouseMoved":
            given.update(button="right" if buttons == 2 else "left", clickCount=1)
        self.call("Input.dispatchMouseEvent", buttons=buttons, **given)

    def click(self, spot):
        self.mouse("mouseMoved", spot)
        self.mouse("mousePressed", spot, 1)
        self.mouse("mouseReleased", spot)

    def key(self, key, down=True):
        """A key goes down, or comes up."""
        code, number, text = KEYS.get(key, (key, 0, ""))
        given = {"type": "keyDown" if down else "keyUp", "key": key, "code": code}
        more = {"text": text} if text and down else {}
        self.call("Input.dispatchKeyEvent", **given, windowsVirtualKeyCode=number, **more)

    def press(self, key):
        self.key(key)
        self.key(key, down=False)

    def picture(self, clip=None):
        """A screenshot, of all or of x, y, width and height, as PNG."""
        given = {"format": "png"}
        if clip:
            given["clip"] = {**dict(zip(("x", "y", "width", "height"), clip)), "scale": 1}
        return base64.b64decode(self.call("Page.captureScreenshot", **given)["data"])


class Browser:
    """A browser with a folder of its own, which ends with it."""

    def __init__(self, size=(900, 1000), more=()):
        # Its processes may write a moment longer than it runs.
        named = {"prefix": "room-browser-", "ignore_cleanup_errors": True}
        self.folder = tempfile.TemporaryDirectory(**named)
        words = [
            installed(),
            "--headless=new",
            "--remote-debugging-port=0",
            f"--user-data-dir={self.folder.name}",
            f"--window-size={size[0]},{size[1]}",
            "--disable-dev-shm-usage",
            "--disable-background-timer-throttling",
            "--disable-renderer-backgrounding",
            "--disable-backgrounding-occluded-windows",
            "--enable-unsafe-swiftshader",
            # Else what is clicked before a page was seen for the first time is dropped.
            "--allow-pre-commit-input",
            "--no-first-run",
            *more,
            *(["--no-sandbox"] if os.geteuid() == 0 else []),
            "about:blank",
        ]
        quiet = subprocess.DEVNULL
        self.process = subprocess.Popen(words, stdout=quiet, stderr=quiet)
        port = Path(self.folder.name, "DevToolsActivePort")
        begun = time.monotonic()
        while not port.exists() or not port.read_text().strip():
            if time.monotonic() - begun > SECONDS or self.process.poll() is not None:
                raise RuntimeError("the browser didn't start")
            time.sleep(0.1)
        number, path = port.read_text().split()
        self.port, self.whole = int(number), Page(f"ws://127.0.0.1:{number}{path}")

    def open(self, address):
        """A page in a window of its own: as a tab behind another it would draw nothing, and be run after all else."""
        new = self.whole.call("Target.createTarget", url=address, newWindow=True)["targetId"]
        page = Page(f"ws://127.0.0.1:{self.port}/devtools/page/{new}")
        page.target = new
        page.call("Emulation.setFocusEmulationEnabled", enabled=True)
        return page

    def show(self, page, state):
        """Makes a page's window `minimized` or `normal`."""
        page.call("Emulation.setFocusEmulationEnabled", enabled=state == "normal")
        window = self.whole.call("Browser.getWindowForTarget", targetId=page.target)["windowId"]
        self.whole.call("Browser.setWindowBounds", windowId=window, bounds={"windowState": state})

    def close(self):
        self.process.terminate()
        try:
            self.process.wait(20)
        except subprocess.TimeoutExpired:
            self.process.kill()
            self.process.wait()
        self.folder.cleanup()

#!/usr/bin/python3
"""Makes the pictures of the rooms: each at 1280 and 390 pixels wide with three people, and with sixteen.

usage: room/pictures.py FOLDER [ROOM..]
One of them is a window of chromium; the others speak to the server as windows do."""
import contextlib
import random
import sys
import threading
import time
from pathlib import Path

sys.dont_write_bytecode = True
import browser
from served import ASSEMBLY, DOOR, DRILL, NAMES, PANEL, QUIZ, TRAINER, Served

# Of each room where people point, in a window of the scene; and what the first of them presses.
PLACES = {
    DOOR: ((-1.6, 1.6, 0.2, 1.9), (-1, 1.2)),
    PANEL: ((-1.6, 1.6, -1.2, 1.2), (-1, -0.5)),
    QUIZ: ((-2.4, 2.4, -0.4, 0.4), None),
    ASSEMBLY: ((-3.6, 3.2, -1.7, 1.7), None),
    DRILL: ((-3, 3, -0.5, 0.5), (-2.7, 0)),
}
FAR = 9
SHAPES = {"1280": (1280, 800), "390": (390, 844)}


def aim(x, y):
    return [round(1e6 * part) for part in (x, y, FAR, 0, 0, -1)]


def point(client, down, x, y):
    """Points somewhere, once the client's viewer has joined."""
    while client.status("point", down=down, aim=aim(x, y)) == 429:
        time.sleep(0.2)


def people(served, count, room, ends):
    """`count` clients who point somewhere; the first of them holds what the room has to be held."""
    (left, right, low, high), held = PLACES[room]
    chance, found = random.Random(8), []
    for name in NAMES[1 : count + 1]:
        client = served.client(name=name)
        ends.callback(client.close)
        point(client, False, chance.uniform(left, right), chance.uniform(low, high))
        found.append(client)
    if held:
        for down in (False, True):
            point(found[0], down, *held)
    found[1].ask("hand", up=True)
    for client in found:
        threading.Thread(target=listen, args=(client,), daemon=True).start()
    return found


def listen(client):
    """Reads the events of a client, as a window does: one that doesn't is cut off."""
    with contextlib.suppress(OSError, ValueError):
        while True:
            client.socket.receive()


def shape(page, size):
    page.call("Emulation.setDeviceMetricsOverride", width=size[0], height=size[1], deviceScaleFactor=1, mobile=False)


def settle(page, count):
    page.wait(f"room.state.people.length === {count}")
    page.wait("room.state.people.every(({ id, who }) => id === room.state.id || room.pointsAt(who))")
    page.wait(f"document.getElementById('badge').textContent.startsWith('All {count} ')")
    page.wait(f"document.querySelectorAll('.tag:not([hidden])').length === {count - 1}")
    page.wait("!room.drawn.stale.size && !room.drawn.dirty")
    time.sleep(1)


def take(room, folder):
    with contextlib.ExitStack() as ends:
        served = ends.enter_context(Served(room))
        window = ends.enter_context(contextlib.closing(browser.Browser(SHAPES["1280"])))
        page = window.open(f"{served.address}#name={NAMES[0]}&trainer={TRAINER}")
        shape(page, SHAPES["1280"])
        page.wait("window.room && room.drawn.content && room.stage.draws")
        # What is said for a moment is hidden, and the log is open.
        page.value("document.getElementById('done').open = true")
        others = people(served, 2, room, ends)
        settle(page, 3)
        for name, size in SHAPES.items():
            shape(page, size)
            time.sleep(1.5)
            settle(page, 3)
            Path(folder, f"{room.stem}-{name}.png").write_bytes(page.picture())
        shape(page, SHAPES["1280"])
        for client in others:
            client.close()
        people(served, 15, room, ends)
        settle(page, 16)
        Path(folder, f"{room.stem}-sixteen.png").write_bytes(page.picture())
        print(room.stem, flush=True)


def main():
    folder, *names = sys.argv[1:] or sys.exit(__doc__.split("\n")[2])
    Path(folder).mkdir(parents=True, exist_ok=True)
    for room in PLACES:
        if not names or room.stem in names:
            take(room, folder)


if __name__ == "__main__":
    main()

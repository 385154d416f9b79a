#!/usr/bin/env python3
"""Measures the room: a scene of 1,000 nodes, and windows whose pointers move 11 times a second.

usage: room/measure.py [SECONDS] [SHOWN] [WINDOWS] [FLAG..]
Of the WINDOWS (16) SHOWN (1) are chromium's, of 1280 by 720 pixels and with these flags of it; the
others speak as a page does. It tells what the server took of a processor, how many
frames a second each window of chromium had, and what a frame takes of a processor: in its page's
own thread, in the process that stands for graphics hardware, and in all others. So once where
frames are drawn as the world changes, and once where each is."""
import contextlib
import math
import os
import random
import re
import subprocess
import sys
import tempfile
import threading
import time
from pathlib import Path

sys.dont_write_bytecode = True
import browser
from served import Served

PACE, MOVING = 0.09, 8
GRID = [(column - 7, row - 5) for row in range(11) for column in range(15)]
BOX = """DEF Box%d Transform {
  translation %d %d 0
  children [
    DEF Touch%d TouchSensor {}
    Shape {
      appearance Appearance { material Material { diffuseColor %.2f %.2f 0.7 } }
      geometry Box { size 0.7 0.7 0.7 }
    }
  ]
}
"""
WAY = """DEF Way%d PositionInterpolator { key [ 0, 0.5, 1 ] keyValue [ %d %d 0, %d %d 2, %d %d 0 ] }
ROUTE Clock.fraction_changed TO Way%d.set_fraction
ROUTE Way%d.value_changed TO Box%d.translation
"""
# A page's pointer goes in a circle, and its frames are counted.
MOVE = """(() => {
  const view = document.getElementById('view'), box = view.getBoundingClientRect();
  let way = 6 * Math.random();
  window.counted = 0;
  const count = () => { window.counted += 1; requestAnimationFrame(count); };
  count();
  setInterval(() => {
    way += 0.05;
    const clientX = box.left + box.width * (0.5 + 0.4 * Math.cos(way));
    const clientY = box.top + box.height * (0.5 + 0.4 * Math.sin(way));
    view.dispatchEvent(new PointerEvent('pointermove', { clientX, clientY }));
  }, 90);
})()"""


def scene():
    """1,000 nodes: 165 boxes that can be pointed at, of which eight go to and fro."""
    parts = ["#X3D V3.0 utf8\nViewpoint { position 0 0 17 }\n"]
    for number, (x, y) in enumerate(GRID):
        parts.append(BOX % (number, x, y, number, 0.55 + 0.05 * x, 0.6 + 0.06 * y))
    parts.append("DEF Clock TimeSensor { cycleInterval 4 loop TRUE startTime 1 }\n")
    for number in range(MOVING):
        ends = GRID[20 * number] * 3
        parts.append(WAY % (number, *ends, number, number, 20 * number))
    return "".join(parts)


class Mover(threading.Thread):
    """A window without a browser: it takes its events, and moves its pointer in a circle."""

    def __init__(self, served):
        super().__init__(daemon=True)
        self.client, self.numbered = served.client(), 0

    def run(self):
        way = 6 * random.random()
        while True:
            way += 0.05
            ray = round(400_000 * math.cos(way)), round(280_000 * math.sin(way)), -1_000_000
            self.client.ask("point", down=False, aim=[0, 0, 17_000_000, *ray])
            for told in self.client.events:
                self.numbered = told.get("numbered", self.numbered)
            self.client.events.clear()
            time.sleep(PACE)


def used(process):
    """The seconds of a processor that a process has taken."""
    parts = Path(f"/proc/{process.pid}/stat").read_text().rpartition(") ")[2].split()
    return (int(parts[11]) + int(parts[12])) / os.sysconf("SC_CLK_TCK")


def clients(address, count):
    """Windows without a browser, in a process that tells each second how much is numbered."""
    found = [Mover(At(address)) for _ in range(count)]
    for mover in found:
        mover.start()
    while True:
        print(found[0].numbered, flush=True)
        time.sleep(1)


class At(Served):
    """A server that runs already."""

    def __init__(self, address):
        self.address = address
        self.port, self.room = int(re.search(r":(\d+)/", address)[1]), address.rstrip("/").rpartition("/")[2]


def counts_of(page):
    """How many frames a window had, and how many were drawn."""
    return page.value("[window.counted, room.stage.draws]")


def on_processor(task):
    """The seconds of a processor that a thread has had."""
    try:
        return int(Path(task, "schedstat").read_text().split()[0]) / 1e9
    except OSError:
        return 0


def spent(process):
    """The same of a browser: of the threads of its pages, of its process for graphics, of the
    rest."""
    parts = {"page": 0, "graphics": 0, "rest": 0}
    below = {process.pid}
    for folder in sorted(Path("/proc").glob("[0-9]*"), key=lambda each: int(each.name)):
        try:
            above = int(Path(folder, "stat").read_text().rpartition(") ")[2].split()[1])
            words = Path(folder, "cmdline").read_bytes()
        except OSError:
            continue
        if above not in below and int(folder.name) != process.pid:
            continue
        below.add(int(folder.name))
        for task in Path(folder, "task").glob("*"):
            page = b"--type=renderer" in words and task.name == folder.name
            graphics = b"--type=gpu-process" in words
            name = "page" if page else "graphics" if graphics else "rest"
            parts[name] += on_processor(task)
    return parts


def measured(served, window, pages, others, seconds, windows):
    """Counts for some seconds, and prints the counts."""
    # Their line comes as a second ends: all is counted from there.
    first = int(others.stdout.readline())
    begun, before = time.monotonic(), used(served.process)
    old, counts = window and spent(window.process), [counts_of(page) for page in pages]
    for _ in range(seconds):
        last = int(others.stdout.readline())
    took, share = time.monotonic() - begun, used(served.process) - before
    print(f"{windows} windows, {(last - first) / took:.0f} inputs a second, {took:.1f} s")
    print(f"server: {100 * share / took:.1f} % of a processor")
    drawn = 0
    for page, then in zip(pages, counts):
        frames, draws = (now - past for now, past in zip(counts_of(page), then))
        badge, drawn = page.value("document.getElementById('badge').textContent"), drawn + draws
        told = f"{frames / took:.1f} frames a second, {draws / took:.1f} of them drawn"
        print(f"window: {told}; {badge}")
    if pages:
        new = spent(window.process)
        each = {name: 1000 * (new[name] - old[name]) / max(drawn, 1) for name in new}
        told = ", ".join(f"{name} {part:.1f}" for name, part in each.items())
        print(f"        ms of a processor for one that is drawn: {told}")


def measure(served, window, pages, others, seconds, windows):
    for page in pages:
        page.wait("window.room && room.drawn.content && room.state.status && room.stage.draws")
        page.value(MOVE)
    for _ in range(4):
        others.stdout.readline()
    wants = lambda: f"load {os.getloadavg()[0]:.0f} on {os.cpu_count()} processors"
    print(f"as the world changes ({wants()}):")
    measured(served, window, pages, others, seconds, windows)
    if pages:
        for page in pages:
            page.value("room.stage.always = room.drawn.dirty = true")
        print(f"each frame drawn ({wants()}):")
        measured(served, window, pages, others, seconds, windows)


def main():
    if sys.argv[1:2] == ["--clients"]:
        return clients(sys.argv[2], int(sys.argv[3]))
    flags = [word for word in sys.argv[1:] if word.startswith("--")]
    given = [int(word) for word in sys.argv[1:] if word not in flags]
    seconds, shown, windows = [*given, *[20, 1, 16][len(given) :]]
    with contextlib.ExitStack() as ends:
        file = ends.enter_context(tempfile.NamedTemporaryFile("w", suffix=".x3dv"))
        file.write(scene())
        file.flush()
        served, window, pages = ends.enter_context(Served(file.name)), None, []
        if shown and browser.installed():
            window = browser.Browser((1280, 720), flags)
            ends.enter_context(contextlib.closing(window))
            pages = [window.open(served.address) for _ in range(shown)]
        count = str(windows - len(pages))
        words = [sys.executable, __file__, "--clients", served.address, count]
        others = ends.enter_context(subprocess.Popen(words, stdout=subprocess.PIPE, text=True))
        ends.callback(others.terminate)
        measure(served, window, pages, others, seconds, windows)


if __name__ == "__main__":
    main()

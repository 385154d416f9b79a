#!/usr/bin/python3
"""Measures from a click in one window until the door moves in each, at 2, 16 and 64 windows of chromium.

usage: room/clicks.py [WINDOWS..]
It takes some four minutes on four processors that do nothing else, and prints a table. A window is as another one of the
same browser, of 640 by 480 pixels; of 64 each process of it has four. Where memory or time is short, fewer are of
chromium, which is said, and the others hold their viewers without a browser."""
import os
import re
import statistics
import sys
import time
from pathlib import Path

sys.dont_write_bytecode = True
from crowd import Crowd
from library import WASM
from served import BUTTON, Skipped, Windows, library_for_windows, spot, wait_equal

COUNTS, CLICKS, SIZE = (2, 16, 64), 5, (640, 480)
# Gigabytes that have to be free for one more window, and seconds in which all are to be open.
SPARE, OPENING = 1.5, 120
# So many processes have pages; each may draw all that it has.
FLAGS = "--renderer-process-limit=16", "--max-active-webgl-contexts=200"
# When a window is clicked, and when its picture first shows that the door moves (of a hidden one, when its world does), by
# the clock, in milliseconds.
NOTE = """(() => {
  const look = () => { if (!window.moved && room.value('Door', 'translation')[0] > 0.001) window.moved = Date.now(); };
  window.addEventListener('pointerup', () => { window.pressed = Date.now(); }, true);
  room.stage.before.push(look);
  setInterval(() => { if (document.hidden) look(); }, 20);
})()"""


def note(pages):
    for page in pages:
        page.value(NOTE)


def click(pages, clicked):
    """Clicks the button in a window whose door is shut; seconds until it moves, of each, and when it was clicked."""
    for page in pages:
        page.value("window.moved = window.pressed = 0")
    clicked.click(spot(clicked, BUTTON))
    for page in pages:
        page.wait("window.moved")
    pressed = clicked.value("window.pressed")
    return [(page.value("window.moved") - pressed) / 1000 for page in pages], pressed / 1000


def free():
    """Gigabytes of memory that are free."""
    return int(re.search(r"MemAvailable:\s*(\d+)", Path("/proc/meminfo").read_text())[1]) / 1e6


class Fitting(Windows):
    """Windows as long as there is memory for them, and time."""

    def __init__(self, count, more):
        super().__init__(count, size=SIZE, more=more, flags=FLAGS)
        self.due = time.monotonic() + OPENING

    def fits(self, number):
        return number < 2 or free() > SPARE and time.monotonic() < self.due


def clicked_in_turn(windows, crowd):
    """Seconds until the door moves, of all windows at each click, and of those of a crowd at the first one."""
    pages, took = windows.pages, []
    note(pages)
    for number in range(CLICKS):
        for page in pages:
            page.wait("room.value('Motor', 'isActive') !== true && room.value('Door', 'translation')[0] === 0")
        more, pressed = click(pages, pages[number * len(pages) // CLICKS])
        took += more
        if crowd and not number:
            took += [at - pressed for at in crowd.moved()]
    return took


def measured(count):
    """A row of the table: how many windows, the median, the worst, and at which load."""
    begun, before = time.monotonic(), free()
    with library_for_windows() as folder:
        with Fitting(count, ("--each", "64", "--wasm", folder)) as windows:
            shown = len(windows.pages)
            opened = time.monotonic() - begun
            print(f"{shown} of chromium are open after {opened:.0f} s, {before - free():.1f} GB", file=sys.stderr)
            if shown == count:
                took = clicked_in_turn(windows, None)
            else:
                with Crowd(windows.served, count - shown) as crowd:
                    windows.pages[0].wait(f"room.state.status.viewers.length === {count}")
                    took = clicked_in_turn(windows, crowd)
            wait_equal(windows.pages[:2])
    others = f", {count - shown} without a browser" if shown < count else ""
    words = f"{shown} of chromium{others}", *(f"{part:.2f} s" for part in (statistics.median(took), max(took)))
    return "| " + " | ".join([*words, f"{os.getloadavg()[0]:.1f}"]) + " |"


def main():
    if not all(map(str.isdigit, sys.argv[1:])):
        sys.exit(__doc__)
    counts = [int(word) for word in sys.argv[1:]] or COUNTS
    where = "in the windows" if (WASM / "x3d.wasm").exists() else "in the server"
    load = f"load {os.getloadavg()[0]:.1f} at first, of {os.cpu_count()} processors"
    about = f"{time.strftime('%Y-%m-%d')}, {CLICKS} clicks each, {load}, viewers {where}"
    rows = []
    for count in counts:
        try:
            rows.append(measured(count))
        except Skipped as skipped:
            sys.exit(f"room: {skipped}")
        except Exception as fault:
            print(f"{count} windows: {fault!r}", file=sys.stderr)
            rows.append(f"| {count} of chromium | not measured | | {os.getloadavg()[0]:.1f} |")
    print(f"{about}; library {os.environ.get('X3D_SO', '')}\n")
    print("\n".join((f"| Windows | Median | Worst | Load, on {os.cpu_count()} processors |", "|---|---|---|---|", *rows)))


if __name__ == "__main__":
    main()

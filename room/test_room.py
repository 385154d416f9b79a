#!/usr/bin/python3
"""Tests of the room: its core, its server under hostile requests, windows of a real browser.

usage: room/test_room.py [--quick] [NAME..]
Where no browser is installed its tests say "skipped". $THREE names another three.js, $SECONDS is
how long windows are clicked at random (60), $HOSTILE how many hostile messages there are (10,000),
$SHOTS a folder for screenshots. --quick is for a gate: some tests, with 500 hostile messages, of which none begins after
40 seconds, and all end after 55. Where more than twice as much wants to run as can, they then say
"skipped", and else they fail."""
import signal
import sys
import time

sys.dont_write_bytecode = True
try:
    import aiohttp
except ImportError:
    print("room: skipped: no python3-aiohttp (Debian's package)")
    sys.exit(0)
import browser
import tests_examples
import tests_held
import tests_hostile
import tests_log
import tests_parts
import tests_people
import tests_phone
import tests_room
import tests_server
import tests_viewers
import tests_views
import tests_windows
from served import Skipped

QUICK, BUDGET, END = "--quick" in sys.argv, 40, 55
# Those of --quick: all of the room without a server before them, and then these, in turn.
GATE = (
    "a_log_has_its_bytes",
    "a_scene_that_isnt_read_is_read_by_its_part",
    "the_program_recalls_the_log_as_the_job",
    "the_program_goes_on_with_the_log_and_the_room_with_its",
    "viewers_in_windows_are_equal_over_a_bad_channel",
    "a_viewer_in_a_window_is_stopped_and_restarts",
    "a_late_window_joins_its_viewer_by_pieces",
    "a_windows_datagrams_are_its_own_viewers",
    "what_isnt_its_own_is_refused",
    "commands_that_have_no_sense_are_refused",
    "a_click_in_one_window_opens_the_door_in_both",
    "the_sliders_of_the_network_are_all_set",
    "a_page_draws_what_fields_hold",
    "a_killed_viewer_comes_back",
    "hostile_messages_never_stop_it",
)


def tests_of(module):
    return {name[5:]: test for name, test in vars(module).items() if name.startswith("test_")}


def out_of_time(*_):
    """Ends a test of --quick."""
    busy = browser.busy()
    if busy > 2:
        raise Skipped(f"{END} s are over; {busy:.1f} times as much wants to run as can")
    raise AssertionError(f"not within {END} s")


def outcome(name, test, begun):
    """Runs a test; "passed", "skipped" or "FAILED", and why."""
    if QUICK and time.monotonic() - begun > BUDGET:
        return "skipped", "no time is left"
    try:
        test()
        return "passed", ""
    except Skipped as skipped:
        return "skipped", str(skipped)
    except Exception as fault:
        lines, trace = [], fault.__traceback__
        while trace:
            lines.append(f"{trace.tb_frame.f_code.co_name}:{trace.tb_lineno}")
            trace = trace.tb_next
        return "FAILED", f"at {' '.join(lines[1:])}: {fault!r}"[:700]


def main():
    core = tests_of(tests_room)
    modules = tests_log, tests_held, tests_server, tests_hostile, tests_windows, tests_viewers, tests_people, tests_phone
    modules += tests_views, tests_parts, tests_examples
    tests = {name: test for each in (tests_room, *modules) for name, test in tests_of(each).items()}
    names = [word for word in sys.argv[1:] if word != "--quick"]
    if unknown := [name for name in names if name not in tests]:
        sys.exit(f"room: there is no test {unknown[0]}, of " + " ".join(tests))
    asked = names or [*core, *GATE] if QUICK else names or [*tests]
    begun, counts = time.monotonic(), {"passed": 0, "FAILED": 0, "skipped": 0}
    signal.signal(signal.SIGTERM, lambda *_: sys.exit(143))
    signal.signal(signal.SIGALRM, out_of_time)
    signal.alarm(END if QUICK else 0)
    for name in asked:
        print(name.replace("_", " "), end=": ", flush=True)
        word, why = outcome(name, tests[name], begun)
        counts[word] += 1
        print(f"{word}: {why}" if why else word, flush=True)
    print(f"room: {counts['passed']} passed, {counts['FAILED']} failed, {counts['skipped']} skipped")
    sys.exit(1 if counts["FAILED"] else 0)


if __name__ == "__main__":
    main()

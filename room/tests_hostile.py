"""Tests of the server: what is slow, greedy, wrong or no HTTP at all never stops it."""
import contextlib
import json
import os
import random
import socket
import sys
import time

import browser
from guard import PATIENCE
from served import AT_BUTTON, Served

HOSTILE = int(os.environ.get("HOSTILE", "500" if "--quick" in sys.argv else "10000"))
POINT = {"down": True, "aim": AT_BUTTON}


def test_slow_and_greedy_connections_shut_nothing():
    """One address opens what it may and sends a byte a second; windows come in meanwhile from another one."""
    with Served(more=("--each", "2", "--address", "0.0.0.0")) as served, contextlib.ExitStack() as ends:
        slow = []
        for _ in range(120):
            link = ends.enter_context(socket.socket())
            link.bind(("127.0.0.9", 0))
            link.settimeout(60)
            link.connect(("127.0.0.1", served.port))
            with contextlib.suppress(OSError):
                link.sendall(b"GET /door/ HTTP/1.1\r\nHost: localhost\r\nX-Slow: ")
            slow.append(link)
        begun = time.monotonic()
        served.address = f"http://127.0.0.1:{served.port}/door/"
        assert served.client().seat["who"] == 0 and time.monotonic() - begun < 5 * browser.busy()
        gone = 0
        while gone < len(slow) and time.monotonic() - begun < 40:
            gone = sum(not drips(link) for link in slow)
            time.sleep(1)
        took = time.monotonic() - begun
        print(f"120 slow connections are gone after {took:.0f} s", end=", ")
        assert gone == len(slow) and PATIENCE - 2 < took < (PATIENCE + 10) * browser.busy(), (gone, took)


def drips(link):
    """Sends a byte of a request that never ends; whether the connection stands."""
    try:
        link.sendall(b"G")
        return True
    except OSError:
        return False


def test_a_window_that_never_comes_in_or_reads_is_cut_off():
    with Served() as served:
        silent = browser.Socket(f"ws://127.0.0.1:{served.port}/door/socket")
        begun = time.monotonic()
        try:
            silent.receive()
            raise AssertionError("it was told something")
        except ConnectionError:
            assert 8 < time.monotonic() - begun < 14 * browser.busy()
        # Another one comes in first and sends what is too long, or no text.
        for kind, sent in ((1, "x" * 1025), (1, b"\xff\xfe"), (2, b"datagram")):
            client = served.client()
            client.socket.send(sent, kind)
            with contextlib.suppress(ConnectionError):
                while client.until("answer")["status"] != 415:
                    pass
        assert served.client().seat["kind"] == "you"


def hostile(chance):
    """A message that is no command, or one that has no sense."""
    kind = chance.randrange(6)
    if kind == 0:
        return bytes(chance.randrange(32, 127) for _ in range(chance.randrange(200))).decode()
    if kind == 1:
        return '{"do": ' * chance.randrange(1, 120)
    if kind == 2:
        return json.dumps({"do": "point", "id": chance.choice((None, 1.5, [1], "x")), "down": True, "aim": None})
    if kind == 3:
        far = [10 ** chance.randrange(16, 100)] * 6
        return json.dumps({"do": "point", "down": True, "aim": far})
    if kind == 4:
        return json.dumps([{"aim": None}, 1e308, "\ud800"])
    odd = chance.choice(("\ud800", {"a": [1]}, None, 1e308, float("nan"), ""))
    command = chance.choice(("point", "channel", "kill", "start", "hand", "replay", "reset", odd))
    return json.dumps({"do": command, "aim": "NaN", "down": [[]], "loss": odd, "who": odd, "n": odd, "up": odd})


def test_hostile_messages_never_stop_it():
    chance, answers = random.Random(3), {}
    with Served() as served:
        client = served.client()
        for _ in range(HOSTILE):
            client.socket.send(hostile(chance))
            status = client.until("answer")["status"]
            answers[status] = answers.get(status, 0) + 1
        assert set(answers) <= {400, 403, 404, 409, 429}, answers
        time.sleep(1)
        assert client.status("point", **POINT) == 200


def test_what_is_no_http_never_stops_it():
    chance = random.Random(5)
    lines = b"GET / HTTP/9.9", b"GET", b"POST /door/ HTTP/1.1\r\nHost: \xff", b"a" * 70_000
    with Served() as served:
        for number in range(200):
            noise = bytes(chance.randrange(256) for _ in range(chance.randrange(1, 300)))
            with socket.create_connection(("127.0.0.1", served.port), timeout=60) as link:
                with contextlib.suppress(ConnectionError):
                    link.sendall(chance.choice((*lines, noise)) + b"\r\n\r\n")
                    if number % 2:
                        link.shutdown(socket.SHUT_WR)
                        link.recv(1 << 16)
        assert served.client().seat["kind"] == "you"

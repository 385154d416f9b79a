"""Viewers and hosts that forget, as users run them: a part of scripts/hosts."""
import time
from pathlib import Path

from case_files import stop
from machines import LINES, keys_in
from nodes import SCENE, Nodes, clocks, ended, free_port, same

# The number of inputs.
COUNT = 300


def left_of(text, first):
    """What is left of the printed text of a viewer: the lines of inputs from this one on, and the scene."""
    at = text.index(b"#X3D")
    return b"".join(line for line in text[:at].splitlines(True) if int(line.split()[0]) >= first) + text[at:]


def forgets():
    lines = clocks(*range(1, COUNT + 1))
    with Nodes() as nodes:
        nodes.host("--viewers", 5, lines=lines)
        whole = ended(nodes.start(["run"], lines, SCENE))[0]
        if left_of(whole, COUNT - 10) in (whole, left_of(whole, COUNT)):
            stop("the last inputs have no lines")
        for who, last in enumerate((0, 20, 2**20)):
            told = ended(nodes.view(who, "--exactly", COUNT, "--forget", last))
            same(told, (left_of(whole, COUNT + 1 - last), []), f"a viewer with --forget {last}")
        joins, at = free_port(), free_port()
        joiner = nodes.view(4, "--exactly", COUNT, "--join", "--at", at, boot=2)
        time.sleep(0.2)
        giver = nodes.view(3, "--exactly", COUNT, "--forget", 30, "--give", at, "--at", joins)
        same(ended(joiner), (left_of(whole, COUNT + 1 - 30), []), "a viewer that joined by a snapshot with --forget 30")
        giver.kill()
    kept_by_a_host()


def kept_by_a_host():
    """A host with --forget 10 gives the lines of the last 10 inputs or more, but not those from before its last portion of
    64 inputs, to a viewer that joins."""
    with Nodes() as nodes:
        keys = keys_in(Path(nodes.folder.name, "keys"), 2)
        nodes.listen("127.0.0.2", "--keys", keys / "host.keys", "--forget", 10, "--keep", 0, lines=LINES)
        words = [["--exactly", len(LINES), "--key", keys / f"viewer-{who}.key"] for who in range(2)]
        whole = ended(nodes.start(["run"], LINES, SCENE))[0]
        for who in range(2):
            same(ended(nodes.visit("127.0.0.2", who, *words[who]))[0], whole, f"viewer {who} of a host that forgets")
        told = ended(nodes.visit("127.0.0.2", 1, "--join", *words[1], boot=2))[0]
        if told not in [left_of(whole, first) for first in range(64 - 9, len(LINES) - 8)]:
            stop(f"a viewer that joined by a host with --forget 10 printed {told[:200]}")

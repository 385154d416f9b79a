"""Tests of hosts and viewers at several addresses, with keys and without, for scripts/hosts."""
import hashlib
import hmac
import os
import random
import selectors
import socket
import stat
import struct
import subprocess
import threading
import time
from pathlib import Path

import sessions
import wire
from case_files import stop
from nodes import PATIENCE, PROGRAM, SCENE, Nodes, clocks, ended, same, text_of

LINES = clocks(*range(1, 101))
POINTS = [wire.Point(0, number % 2, (number, 0, 10 * wire.MILLION, 0, 0, -1)).line() for number in range(20)]
SEAL = 16


def family_of(address):
    return socket.AF_INET6 if ":" in address else socket.AF_INET


def keys_in(folder, viewers=2):
    """The folder of the keys of viewers, which `key` has made."""
    folder = Path(folder)
    folder.mkdir()
    ran = subprocess.run([PROGRAM, "key", "--viewers", str(viewers), str(folder)], capture_output=True, check=False)
    same((ran.returncode, ran.stdout, ran.stderr), (0, b"", b""), "what key tells")
    return folder


def key_of(file):
    """The viewer and the key of a viewer's file."""
    who, digits = file.read_text().split()
    return int(who), bytes.fromhex(digits)


def sealed(key, packet, to_host=True):
    return packet + hmac.digest(key, bytes([to_host]) + packet, "sha256")[:SEAL]


def wait_for(path, what):
    limit = time.monotonic() + PATIENCE
    while not path():
        if time.monotonic() > limit:
            stop(what)
        time.sleep(0.01)


def agree(nodes, address, words_of, own_words=(), visited=None):
    """Two viewers at an address print the same bytes, those of `run` of what the host has numbered."""
    log = Path(nodes.folder.name, "w.x3dlog")
    host = nodes.listen(address, "--new-log", log, *own_words, lines=LINES)
    count = 100 + len(POINTS)
    first = nodes.visit(visited or address, 0, "--exactly", count, *words_of(0), lines=POINTS)
    second = nodes.visit(visited or address, 1, "--exactly", count, *words_of(1))
    printed = ended(first)
    same(ended(second), printed, f"the second viewer of a host at {address}")
    recalled = subprocess.run([PROGRAM, "recall"], input=log.read_bytes(), capture_output=True, check=True).stdout
    same(ended(nodes.start(["run"], recalled.decode().splitlines(), SCENE)), printed, f"run of the log at {address}")
    return host, log


def answers(address, port, *packets):
    """What comes within half a second to a socket that sent these datagrams."""
    with socket.socket(family_of(address), socket.SOCK_DGRAM) as end:
        end.settimeout(0.5)
        for packet in packets:
            end.sendto(packet, (address, port))
        found = []
        try:
            while True:
                found.append(end.recv(2048))
        except TimeoutError:
            return found


def strangers(address, port, count):
    """Sends a datagram of version 2 from each of many ports."""
    for number in range(count):
        with socket.socket(family_of(address), socket.SOCK_DGRAM) as end:
            end.sendto(b"X3DS\x02" + number.to_bytes(4, "big"), (address, port))
            if number % 50 == 0:
                time.sleep(0.01)


def addresses():
    for address in "127.0.0.1", "127.0.0.2", "::1":
        with Nodes() as nodes:
            host, _ = agree(nodes, address, lambda who: [])
            mark = wire.mark_of(SCENE)
            same(answers(address, nodes.port, wire.ask(mark, 0, 1), b"hello"), [], "the answers of version 1")
            same(len(answers(address, nodes.port, sessions.hello(mark, 0, bytes(16)))), 1, "the answers to a Hello")
            same(host.poll(), None, "the end of a host")
    with Nodes() as nodes:
        agree(nodes, "localhost", lambda who: [])
    with Nodes() as nodes:
        nodes.listen("127.0.0.2", lines=LINES)
        viewer = nodes.visit("127.0.0.2", 0, "--exactly", 2**20)
        time.sleep(1)
        strangers("127.0.0.2", nodes.port, 2000)
        same(viewer.poll(), None, "the end of a viewer among strangers")
        wanted = ended(nodes.start(["run"], LINES, SCENE))
        same(ended(nodes.visit("127.0.0.2", 1, "--exactly", 100)), wanted, "a viewer that comes after strangers")


def keyed():
    with Nodes() as nodes:
        keys = keys_in(Path(nodes.folder.name, "keys"), 3)
        own = ["--keys", keys / "host.keys", "--viewers", 3]

        def words_of(who):
            return ["--key", keys / f"viewer-{who}.key"]

        host, log = agree(nodes, "127.0.0.2", words_of, own)
        before = log.read_bytes()
        no_one(nodes, keys)
        same(log.read_bytes(), before, "the log of a host that strangers spoke to")
        same(ended(nodes.visit("127.0.0.2", 2, "--exactly", 120, *words_of(2))),
             ended(nodes.visit("127.0.0.2", 1, "--exactly", 120, *words_of(1), boot=2)), "a viewer that comes late")
        host.kill()
    with Nodes() as nodes:
        keys = keys_in(Path(nodes.folder.name, "keys"))
        nodes.host("--keys", keys / "host.keys", lines=LINES)
        wanted = ended(nodes.start(["run"], LINES, SCENE))
        viewer = nodes.view(0, "--exactly", 100, "--key", keys / "viewer-0.key")
        same(ended(viewer), wanted, "a viewer with a key at a port of this machine")


def arrived(end, to, mark, who, key):
    """Says Hello, and again with the cookie of its Welcome: the host then knows the address. Its run."""
    cookie = sessions.NO_COOKIE
    for _ in range(2):
        end.sendto(sealed(key, sessions.hello(mark, who, os.urandom(16), cookie=cookie)), to)
        welcome = sessions.read_welcome(end.recv(2048)[:-SEAL])
        cookie = welcome.cookie
    return welcome.run


def gathered(to, who, key):
    """The head and the bytes of the snapshot that a host gives a viewer that joins: it asks for input 1 each second."""
    mark, pieces, head, asked = wire.mark_of(SCENE), {}, None, 0
    with socket.socket(family_of(to[0]), socket.SOCK_DGRAM) as end:
        end.settimeout(5)
        session = sessions.session_of(mark, arrived(end, to, mark, who, key))
        while head is None or len(pieces) < (head[3] + 191) // 192:
            if time.monotonic() > asked + 1:
                end.sendto(sealed(key, sessions.ask(session, who, 1)), to)
                asked = time.monotonic()
            packet = end.recv(2048)[:-SEAL]
            if packet[5:sessions.BODY] == bytes([wire.PIECE]) + session:
                *head, index = struct.unpack_from(">16sIQII", packet, sessions.BODY)
                pieces[index] = packet[sessions.BODY + 36:]
    return head, b"".join(part for _, part in sorted(pieces.items()))


def late():
    """A host with keys has dropped all inputs, and gives its world to a viewer that comes late."""
    with Nodes() as nodes:
        keys = keys_in(Path(nodes.folder.name, "keys"), 3)
        nodes.listen("127.0.0.2", "--keys", keys / "host.keys", "--viewers", 3, "--keep", 0, lines=LINES)
        words = [["--exactly", 100, "--key", keys / f"viewer-{who}.key"] for who in range(3)]
        wanted = ended(nodes.start(["run"], LINES, SCENE))
        for who in range(3):
            same(ended(nodes.visit("127.0.0.2", who, *words[who])), wanted, f"viewer {who} of a host with keys")
        who, key = key_of(keys / "viewer-2.key")
        (_, boot, applied, size), snapshot = gathered(("127.0.0.2", nodes.port), who, key)
        same((boot, applied, size), (1, 100, len(snapshot)), "the head of the snapshot that a host gives")
        same(hashlib.sha256(snapshot[:-32]).digest(), snapshot[-32:], "the digest of the snapshot that a host gives")
        same(ended(nodes.visit("127.0.0.2", 2, "--join", *words[2], boot=2)), wanted, "a viewer that joins by a host")


def no_one(nodes, keys):
    """Who has no key, or another one, gets nothing."""
    mark = wire.mark_of(SCENE)
    false = Path(nodes.folder.name, "false.key")
    false.touch(0o600)
    false.write_text(f"2 {'5a' * 32}\n")
    waiting = [nodes.visit("127.0.0.2", 2, "--until", 1, *words) for words in (["--open"], ["--key", false])]
    for process in waiting:
        told = ended(process, 3)[1]
        same(told, ["refused NoWelcome"], f"{process.args[-2:]} of a host with keys")
    _, zero = key_of(keys / "viewer-0.key")
    _, one = key_of(keys / "viewer-1.key")
    hello = sessions.hello(mark, 0, bytes(16))
    right = answers("127.0.0.2", nodes.port, sealed(zero, hello))
    same([(len(each), each[4:6]) for each in right], [(sessions.WELCOME_SIZE + SEAL, b"\x02\x08")], "a sealed Hello's answer")
    welcome = right[0]
    same(sealed(zero, welcome[:-SEAL], False), welcome, "the seal of a Welcome")
    run = sessions.read_welcome(welcome).run
    point = wire.Point(0, 0, (0, 0, 10 * wire.MILLION, 0, 0, -1))
    session = sessions.session_of(mark, run)
    offer = sessions.offer(session, 2**31, 1, point)
    for what, packet in (("a Hello without a seal", hello), ("an ask of version 1", wire.ask(mark, 0, 1)),
                         ("a Hello sealed by another viewer", sealed(one, hello)),
                         ("a Hello sealed by the host's key", sealed(zero, hello, False)),
                         ("an offer without a seal", offer), ("an offer sealed by another viewer", sealed(one, offer)),
                         ("an ask without a seal", sessions.ask(session, 0, 1)),
                         ("a sealed ask of version 1", sealed(zero, wire.ask(mark, 0, 1)))):
        same(answers("127.0.0.2", nodes.port, packet), [], f"the answers to {what}")


class Changer:
    """A proxy that changes bits of some datagrams, in either direction, besides passing them on or in their place."""

    def __init__(self, host, seed=11):
        self.host, self.chance, self.changed, self.ended = host, random.Random(seed), 0, False
        self.front = socket.socket(socket.AF_INET, socket.SOCK_DGRAM)
        self.front.bind((wire.HERE, 0))
        self.port = self.front.getsockname()[1]
        self.work = threading.Thread(target=self.serve, daemon=True)
        self.work.start()

    def __enter__(self):
        return self

    def __exit__(self, *_):
        self.ended = True
        self.work.join()

    def pass_on(self, end, packet, to):
        drawn = self.chance.random()
        if drawn < 0.5:
            self.changed += 1
            bit = self.chance.randrange(8 * len(packet))
            other = bytearray(packet)
            other[bit // 8] ^= 1 << bit % 8
            end.sendto(bytes(other), to)
        if drawn > 0.2:
            end.sendto(packet, to)

    def serve(self):
        ready, viewers = selectors.DefaultSelector(), {}
        ready.register(self.front, selectors.EVENT_READ, None)
        while not self.ended:
            for key, _ in ready.select(0.05):
                packet, sender = key.fileobj.recvfrom(2048)
                if key.data is not None:
                    self.pass_on(self.front, packet, key.data)
                    continue
                if sender not in viewers:
                    viewers[sender] = socket.socket(socket.AF_INET, socket.SOCK_DGRAM)
                    viewers[sender].bind((wire.HERE, 0))
                    ready.register(viewers[sender], selectors.EVENT_READ, sender)
                self.pass_on(viewers[sender], packet, self.host)


def altered():
    with Nodes() as nodes:
        keys = keys_in(Path(nodes.folder.name, "keys"))
        log = Path(nodes.folder.name, "w.x3dlog")
        nodes.listen("127.0.0.2", "--keys", keys / "host.keys", "--new-log", log, lines=LINES)
        with Changer(("127.0.0.2", nodes.port)) as changer:
            viewers = [nodes.start(["view", "--host", text_of(wire.HERE, changer.port), "--who", who, "--boot", 1, "--exactly",
                                    100 + len(POINTS), "--key", keys / f"viewer-{who}.key"], POINTS[: 20 * (1 - who)], SCENE)
                       for who in (0, 1)]
            printed = [ended(viewer) for viewer in viewers]
            if changer.changed < 20:
                stop(f"{changer.changed} datagrams were changed")
        same(printed[1], printed[0], "the second viewer behind a proxy that changes datagrams")
        recalled = subprocess.run([PROGRAM, "recall"], input=log.read_bytes(), capture_output=True, check=True).stdout
        lines = recalled.decode().splitlines()
        same([line for line in lines if line.startswith("point")], POINTS, "the points behind that proxy")
        same(ended(nodes.start(["run"], lines, SCENE)), printed[0], "run of the log behind that proxy")


def refused(*words, lines=(), nodes):
    return ended(nodes.start(words, lines, SCENE), 2)[1]


def files():
    with Nodes() as nodes:
        folder = keys_in(Path(nodes.folder.name, "keys"), 64)
        names = {"host.keys", *(f"viewer-{who}.key" for who in range(64))}
        same({file.name for file in folder.iterdir()}, names, "the files of keys")
        for file in folder.iterdir():
            same(stat.S_IMODE(file.stat().st_mode), 0o600, f"the mode of {file.name}")
        found = [key_of(folder / f"viewer-{who}.key") for who in range(64)]
        same([who for who, _ in found], list(range(64)), "the viewers of the files")
        if len({key for _, key in found}) != 64:
            stop("two viewers have the same key")
        lines = "".join((folder / f"viewer-{who}.key").read_text() for who in range(64))
        same((folder / "host.keys").read_text(), lines, "the lines of the host's file")
        for left in "host.keys", "viewer-1.key":
            other = Path(nodes.folder.name, left)
            other.mkdir()
            (other / left).write_text("mine")
            same(refused("key", other, nodes=nodes), ["refused KeyFileThere"], f"key where {left} is")
            same([file.name for file in other.iterdir()], [left], f"what key makes where {left} is")
            same((other / left).read_text(), "mine", f"{left} where key is refused")
        for mode in 0o640, 0o604, 0o620, 0o601:
            (folder / "host.keys").chmod(mode)
            told = refused("host", "--listen", "127.0.0.2:4000", "--keys", folder / "host.keys", nodes=nodes)
            same(told, ["refused KeyFileOpen", "others may use the file of keys: chmod 600 it"], f"a file of mode {mode:o}")

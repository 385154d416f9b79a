"""A world whose host and viewers are in network namespaces of their own, 20 milliseconds apart, for scripts/hostile. Where
namespaces can't be made (it takes root), host and viewers are at loopback addresses, as far apart."""
import heapq
import os
import random
import selectors
import socket
import subprocess
import threading
import time
from pathlib import Path

import machines
import wire
from nodes import PROGRAM, SCENE, Nodes, clocks, ended, same, text_of

DELAY, LOSS = 0.02, 0.01
LINES = clocks(*range(1, 101))
VIEWERS, POINTS = 2, 20


class Relay:
    """Passes datagrams between viewers, which send to `front`, and a host, later, but for those that it loses."""

    def __init__(self, front, back, host, seed):
        self.host, self.back, self.chance, self.ended = host, back, random.Random(seed), False
        self.counts, self.waiting, self.viewers = {"passed": 0, "lost": 0}, [], {}
        self.front = socket.socket(socket.AF_INET, socket.SOCK_DGRAM)
        self.front.bind((front, 0))
        self.port = self.front.getsockname()[1]
        self.ready = selectors.DefaultSelector()
        self.ready.register(self.front, selectors.EVENT_READ, None)
        self.work = threading.Thread(target=self.serve, daemon=True)
        self.work.start()

    def __enter__(self):
        return self

    def __exit__(self, *_):
        self.ended = True
        self.work.join()
        for end in [self.front, *self.viewers.values()]:
            end.close()

    def end_of(self, viewer):
        if viewer not in self.viewers:
            end = self.viewers[viewer] = socket.socket(socket.AF_INET, socket.SOCK_DGRAM)
            end.bind((self.back, 0))
            self.ready.register(end, selectors.EVENT_READ, viewer)
        return self.viewers[viewer]

    def hold(self, end, packet, to):
        if self.chance.random() < LOSS:
            self.counts["lost"] += 1
            return
        self.counts["passed"] += 1
        heapq.heappush(self.waiting, (time.monotonic() + DELAY, self.counts["passed"], end, packet, to))

    def serve(self):
        while not self.ended:
            rest = self.waiting[0][0] - time.monotonic() if self.waiting else 0.05
            for key, _ in self.ready.select(max(0, rest)):
                packet, sender = key.fileobj.recvfrom(2048)
                if key.data is None:
                    self.hold(self.end_of(sender), packet, self.host)
                else:
                    self.hold(self.front, packet, key.data)
            while self.waiting and self.waiting[0][0] <= time.monotonic():
                _, _, end, packet, to = heapq.heappop(self.waiting)
                end.sendto(packet, to)


class Places:
    """Where a host and viewers are: what to begin their words with, and the addresses of the host and of the relay's ends."""

    def __init__(self):
        self.names = []

    def __enter__(self):
        self.host_words = self.viewer_words = ()
        self.host, self.front, self.back = "127.0.0.2", wire.HERE, wire.HERE
        if os.geteuid() == 0 and self.made("h", 1) and self.made("v", 2):
            self.host_words, self.viewer_words = (("ip", "netns", "exec", name) for name in self.names)
            self.host, self.front, self.back = "10.68.1.2", "10.68.2.1", "10.68.1.1"
        return self

    def __exit__(self, *_):
        for name in self.names:
            subprocess.run(["ip", "netns", "del", name], capture_output=True, check=False)

    def made(self, letter, net):
        """A namespace, with a link to it: 10.68.net.1 here and 10.68.net.2 there."""
        name = f"x3d-{letter}{os.getpid()}"
        inside, outside = f"{letter}i{os.getpid()}", f"{letter}o{os.getpid()}"
        commands = [["netns", "add", name], ["link", "add", outside, "type", "veth", "peer", "name", inside, "netns", name],
                    ["addr", "add", f"10.68.{net}.1/24", "dev", outside], ["link", "set", outside, "up"],
                    ["-n", name, "addr", "add", f"10.68.{net}.2/24", "dev", inside], ["-n", name, "link", "set", inside, "up"]]
        for number, words in enumerate(commands):
            try:
                done = subprocess.run(["ip", *words], capture_output=True, check=False).returncode == 0
            except FileNotFoundError:
                done = False
            if done and number == 0:
                self.names.append(name)
            if not done:
                return False
        return True


def far(seed):
    """A host and two viewers of a world with keys, 20 milliseconds and 1 % loss apart. Tells where they were."""
    with Nodes() as nodes, Places() as places:
        keys = machines.keys_in(Path(nodes.folder.name, "keys"), VIEWERS)
        log = Path(nodes.folder.name, "w.x3dlog")
        own = ["--keys", keys / "host.keys", "--new-log", log]
        nodes.listen(places.host, *own, lines=LINES, inside=places.host_words)
        points = [wire.Point(0, number % 2, (number, 0, 10 * wire.MILLION, 0, 0, -1)).line() for number in range(POINTS)]
        with Relay(places.front, places.back, (places.host, nodes.port), seed) as relay:
            words = ["view", "--host", text_of(places.front, relay.port), "--boot", 1, "--exactly", len(LINES) + POINTS]
            started = time.monotonic()
            viewers = [nodes.start([*words, "--who", who, "--key", keys / f"viewer-{who}.key"], points[: POINTS * (1 - who)], SCENE,
                                   places.viewer_words) for who in range(VIEWERS)]
            printed = [ended(viewer) for viewer in viewers]
            took, counts = time.monotonic() - started, relay.counts
        recalled = subprocess.run([PROGRAM, "recall"], input=log.read_bytes(), capture_output=True, check=True).stdout
        wanted = ended(nodes.start(["run"], recalled.decode().splitlines(), SCENE))
        for who in range(VIEWERS):
            same(printed[who], wanted, f"what viewer {who} prints, far from its host")
        where = "in namespaces of their own" if places.host_words else "at loopback addresses"
        return f"{where}, 20 ms and 1 % loss apart ({counts['lost']} of {sum(counts.values())} lost), viewers agree in {took:.1f} s"

"""What looks at a world whose log etcd has while it runs: a viewer that keeps its acks, how the log grows, copies."""
import base64
import http.client
import json
import threading
import time

import etcd
import log_file
import sessions
import wire

# How many points are offered in one boot, and how long an ack may take before a point is offered again.
POINTS, AGAIN = 40, 0.1
# Seconds after which a silent host is left, and the fewest between two points.
SILENT, REST = 2, 0.02


class Thread(threading.Thread):
    """Work beside the main thread; what it fails by is kept."""

    def __init__(self):
        super().__init__(daemon=True)
        self.ended, self.fault = False, None

    def run(self):
        try:
            while not self.ended:
                self.step()
        except Exception as fault:
            self.fault = fault

    def end(self):
        self.ended = True
        self.join()
        if self.fault:
            raise self.fault


class Offering(Thread):
    """A viewer of several hosts that offers points one after another, and keeps how many of each boot were acked."""

    def __init__(self, hosts, mark, who):
        super().__init__()
        self.hosts, self.at, self.acked, self.turns, self.offered, self.waits = hosts, 0, {}, 0, 0, []
        self.viewer = sessions.Viewer(hosts[0], mark, who)
        self.viewer.arrive()
        self.run_of_all = self.viewer.run
        self.viewer.end.settimeout(AGAIN)

    def turn(self):
        """Turns to the next host, which has to be of the same run."""
        self.at, self.turns = (self.at + 1) % len(self.hosts), self.turns + 1
        self.viewer.host = self.hosts[self.at]
        found = self.viewer.greet()
        if found and found.run != self.run_of_all:
            raise ValueError(f"the host at port {self.viewer.host} is of another run")

    def step(self):
        viewer = self.viewer
        if self.offered == POINTS:
            viewer.boot, self.offered = viewer.boot + 1, 0
        self.offered += 1
        ray = (self.offered * 1000, 0, 10 * wire.MILLION, 0, 0, -1)
        point = wire.Point(viewer.who, self.offered % 2, ray)
        self.offer(sessions.offer(viewer.session(), viewer.boot, self.offered, point))
        time.sleep(REST)

    def offer(self, packet):
        """Offers a point until it is acked, or all is over."""
        began = heard = time.monotonic()
        while not self.ended:
            self.viewer.tell(packet)
            try:
                boot, count = self.viewer.hear()
                heard = time.monotonic()
            except TimeoutError:
                if time.monotonic() > heard + SILENT:
                    self.turn()
                    heard = time.monotonic()
                continue
            if (boot, count) > (self.viewer.boot, self.offered):
                raise ValueError(f"an ack of boot {boot}, offer {count}, after {self.viewer.boot}, {self.offered}")
            self.acked[boot] = max(count, self.acked.get(boot, 0))
            if (boot, count) == (self.viewer.boot, self.offered):
                self.waits.append(heard - began)
                return


class Tail(Thread):
    """Notes when a world's log grows: asks each etcd in turn what it has itself, which takes no leader."""

    def __init__(self, addresses, name):
        super().__init__()
        self.links, self.tail, self.grown = [http.client.HTTPConnection(each, timeout=0.5) for each in addresses], 0, []
        self.body = json.dumps({"key": etcd.coded(etcd.key_of(name, "tail")), "serializable": True})

    def step(self):
        link = self.links[0]
        self.links.append(self.links.pop(0))
        try:
            link.request("POST", "/v3/kv/range", self.body)
            found = json.load(link.getresponse()).get("kvs", [])
        except (OSError, ValueError, http.client.HTTPException):
            link.close()
            found = []
        if found and (tail := int(base64.b64decode(found[0]["value"]), 16)) > self.tail:
            self.tail = tail
            self.grown.append(time.monotonic())
        time.sleep(REST)


class Copies(Thread):
    """Copies a world's log every few seconds, by an etcd that answers."""

    def __init__(self, addresses, name, seconds):
        super().__init__()
        self.addresses, self.name, self.seconds, self.found = addresses, name, seconds, []

    def step(self):
        for address in self.addresses:
            try:
                self.found.append(etcd.payloads_of(address, self.name)[0])
                break
            except etcd.Refused as refused:
                if "damaged" in str(refused) or "frames end" in str(refused):
                    raise
        time.sleep(self.seconds)


def longest_pauses(grown, deaths, last):
    """After each death, the longest time in which the log didn't grow: of those that lie between it and the next death,
    or begin there. `last` is when all is over."""
    deaths, found = sorted(deaths), []
    for place, (died, kind) in enumerate(deaths):
        until = deaths[place + 1][0] if place + 1 < len(deaths) else last
        edges = [died, *(each for each in grown if each > died), last]
        gaps = [after - before for before, after in zip(edges, edges[1:]) if before < until]
        found.append((kind, max(gaps)))
    return found


def offers_of(payloads):
    """The numbers of the offers that a log has, in its order, of each viewer and boot."""
    found = {}
    for payload in payloads[1:]:
        for text in log_file.texts_of(payload):
            if text[8]:
                boot, number = int.from_bytes(text[59:63], "big"), int.from_bytes(text[63:67], "big")
                found.setdefault((text[9], boot), []).append(number)
    return found

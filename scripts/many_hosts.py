"""A world whose hosts share a log in etcd, for scripts/cluster."""
import signal
import subprocess
import time
from collections import Counter
from pathlib import Path

import wire
from case_files import TOP, stop
from etcds import free_ports, load
from nodes import PROGRAM, text_of

NAME = "cluster"
# The viewers that point, those that come late at one time, and the one that offers without end.
POINTING, LATE = 8, 16
OFFERING = POINTING + LATE
# How many points a viewer offers.
POINTS = 20
# Seconds for which a host or an etcd that was killed is away, and those for which a host is held.
AWAY, HELD = [0, 0.5, 3], [0.5, 3]


def scene_part():
    """The line `scene` and the scene, of a world in which points are events."""
    text = (TOP / "examples/touched-door.job").read_bytes()
    return text[text.index(b"scene\n"):]


SCENE = scene_part()
MARK = wire.mark_of(SCENE[len(b"scene\n"):])


class World:
    """A world's hosts and viewers."""

    def __init__(self, folder, chance, etcds, losses, hosts):
        self.folder, self.chance, self.etcds, self.losses = Path(folder), chance, etcds, losses
        self.ports, self.hosts, self.starts, self.due = free_ports(hosts), {}, [0] * hosts, []
        self.viewers, self.boots, self.ways, self.texts, self.deaths = {}, {}, {}, [], []
        self.killed, self.is_away, self.held = Counter(), False, set()
        self.refused, self.unwelcome, self.late = 0, 0, 0
        clocks = [f"clock {wire.numeral(50_000 * number)}\n" for number in range(1, 11)]
        (self.folder / "clocks").write_bytes("".join(clocks).encode() + SCENE)
        for who in range(OFFERING):
            count = POINTS if who < POINTING else 0
            points = [f"point {who} {number % 2} 0.{who} 0 10 0 0 -1\n" for number in range(count)]
            (self.folder / f"points{who}").write_bytes("".join(points).encode() + SCENE)

    def start(self, name, given, words):
        printed, told = open(self.folder / f"{name}.out", "wb"), open(self.folder / f"{name}.err", "wb")
        with open(self.folder / given, "rb") as into, printed, told:
            return subprocess.Popen([PROGRAM, *map(str, words)], stdin=into, stdout=printed, stderr=told)

    def told(self, name):
        return (self.folder / f"{name}.err").read_text()

    # ---- hosts

    def start_host(self, number):
        self.starts[number] += 1
        addresses = self.chance.sample(self.etcds.addresses, len(self.etcds.addresses))
        words = ["host", "-v", "--port", self.ports[number], "--viewers", OFFERING + 1, "--every", 100, "--world", NAME,
                 "--etcd", ",".join(addresses), *(["--standby", 2] if number else [])]
        self.hosts[number] = self.start(f"host{number}.{self.starts[number]}", "clocks", words)

    def host_told(self, number):
        return self.told(f"host{number}.{self.starts[number]}")

    def await_hosts(self):
        limit = time.monotonic() + 60 * load()
        for number, process in self.hosts.items():
            while "bound to port" not in self.host_told(number):
                if process.poll() is not None or time.monotonic() > limit:
                    stop(f"host {number} doesn't begin: {process.poll()}, {self.host_told(number)}")
                time.sleep(0.05)

    def look_at_hosts(self):
        """A host may end by itself as it starts, if etcd doesn't answer. It is started again."""
        for number, process in list(self.hosts.items()):
            status = process.poll()
            if status == 4 and self.host_told(number).startswith("refused EtcdSilent\n"):
                self.refused += 1
                self.start_host(number)
            elif status is not None:
                stop(f"host {number} ended with status {status}: {self.host_told(number)}")

    def drawn(self):
        """A host that isn't held, if there is another one, or if it is the only one of the world."""
        able = sorted(set(self.hosts) - self.held)
        return self.chance.choice(able) if len(able) > 1 or len(self.ports) == 1 == len(able) else None

    def kill_host(self):
        if (number := self.drawn()) is not None:
            process = self.hosts.pop(number)
            process.kill()
            process.wait()
            self.died("host")
            self.after(self.chance.choice(AWAY), lambda: self.start_host(number))

    def hold_host(self):
        """Holds a host (SIGSTOP): once it goes on, others have appended, and it doesn't know."""
        if (number := self.drawn()) is not None:
            process = self.hosts[number]
            process.send_signal(signal.SIGSTOP)
            self.held.add(number)
            self.died("host held")
            self.after(self.chance.choice(HELD), lambda: self.release(number))

    def release(self, number):
        self.hosts[number].send_signal(signal.SIGCONT)
        self.held.remove(number)

    def after(self, seconds, work):
        self.due.append((time.monotonic() + seconds, work))

    def died(self, kind):
        self.killed[kind] += 1
        self.deaths.append((time.monotonic(), kind))

    # ---- etcd

    def found_leader(self):
        """The etcd that leads, or None if none does or one is away."""
        return self.etcds.leader() if not self.is_away and self.etcds.all_are_back() else None

    def kill_leader(self):
        if (number := self.found_leader()) is not None:
            self.etcds.kill(number)
            self.is_away = True
            self.died("leader")
            self.after(self.chance.choice(AWAY), lambda: self.start_etcd(number))

    def start_etcd(self, number):
        self.etcds.start(number)
        self.is_away = False

    def hold_leader(self):
        """Holds the etcd that leads: it takes requests, and doesn't answer."""
        if (number := self.found_leader()) is not None:
            self.etcds.signal(number, signal.SIGSTOP)
            self.is_away = True
            self.died("leader held")
            self.after(self.chance.choice(HELD), lambda: self.release_etcd(number))

    def release_etcd(self, number):
        self.etcds.signal(number, signal.SIGCONT)
        self.is_away = False

    # ---- viewers

    def hosts_for(self, who):
        """The words that name the hosts, at ways that lose, in an order of this viewer."""
        if who not in self.ways:
            ways = [text_of(wire.HERE, self.losses.way(port)) for port in self.ports]
            self.ways[who] = self.chance.sample(ways, len(ways))
        return ",".join(self.ways[who])

    def start_viewer(self, who, count):
        self.boots[who] = self.boots.get(who, 0) + 1
        words = ["view", "--host", self.hosts_for(who), "--who", who, "--boot", self.boots[who], "--exactly", count]
        self.viewers[who] = (self.start(f"view{who}.{self.boots[who]}", f"points{who}", words), count)

    def look_at_viewers(self):
        """A viewer that no host welcomed for 10 seconds ends, and is started again."""
        for who, (process, count) in list(self.viewers.items()):
            name, status = f"view{who}.{self.boots[who]}", process.poll()
            if status == 3 and self.told(name) == "refused NoWelcome\n":
                self.unwelcome += 1
                self.start_viewer(who, count)
            elif status:
                stop(f"viewer {who} ended with {status}: {process.args}: {self.told(name)}")
            elif status == 0:
                self.texts.append((count, name))
                del self.viewers[who]

    def kill_viewer(self):
        who = self.chance.choice([each for each in self.viewers if each < POINTING] or [None])
        if who is not None:
            process, count = self.viewers[who]
            process.kill()
            process.wait()
            self.killed["viewer"] += 1
            self.start_viewer(who, count)

    def come_late(self, tail):
        """A viewer that comes late, and ends at an input that is already there."""
        free = [who for who in range(POINTING, OFFERING) if who not in self.viewers]
        if tail and free:
            self.late += 1
            self.start_viewer(free[0], self.chance.randint(1, tail))

    # ---- all of it

    def turn(self, tail, goes_on):
        """Looks at all that runs, and starts what is due."""
        for each in [each for each in self.due if each[0] <= time.monotonic()]:
            self.due.remove(each)
            each[1]()
        self.look_at_hosts()
        self.look_at_viewers()
        for who in range(POINTING if goes_on else 0):
            if who not in self.viewers:
                self.start_viewer(who, tail + self.chance.randint(20, 200))

    def live(self, seconds, apart, tail):
        """Kills and starts for so many seconds, so many apart, and then lets the viewers come to their ends."""
        deaths = [self.kill_host, self.hold_host, self.kill_leader, self.hold_leader, self.kill_viewer]
        ends, next_death = time.monotonic() + seconds, time.monotonic() + 1
        while (now := time.monotonic()) < ends:
            self.turn(tail.tail, True)
            if now >= next_death:
                next_death = now + apart
                self.come_late(tail.tail)
                self.chance.choice(deaths)()
            time.sleep(0.02)
        limit = time.monotonic() + 120 * load()
        while self.viewers or self.due:
            self.turn(tail.tail, False)
            if time.monotonic() > limit:
                stop(f"viewers {sorted(self.viewers)} haven't ended; the log has {tail.tail} inputs")
            time.sleep(0.02)

    def end(self):
        for process in [*self.hosts.values(), *(process for process, _ in self.viewers.values())]:
            if process.poll() is None:
                process.kill()
                process.wait()

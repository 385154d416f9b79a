"""Some etcd on this machine that keep the same, for tests."""
import os
import random
import shutil
import socket
import subprocess
import time
from pathlib import Path

import etcd
import wire
from case_files import stop

PROGRAM = shutil.which("etcd")
# Ports below those that the system gives to sockets that ask for none: one that is free for a while stays free.
PORTS = range(20_000, 32_000)


def load():
    """How much longer than on an idle machine things take here."""
    return max(1, os.getloadavg()[0] / os.cpu_count())


def is_free(port):
    try:
        for kind in socket.SOCK_STREAM, socket.SOCK_DGRAM:
            with socket.socket(socket.AF_INET, kind) as end:
                end.bind((wire.HERE, port))
        return True
    except OSError:
        return False


def free_ports(count):
    found = []
    for port in random.sample(PORTS, len(PORTS)):
        if len(found) == count:
            return found
        if is_free(port):
            found.append(port)
    return stop("no ports are free")


class Etcds:
    """Some etcd, each with a folder and two ports of its own."""

    def __init__(self, folder, count):
        self.folder, self.ports, self.processes = Path(folder), free_ports(2 * count), [None] * count
        self.addresses = [f"{wire.HERE}:{port}" for port in self.ports[:count]]
        self.peers = [f"http://{wire.HERE}:{port}" for port in self.ports[count:]]

    def __enter__(self):
        for number in range(len(self.addresses)):
            self.start(number)
        self.await_all()
        return self

    def __exit__(self, *_):
        for process in self.processes:
            if process and process.poll() is None:
                process.kill()
                process.wait()

    def start(self, number):
        cluster = ",".join(f"e{each}={peer}" for each, peer in enumerate(self.peers))
        mine, peer = f"http://{self.addresses[number]}", self.peers[number]
        name = f"e{number}"
        words = [PROGRAM, "--name", name, "--data-dir", self.folder / name, "--initial-cluster", cluster,
                 "--listen-client-urls", mine, "--advertise-client-urls", mine, "--listen-peer-urls", peer,
                 "--initial-advertise-peer-urls", peer, "--logger", "zap", "--log-outputs", "stderr",
                 "--log-level", "error"]
        with open(self.folder / f"{name}.err", "ab") as told:
            self.processes[number] = subprocess.Popen(words, stdin=subprocess.DEVNULL, stdout=told, stderr=told)

    def status(self, number):
        """What an etcd says of itself, or None if it says nothing."""
        try:
            return etcd.post(self.addresses[number], "/v3/maintenance/status", {}, 2)
        except etcd.Refused:
            return None

    def all_are_back(self):
        """Whether each answers, and all have the same leader."""
        found = [self.status(number) for number in range(len(self.addresses))]
        leaders = {each.get("leader", "0") if each else "0" for each in found}
        return len(leaders) == 1 and leaders != {"0"}

    def await_all(self):
        limit = time.monotonic() + 60 * load()
        while not self.all_are_back():
            ended = [process.poll() for process in self.processes]
            if time.monotonic() > limit or any(status is not None for status in ended):
                stop(f"etcd doesn't come up, statuses {ended}: {(self.folder / 'e0.err').read_text()[-2000:]}")
            time.sleep(0.1)

    def leader(self):
        """The number of the one that leads, or None if none does."""
        for number in range(len(self.addresses)):
            found = self.status(number)
            if found and found.get("leader", "0") == found["header"]["member_id"]:
                return number
        return None

    def signal(self, number, signal):
        self.processes[number].send_signal(signal)

    def kill(self, number):
        self.processes[number].kill()
        self.processes[number].wait()

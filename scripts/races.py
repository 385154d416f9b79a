"""Races for the numbers of a log in etcd, for scripts/cluster."""
import subprocess
import tempfile
import threading
import time
from concurrent.futures import ThreadPoolExecutor
from pathlib import Path

import etcd
import log_file
import wire
from case_files import stop
from etcds import Etcds, free_ports, load
from nodes import PROGRAM, SCENE, clocks

# Of so many races one is of hosts, the others are of appends.
EVERY = 10
MARK = wire.mark_of(SCENE)


def recalled(payloads):
    ran = subprocess.run([PROGRAM, "recall"], input=log_file.gated(*payloads), capture_output=True, check=False)
    if ran.returncode:
        stop(f"recall of a log after a race: {ran.stderr.decode()}")
    return ran.stdout.decode().splitlines()


def host_of(folder, address, name, port, second):
    """A host that has one clock to number, and takes a few turns."""
    given = Path(folder, f"{name}.{second}")
    given.write_bytes("".join(f"{line}\n" for line in [*clocks(second), "scene"]).encode() + SCENE)
    words = [PROGRAM, "host", "--port", str(port), "--etcd", address, "--world", name, "--turns", "40"]
    with open(given, "rb") as into:
        return subprocess.Popen(words, stdin=into, stdout=subprocess.DEVNULL, stderr=subprocess.PIPE)


def race_of_hosts(folder, address, name, ports):
    """Two hosts make a world at once, and number a clock each. If the later one is first, the other is dropped."""
    hosts = [host_of(folder, address, name, port, second) for port, second in zip(ports, (1, 2))]
    told = []
    for host in hosts:
        try:
            told.append(host.communicate(timeout=60 * load())[1].decode())
        except subprocess.TimeoutExpired:
            stop(f"{host.args} hasn't ended")
    lines = recalled(etcd.payloads_of(address, name)[0])
    if any(host.returncode for host in hosts) or lines not in (clocks(1, 2), clocks(2)):
        stop(f"of two hosts of {name}: {[host.returncode for host in hosts]}, {told}, and the log is {lines}")
    return len(lines)


def race_of_appends(address, name, known, chain, last):
    """Two append a clock each at one number by the same revisions at once. The revision and the entry of who won."""
    entries = [log_file.clock(1000 * (2 * last + who + 1)) for who in range(2)]
    together = threading.Barrier(2)

    def append(entry):
        body = etcd.append_body(name, known, [(last + 1, log_file.frame(chain, last + 1, [entry]))], last + 1)
        together.wait()
        return etcd.done(address, body)

    with ThreadPoolExecutor(2) as pool:
        found = [(revision, entry) for revision, entry in zip(pool.map(append, entries), entries) if revision]
    if len(found) != 1:
        stop(f"{len(found)} of two have entry {last + 1}")
    return found[0]


def races_of_appends(address, name, count):
    run = bytes(range(16))
    head = log_file.head(MARK, run)
    made = etcd.done(address, etcd.making_body(name, head))
    tail, chain, wanted = made, run, []
    for last in range(count):
        tail, entry = race_of_appends(address, name, (made, tail), chain, last)
        chain = log_file.linked(chain, [entry])
        wanted.append(entry)
    payloads = etcd.payloads_of(address, name)[0]
    found = [text for payload in payloads[1:] for text in log_file.texts_of(payload)]
    if found != wanted or len(recalled(payloads)) != count:
        stop(f"after {count} races the log has {len(found)} entries, or others than won")


def run_all(count):
    """Runs so many races, and says how they went."""
    of_hosts, both = max(1, count // EVERY), 0
    began = time.monotonic()
    with tempfile.TemporaryDirectory(prefix="cluster-") as folder, Etcds(folder, 1) as etcds:
        address, ports = etcds.addresses[0], free_ports(2)
        races_of_appends(address, "appends", count - of_hosts)
        for number in range(of_hosts):
            both += race_of_hosts(folder, address, f"race-{number}", ports) == 2
    return (f"{count - of_hosts} races of appends, one won each; {of_hosts} of hosts, {both} logs with both clocks; "
            f"{time.monotonic() - began:.0f} s")

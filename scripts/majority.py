"""Two of three etcd are gone for a while: hosts are silent, live on, and lose nothing. For scripts/cluster."""
import random
import signal
import tempfile
import time

import etcd
import many_hosts
import watching
from case_files import stop
from etcds import Etcds, load
from losses import Losses

# How long the two are gone, and how long a host may take to go on.
GONE, PATIENCE = 8, 60
TWO = (0, 1)


def total(offering):
    return sum(offering.acked.values())


def go(etcds, how):
    for number in TWO:
        if how == "killed":
            etcds.kill(number)
        else:
            etcds.signal(number, signal.SIGSTOP)


def come_back(etcds, how):
    for number in TWO:
        if how == "killed":
            etcds.start(number)
        else:
            etcds.signal(number, signal.SIGCONT)


def until_more(offering, had):
    """How long it takes until another offer is acked."""
    began = time.monotonic()
    while total(offering) == had:
        if time.monotonic() > began + PATIENCE * load():
            stop("no host goes on")
        time.sleep(0.05)
    return time.monotonic() - began


def gone(world, offering, how):
    go(world.etcds, how)
    # What was under way is answered by then.
    time.sleep(3 * load())
    had = total(offering)
    time.sleep(GONE)
    if total(offering) != had:
        stop(f"an offer was acked while two etcd of three were {how}")
    ended = [number for number, process in world.hosts.items() if process.poll() is not None]
    if ended:
        stop(f"hosts {ended} ended while two etcd of three were {how}")
    come_back(world.etcds, how)
    took = until_more(offering, had)
    world.etcds.await_all()
    return f"{took:.1f} s after two of three etcd were {how}"


def run():
    with tempfile.TemporaryDirectory(prefix="cluster-") as folder, Etcds(folder, 3) as etcds, Losses(0.3, 1) as losses:
        world = many_hosts.World(folder, random.Random(1), etcds, losses, 2)
        try:
            for number in range(2):
                world.start_host(number)
                world.await_hosts()
            offering = watching.Offering(world.ports, many_hosts.MARK, 0)
            offering.start()
            until_more(offering, 0)
            told = [gone(world, offering, how) for how in ("killed", "held")]
            offering.end()
            payloads, _ = etcd.payloads_of(etcds.addresses[0], many_hosts.NAME)
            found = watching.offers_of(payloads)
            for boot, count in offering.acked.items():
                if len(found.get((0, boot), [])) < count:
                    stop(f"{count} offers of boot {boot} were acked, and the log has fewer")
            return f"hosts go on {' and '.join(told)}; {total(offering)} offers acked, none lost"
        finally:
            world.end()

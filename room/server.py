#!/usr/bin/python3
"""Shows shared worlds in browser windows, each with a viewer of its own."""
import argparse
import asyncio
import errno
import ipaddress
import logging
import re
import secrets
import signal
import socket
import sys
from pathlib import Path

sys.dont_write_bytecode = True
try:
    from aiohttp import web
    from aiohttp.http_exceptions import HttpProcessingError
except ImportError:
    sys.exit("room: there is no aiohttp: Debian's package python3-aiohttp has it")
try:
    from library import WASM, x3d
except (ImportError, OSError, AttributeError) as missing:
    sys.exit(f"room: {missing}")
from explain import Unshown
from guard import Guard
from replay import Replayed
from service import Service
from web import Site

THREE = "/usr/share/javascript/three/three.min.js"
# How many seats an address may take, and connections beside these.
EACH, MORE = 16, 64
FILES = """FILE is a scene in the Classic VRML encoding, of X3D or of VRML 97, or a job, of which the scene counts. What isn't read
of it is left out, and the page lists that. Each file is a room, by its name without its ending. A file that changes is
shown again: a new run begins, or what is wrong is shown over the picture. The first link that is printed is for all; the
second, with a secret, is for the trainer."""


def arguments():
    words = argparse.ArgumentParser(prog="room/server.py", description=__doc__, epilog=FILES)
    add = words.add_argument
    add("files", nargs="*", metavar="FILE", help="the rooms")
    add("--replay", action="append", default=[], metavar="FILE",
        help="show what happened: a room's download, a .job or an .x3dlog, or a folder of --keep; of an .x3dlog "
        "the scene is one of the FILEs, or lies beside it")
    add("--address", action="append", metavar="ADDRESS",
        help="listen here, IPv4 or IPv6 (127.0.0.1); 0.0.0.0 is each address of this machine; may be given twice")
    add("--port", type=int, default=8040, help="the port (8040); 0 takes a free one")
    add("--name", action="append", default=[], metavar="HOST",
        help="a name by which this server is reached, beside localhost and this machine's own; may be given twice")
    add("--password", metavar="WORD", help="ask each window for this before it comes in")
    add("--trainer", metavar="WORD",
        help="the secret of the trainer's link (else a new one, which --keep keeps)")
    add("--keep", metavar="FOLDER", help="keep each room on the disk there, and go on with it at the next start")
    add("--each", type=int, default=EACH, metavar="N",
        help=f"seats that one address may take ({EACH}); who comes beyond them watches")
    add("--proxy", action="store_true",
        help="a proxy stands before this server: believe its X-Forwarded-For and X-Forwarded-Proto")
    add("--wasm", type=Path, default=WASM, metavar="FOLDER",
        help="the package of `make wasm`, by which windows hold their viewers (out/wasm, or what X3D_WASM names); "
        "where there is none they run in the server")
    add("--three", type=Path, default=Path(THREE), metavar="FILE", help=f"three.js, r111 ({THREE})")
    return words


def trainers_secret(folder):
    """A new secret, or the one that was kept, so that the trainer's link stays what it was."""
    path = Path(folder, ".trainer") if folder else None
    if path and path.exists():
        return path.read_text().strip()
    secret = secrets.token_urlsafe(9)
    if path:
        path.parent.mkdir(parents=True, exist_ok=True)
        path.touch(0o600)
        path.write_text(secret)
    return secret


def services_of(given):
    """The rooms that are asked for, by their names."""
    services = {}
    made = [(file, lambda name, file: Service(name, file, given, given.keep)) for file in given.files]
    made += [(file, lambda name, file: Replayed(name, file, given)) for file in given.replay]
    for file, make in made:
        stem = re.sub(r"[^\w-]+", "-", Path(file).resolve().stem) or "room"
        name = next(each for each in (stem, *(f"{stem}-{k}" for k in range(2, 99))) if each not in services)
        services[name] = make(name, file)
    return services


def reached_at(given, addresses):
    """The address to print: what stands for each address of this machine is reached by its name."""
    if given.name:
        return given.name[0]
    first = addresses[0]
    if first in ("0.0.0.0", "::"):
        return socket.gethostname()
    return f"[{first}]" if ":" in first else first


def is_here_alone(address):
    """Whether an address is reached from this machine alone."""
    try:
        return ipaddress.ip_address(address).is_loopback
    except ValueError:
        return address == "localhost"


def own_address():
    """An address of this machine by which others reach it: the one that it would send from. Nothing is sent."""
    try:
        with socket.socket(socket.AF_INET, socket.SOCK_DGRAM) as link:
            link.connect(("192.0.2.1", 9))
            return link.getsockname()[0]
    except OSError:
        return socket.gethostname()


def place_for_others(given, addresses, port):
    """Where other machines reach it; nothing where they don't, or where a proxy stands before it."""
    if given.proxy or all(map(is_here_alone, addresses)):
        return None
    whole = not given.name and addresses[0] in ("0.0.0.0", "::")
    return f"http://{own_address() if whole else reached_at(given, addresses)}:{port}/"


def is_no_request(record):
    """Whether a line of the log says that a client sent what is no HTTP: that is no fault of the server."""
    return bool(record.exc_info) and isinstance(record.exc_info[1], HttpProcessingError)


def note_fault(loop, about):
    """A connection that broke while it was written to, as by a heartbeat, is no fault of the server."""
    if not isinstance(about.get("exception"), ConnectionError):
        loop.default_exception_handler(about)


async def serve(given):
    services, addresses = services_of(given), given.address or ["127.0.0.1"]
    site = Site(services, given, given.three)
    runner = web.AppRunner(site.application(), access_log=None)
    await runner.setup()
    guard = Guard(0 if given.proxy else 2 * given.each + MORE, runner.server)
    given.connected = guard.connected
    loop, ended = asyncio.get_running_loop(), asyncio.Event()
    loop.set_exception_handler(note_fault)
    server = await loop.create_server(guard, addresses, given.port, backlog=256)
    for ends in (signal.SIGINT, signal.SIGTERM):
        loop.add_signal_handler(ends, ended.set)
    port = server.sockets[0].getsockname()[1]
    place, given.place = f"http://{reached_at(given, addresses)}:{port}/", place_for_others(given, addresses, port)
    for name in services:
        print(f"{place}{name}/", flush=True)
        print(f"  trainer: {place}{name}/#trainer={given.trainer}", flush=True)
    print("Open the trainer's link yourself, and send the other one. Ctrl-C ends.", flush=True)
    if sys.stderr.isatty() and not given.proxy and all(map(is_here_alone, addresses)):
        print("room: for this machine alone; --address 0.0.0.0 lets others in", file=sys.stderr, flush=True)
    clocks = [asyncio.ensure_future(service.run()) for service in services.values()]
    await asyncio.wait([asyncio.ensure_future(ended.wait()), *clocks], return_when=asyncio.FIRST_COMPLETED)
    failed = next((clock.exception() for clock in clocks if clock.done()), None)
    server.close()
    for service in services.values():
        service.close()
    await asyncio.wait_for(runner.cleanup(), 5)
    if failed:
        raise failed


def main():
    words = arguments()
    given = words.parse_args()
    if not given.files and not given.replay:
        words.error("a FILE, or --replay FILE")
    if not given.three.exists():
        sys.exit(f"room: there is no {given.three}: Debian's package libjs-three has it")
    if not (given.wasm / "x3d.wasm").exists():
        given.wasm = None
    given.trainer = given.trainer or trainers_secret(given.keep)
    logging.getLogger("aiohttp.server").addFilter(lambda record: not is_no_request(record))
    try:
        asyncio.run(serve(given))
    except Unshown as unshown:
        sys.exit(f"room: {unshown}")
    except OSError as fault:
        taken = fault.errno == errno.EADDRINUSE
        sys.exit(f"room: port {given.port} is taken: --port takes another one" if taken else f"room: {fault}")
    except x3d.Refusal as refused:
        sys.exit(f"room: {refused}")


if __name__ == "__main__":
    main()

"""Tests the package that scripts/wasm builds: in node, beside the native library, and in chromium."""
import base64
import ctypes
import functools
import http.server
import json
import os
import shutil
import subprocess
import sys
import threading
from pathlib import Path

from case_files import TOP, stop
from plain_jobs import jobs

TESTS = TOP / "bindings/js/tests"
SECONDS = 1800
FEWEST_JOBS = 100
QUICK_JOBS = 50
FILLER = b"\xaa"
# The sizes of structs, and the places in them that hold nothing: as in bindings/js/tests/caller.js.
LAST = [12, 13, 14, 15]
UNUSED = {
    **{"struct x3d_change *": (16, [7]), "struct x3d_datagram *": (72, [3])},
    **{"struct x3d_saved *": (16, LAST), "struct x3d_taken *": (16, LAST)},
    "struct x3d_reply *": (24, [20, 21, 22, 23]),
}
# What the job prints that the page shows.
DOOR = (TOP / "examples/door.job.stdout").read_bytes()
# Node until version 23 has memories of 64 bits by this flag alone.
WIDE = "--experimental-wasm-memory64"
failed = []


def tell(what, good, more=""):
    print(f"wasm: {what}: {'good' if good else 'WRONG'}{more}", flush=True)
    if not good:
        failed.append(what)


def skip(what, why):
    print(f"wasm: {what}: skipped: {why}", flush=True)


def call(what, words, **more):
    """A command that has to end with 0."""
    env = {**os.environ, **more}
    ran = subprocess.run([str(word) for word in words], env=env, capture_output=True, timeout=SECONDS)
    tell(what, ran.returncode == 0)
    if ran.returncode:
        print((ran.stdout + ran.stderr).decode(errors="backslashreplace")[-4000:])


def write_jobs(file, quick):
    """Writes the jobs as the tests read them, and returns how many there are."""
    every = list(jobs())
    if len(every) < FEWEST_JOBS:
        stop(f"there are only {len(every)} jobs")
    some = [job for job in every if len(job[1]) < 1 << 20][:: len(every) // QUICK_JOBS] if quick else every
    some = [*some, *(job for job in every if job[2][1] == DOOR and job not in some)]
    text = lambda data: base64.b64encode(data).decode()
    listed = [
        {
            **{"name": name, "job": text(job), "status": status, "output": text(output), "error": error.decode()},
            "shown": output == DOOR,
        }
        for name, job, (status, output, error) in some
    ]
    file.write_text(json.dumps(listed))
    return len(listed)


def in_node(folder, log):
    for file in sorted(TESTS.glob("*.test.js")):
        name = file.name.removesuffix(".test.js")
        call(f"node: {name}", ["node", file], X3D_WASM=str(folder), X3D_LOG=str(log))
    wide = [WIDE] if subprocess.run(["node", WIDE, "-e", "0"], capture_output=True).returncode == 0 else []
    for name in ("world", "jobs"):
        words = ["node", *wide, TESTS / f"{name}.test.js"]
        call(f"node, a memory of 64 bits: {name}", words, X3D_WASM=str(folder), X3D_MODULE="tests/x3d64.wasm")


def passed(given, handles, outs):
    """What a function is passed for one entry of the log: each a word, as C on this machine has it."""
    if "kind" in given:
        return [ctypes.byref(handles[given["kind"]][given["which"]])]
    if "bytes" in given:
        data = bytes.fromhex(given["bytes"])
        return [ctypes.c_char_p(data), *([ctypes.c_size_t(len(data))] if "counted" in given else [])]
    if "out" in given:
        outs.append(ctypes.create_string_buffer(FILLER * given["out"], given["out"]))
        return [outs[-1], *([ctypes.c_size_t(given["room"])] if "room" in given else [])]
    return [ctypes.c_int64(int(given["number"]))]


def without_unused(written, kind):
    """Structs whose unused bytes are fillers: what a call leaves there is not said."""
    size, places = UNUSED.get(kind, (len(written), []))
    found = bytearray(written)
    for place in places:
        found[place::size] = FILLER * len(found[place::size])
    return bytes(found)


def beside_native(log):
    """Makes the random calls again, by the native library: each has to return the same, and write the same."""
    what = "random calls, beside the native library"
    found = [os.environ.get("X3D_SO"), *(TOP / folder / "libx3d.so" for folder in ("out", "out/quick"))]
    native = next((file for file in found if file and Path(file).exists()), None)
    if not native:
        return skip(what, "no library (make library, or make library-unproved)")
    library = ctypes.CDLL(str(native))
    handles = {kind: [ctypes.c_void_p() for _ in range(3)] for kind in ("world", "host", "viewer", "part")}
    entries = json.loads(log.read_text())
    for k, entry in enumerate(entries):
        outs = []
        words = [word for given in entry["given"] for word in passed(given, handles, outs)]
        function = getattr(library, entry["name"])
        function.restype = None if entry["name"].endswith("_close") else ctypes.c_uint8
        status = function(*words) or 0
        kinds = [given.get("type") for given in entry["given"] if "out" in given]
        written = [without_unused(out.raw, kind).rstrip(FILLER).hex() for out, kind in zip(outs, kinds)]
        if (status, written) != (entry["status"], entry["written"]):
            return tell(what, False, f", call {k}: {entry}, and by {native}: {status}, {written}")
    tell(what, True, f", {len(entries)} calls")


class Server(http.server.SimpleHTTPRequestHandler):
    def log_message(self, *_):
        pass


def in_chromium(folder):
    sys.path.insert(0, str(TOP / "room"))
    import browser

    what = "chromium: jobs in a page"
    if not browser.installed():
        return skip(what, "no chromium")
    for file in ("door.html", "running.js"):
        shutil.copy(TESTS / file, folder / "tests")
    server = http.server.ThreadingHTTPServer(("127.0.0.1", 0), functools.partial(Server, directory=folder))
    threading.Thread(target=server.serve_forever, daemon=True).start()
    window = browser.Browser()
    try:
        page = window.open(f"http://127.0.0.1:{server.server_port}/tests/door.html")
        page.wait("window.told !== undefined", SECONDS)
        told = page.value("window.told")
        shown = page.value("document.getElementById('door').textContent")
    finally:
        window.close()
        server.shutdown()
    good = told.get("count", 0) >= QUICK_JOBS // 2 and not told.get("wrong") and shown == DOOR.decode()
    tell(what, good, f", {told}")


def test(folder, quick):
    """Runs all of it, and returns the status of the script."""
    if not shutil.which("node"):
        stop("there is no node")
    if not (folder / "x3d.wasm").exists():
        stop(f"there is no {folder / 'x3d.wasm'}; `make wasm` builds it")
    log = folder / "tests/calls.json"
    count = write_jobs(folder / "tests/jobs.json", quick)
    print(f"wasm: {count} jobs", flush=True)
    in_node(folder, log)
    beside_native(log)
    in_chromium(folder)
    if failed:
        print(f"wasm: wrong: {', '.join(failed)}")
    return 1 if failed else 0

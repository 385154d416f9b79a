"""What bench/run and its growth share: jobs, and what a program takes for them."""
import os
import subprocess
import sys
import tempfile
import time

HERE = os.path.dirname(os.path.abspath(__file__))
TIME = "/usr/bin/time"
WORK = tempfile.TemporaryDirectory(prefix="x3d_share_bench.")


def made(*words):
    """The file that bench/make_job writes for these words; scripts/colliding for `colliding KIND N [--harmless]`."""
    path = os.path.join(WORK.name, "_".join(map(str, words)))
    if not os.path.exists(path):
        maker = [os.path.join(HERE, "make_job"), *map(str, words)]
        if words[0] == "colliding":
            maker = [os.path.join(HERE, "../scripts/colliding"), "write", words[1], "--many", str(words[2]), *words[3:]]
        with open(path, "wb") as out:
            subprocess.run(maker, stdout=out, check=True)
    return path


def compiled(name):
    """The program of bench/NAME.c."""
    program = os.path.join(WORK.name, name)
    subprocess.run(["cc", "-O2", "-o", program, os.path.join(HERE, name + ".c")], check=True)
    return program


def peak_of(peaks, usage):
    """Peak memory in MB, of /usr/bin/time if it ran."""
    if not os.path.exists(peaks):
        return usage.ru_maxrss / 1024
    with open(peaks, encoding="utf-8") as told:
        return int(told.read()) / 1024


def measured(words, given=os.devnull, runs=5, by_clock=False):
    """The least processor seconds of these runs, or seconds by the clock; peak memory in MB; the file written.

    The peak is that of /usr/bin/time, which takes 1 MB. Without it, it is at least that of Python, 16 MB."""
    least, peak, taken = None, 0, os.path.join(WORK.name, "taken")
    peaks = os.path.join(WORK.name, "peak")
    if os.access(TIME, os.X_OK):
        words = [TIME, "--quiet", "-f", "%M", "-o", peaks, *words]
    for _ in range(runs):
        with open(given, "rb") as source, open(taken, "wb") as out:
            begun = time.monotonic()
            child = subprocess.Popen(words, stdin=source, stdout=out)
            _, status, usage = os.wait4(child.pid, 0)
        if status:
            sys.exit(f"{' '.join(words)} < {given} ended with status {os.waitstatus_to_exitcode(status)}")
        seconds = time.monotonic() - begun if by_clock else usage.ru_utime + usage.ru_stime
        least = seconds if least is None else min(least, seconds)
        peak = max(peak, peak_of(peaks, usage))
    return least, peak, taken

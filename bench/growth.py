"""Whether time grows with the input: each job is doubled three times, and its processor time may grow by 2.3 times at
most each time. What takes n log n grows by 2.2, what takes n^2 by 4. Of a job whose inputs are counted by a number of their
own, the time is that of its inputs: the job without inputs is measured too, and left out."""
from measure import made, measured

LIMIT = 2.3
SURELY = 3.2  # From here on it isn't measured again: others that use the machine don't explain it.
LEAST = 0.05  # Seconds of the first size: a job that takes less has more inputs, and is run several times.
MOST_INPUTS = 50  # In times those of the job.
MOST_RUNS = 8

# The command, the words of the job with N in them, and the first N.
JOBS = [
    # Events: routes, ticks, scripts, what moves, sensors, lists.
    ("run", "chain N 10", 8_000),
    ("run", "ring N 10", 8_000),
    ("run", "fan N 10", 8_000),
    ("run", "fan 100 N", 500),
    ("run", "into N 10", 4_000),
    ("run", "web N 20", 8_000),
    ("run", "repeats N 20", 8_000),
    ("run", "scripts N 10", 4_000),
    ("run", "moving N 20", 1_000),
    ("run", "apart N 20", 2_000),
    ("run", "used N 20", 4_000),
    ("run", "above L 20", 11),
    ("run", "switched N 20", 4_000),
    ("run", "idle N N", 2_000),
    ("run", "active N 10", 4_000),
    ("run", "touches N N", 2_000),
    ("run", "over N N", 500),
    ("run", "boxes N N", 1_000),
    ("run", "keys N 20", 10_000),
    # Texts: names, lists, levels, prototypes.
    ("run", "nodes N 0", 8_000),
    ("run", "points N 0", 200_000),
    ("run", "strings N", 100_000),
    ("run", "deep N", 8_000),
    ("run", "ends N", 8_000),
    ("check", "plain N", 8_000),
    ("check", "doubling L", 12),
    ("check", "prototypes N", 8_000),
    ("check", "instances N", 8_000),
    ("check", "joins N", 8_000),
    ("check", "relays N", 8_000),
    ("check", "handing N 6", 8_000),
    ("check", "unasked N N", 4_000),
    ("check", "inner N", 8_000),
    ("run", "long_words N", 500_000),
    ("run", "blanks N", 100_000),
    ("run", "metas N", 20_000),
    *(("check", f"colliding {kind} N", 8_000)
      for kind in ["prototypes", "interfaces", "joins", "definitions", "uses", "scripts", "routes", "ends"]),
    # Schedules: datagrams in turn and late, what viewers offer, snapshots.
    ("rehearse", "catching N", 4_000),
    ("rehearse", "late N", 8_000),
    ("rehearse", "offers N", 4_000),
    ("rehearse", "rewinds N 4", 2_000),
]


def sizes_of(words, first, shrink):
    """Four sizes, each twice the one before; L in place of N is their number of levels, of which one more is twice."""
    if "L" in words:
        first = max(first - shrink.bit_length() + 1, 2)
        return [first + doubled for doubled in range(4)]
    first = max(first // shrink, 16)
    return [first << doubled for doubled in range(4)]


def has_inputs(command, words):
    """Whether a job has a number of inputs that doesn't grow."""
    return command == "run" and len(words) == 3 and words[1] in ("N", "L") and words[2].isdigit() and words[2] != "0"


def time_of(program, command, words, size, runs, times=1):
    """The processor seconds of a job of this size in a row of runs: of its inputs, or without those of a start."""
    viewers = ["--viewers", "2"] if command == "rehearse" else []
    sized = [str(size) if word in ("N", "L") else word for word in words]
    whole = [program, command, *viewers], made(*sized)
    rest = (whole[0], made(*sized[:2], "0")) if has_inputs(command, words) else ([program, "--version"],)
    took = [sum(measured(*job, runs=1)[0] for _ in range(times)) for _ in range(runs) for job in (whole, rest)]
    return max(min(took[::2]) - min(took[1::2]), 1e-4)


def long_enough(program, command, words, size):
    """The words with as many inputs, or the number of runs in a row, that the first size needs to take LEAST seconds."""
    took = time_of(program, command, words, size, 3)
    if has_inputs(command, words):
        return [*words[:2], str(int(words[2]) * max(1, min(MOST_INPUTS, round(LEAST / took))))], 1
    return words, max(1, min(MOST_RUNS, round(LEAST / took)))


def grown(program, command, words, sizes, runs):
    """The seconds for the job at each of these sizes, and the greatest ratio of two that follow."""
    words, times = long_enough(program, command, words, sizes[0])
    # Larger sizes take longer by themselves.
    each = [max(1, times >> doubled) for doubled in range(len(sizes))]
    taken = [time_of(program, command, words, size, runs, times) for size, times in zip(sizes, each)]
    seconds = [took / times for took, times in zip(taken, each)]
    # What takes no time that can be measured, as inputs whose cost has no N, doesn't grow.
    ratios = [seconds[i + 1] / seconds[i] for i in range(3) if taken[i + 1] >= LEAST / 2]
    return seconds, max(ratios, default=1.0)


def growth(program, only, shrink):
    """Prints a row for each job, and says whether none grows too fast. What does by a little is measured again."""
    slow = []
    print("| Job | First N | Seconds at N, 2 N, 4 N and 8 N | Greatest ratio |")
    print("|---|---|---|---|")
    for command, job, first in JOBS:
        words = job.split()
        if only and not set(only) & set(words):
            continue
        sizes = sizes_of(words, first, shrink)
        for runs in (3, 5, 7):
            seconds, ratio = grown(program, command, words, sizes, runs)
            if not LIMIT < ratio < SURELY:
                break
        if ratio > LIMIT:
            slow.append(job)
        shown = ", ".join(f"{s:.3f}" for s in seconds)
        verdict = "" if ratio <= LIMIT else ", too fast"
        print(f"| {command} {job} | {sizes[0]:,} | {shown} | {ratio:.1f}{verdict} |", flush=True)
    if slow:
        print(f"growth: more than {LIMIT} times a doubling: {'; '.join(slow)}")
    return not slow

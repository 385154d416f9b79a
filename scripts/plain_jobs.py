"""The jobs of cases/ and examples/ in whole numbers, as programs that embed the library run them: a line for each input,
`clock NUMBER TIME` or `point NUMBER TIME VIEWER DOWN OX OY OZ DX DY DZ`, a line `scene`, and the scene."""
import re
from decimal import Decimal

from case_files import all_files, cases_of

NUMERAL = rb"-?\d+(?:\.\d{1,6})?"
STEP = re.compile(rb"(clock) (%s)|(point) (\d+) ([01]) (%s)" % (NUMERAL, b" ".join([NUMERAL] * 6)))


def millionths(text):
    return int(Decimal(text.decode()) * 1_000_000)


def plain(job):
    """The job with whole numbers, if it is one of plain numerals whose inputs are in turn; its steps and its scene."""
    steps, mark, scene = (b"\n" + job).partition(b"\nscene\n")
    if not mark:
        return None
    time, lines = 0, []
    for number, line in enumerate(steps.split(b"\n")[1:], 1):
        step = STEP.fullmatch(line)
        if not step:
            return None
        now = millionths(step[2]) if step[1] else time + 1
        if now <= time or number > 1 << 20:
            return None
        time = now
        if step[1]:
            lines.append(b"clock %d %d\n" % (number, time))
            continue
        numbers = [millionths(word) for word in step[6].split(b" ")]
        if int(step[4]) > 63 or max(map(abs, numbers)) > 10**15 or not any(numbers[3:]):
            return None
        aim = b" ".join(b"%d" % n for n in numbers)
        lines.append(b"point %d %d %s %s %s\n" % (number, time, step[4], step[5], aim))
    return b"".join(lines) + b"scene\n" + scene


def jobs():
    """Each job: where it stands, its plain text, and what is wanted of it. Of a refusal only the first line is wanted, as
    the library has no second one."""
    for file in all_files():
        for name, runs in cases_of(file):
            for words, given, wanted in runs:
                job = plain(given) if words == ["run"] else None
                if job and wanted[0] in (0, 1):
                    status, output, error = wanted
                    yield f"{file.name}: {name}", job, (status, output, b"".join(error.splitlines(keepends=True)[:1]))

"""A trace as lanes over time: one lane an output, a mark a line."""
import re
from dataclasses import dataclass, field
from xml.sax.saxutils import escape

LANE = 24
# Letters of 12 pixels, as wide as they come on the whole.
LETTER = 7.3
# The most letters of a value that are shown.
VALUE = 20
# Marks of a lane, at most; of more of them every second or third is left out, and so on.
MARKS = 400
# The least distance of two inputs, in pixels, at which they still stand by their times.
APART = 7
COLORS = ("#0b63a5", "#b4560b", "#00795b", "#8a3d85", "#5b5b12", "#a3263a")
NUMBER = re.compile(r"-?\d+(\.\d+)?$")
# Outputs whose values don't last: they are marks without a line.
MOMENTS = re.compile(r"([tT]ime|triggerTrue|triggerValue|inputTrue|inputFalse)$")
LINE = re.compile(r'((?:[^"\n]|"(?:[^"\\]|\\.)*")*)\n', re.S)


@dataclass
class Step:
    """An input: its time in seconds, its line, and whether it is a pointer with its button down."""

    time: float
    line: str
    point: bool = False
    down: bool = False


@dataclass
class Lane:
    """An output, with the number of the input and the value of each line."""

    name: str
    events: list = field(default_factory=list)


def steps_of(lines):
    """The inputs of a job's lines: a pointer comes a microsecond behind what is before it."""
    steps, time = [Step(0, "the scene is loaded")], 0
    for line in lines:
        words = line.split()
        if words[0] == "clock":
            time = round(float(words[1]) * 1e6)
            steps.append(Step(time / 1e6, line))
        else:
            time += 1
            steps.append(Step(time / 1e6, line, True, words[2] == "1"))
    return steps


def lines_of(text):
    """Lines, which don't end inside a string."""
    return [found[1] for found in LINE.finditer(text)]


def lanes_of(lines):
    """The lanes of a trace, those of one node together, each in the order of its first line."""
    lanes, nodes = {}, {}
    for line in lines:
        number, _, name, value = line.split(" ", 3)
        lanes.setdefault(name, Lane(name)).events.append((int(number), value, line))
        nodes.setdefault(name.split(".")[0], len(nodes))
    return sorted(lanes.values(), key=lambda lane: nodes[lane.name.split(".")[0]])


def heights(values):
    """The values as numbers from 0 to 1, and whether they are whole; none of other values."""
    if all(value in ("TRUE", "FALSE") for value in values):
        return [float(value == "TRUE") for value in values], True
    parts = [value.strip("[]").split() for value in values]
    if len({len(part) for part in parts}) > 1 or not all(map(NUMBER.match, sum(parts, []))):
        return None
    columns = [[float(number) for number in column] for column in zip(*parts)]
    if not columns:
        return None
    column = max(columns, key=lambda numbers: max(numbers) - min(numbers))
    low, span = min(column), max(column) - min(column)
    whole = all(number == int(number) for number in column)
    return [(number - low) / span if span else 0.5 for number in column], whole


def short(value):
    return value if len(value) <= VALUE else value[: VALUE - 1] + "…"


class Chart:
    """Lanes in a rectangle from its left upper corner on, to its right side."""

    def __init__(self, steps, lanes, left, top, right):
        self.steps, self.lanes, self.top = steps, lanes, top
        self.label = left + LETTER * max([6, *(len(lane.name) for lane in lanes)])
        values = [len(short(lane.events[-1][1])) for lane in lanes]
        self.left, self.right = self.label + 8, right - LETTER * max([2, *values]) - 8
        self.first = 0 if any(lane.events[0][0] == 0 for lane in lanes) else 1
        self.bottom = top - 20 if self.empty() else top + LANE * (len(lanes) + 1) + 6
        self.by_time = self.stands_by_time()

    def empty(self):
        return not self.lanes and len(self.steps) == 1

    def room(self):
        return self.right - self.left - 12

    def stands_by_time(self):
        """Whether the inputs are far enough apart in time to be told from each other."""
        times = [step.time for step in self.steps[self.first :]]
        gaps = [b - a for a, b in zip(times, times[1:])]
        return not gaps or min(gaps) * self.room() >= APART * (times[-1] - times[0])

    def x(self, number):
        times = [step.time for step in self.steps]
        begin, end, here = self.first, len(times) - 1, number
        if self.by_time:
            begin, end, here = (times[place] for place in (begin, end, here))
        part = (here - begin) / (end - begin) if end > begin else 0.5
        return self.left + 6 + part * self.room()

    def inputs_from(self, first):
        return [*enumerate(self.steps)][max(self.first, first) :]

    def labels(self):
        """The times above the lanes, where there is room, and a line down from each input."""
        parts, last = [], 0
        for number, step in self.inputs_from(0):
            x, text = self.x(number), f"{step.time:.6f}".rstrip("0").rstrip(".") + " s"
            parts.append(f'<path d="M{x:.1f},{self.top}V{self.bottom}" class="grid"/>')
            if x - last > LETTER * len(text):
                parts.append(f'<text x="{x:.1f}" y="{self.top - 6}" class="time">{text}</text>')
                last = x
        return parts

    def inputs(self):
        """The lane of inputs: a bar for a clock, a ring for a pointer, filled if pressed."""
        y = self.top + LANE / 2 + 3
        parts = [f'<text x="{self.label:.1f}" y="{y + 4}" class="name">inputs</text>']
        for number, step in self.inputs_from(1):
            x, title = self.x(number), f"<title>input {number}: {escape(step.line)}</title>"
            if step.point:
                how = f'r="3.5" class="{"press" if step.down else "point"}"'
                parts.append(f'<circle cx="{x:.1f}" cy="{y}" {how}>{title}</circle>')
            else:
                parts.append(f'<path d="M{x:.1f},{y - 6}v12" class="clock">{title}</path>')
        return parts

    def lane(self, k):
        lane, low, color = self.lanes[k], self.top + LANE * (k + 2) - 4, COLORS[k % len(COLORS)]
        values = [value for _, value, _ in lane.events]
        known = None if MOMENTS.search(lane.name) else heights(values)
        ups = known[0] if known else [0.4] * len(values)
        spots = [(self.x(e[0]), low - up * (LANE - 9)) for e, up in zip(lane.events, ups)]
        parts = [
            f'<path d="M{self.left:.1f},{low + 3.5}H{self.right:.1f}" class="rule"/>',
            f'<text x="{self.label:.1f}" y="{low - 3}" class="name">{escape(lane.name)}</text>',
            *(self.line(spots, known[1], low, color, values[0]) if known else []),
        ]
        every = -(-len(spots) // MARKS)
        for (x, up), (_, _, line) in [*zip(spots, lane.events)][::every]:
            title = f"<title>{escape(line)}</title>"
            mark = f'<circle cx="{x:.1f}" cy="{up:.1f}" r="2.7" fill="{color}">{title}</circle>'
            parts.append(mark)
        last = f'x="{self.right + 8:.1f}" y="{low - 3}" class="value"'
        return [*parts, f"<text {last}>{escape(short(values[-1]))}</text>"]

    def line(self, spots, whole, low, color, value):
        """The line through a lane's marks, in steps where values are whole; truths are filled."""
        path = "M%.1f,%.1f" % spots[0]
        for x, y in spots[1:]:
            path += f"H{x:.1f}V{y:.1f}" if whole else f"L{x:.1f},{y:.1f}"
        path += f"H{self.right - 6:.1f}" if whole else ""
        if value in ("TRUE", "FALSE"):
            area = f"{path}V{low}H{spots[0][0]:.1f}Z"
            yield f'<path d="{area}" fill="{color}" opacity="0.18"/>'
        yield f'<path d="{path}" fill="none" stroke="{color}" stroke-width="1.4"/>'

    def elements(self):
        if self.empty():
            return []
        parts = self.labels() + self.inputs()
        for k in range(len(self.lanes)):
            parts += self.lane(k)
        return parts

"""Scenes as files, and why one isn't shown: in which file, at which line, what stands there and what was meant."""
import difflib
import re
from pathlib import Path

from library import TOP, x3d
from parts import Part, part_of

FAULTS = TOP / "docs/FAULTS.md"
# A row of a table there: a name, when it is answered, an example.
ROW = re.compile(r"^\| (\w+) \| (.+?) \| (.*?) \|", re.M)
REFUSED = re.compile(r"refused (\w+)(?: line (\d+))?")
NODES = (
    "Appearance Background BooleanFilter BooleanSequencer BooleanToggle BooleanTrigger Box Color Cone Coordinate "
    "CoordinateInterpolator Cylinder DirectionalLight FontStyle Group ImageTexture IndexedFaceSet IntegerSequencer "
    "IntegerTrigger Material MetadataFloat MetadataInteger MetadataSet MetadataString NavigationInfo Normal "
    "PlaneSensor PointLight PositionInterpolator PositionInterpolator2D ScalarInterpolator Script Shape Sphere "
    "Switch Text TextureCoordinate TimeSensor TimeTrigger TouchSensor Transform Viewpoint WorldInfo"
).split()
# What a file begins with that is something else.
OTHERS = {
    b"\x1f\x8b": "the file is packed by gzip: unpack it first",
    b"<": "the file is XML: the room reads the Classic VRML encoding (.x3dv)",
    b"\xff\xfe": "the file is UTF-16: save it as UTF-8",
    b"\xfe\xff": "the file is UTF-16: save it as UTF-8",
    b"\xef\xbb\xbf": "the file begins with a byte order mark: save it as UTF-8 without one",
}


class Unshown(Exception):
    """Why a file isn't shown: its name, the line or 0, the line's text, and what is wrong."""

    def __init__(self, file, line, text, what):
        self.file, self.line, self.text, self.what = file, line, text, what
        place = f"{file}:{line}" if line else file
        super().__init__(f"{place}: {what}" + (f"\n    {text.strip()}" if text.strip() else ""))

    def told(self):
        return {"file": self.file, "line": self.line, "text": self.text[:200], "what": self.what}


def scene_in(whole):
    """The scene of a job, and on which line it begins; a text without a line `scene` is one."""
    found = re.search(rb"^scene\r?\n", whole, re.M)
    start = found.end() if found else 0
    return whole[start:], 1 + whole[:start].count(b"\n")


def read_scene_file(path):
    """The scene of a file that a world can be made of. Raises Unshown."""
    return read_part_of_file(path, True).text


def read_part_of_file(path, whole=False):
    """The scene of a file; of one that isn't read its part, unless all of it is wanted (`whole`). Raises Unshown."""
    text, first = read_text(path)
    try:
        part = part_in(text, whole)
    except x3d.Refusal as refusal:
        raise refused(Path(path).name, text.decode(), first, refusal) from None
    except MemoryError:
        raise Unshown(Path(path).name, 0, "", "it takes more memory than there is") from None
    return part._replace(left=tuple((line + first - 1, what) for line, what in part.left))


def part_in(text, whole):
    """A text of which a world can be made, or its part. Raises x3d.Refusal."""
    try:
        x3d.World(text).close()
        return Part(text)
    except x3d.Refusal:
        if whole:
            raise
    return part_of(text)


def read_text(path):
    """The text of the scene in a file, and on which line it begins. Raises Unshown for what is no text."""
    name = Path(path).name
    try:
        whole = Path(path).read_bytes()
    except OSError as fault:
        raise Unshown(name, 0, "", fault.strerror) from None
    for begins, what in OTHERS.items():
        if whole.startswith(begins):
            raise Unshown(name, 0, "", what)
    try:
        whole.decode()
    except UnicodeDecodeError as fault:
        line = 1 + whole[: fault.start].count(b"\n")
        text = whole.split(b"\n")[line - 1].decode(errors="replace")
        raise Unshown(name, line, text, f"the byte {whole[fault.start]:#04x} isn't UTF-8") from None
    return scene_in(whole)


def refused(name, text, first, refusal):
    """A refusal, with its line as the file has it, and that of the instance of a prototype whose value is at fault."""
    found, instance = REFUSED.match(str(refusal)), getattr(refusal, "instance", None)
    fault, line = found[1], int(found[2] or 0)
    lines = text.split("\n")
    there = lines[line - 1] if 0 < line <= len(lines) else ""
    what = meaning(fault, there) + (f", in the instance on line {instance + first - 1}" if instance else "")
    return Unshown(name, line + first - 1 if line else 0, there, what)


def meaning(fault, line):
    """What a fault means, in words, and what the line's word may have meant."""
    if fault == "UnknownNode":
        unknown = [word for word in re.findall(r"(\w+)\s*(?:\{|$)", line) if word not in NODES]
        if unknown:
            near = difflib.get_close_matches(unknown[0], NODES, 1, 0.7)
            meant = f": {near[0]}?" if near else ""
            return f'node type "{unknown[0]}" isn\'t read{meant}'
    rows = {name: (when, example) for name, when, example in ROW.findall(faults())}
    if fault not in rows:
        return fault
    when, example = rows[fault]
    given = re.search(r"`(.+?)`", example)
    return f"{when.replace('`', '')} ({fault}" + (f", as in: {given[1]})" if given else ")")


def faults():
    """The page of all refusals, which an installed room may lack."""
    return FAULTS.read_text() if FAULTS.exists() else ""

"""The faces, words and lights of a scene, in the coordinates of the whole."""
import math
from dataclasses import dataclass, field

PLAIN_COLOR = (0.66, 0.76, 0.88)
WHOLE = ((1, 0, 0, 0), (0, 1, 0, 0), (0, 0, 1, 0))
ROUND, RINGS = 32, 16
BOX_SIDES = (
    ((-1, -1, 1), (1, -1, 1), (1, 1, 1), (-1, 1, 1)),
    ((1, -1, -1), (-1, -1, -1), (-1, 1, -1), (1, 1, -1)),
    ((1, -1, 1), (1, -1, -1), (1, 1, -1), (1, 1, 1)),
    ((-1, -1, -1), (-1, -1, 1), (-1, 1, 1), (-1, 1, -1)),
    ((-1, 1, 1), (1, 1, 1), (1, 1, -1), (-1, 1, -1)),
    ((-1, -1, -1), (1, -1, -1), (1, -1, 1), (-1, -1, 1)),
)


@dataclass
class Paint:
    """How a Shape looks: colors have parts from 0 to 1."""

    color: tuple = PLAIN_COLOR
    glow: tuple = (0, 0, 0)
    opacity: float = 1


@dataclass
class Face:
    """A flat polygon: `edges` says of each corner whether the line from it on is drawn."""

    corners: list
    edges: list
    paint: Paint
    solid: bool = True


@dataclass
class Words:
    """A line of text: its origin, and the steps of one unit to the right and up."""

    text: str
    anchor: str
    size: float
    place: tuple
    right: tuple
    up: tuple
    paint: Paint


@dataclass
class Lamp:
    """A PointLight, which the picture shows as a disc."""

    name: str
    place: tuple
    on: bool
    color: tuple


@dataclass
class Drawn:
    """What there is to draw, and the lights that shine: (place or None, direction, strength)."""

    faces: list = field(default_factory=list)
    words: list = field(default_factory=list)
    lamps: list = field(default_factory=list)
    lights: list = field(default_factory=list)

    def points(self):
        """Every point that is to be seen."""
        found = [corner for face in self.faces for corner in face.corners]
        return found + [item.place for item in self.words + self.lamps]


def product(a, b):
    """The map that does b first."""
    rows = []
    for row in a:
        columns = [sum(row[k] * b[k][j] for k in range(3)) for j in range(4)]
        rows.append((*columns[:3], columns[3] + row[3]))
    return tuple(rows)


def moved(by):
    return tuple((*WHOLE[k][:3], by[k]) for k in range(3))


def scaled(by):
    return tuple(tuple(by[k] * (j == k) for j in range(4)) for k in range(3))


def turned(rotation):
    """The turn by an angle in radians about an axis."""
    x, y, z, angle = rotation
    length = math.hypot(x, y, z)
    if not length or not angle:
        return WHOLE
    x, y, z, c, s = x / length, y / length, z / length, math.cos(angle), math.sin(angle)
    d = 1 - c
    return (
        (c + x * x * d, x * y * d - z * s, x * z * d + y * s, 0),
        (y * x * d + z * s, c + y * y * d, y * z * d - x * s, 0),
        (z * x * d - y * s, z * y * d + x * s, c + z * z * d, 0),
    )


def at(matrix, point):
    return tuple(sum(row[k] * point[k] for k in range(3)) + row[3] for row in matrix)


def transform(node):
    """The map of a Transform (ISO/IEC 19775-1, 10.4.4)."""
    center, still = node.numbers("center", (0, 0, 0)), (0, 0, 1, 0)
    lean = node.numbers("scaleOrientation", still)
    steps = (
        moved(node.numbers("translation", (0, 0, 0))),
        moved(center),
        turned(node.numbers("rotation", still)),
        turned(lean),
        scaled(node.numbers("scale", (1, 1, 1))),
        turned((*lean[:3], -lean[3])),
        moved([-part for part in center]),
    )
    matrix = WHOLE
    for step in steps:
        matrix = product(matrix, step)
    return matrix


def box(node):
    half = [size / 2 for size in node.numbers("size", (2, 2, 2))]
    for side in BOX_SIDES:
        yield [tuple(c * h for c, h in zip(corner, half)) for corner in side], [True] * 4


def ring(radius, height):
    turns = [2 * math.pi * k / ROUND for k in range(ROUND)]
    return [(radius * math.sin(turn), height, radius * math.cos(turn)) for turn in turns]


def sphere(node):
    (radius,) = node.numbers("radius", 1)
    tilts = [math.pi * (k / RINGS - 0.5) for k in range(RINGS + 1)]
    rings = [ring(radius * math.cos(tilt), radius * math.sin(tilt)) for tilt in tilts]
    for low, high in zip(rings, rings[1:]):
        for k in range(ROUND):
            yield [low[k - 1], low[k], high[k], high[k - 1]], [False] * 4


def cylinder(node):
    (radius,), (height,) = node.numbers("radius", 1), node.numbers("height", 2)
    low, high = ring(radius, -height / 2), ring(radius, height / 2)
    if node.get("side", True):
        for k in range(ROUND):
            yield [low[k - 1], low[k], high[k], high[k - 1]], [True, False, True, False]
    if node.get("top", True):
        yield high, [True] * ROUND
    if node.get("bottom", True):
        yield low[::-1], [True] * ROUND


def cone(node):
    (radius,), (height,) = node.numbers("bottomRadius", 1), node.numbers("height", 2)
    low, tip = ring(radius, -height / 2), (0, height / 2, 0)
    if node.get("side", True):
        for k in range(ROUND):
            yield [low[k - 1], low[k], tip], [True, False, False]
    if node.get("bottom", True):
        yield low[::-1], [True] * ROUND


def polygons(node):
    """The corners of each polygon of an IndexedFaceSet, by their numbers."""
    corners = []
    for index in node.numbers("coordIndex", ()):
        if index >= 0:
            corners.append(int(index))
        elif corners:
            yield corners
            corners = []
    if corners:
        yield corners


def face_set(node):
    parts = [part for coord in node.nodes("coord") for part in coord.numbers("point", ())]
    points = [*zip(parts[::3], parts[1::3], parts[2::3])]
    for corners in polygons(node):
        if len(corners) > 2 and max(corners) < len(points):
            found = [points[corner] for corner in corners]
            yield found if node.get("ccw", True) else found[::-1], [True] * len(found)


GEOMETRY = {
    "Box": box,
    "Sphere": sphere,
    "Cylinder": cylinder,
    "Cone": cone,
    "IndexedFaceSet": face_set,
}


def paint_of(shape):
    for appearance in shape.nodes("appearance"):
        for material in appearance.nodes("material"):
            return Paint(
                tuple(material.numbers("diffuseColor", (0.8, 0.8, 0.8))),
                tuple(material.numbers("emissiveColor", (0, 0, 0))),
                1 - material.numbers("transparency", 0)[0],
            )
    return Paint()


def words_of(node, matrix, paint):
    """The lines of a Text, from above down."""
    style = next(iter(node.nodes("fontStyle")), None)
    ask = style.numbers if style else lambda _, default: [default]
    (size,), (spacing,) = ask("size", 1), ask("spacing", 1)
    across, along = [*ask("justify", "BEGIN"), "FIRST"][:2]
    lines, step = node.numbers("string", ()), size * spacing
    first = {
        "BEGIN": -0.8 * size,
        "MIDDLE": len(lines) * step / 2 - 0.8 * size,
        "END": (len(lines) - 1) * step + 0.2 * size,
    }.get(along, 0)
    anchor = {"MIDDLE": "middle", "END": "end"}.get(across, "start")
    start, right, up = (at(matrix, point) for point in ((0, 0, 0), (1, 0, 0), (0, 1, 0)))
    steps = [tuple(a - b for a, b in zip(end, start)) for end in (right, up)]
    for k, line in enumerate(lines):
        yield Words(line, anchor, size, at(matrix, (0, first - k * step, 0)), *steps, paint)


def shape(node, matrix, drawn):
    paint = paint_of(node)
    for geometry in node.nodes("geometry"):
        if geometry.kind == "Text":
            drawn.words += words_of(geometry, matrix, paint)
        solid = geometry.get("solid", True)
        for corners, edges in GEOMETRY.get(geometry.kind, lambda _: ())(geometry):
            drawn.faces.append(Face([at(matrix, c) for c in corners], edges, paint, solid))


def light(node, matrix, drawn):
    on, (strength,) = node.get("on", True), node.numbers("intensity", 1)
    if node.kind == "PointLight":
        place = at(matrix, node.numbers("location", (0, 0, 0)))
        drawn.lamps.append(Lamp(node.name, place, on, tuple(node.numbers("color", (1, 1, 1)))))
        if on:
            drawn.lights.append((place, None, strength))
    elif on:
        drawn.lights.append((None, node.numbers("direction", (0, 0, -1)), strength))


def walk(nodes, matrix, drawn):
    for node in nodes:
        if node.kind == "Shape":
            shape(node, matrix, drawn)
        elif node.kind == "Transform":
            walk(node.nodes("children"), product(matrix, transform(node)), drawn)
        elif node.kind == "Group":
            walk(node.nodes("children"), matrix, drawn)
        elif node.kind == "Switch":
            (choice,) = node.numbers("whichChoice", -1)
            children = node.nodes("children")
            walk(children[int(choice) :][:1] if choice >= 0 else [], matrix, drawn)
        elif node.kind in ("PointLight", "DirectionalLight"):
            light(node, matrix, drawn)


def drawn_of(roots):
    drawn = Drawn()
    walk(roots, WHOLE, drawn)
    return drawn


def viewpoint_of(roots):
    """The first Viewpoint of a scene, with the map of the Transforms round it, if there is one."""
    stack = [(node, WHOLE) for node in reversed(roots)]
    while stack:
        node, matrix = stack.pop()
        if node.kind == "Viewpoint":
            return node, matrix
        if node.kind == "Transform":
            matrix = product(matrix, transform(node))
        stack += [(child, matrix) for child in reversed(node.nodes("children"))]
    return None

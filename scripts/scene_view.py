"""A scene as the eye sees it: polygons from behind forward, by a tree of their planes, as SVG."""
import math
from dataclasses import dataclass, replace
from xml.sax.saxutils import escape

from scene_faces import Face, Lamp, Paint, Words, at, product, turned, viewpoint_of

NEAR, FLAT = 0.02, 1e-6
# More faces than these are sorted by their distance alone.
TREE_FACES = 4000
# Where the light stands from that goes with the eye: above it and to its left.
HEAD = (-0.30, 0.52, 0.80)
# How much of its Shape's color a text keeps, to be read on white, and of the color of no Material.
INK, PLAIN_INK = 0.7, 0.4
# How far a lamp is drawn beside another one that is at the same place.
BESIDE = 70
GHOST = Paint((0.45, 0.45, 0.45), opacity=0)


def dot(a, b):
    return sum(x * y for x, y in zip(a, b))


def minus(a, b):
    return tuple(x - y for x, y in zip(a, b))


def cross(a, b):
    return (
        a[1] * b[2] - a[2] * b[1],
        a[2] * b[0] - a[0] * b[2],
        a[0] * b[1] - a[1] * b[0],
    )


def unit(a):
    length = math.sqrt(dot(a, a)) or 1
    return tuple(x / length for x in a)


def middle(points):
    return tuple(sum(part) / len(points) for part in zip(*points))


@dataclass
class Eye:
    """Where one looks from: three axes of length 1, and the angle of view in radians."""

    place: tuple
    right: tuple
    up: tuple
    back: tuple
    angle: float

    def seen(self, point):
        """A point in the coordinates of the eye, which looks along -z."""
        away = minus(point, self.place)
        return tuple(dot(axis, away) for axis in (self.right, self.up, self.back))


def eye_of(viewpoint, orientation):
    """The eye of a Viewpoint: the node, and the map of what stands round it."""
    node, matrix = viewpoint
    matrix = product(matrix, turned(orientation))
    axes = [unit([row[k] for row in matrix]) for k in range(3)]
    place = at(viewpoint[1], node.numbers("position", (0, 0, 10)))
    return Eye(place, *axes, node.numbers("fieldOfView", 0.785398)[0])


def eye_over(points):
    """An eye that sees all points, from in front, above and to the right."""
    low, high = ([end(part) for part in zip(*points)] for end in (min, max))
    center, reach = middle((low, high)), max(math.dist(low, high) / 2, 0.5)
    back = unit((0.42, 0.32, 1))
    right = unit(cross((0, 1, 0), back))
    place = tuple(c + 4.6 * reach * b for c, b in zip(center, back))
    return Eye(place, right, cross(back, right), back, 0.44)


def orientation_of(written):
    """How the first Viewpoint of a scene's own text turns; a scene that ran has no orientation."""
    found = viewpoint_of(written)
    turn = found[0].numbers("orientation", (0, 0, 1, 0)) if found else ()
    return turn if len(turn) == 4 else (0, 0, 1, 0)


def normal(face):
    """The direction that a polygon faces, by Newell's sum, and its area twice."""
    pairs = zip(face.corners, face.corners[1:] + face.corners[:1])
    total = [0, 0, 0]
    for (ax, ay, az), (bx, by, bz) in pairs:
        total[0] += (ay - by) * (az + bz)
        total[1] += (az - bz) * (ax + bx)
        total[2] += (ax - bx) * (ay + by)
    return unit(total), math.sqrt(dot(total, total))


def cut(face, heights, side):
    """The part of a polygon whose corners have heights of that side, 1 or -1, or none."""
    corners, edges, count = [], [], len(face.corners)
    for k in range(count):
        here, there = side * heights[k], side * heights[(k + 1) % count]
        if here >= -FLAT:
            corners.append(face.corners[k])
            edges.append(face.edges[k] if there >= -FLAT or here > FLAT else False)
        if here * there < 0 and min(abs(here), abs(there)) > FLAT:
            part, end = here / (here - there), face.corners[(k + 1) % count]
            corners.append(tuple(a + part * (b - a) for a, b in zip(face.corners[k], end)))
            edges.append(face.edges[k] if there > 0 else False)
    return replace(face, corners=corners, edges=edges) if len(corners) > 2 else None


def in_front(face, eye):
    """The part of a face before the eye, in the eye's coordinates, if it is to be seen."""
    face = replace(face, corners=[eye.seen(corner) for corner in face.corners])
    face = cut(face, [-NEAR - corner[2] for corner in face.corners], 1)
    hidden = face is None or (face.solid and dot(normal(face)[0], face.corners[0]) >= 0)
    return None if hidden else face


def parted(item, plane, height):
    """An item's parts behind a plane, on it and before it, as (side, part)."""
    if not isinstance(item, Face):
        above = dot(plane, item.place) - height
        return [(0 if abs(above) < FLAT else math.copysign(1, above), item)]
    heights = [dot(plane, corner) - height for corner in item.corners]
    sides = {math.copysign(1, h) for h in heights if abs(h) > FLAT}
    if len(sides) < 2:
        return [(sides.pop() if sides else 0, item)]
    return [(side, part) for side in (-1, 1) if (part := cut(item, heights, side))]


def far_to_near(items):
    """The items in an order in which none hides one behind it; faces are cut where they must be."""
    depth = lambda item: (middle(item.corners) if isinstance(item, Face) else item.place)[2]
    faces = [item for item in items if isinstance(item, Face)]
    if len(faces) > TREE_FACES:
        return sorted(items, key=depth)
    size = lambda face: (-round(normal(face)[1], 6), face.paint is not GHOST)
    rest = [item for item in items if not isinstance(item, Face)]
    done, stack = [], [(False, sorted(faces, key=size) + rest)]
    while stack:
        ready, group = stack.pop()
        if ready or not any(isinstance(item, Face) for item in group):
            done += group if ready else sorted(group, key=depth)
            continue
        plane = normal(group[0])[0]
        height, sides = dot(plane, group[0].corners[0]), {-1: [], 0: [group[0]], 1: []}
        for item in group[1:]:
            for side, part in parted(item, plane, height):
                sides[side].append(part)
        near = 1 if height < 0 else -1
        stack += [(False, sides[near]), (True, sides[0]), (False, sides[-near])]
    return done


class Canvas:
    """Draws items of the eye's coordinates into a rectangle of an SVG; `names`: lamps are named."""

    def __init__(self, eye, lights, names, left, top, width, height):
        self.lights, self.names, self.taken = lights, names, []
        self.scale = min(width, height) / 2 / math.tan(min(eye.angle, 3) / 2)
        self.center = (left + width / 2, top + height / 2)

    def spot(self, point):
        ratio = self.scale / -point[2]
        return self.center[0] + point[0] * ratio, self.center[1] - point[1] * ratio

    def path(self, points):
        return "M" + "L".join("%.1f,%.1f" % self.spot(point) for point in points)

    def bright(self, face):
        """How much light a face has from where it is seen, 0 to 1."""
        way, place = normal(face)[0], middle(face.corners)
        way = way if dot(way, place) < 0 else minus((0, 0, 0), way)
        total = 0.46 + 0.52 * max(0, dot(way, HEAD))
        for source, direction, strength in self.lights:
            toward = minus(source, place) if source else minus((0, 0, 0), direction)
            total += 0.25 * strength * max(0, dot(way, unit(toward)))
        return min(total, 1)

    def color(self, paint, bright=1.0):
        parts = [min(1, c * bright + g) for c, g in zip(paint.color, paint.glow)]
        return "#%02x%02x%02x" % tuple(round(255 * part) for part in parts)

    def face(self, face):
        bright = self.bright(face)
        fill = self.color(face.paint, bright)
        following = face.corners[1:] + face.corners[:1]
        sides = [pair for pair in zip(face.corners, following, face.edges) if pair[2]]
        lines = "".join(self.path(pair[:2]) for pair in sides)
        if face.paint is GHOST:
            return f'<path d="{lines}" class="ghost"/>' if lines else ""
        clear = f' opacity="{face.paint.opacity:.2f}"' if face.paint.opacity < 1 else ""
        shape = f'<path d="{self.path(face.corners)}Z" fill="{fill}" stroke="{fill}"{clear}/>'
        dark = self.color(face.paint, bright * 0.62)
        return shape + (f'<path d="{lines}" stroke="{dark}" class="edge"/>' if lines else "")

    def words(self, item):
        """A line of text, by the map that the view is near its origin."""
        start = self.spot(item.place)
        ends = []
        for step in (item.right, item.up):
            near = tuple(a + 0.01 * b for a, b in zip(item.place, step))
            ends.append([100 * (b - a) for a, b in zip(start, self.spot(near))])
        (a, b), (c, d) = ends
        ink = PLAIN_INK if item.paint == Paint() else INK
        size = item.size / 20
        parts = (a * size, b * size, -c * size, -d * size, *start)
        matrix = " ".join("%.4g" % part if k < 4 else "%.1f" % part for k, part in enumerate(parts))
        return (
            f'<text transform="matrix({matrix})" font-size="20" text-anchor="{item.anchor}" '
            f'fill="{self.color(item.paint, ink)}">{escape(item.text)}</text>'
        )

    def lamp(self, item):
        x, y = self.spot(item.place)
        x += BESIDE * self.taken.count((x, y))
        self.taken.append(self.spot(item.place))
        size = min(max(0.12 * self.scale / -item.place[2], 4), 12)
        place = f'x="{x:.1f}" y="{y + 2.2 * size + 10:.1f}"'
        name = f'<text {place} class="lamp">{escape(item.name)}</text>' if self.names else ""
        if not item.on:
            return f'<circle cx="{x:.1f}" cy="{y:.1f}" r="{size:.1f}" class="dark"/>' + name
        warm = (1, 0.72, 0.15) if item.color == (1, 1, 1) else item.color
        fill = self.color(Paint(warm))
        discs = (
            f'<circle cx="{x:.1f}" cy="{y:.1f}" r="{size * part:.1f}" fill="{fill}" {how}/>'
            for part, how in ((2.2, 'opacity="0.25"'), (1, 'stroke="#7a5200"'))
        )
        return "".join([*discs, name])

    def item(self, item):
        draw = {Face: self.face, Words: self.words, Lamp: self.lamp}
        return draw[type(item)](item)


def shape_key(face):
    return tuple(tuple(round(part, 5) for part in corner) for corner in face.corners)


def ghosts(before, now):
    """The faces that stood elsewhere before."""
    stand = {shape_key(face) for face in now.faces}
    moved = [face for face in before.faces if shape_key(face) not in stand]
    return [replace(face, paint=GHOST) for face in moved]


def seen_items(drawn, before, eye):
    """What is drawn, in the eye's coordinates."""
    turn = lambda step: tuple(dot(axis, step) for axis in (eye.right, eye.up, eye.back))
    faces = (in_front(face, eye) for face in drawn.faces + ghosts(before, drawn))
    items = [face for face in faces if face]
    for word in drawn.words:
        way = {"right": turn(word.right), "up": turn(word.up)}
        items.append(replace(word, place=eye.seen(word.place), **way))
    items += [replace(lamp, place=eye.seen(lamp.place)) for lamp in drawn.lamps]
    lights = [
        (eye.seen(place) if place else None, turn(way) if way else None, strength)
        for place, way, strength in drawn.lights
    ]
    return [i for i in items if isinstance(i, Face) or i.place[2] < -NEAR], lights


def view(drawn, before, eye, left, top, width, height):
    """The elements of a scene in a rectangle, with dashed lines where things stood before."""
    items, lights = seen_items(drawn, before, eye)
    canvas = Canvas(eye, lights, not drawn.faces, left, top, width, height)
    return [part for item in far_to_near(items) if (part := canvas.item(item))]

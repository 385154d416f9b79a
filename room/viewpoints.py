"""How the Viewpoints of a scene are turned: that is in its text alone, since a world holds no rotation."""
from library import scene_text

AHEAD = [0, 0, 1, 0]


def orientations_of(text):
    """The orientation of each Viewpoint, in the order of the text; none where the text is beyond its reader."""
    try:
        stack, found, seen = [*reversed(scene_text.read_scene(text))], [], set()
        while stack:
            node = stack.pop()
            if node is None or id(node) in seen:
                continue
            seen.add(id(node))
            if node.kind == "Viewpoint":
                turn = node.numbers("orientation", AHEAD)
                found.append(turn if len(turn) == 4 else AHEAD)
            stack += reversed(node.nodes("children"))
        return found
    except (AttributeError, IndexError, KeyError, TypeError, ValueError):
        return []

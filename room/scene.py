"""A viewer's world as a window takes it: every node, with what its fields hold now."""
import re

from library import x3d

# Of a value of these types its text is told, of all others the numbers.
STRINGS = "SFString", "MFString"


def held(world, node, field):
    """The text of what a field holds, or the list of its nodes; none of what holds nothing."""
    try:
        return world.value(node, field) or world.numbers(node, field)
    except x3d.Fault:
        return None


class Names:
    """The names of a scene's nodes and fields. They are the same in each world of the scene."""

    def __init__(self, world):
        self.kinds, self.fields, known = [], [], {}
        for node in range(world.node_count()):
            # Scripts have fields of their own; all else has those of its type.
            kind = world.node_type(node)
            key = kind, node if kind == "Script" else None
            if key not in known:
                known[key] = [world.field_name(node, field) for field in range(world.field_count(node))]
            self.kinds.append(kind)
            self.fields.append(known[key])
        self.labels = [world.label(node) for node in range(len(self.kinds))]
        self.nodes = {label: node for node, label in enumerate(self.labels)}

    def scene(self, world):
        """The roots of the scene, and each node by its number: its type, its label, its fields."""
        nodes = []
        for node, kind in enumerate(self.kinds):
            values = {name: held(world, node, field) for field, name in enumerate(self.fields[node])}
            nodes.append({"kind": kind, "label": self.labels[node], "fields": values})
        return {"roots": world.roots(), "nodes": nodes}

    def news(self, world, since):
        """What inputs after that number set: of each field its node, its name, the type and the value as it is now. By
        these a window draws; the trace is for its lanes alone, since the last line of a field needn't be its value."""
        now = []
        for node, field, kind, numbers in world.changed(since):
            told = world.value(node, field) if kind in STRINGS else numbers
            now.append([node, self.fields[node][field], kind, told])
        return {"trace": world.trace(since + 1), "now": now}

    def text(self, world, node, name):
        """The text of a field of a node that holds one string."""
        return re.sub(r"\\(.)", r"\1", held(world, node, self.fields[node].index(name))[1:-1], flags=re.S)

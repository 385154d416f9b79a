"""A shared X3D world inside another program: the library `x3d` by ctypes.

    from x3d import Aim, World

    with World(scene_text) as world:
        world.clock(1, 10_000_000)
        for change in world.changes(1):
            print(world.label(change.node), "sent", change.value)
        for field in world.changed(0):
            print("draw", field.node, field.field, field.numbers)

or a shared world, whose datagrams the program carries between them:

    host, viewer = Host(scene_text, 2), Viewer(scene_text, 0, 1)
    host.clock(10_000_000)
    for packet in host.packets(host.take(viewer.ask())):
        viewer.take(packet)

Coordinates are whole millionths of a unit, times whole microseconds. The shared object is the one
that the variable X3D_SO names, or libx3d.so beside this file, or in out/ of the checkout, or the
system's libx3d.so.0.
"""

from ._faults import Fault, Refusal
from ._library import version
from ._log import Log
from ._nodes import Append, Datagram, Host, Reply, Taken, Viewer, datagram
from ._reading import Aim, Change, Changed, FieldType, Meeting, Route, Script
from ._part import LeftOut, Part
from ._world import Saved, Work, World

__all__ = [
    "Aim",
    "Append",
    "Change",
    "Changed",
    "Datagram",
    "Fault",
    "FieldType",
    "Host",
    "LeftOut",
    "Log",
    "Meeting",
    "Part",
    "Refusal",
    "Reply",
    "Route",
    "Saved",
    "Script",
    "Taken",
    "Viewer",
    "Work",
    "World",
    "datagram",
    "version",
]

import unittest

from x3d import Host, LeftOut, Part, Refusal, Viewer, World

SCENE = """#X3D V3.0 utf8
DEF Pot Teapot { size 2 }
DEF Door Transform {
  rotation 0 1 0 1
  children [ Teapot { } Shape { geometry Knot { } } ]
}
DEF Link Anchor { children [ Shape { } ] }
EXTERNPROTO Lamp [ ] "lamp.x3dv"
ROUTE Pot.out TO Door.translation
"""
LAMPS = """#X3D V3.0 utf8
PROTO Lamp [ inputOutput SFFloat power 1 ]
{ PointLight { intensity IS power } }
Lamp { power 0.5 }
Lamp { power TRUE }
"""


class Parts(unittest.TestCase):
    def test_what_was_left_out(self):
        part = Part(SCENE)
        self.assertEqual(
            part.left_out(),
            [
                LeftOut(8, "ExternProto", "EXTERNPROTO Lamp left out"),
                LeftOut(2, "Node", "node Teapot left out"),
                LeftOut(4, "Turned", "field rotation left out: it turns, which changes the picture"),
                LeftOut(5, "Node", "node Teapot left out (field children)"),
                LeftOut(5, "Node", "node Knot left out (field geometry)"),
                LeftOut(7, "Grouped", "node Anchor read as a group"),
                LeftOut(9, "Route", "ROUTE left out: no node Pot"),
            ],
        )
        self.assertTrue(part.notes.endswith("\n6 left out, 1 read as groups\n"))

    def test_the_world_of_a_part_is_that_of_its_text(self):
        with Part(SCENE) as part:
            text = part.text
            worlds = World(text), World.of_part(part)
            self.assertEqual(worlds[0].snapshot(1), worlds[1].snapshot(1))
            self.assertIn("Door", [worlds[1].label(node) for node in range(worlds[1].node_count())])

    def test_a_host_and_a_viewer_of_a_part(self):
        text = Part(SCENE).text
        host, viewer = Host(text, 1), Viewer(text, 0, 1)
        host.clock(10)
        for packet in host.packets(host.take(viewer.ask())):
            viewer.take(packet)
        self.assertEqual(viewer.applied(), 1)

    def test_a_text_without_a_part_is_refused(self):
        with self.assertRaises(Refusal) as told:
            Part("#VRML V1.0 ascii\n")
        self.assertEqual(str(told.exception), "refused NoHeader line 1")
        self.assertIsNone(told.exception.instance)

    def test_a_refusal_names_the_instance(self):
        for call in (World, lambda text: Viewer(text, 0, 1)):
            with self.assertRaises(Refusal) as told:
                call(LAMPS)
            self.assertEqual(told.exception.line, "refused WrongType line 3")
            self.assertEqual(told.exception.instance, 5)
            self.assertEqual(str(told.exception), "refused WrongType line 3, in the instance on line 5")

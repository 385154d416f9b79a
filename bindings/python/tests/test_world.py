import unittest

from x3d import Aim, Fault, Refusal, World

DOOR = """#X3D V3.0 utf8
DEF Motor TimeSensor { cycleInterval 2 }
DEF Slide PositionInterpolator { key [ 0, 1 ] keyValue [ 0 0 0, 1 0 0 ] }
DEF Door Transform {
  children [
    DEF Knob TouchSensor {}
    Shape { geometry Box { size 1 2 0.1 } }
  ]
}
ROUTE Knob.touchTime TO Motor.startTime
ROUTE Motor.fraction_changed TO Slide.set_fraction
ROUTE Slide.value_changed TO Door.translation
"""
COUNT = """#X3D V3.0 utf8
DEF Door Transform { translation 0 1.5 0 }
DEF Count Script {
  url "x3dshare:counter"
  inputOnly SFBool tick
  initializeOnly SFInt32 start 5
  initializeOnly SFInt32 step 2
  outputOnly SFInt32 count
}
"""
# Two routes set one field: at one second to `0.5 0 0`, and then to `0 2.5 0`.
TWICE = """#X3D V3.0 utf8
DEF Motor TimeSensor { cycleInterval 2 }
DEF Slide PositionInterpolator { key [ 0, 1 ] keyValue [ 0 0 0, 1 0 0 ] }
DEF Lift PositionInterpolator { key [ 0, 1 ] keyValue [ 0 0 0, 0 5 0 ] }
DEF Door Transform {}
ROUTE Motor.fraction_changed TO Slide.set_fraction
ROUTE Motor.fraction_changed TO Lift.set_fraction
ROUTE Slide.value_changed TO Door.translation
ROUTE Lift.value_changed TO Door.translation
"""
AIM = Aim((0, 0, 10_000_000), (0, 0, -1_000_000))


def clicked():
    world = World(DOOR)
    world.clock(1, 10_000_000)
    world.point(2, 10_000_001, 0, True, AIM)
    world.point(3, 10_000_002, 0, False, AIM)
    return world


def node(world, label):
    return next(n for n in range(world.node_count()) if world.label(n) == label)


class Worlds(unittest.TestCase):
    def refused(self, name, call, *passed):
        with self.assertRaises(Fault) as told:
            call(*passed)
        self.assertEqual(told.exception.name, name)

    def test_a_world_forgets_old_lines_alone(self):
        world, whole = clicked(), clicked()
        for each in (world, whole):
            each.clock(4, 11_000_002)
        lines, size = whole.trace(), len(whole.snapshot(1))
        world.forget_below(0)
        self.assertEqual(world.trace(), lines)
        self.refused("Range", world.forget_below, 6)
        world.forget_below(4)
        self.assertEqual(world.trace(), whole.trace(4))
        self.assertEqual(world.changed(3), whole.changed(3))
        self.assertLess(len(world.snapshot(1)), size)
        world.forget_below(5)
        self.assertEqual((world.trace(), world.changes(), world.changed()), ("", [], []))
        for each in (world, whole):
            each.clock(5, 11_500_002)
        self.assertEqual(world.trace(), whole.trace(5))
        self.assertEqual(world.scene(), whole.scene())
        other = World(DOOR)
        other.load(2, world.snapshot(1))
        self.assertEqual((other.trace(), other.scene()), (world.trace(), whole.scene()))

    def test_reading_on_forgets_what_was_read(self):
        for read in (
            lambda each: each.trace(3),
            lambda each: each.changes(3),
            lambda each: each.changed(2),
        ):
            world, whole = clicked(), clicked()
            whole.keep_lines = True
            lines, late = whole.trace(), whole.trace(3)
            self.assertEqual(world.trace(), lines)
            self.assertEqual(read(world), read(whole))
            self.assertEqual((world.trace(), whole.trace()), (late, lines))
            self.assertNotIn(late, ("", lines))
            world.changes(2**64 - 1)
            self.assertEqual(world.trace(), "")
            for each in (world, whole):
                each.clock(4, 11_000_002)
            self.assertEqual(world.trace(), whole.trace(4))

    def test_types_names_scripts_and_time(self):
        world = World(COUNT)
        door, count = world.node_named("Door"), world.node_named("Count")
        self.assertIsNone(world.node_named("N0"))
        self.assertEqual(world.scripts(), [(count, "counter")])
        world.replace_script(0, "counter")
        self.refused("KindDiffers", world.replace_script, 0, "gate")
        self.refused("NoSuchScript", world.replace_script, 1, "counter")
        translation = world.field_named(door, "translation")
        self.assertEqual(world.field_type(door, translation), ("SFVec3f", "inputOutput"))
        tick = world.field_named(count, "tick")
        self.assertEqual(world.field_type(count, tick), ("SFBool", "inputOnly"))
        start = world.field_named(count, "start")
        self.assertEqual(world.field_type(count, start), ("SFInt32", "initializeOnly"))
        self.refused("NoValue", world.value, count, tick)
        self.refused("NoSuchField", world.value, count, 99)
        self.refused("NoSuchField", world.field_type, count, 99)
        self.refused("NoSuchField", world.numbers, 7, 0)
        self.assertEqual(world.time(), 0)
        world.clock(1, 12)
        self.assertEqual(world.time(), 12)

    def test_a_click_opens_the_door(self):
        with clicked() as world:
            self.assertEqual(world.clock(4, 11_000_002), (7, 2, 0))
            door = node(world, "Door")
            translation = world.field_named(door, "translation")
            self.assertEqual(world.value(door, translation), "0.5 0 0")
            self.assertEqual(world.numbers(door, translation), [500_000, 0, 0])
            moved = [change for change in world.changes(4) if change.node == door]
            self.assertEqual(moved, [(4, 11_000_002, door, translation, "0.5 0 0")])
            self.assertIn("4 11.000002 Door.translation 0.5 0 0\n", world.trace(4))

    def test_a_line_may_have_another_value_than_its_field(self):
        with World(TWICE) as world:
            world.clock(1, 1_000_000)
            door = node(world, "Door")
            translation = world.field_named(door, "translation")
            drawn = [field for field in world.changed() if field.node == door]
            self.assertEqual(drawn, [(door, translation, "SFVec3f", [0, 2_500_000, 0])])
            lines = [change.value for change in world.changes(1) if change.node == door]
            self.assertEqual(lines, ["0.5 0 0"])
            self.assertEqual(world.changed(1), [])
            self.assertEqual(world.value(door, translation), "0 2.5 0")
            self.assertEqual(world.numbers(door, translation), [0, 2_500_000, 0])

    def test_a_ray_meets_the_door_without_an_input(self):
        world = World(DOOR)
        met = world.meet(AIM)
        self.assertEqual(met.sensors, [node(world, "Knob")])
        self.assertEqual(met.entry[0] * 100, met.entry[1] * 995)
        self.assertIsNone(world.meet(Aim((5_000_000, 0, 0), (1, 0, 0))))
        self.refused("Range", world.meet, Aim((0, 0, 0), (0, 0, 0)))
        self.assertEqual(world.applied(), 0)

    def test_nodes_stand_as_in_the_text(self):
        world = World(DOOR)
        self.assertEqual([world.label(root) for root in world.roots()], ["Motor", "Slide", "Door"])
        children = world.children(node(world, "Door"))
        self.assertEqual([world.node_type(child) for child in children], ["TouchSensor", "Shape"])
        (box,) = world.numbers(children[1], world.field_named(children[1], "geometry"))
        self.assertEqual(world.numbers(box, world.field_named(box, "size")), [1_000_000, 2_000_000, 100_000])
        self.refused("NoSuchNode", world.label, world.node_count())
        self.refused("NoSuchField", world.value, box, 65535)

    def test_fields_are_found_by_their_names(self):
        world = World(COUNT)
        door, count = node(world, "Door"), node(world, "Count")
        for of in (door, count):
            names = [world.field_name(of, field) for field in range(world.field_count(of))]
            self.assertEqual([world.field_named(of, name) for name in names], list(range(len(names))))
        # A Script has metadata, url, directOutput and mustEvaluate, and behind them what it declares.
        self.assertEqual([world.field_named(count, name) for name in ("tick", "start", "step", "count")], [4, 5, 6, 7])
        self.assertEqual(world.value(count, world.field_named(count, "start")), "5")
        self.assertEqual(world.value(door, world.field_named(door, "translation")), "0 1.5 0")
        for name in ("count", "set_translation", "translation\0", "", "\udcff"):
            self.refused("NoSuchField", world.field_named, door, name)
        self.refused("NoSuchField", world.field_named, world.node_count(), "url")

    def test_a_snapshot_goes_back(self):
        world = clicked()
        shot, scene = world.snapshot(1), world.scene()
        world.clock(4, 11_000_002)
        self.refused("BootNotNew", world.load, 1, shot)
        self.refused("Short", world.load, 2, shot[:50])
        self.assertEqual(world.load(2, shot), (1, 3))
        self.assertEqual(world.scene(), scene)

    def picture(self, world):
        """The text of each field that holds a value."""
        found = {}
        for n in range(world.node_count()):
            for field in range(world.field_count(n)):
                try:
                    found[n, field] = world.value(n, field)
                except Fault as fault:
                    self.assertEqual(fault.name, "NoValue")
        return found

    def test_each_field_that_differs_is_listed(self):
        aims = (AIM, Aim((5_000_000, 0, 10_000_000), (0, 0, -1_000_000)))
        for scene in (DOOR, TWICE, COUNT):
            with World(scene) as world:
                drawn, since = self.picture(world), 0
                for number in range(1, 61):
                    time = 10_000_000 + number * 100_000
                    if number % 3:
                        world.clock(number, time)
                    else:
                        world.point(number, time, number % 2, number % 4 < 2, aims[number % 5 > 3])
                    if number % 7 < 4:
                        continue
                    listed = world.changed(since)
                    self.assertEqual(len({(one.node, one.field) for one in listed}), len(listed))
                    drawn.update({(one.node, one.field): world.value(one.node, one.field) for one in listed})
                    numbers = [world.numbers(one.node, one.field) for one in listed]
                    self.assertEqual([one.numbers for one in listed], numbers)
                    since = number
                    self.assertEqual(drawn, self.picture(world))

    def test_what_is_refused_changes_nothing(self):
        with self.assertRaises(Refusal) as told:
            World("#X3D V3.0 utf8\nGrup {}\n")
        self.assertEqual(str(told.exception), "refused UnknownNode line 2")
        world = World(DOOR)
        self.refused("NotNext", world.clock, 2, 5)
        self.refused("Range", world.clock, 0, 5)
        self.refused("Range", world.clock, 1, 1 << 64)
        self.refused("Range", world.point, 1, 5, 64, False, AIM)
        world.clock(1, 5)
        self.refused("TimeNotLater", world.clock, 2, 5)
        world.close()
        world.close()
        self.refused("Closed", world.clock, 2, 6)


if __name__ == "__main__":
    unittest.main()

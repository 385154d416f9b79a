import os
import tempfile
import unittest

from x3d import Aim, Fault, Host, Log, Refusal, Viewer, World, datagram

DOOR = """#X3D V3.0 utf8
DEF Motor TimeSensor { cycleInterval 2 }
DEF Slide PositionInterpolator { key [ 0, 1 ] keyValue [ 0 0 0, 1 0 0 ] }
DEF Door Transform {
  children [
    DEF Knob TouchSensor {}
    Shape { geometry Box { size 1 2 0.1 } }
  ]
}
ROUTE Knob.touchTime TO Motor.startTime
ROUTE Motor.fraction_changed TO Slide.set_fraction
ROUTE Slide.value_changed TO Door.translation
"""
AIM = Aim((0, 0, 10_000_000), (0, 0, -1_000_000))


class Carrier:
    """Carries datagrams between a host and its viewers; where it is lossy about four of five, by a
    rule without a period that a turn could be in step with."""

    def __init__(self, host, lossy=False):
        self.host, self.lossy, self.dice = host, lossy, 1

    def arrives(self):
        self.dice = (self.dice * 1_664_525 + 1_013_904_223) % 2**32
        return not self.lossy or self.dice >> 16 >= 65_536 // 5

    def to_host(self, datagram):
        if not self.arrives():
            return []
        return [packet for packet in self.host.packets(self.host.take(datagram)) if self.arrives()]

    def turn(self, viewer, who):
        """Whether the viewer is behind the floor."""
        kinds = []
        for offer in viewer.resend():
            self.to_host(offer)
        if self.arrives():
            viewer.take(self.host.ack(who))
        for packet in self.to_host(viewer.ask()):
            kinds.append(viewer.take(packet).kind)
        return "Behind" in kinds


class Nodes(unittest.TestCase):
    def refused(self, name, call, *passed):
        with self.assertRaises(Fault) as told:
            call(*passed)
        self.assertEqual(told.exception.name, name)

    def test_a_viewer_forgets_old_lines_alone(self):
        host, viewer, whole = Host(DOOR, 2), Viewer(DOOR, 0, 1), Viewer(DOOR, 1, 1)
        whole.keep_lines = True
        carrier = Carrier(host)
        viewer.offer(True, AIM)
        viewer.offer(False, AIM)
        host.clock(10_000_000)
        carrier.turn(viewer, 0)
        host.clock(11_000_000)
        for who, each in enumerate((viewer, whole)):
            carrier.turn(each, who)
        self.assertEqual((viewer.applied(), viewer.trace()), (4, whole.trace()))
        self.refused("Range", viewer.forget_below, 6)
        viewer.forget_below(4)
        self.assertEqual(viewer.trace(), whole.trace(4))
        self.assertNotEqual(viewer.trace(), whole.trace())
        host.clock(11_500_000)
        for who, each in enumerate((viewer, whole)):
            carrier.turn(each, who)
        self.assertEqual(viewer.trace(), whole.trace(4))
        self.assertEqual((viewer.changed(4), viewer.scene()), (whole.changed(4), whole.scene()))
        # What was read is forgotten.
        self.assertEqual(viewer.trace(), whole.trace(5))

    def test_what_is_asked_of_a_viewer_is_as_of_a_world(self):
        scene = DOOR + """DEF Count Script {
  url "x3dshare:counter"
  inputOnly SFBool tick
  initializeOnly SFInt32 start 5
  initializeOnly SFInt32 step 2
  outputOnly SFInt32 count
}
"""
        world, viewer = World(scene), Viewer(scene, 0, 1)
        host = Host(scene, 1)
        for asked in (world, viewer):
            count = asked.node_named("Count")
            self.assertEqual(asked.scripts(), [(count, "counter")])
            asked.replace_script(0, "counter")
            self.refused("KindDiffers", asked.replace_script, 0, "meter")
            self.refused("Range", asked.replace_script, 0, "clock")
            self.assertIsNone(asked.node_named("Nobody"))
            self.assertEqual(asked.time(), 0)
        for node in range(world.node_count()):
            for field in range(world.field_count(node)):
                told = world.field_type(node, field)
                self.assertEqual(viewer.field_type(node, field), told)
                holds = told.access in ("inputOutput", "initializeOnly") and told.type != "SFRotation"
                if not holds:
                    self.refused("NoValue", viewer.value, node, field)
                else:
                    self.assertEqual(viewer.value(node, field), world.value(node, field))
        host.clock(12)
        for packet in host.packets(host.take(viewer.ask())):
            viewer.take(packet)
        world.clock(1, 12)
        self.assertEqual((viewer.time(), world.time()), (12, 12))

    def test_two_viewers_end_equal(self):
        with Host(DOOR, 2) as host, Viewer(DOOR, 0, 1) as one, Viewer(DOOR, 1, 1) as other:
            carrier = Carrier(host, lossy=True)
            self.assertEqual((one.offer(True, AIM), one.offer(False, AIM), one.waiting()), (1, 2, 2))
            for time in range(1, 31):
                host.clock(10_000_000 + time * 100_000)
                carrier.turn(one, 0)
                carrier.turn(other, 1)
            turns = 0
            while (one.applied(), other.applied(), one.waiting()) != (len(host), len(host), 0):
                carrier.turn(one, 0)
                carrier.turn(other, 1)
                turns += 1
                self.assertLess(turns, 100)
            self.assertEqual(len(host), 32)
            self.assertEqual(one.trace(), other.trace())
            self.assertEqual(one.scene(), other.scene())
            self.assertIn("Door.translation 1 0 0\n", one.trace())
            door = next(n for n in range(one.node_count()) if one.label(n) == "Door")
            self.assertEqual(other.value(door, other.field_named(door, "translation")), "1 0 0")
            self.refused("NoSuchField", other.field_named, door, "isOpen")
            # A world of its own comes to the same by the same inputs.
            self.assertEqual(World(DOOR).scene(), Viewer(DOOR, 0, 1).scene())

    def test_a_late_viewer_joins_by_pieces(self):
        host, first, late = Host(DOOR, 2), Viewer(DOOR, 0, 1), Viewer(DOOR, 1, 1)
        carrier = Carrier(host)
        for time in range(1, 11):
            host.clock(time * 1_000_000)
        carrier.turn(first, 0)
        self.assertEqual(first.applied(), 10)
        host.drop_below(11)
        self.assertEqual(host.floor(), 11)
        self.assertIsNone(host.packet(10))
        self.refused("FloorBack", host.drop_below, 5)
        self.refused("FloorAhead", host.drop_below, 12)
        self.assertTrue(carrier.turn(late, 1))
        pieces = first.pieces()
        self.refused("NotWhole", late.join, 2)
        self.assertEqual([late.gather(piece) for piece in pieces], ["New"] * (len(pieces) - 1) + ["Whole"])
        self.assertEqual(late.gather(pieces[0]), "Again")
        self.refused("BootNotNew", late.join, 1)
        self.assertEqual(late.join(2), 10)
        self.assertEqual(late.boot(), 2)
        host.clock(20_000_000)
        carrier.turn(first, 0)
        carrier.turn(late, 1)
        self.assertEqual(late.trace(), first.trace())
        self.assertEqual(late.applied(), 11)

    def test_a_datagram_says_who_sends_it(self):
        host, one = Host(DOOR, 2), Viewer(DOOR, 1, 7)
        one.offer(True, AIM)
        (offer,) = one.resend()
        self.assertEqual(datagram(offer), ("Offer", 1, 7, 1, 0, True, AIM))
        self.refused("BadViewer", host.take_from, 0, offer)
        self.assertEqual(host.take_from(1, offer), ("Numbered", 1, 0))
        self.assertEqual(datagram(host.packet(1))[:6], ("Input", 1, 0, 1, 1, True))
        self.assertEqual(datagram(host.floor_packet())[:4], ("Floor", None, 0, 1))
        ask = one.ask()
        self.assertEqual(datagram(ask)[:4], ("Ask", 1, 0, 1))
        self.refused("BadViewer", host.take_from, 0, ask)
        self.assertIsNone(host.heard(1))
        host.take_from(1, ask)
        self.assertEqual(host.heard(1), 1)
        self.refused("Range", host.heard, 2)
        self.refused("BadPacket", datagram, b"no datagram")

    def test_a_host_keeps_what_its_viewers_lack(self):
        host, one = Host(DOOR, 2), Viewer(DOOR, 0, 1)
        for time in range(1, 11):
            host.clock(time * 1_000_000)
        host.keep(0)
        self.assertEqual(host.floor(), 1)
        carrier = Carrier(host)
        carrier.turn(one, 0)
        carrier.turn(one, 0)
        self.assertEqual(host.heard(0), 11)
        host.keep(3)
        self.assertEqual(host.floor(), 8)

    def test_a_viewer_lists_what_was_set(self):
        host, one = Host(DOOR, 1), Viewer(DOOR, 0, 1)
        for down in (True, False):
            one.offer(down, AIM)
        for offer in one.resend():
            host.take(offer)
        Carrier(host).turn(one, 0)
        self.assertEqual(one.applied(), 2)
        names = {one.label(field.node) + "." + one.field_name(field.node, field.field) for field in one.changed()}
        self.assertIn("Motor.startTime", names)
        self.assertNotIn("Knob.touchTime", names)

    def test_a_viewer_rewinds(self):
        host, viewer = Host(DOOR, 1), Viewer(DOOR, 0, 1)
        carrier = Carrier(host)
        host.clock(1_000_000)
        carrier.turn(viewer, 0)
        shot = viewer.snapshot()
        host.clock(2_000_000)
        carrier.turn(viewer, 0)
        self.assertEqual(viewer.applied(), 2)
        self.refused("BootNotNew", viewer.rewind, shot, 1)
        self.refused("Short", viewer.rewind, shot[:40], 2)
        self.assertEqual(viewer.rewind(shot, 2), 1)
        carrier.turn(viewer, 0)
        self.assertEqual(viewer.applied(), 2)

    def test_what_is_refused_changes_nothing(self):
        self.refused("Range", Host, DOOR, 0)
        self.refused("Range", Host, DOOR, 65)
        self.refused("Range", Viewer, DOOR, 64, 1)
        self.refused("Range", Viewer, DOOR, 0, 0)
        with self.assertRaises(Refusal) as told:
            Viewer("#X3D V3.0 utf8\nGrup {}\n", 0, 1)
        self.assertEqual(str(told.exception), "refused UnknownNode line 2")
        host, viewer = Host(DOOR, 1), Viewer(DOOR, 0, 1)
        self.refused("TimeNotLater", host.clock, 0)
        self.refused("TimeRange", host.clock, 10**18 + 1)
        self.refused("BadPacket", host.take, b"no datagram")
        self.refused("WrongScene", host.take, Viewer(DOOR + "\n", 0, 1).ask())
        self.refused("BadViewer", host.take, Viewer(DOOR, 1, 1).ask())
        self.refused("Range", host.ack, 1)
        self.assertEqual((len(host), host.viewers(), host.floor()), (0, 1, 1))
        self.refused("NotForMe", viewer.take, viewer.ask())
        self.refused("ZeroRay", viewer.offer, True, Aim((0, 0, 0), (0, 0, 0)))
        self.refused("PointRange", viewer.offer, True, Aim((0, 0, 0), (10**15 + 1, 0, 0)))
        for number in range(1, 65):
            self.assertEqual(viewer.offer(False, AIM), number)
        self.refused("OfferFull", viewer.offer, False, AIM)
        offers = viewer.resend()
        self.assertEqual(host.take(offers[1]).kind, "Ahead")
        self.assertEqual(host.take(offers[0]), ("Numbered", 1, 0))
        self.assertEqual(host.take(offers[0]).kind, "Repeat")
        self.refused("NotPiece", viewer.gather, offers[0])
        self.assertEqual(viewer.pieces(b"no snapshot"), [])
        viewer.close()
        host.close()
        self.refused("Closed", viewer.ask)
        self.refused("Closed", host.clock, 1)

    def test_a_host_shows_what_its_log_has_alone(self):
        log, host, viewer = b"", Host.resume(DOOR, 1), Viewer(DOOR, 0, 1)
        self.assertEqual((host.append().bytes, host.time()), (b"", 0))
        viewer.offer(True, AIM)
        self.assertEqual((host.clock(5), host.take(viewer.resend()[0]).number, host.time()), (1, 2, 6))
        self.assertEqual((host.packet(1), datagram(host.ack(0)).number), (None, 0))
        append = host.append()
        self.assertEqual(host.append(), append)
        self.refused("NotAwaited", host.stored, append.token + 1)
        self.refused("Range", host.stored, append.token, "Lost")
        log += append.bytes
        host.stored(append.token)
        self.assertEqual((datagram(host.packet(1)).time, datagram(host.ack(0)).number), (5, 1))
        host.clock(9)
        host.stored(host.append().token, "InDoubt")
        self.refused("Closed", host.clock, 10)
        again = Host.resume(DOOR, 1, log)
        self.assertEqual((len(again), again.time(), datagram(again.ack(0)).number), (2, 6, 1))
        self.assertEqual(again.take(viewer.resend()[0]).kind, "Repeat")
        self.refused("NotLasting", Host(DOOR, 1).append)
        self.refused("WrongScene", Host.resume, DOOR + "\n", 1, log)
        for name, wrong in ("LogGap", log[:32] + log[49:]), ("NotALog", log[:48]):
            with self.assertRaises(Fault) as refused:
                Host.resume(DOOR, 1, wrong)
            self.assertEqual((refused.exception.name, refused.exception.entry), (name, 1))

    def test_an_append_of_many_entries_is_copied_whole(self):
        host = Host.resume(DOOR, 1)
        for time in range(1, 1001):
            host.clock(time)
        append = host.append()
        self.assertEqual(len(append.bytes), 32 + 17 * 1000)
        self.assertEqual(len(Host.resume(DOOR, 1, append.bytes)), 1000)

    def test_a_log_in_a_file_goes_on(self):
        with tempfile.TemporaryDirectory() as folder:
            path = os.path.join(folder, "door.log")
            self.refused("NoLog", Log, path, DOOR)
            self.refused("Range", Log.make, path, DOOR, 0)
            log = Log.make(path, DOOR, 1)
            self.assertEqual((len(log), log.viewers(), log.read(), len(log.run()), log.cut), (0, 1, b"", 16, 0))
            self.refused("LogBusy", Log, path, DOOR)
            host = Host.resume(DOOR, 1, log.read())
            host.clock(5)
            append = host.append()
            self.refused("NotEntries", log.append, append.bytes[32:])
            log.append(append.bytes)
            host.stored(append.token)
            self.assertEqual((len(log), log.read()), (1, append.bytes))
            self.refused("NotEntries", log.append, append.bytes)
            run = log.run()
            log.close()
            self.refused("Closed", log.read)
            self.refused("NotEmpty", Log.make, path, DOOR, 1)
            self.refused("WrongScene", Log, path, DOOR + "\n")
            self.refused("WrongSeats", Log, path, DOOR, 2)
            with open(path, "ab") as file:
                file.write(b"half")
            with Log(path, DOOR, 1) as again:
                self.assertEqual((again.read(), again.run(), again.cut), (append.bytes, run, 4))
            with open(path, "r+b") as file:
                file.seek(90)
                byte = file.read(1)[0]
                file.seek(90)
                file.write(bytes([byte ^ 0xFF]))
            with self.assertRaises(Fault) as refused:
                Log(path, DOOR)
            self.assertEqual((refused.exception.name, refused.exception.frame), ("LogDamaged", 1))

    def test_routes_are_listed_by_numbers(self):
        with World(DOOR) as world, Viewer(DOOR, 0, 1) as viewer:
            named = lambda label, field: (world.node_named(label), world.field_named(world.node_named(label), field))
            wanted = [
                (named("Knob", "touchTime"), named("Motor", "startTime")),
                (named("Motor", "fraction_changed"), named("Slide", "set_fraction")),
                (named("Slide", "value_changed"), named("Door", "translation")),
            ]
            self.assertEqual(world.routes(), wanted)
            self.assertEqual(viewer.routes(), wanted)


if __name__ == "__main__":
    unittest.main()

// A host and its viewers: offers, lost datagrams, joining late, rewinding, and what is refused.
import assert from "node:assert/strict";
import { before, test } from "node:test";
import { Host, Refusal, Viewer, World, datagram } from "../index.js";
import { Carrier } from "./carrier.js";
import { AIM, DOOR, fresh, nodeOf, refused } from "./common.js";

let library;
before(async () => {
  library = await fresh();
});

test("a host and three viewers end equal where every fifth datagram is lost", () => {
  const host = new Host(library, DOOR, 3);
  const open = (who) => new Viewer(library, DOOR, who, 1);
  const viewers = [open(0), open(1)];
  const carrier = new Carrier(host, true);
  let pieces = [];
  for (let turn = 1; turn <= 60 || viewers.some((viewer) => viewer.applied() < host.count()); turn++) {
    assert.ok(turn < 2000);
    if (turn === 40) {
      // One that comes now can't have all inputs: the first are dropped.
      host.dropBelow(viewers[0].applied() + 1);
      pieces = viewers[0].pieces();
      viewers.push(open(2));
    }
    if (turn <= 60) host.clock(10_000_000 + turn * 50_000);
    if (turn === 5 || turn === 6) viewers[0].offer(turn === 5, AIM);
    viewers.forEach((viewer, who) => {
      if (carrier.turn(viewer, who)) carrier.join(viewer, pieces);
    });
  }
  assert.ok(carrier.lost > carrier.sent / 8, `${carrier.lost} of ${carrier.sent} datagrams lost`);
  assert.equal(host.count(), 62);
  assert.ok(viewers[2].boot() > 1);
  const worlds = viewers.map((viewer) => viewer.trace() + viewer.scene());
  assert.ok(worlds[0].includes("Door.translation 1 0 0\n"));
  assert.equal(worlds[1], worlds[0]);
  assert.equal(worlds[2], worlds[0]);
  const door = nodeOf(viewers[2], "Door");
  assert.equal(viewers[2].value(door, viewers[2].fieldNamed(door, "translation")), "1 0 0");
});

test("a datagram says who sends it, and a host takes from one viewer alone", () => {
  const host = new Host(library, DOOR, 2);
  const one = new Viewer(library, DOOR, 1, 7);
  one.offer(true, AIM);
  const [offer] = one.resend();
  const aim = { origin: AIM.origin.map(BigInt), direction: AIM.direction.map(BigInt) };
  assert.deepEqual(datagram(library, offer), { kind: "Offer", who: 1, boot: 7, number: 1, time: 0n, down: true, aim });
  refused("BadViewer", () => host.takeFrom(0, offer));
  assert.deepEqual(host.takeFrom(1, offer), { kind: "Numbered", number: 1, count: 0 });
  const floor = datagram(library, host.floorPacket());
  assert.deepEqual([floor.kind, floor.who, floor.number, floor.aim], ["Floor", null, 1, null]);
  const ask = one.ask();
  refused("BadViewer", () => host.takeFrom(0, ask));
  assert.equal(host.heard(1), null);
  host.takeFrom(1, ask);
  assert.equal(host.heard(1), 1);
  refused("Range", () => host.heard(2));
  refused("BadPacket", () => datagram(library, new Uint8Array(3)));
  host.keep(0);
  assert.equal(host.floor(), 1);
});

test("a late viewer joins by pieces", () => {
  const host = new Host(library, DOOR, 2);
  const [first, late] = [0, 1].map((who) => new Viewer(library, DOOR, who, 1));
  const carrier = new Carrier(host);
  for (let time = 1; time <= 10; time++) host.clock(time * 1_000_000);
  carrier.turn(first, 0);
  assert.equal(first.applied(), 10);
  host.dropBelow(11);
  assert.equal(host.floor(), 11);
  assert.equal(host.packet(10), null);
  refused("FloorBack", () => host.dropBelow(5));
  refused("FloorAhead", () => host.dropBelow(12));
  assert.ok(carrier.turn(late, 1));
  const pieces = first.pieces();
  refused("NotWhole", () => late.join(2));
  const gathered = pieces.map((piece) => late.gather(piece));
  assert.deepEqual(gathered, [...Array(pieces.length - 1).fill("New"), "Whole"]);
  assert.equal(late.gather(pieces[0]), "Again");
  refused("BootNotNew", () => late.join(1));
  assert.equal(late.join(2), 10);
  assert.equal(late.boot(), 2);
  host.clock(20_000_000);
  carrier.turn(first, 0);
  carrier.turn(late, 1);
  assert.equal(late.trace(), first.trace());
  assert.equal(late.applied(), 11);
});

test("a viewer rewinds", () => {
  const host = new Host(library, DOOR, 1);
  const viewer = new Viewer(library, DOOR, 0, 1);
  const carrier = new Carrier(host);
  host.clock(1_000_000);
  carrier.turn(viewer, 0);
  const shot = viewer.snapshot();
  host.clock(2_000_000);
  carrier.turn(viewer, 0);
  assert.equal(viewer.applied(), 2);
  refused("BootNotNew", () => viewer.rewind(shot, 1));
  refused("Short", () => viewer.rewind(shot.subarray(0, 40), 2));
  assert.equal(viewer.rewind(shot, 2), 1);
  carrier.turn(viewer, 0);
  assert.equal(viewer.applied(), 2);
});

test("what is refused at opening", () => {
  refused("Range", () => new Host(library, DOOR, 0));
  refused("Range", () => new Host(library, DOOR, 65));
  refused("Range", () => new Viewer(library, DOOR, 64, 1));
  refused("Range", () => new Viewer(library, DOOR, 0, 0));
  assert.throws(() => new Viewer(library, "#X3D V3.0 utf8\nGrup {}\n", 0, 1), new Refusal("refused UnknownNode line 2"));
});

test("what is refused changes nothing", () => {
  const [host, viewer] = [new Host(library, DOOR, 1), new Viewer(library, DOOR, 0, 1)];
  refused("TimeNotLater", () => host.clock(0));
  refused("TimeRange", () => host.clock(10n ** 18n + 1n));
  refused("BadPacket", () => host.take(new TextEncoder().encode("no datagram")));
  refused("WrongScene", () => host.take(new Viewer(library, `${DOOR}\n`, 0, 1).ask()));
  refused("BadViewer", () => host.take(new Viewer(library, DOOR, 1, 1).ask()));
  refused("Range", () => host.ack(1));
  assert.deepEqual([host.count(), host.viewers(), host.floor()], [0, 1, 1]);
  refused("NotForMe", () => viewer.take(viewer.ask()));
  refused("ZeroRay", () => viewer.offer(true, { origin: [0, 0, 0], direction: [0, 0, 0] }));
  refused("PointRange", () => viewer.offer(true, { origin: [0, 0, 0], direction: [10 ** 15 + 1, 0, 0] }));
  for (let number = 1; number <= 64; number++) assert.equal(viewer.offer(false, AIM), number);
  refused("OfferFull", () => viewer.offer(false, AIM));
  const offers = viewer.resend();
  assert.equal(offers.length, viewer.waiting());
  assert.equal(host.take(offers[1]).kind, "Ahead");
  assert.deepEqual(host.take(offers[0]), { kind: "Numbered", number: 1, count: 0 });
  assert.equal(host.take(offers[0]).kind, "Repeat");
  refused("NotPiece", () => viewer.gather(offers[0]));
  assert.deepEqual(viewer.pieces(new TextEncoder().encode("no snapshot")), []);
  viewer.forget();
  viewer.close();
  host.close();
  refused("Closed", () => viewer.ask());
  refused("Closed", () => host.clock(1));
});

test("a host that was resumed shows what its log has alone", () => {
  const host = Host.resume(library, DOOR, 1);
  const viewer = new Viewer(library, DOOR, 0, 1);
  assert.deepEqual([host.append().bytes.length, host.time()], [0, 0n]);
  viewer.offer(true, AIM);
  const [offer] = viewer.resend();
  assert.deepEqual([host.clock(5), host.take(offer).number, host.time()], [1, 2, 6n]);
  assert.deepEqual([host.packet(1), datagram(library, host.ack(0)).number], [null, 0]);
  const { token, bytes: log } = host.append();
  assert.deepEqual(host.append(), { token, bytes: log });
  refused("NotAwaited", () => host.stored(token + 1));
  refused("Range", () => host.stored(token, "Lost"));
  host.stored(token);
  assert.deepEqual([datagram(library, host.packet(1)).time, datagram(library, host.ack(0)).number], [5n, 1]);
  host.clock(9);
  host.stored(host.append().token, "InDoubt");
  refused("Closed", () => host.clock(10));
  const again = Host.resume(library, DOOR, 1, log);
  assert.deepEqual([again.count(), again.time(), again.take(offer).kind], [2, 6n, "Repeat"]);
  refused("NotLasting", () => new Host(library, DOOR, 1).append());
  refused("WrongScene", () => Host.resume(library, `${DOOR}\n`, 1, log));
  const gap = new Uint8Array([...log.slice(0, 32), ...log.slice(49)]);
  assert.throws(() => Host.resume(library, DOOR, 1, gap), { reason: "LogGap", entry: 1 });
  assert.throws(() => Host.resume(library, DOOR, 1, log.slice(0, 48)), { reason: "NotALog", entry: 1 });
});

test("routes are listed by the numbers of their nodes and fields", () => {
  const world = new World(library, DOOR);
  const named = (label, field) => [world.nodeNamed(label), world.fieldNamed(world.nodeNamed(label), field)];
  const wanted = [
    { source: named("Knob", "touchTime"), target: named("Motor", "startTime") },
    { source: named("Motor", "fraction_changed"), target: named("Slide", "set_fraction") },
    { source: named("Slide", "value_changed"), target: named("Door", "translation") },
  ];
  assert.deepEqual(world.routes(), wanted);
  assert.deepEqual(new Viewer(library, DOOR, 0, 1).routes(), wanted);
});

// A world: inputs, what is read of it, snapshots, and what is refused.
import assert from "node:assert/strict";
import { before, test } from "node:test";
import { changesOf } from "../changes.js";
import { Part, Refusal, World } from "../index.js";
import { AIM, DOOR, fresh, nodeOf, refused } from "./common.js";

const COUNT = `#X3D V3.0 utf8
DEF Door Transform { translation 0 1.5 0 }
DEF Count Script {
  url "x3dshare:counter"
  inputOnly SFBool tick
  initializeOnly SFInt32 start 5
  initializeOnly SFInt32 step 2
  outputOnly SFInt32 count
}
`;
let library;
before(async () => {
  library = await fresh();
});

function clicked() {
  const world = new World(library, DOOR);
  world.clock(1, 10_000_000);
  world.point(2, 10_000_001, 0, true, AIM);
  world.point(3, 10_000_002, 0, false, AIM);
  return world;
}

test("a click opens the door", () => {
  const world = clicked();
  assert.deepEqual(world.clock(4, 11_000_002), { sends: 7, deliveries: 2, settles: 0 });
  const door = nodeOf(world, "Door");
  const translation = world.fieldNamed(door, "translation");
  assert.equal(world.value(door, translation), "0.5 0 0");
  assert.deepEqual(world.numbers(door, translation), BigInt64Array.of(500_000n, 0n, 0n));
  const moved = world.changes(4).filter(({ node }) => node === door);
  assert.deepEqual(moved, [{ input: 4, time: 11_000_002n, node: door, field: translation, value: "0.5 0 0" }]);
  assert.ok(world.trace(4).includes("4 11.000002 Door.translation 0.5 0 0\n"));
});

test("a world forgets old lines alone", () => {
  const [world, whole] = [clicked(), clicked()];
  for (const each of [world, whole]) each.clock(4, 11_000_002);
  const size = whole.snapshot(1).length;
  refused("Range", () => world.forgetBelow(6));
  world.forgetBelow(4);
  assert.equal(world.trace(), whole.trace(4));
  assert.deepEqual(world.changed(3), whole.changed(3));
  assert.ok(world.snapshot(1).length < size);
  for (const each of [world, whole]) each.clock(5, 11_500_002);
  assert.equal(world.trace(), whole.trace(4));
  assert.equal(world.scene(), whole.scene());
});

test("reading on forgets what was read", () => {
  for (const read of [(each) => each.trace(3), (each) => each.changes(3), (each) => each.changed(2)]) {
    const [world, whole] = [clicked(), clicked()];
    whole.keepLines = true;
    const [lines, late] = [whole.trace(), whole.trace(3)];
    assert.equal(world.trace(), lines);
    assert.deepEqual(read(world), read(whole));
    assert.deepEqual([world.trace(), whole.trace()], [late, lines]);
    assert.ok(late !== "" && late !== lines);
    world.changes(Number.MAX_SAFE_INTEGER);
    assert.equal(world.trace(), "");
  }
});

test("a field that was set again is listed with its current value", () => {
  const world = new World(
    library,
    `#X3D V3.0 utf8
DEF Motor TimeSensor { cycleInterval 2 }
DEF Slide PositionInterpolator { key [ 0, 1 ] keyValue [ 0 0 0, 1 0 0 ] }
DEF Lift PositionInterpolator { key [ 0, 1 ] keyValue [ 0 0 0, 0 5 0 ] }
DEF Door Transform {}
ROUTE Motor.fraction_changed TO Slide.set_fraction
ROUTE Motor.fraction_changed TO Lift.set_fraction
ROUTE Slide.value_changed TO Door.translation
ROUTE Lift.value_changed TO Door.translation
`,
  );
  world.clock(1, 1_000_000);
  const node = nodeOf(world, "Door");
  const field = world.fieldNamed(node, "translation");
  assert.deepEqual(world.changed(), [{ node, field, type: "SFVec3f", numbers: BigInt64Array.of(0n, 2_500_000n, 0n) }]);
  assert.deepEqual(world.changed(1), []);
});

test("a ray meets the door without an input", () => {
  const world = new World(library, DOOR);
  const { entry, sensors } = world.meet(AIM);
  assert.deepEqual(sensors, [nodeOf(world, "Knob")]);
  // The door is 0.1 thick: 9.95 of the way of 10 units.
  assert.equal(entry[0] * 100n, entry[1] * 995n);
  assert.equal(world.meet({ origin: [5_000_000, 0, 0], direction: [1, 0, 0] }), null);
  refused("Range", () => world.meet({ origin: [0, 0, 0], direction: [0, 0, 0] }));
  assert.equal(world.applied(), 0);
});

test("nodes stand as in the text", () => {
  const world = new World(library, DOOR);
  assert.deepEqual(world.roots().map((root) => world.label(root)), ["Motor", "Slide", "Door"]);
  const children = world.children(nodeOf(world, "Door"));
  assert.deepEqual(children.map((child) => world.nodeType(child)), ["TouchSensor", "Shape"]);
  const [box] = world.numbers(children[1], world.fieldNamed(children[1], "geometry"));
  const size = world.fieldNamed(Number(box), "size");
  assert.deepEqual(world.numbers(Number(box), size), BigInt64Array.of(1_000_000n, 2_000_000n, 100_000n));
  refused("NoSuchNode", () => world.label(world.nodeCount()));
  refused("NoSuchField", () => world.value(Number(box), 65535));
});

test("types, names, scripts and time", () => {
  const world = new World(library, COUNT);
  const [door, count] = [world.nodeNamed("Door"), world.nodeNamed("Count")];
  assert.equal(world.nodeNamed("N0"), null);
  assert.deepEqual(world.scripts(), [{ node: count, kind: "counter" }]);
  const translation = world.fieldNamed(door, "translation");
  assert.deepEqual(world.fieldType(door, translation), { type: "SFVec3f", access: "inputOutput" });
  refused("NoValue", () => world.value(count, world.fieldNamed(count, "tick")));
  assert.equal(world.time(), 0n);
  world.clock(1, 12);
  assert.equal(world.time(), 12n);
});

test("a part is opened, and a refusal names the instance", () => {
  const part = new Part(library, "#X3D V3.0 utf8\nDEF Door Transform {}\nTeapot {}\n");
  assert.deepEqual(part.leftOut(), [{ line: 3, kind: "Node", words: "node Teapot left out" }]);
  const worlds = [new World(library, part), new World(library, part.text())];
  assert.deepEqual(worlds[0].snapshot(1), worlds[1].snapshot(1));
  assert.notEqual(worlds[0].nodeNamed("Door"), null);
  const lamps = "PROTO Lamp [ inputOutput SFFloat power 1 ]\n{ PointLight { intensity IS power } }\nLamp { power TRUE }\n";
  assert.throws(() => new World(library, `#X3D V3.0 utf8\n${lamps}`), {
    message: "refused WrongType line 3, in the instance on line 4",
    instance: 4,
  });
});

test("fields are found by their names", () => {
  const world = new World(library, COUNT);
  const [door, count] = [nodeOf(world, "Door"), nodeOf(world, "Count")];
  for (const node of [door, count]) {
    const fields = Array.from({ length: world.fieldCount(node) }, (_, field) => field);
    const names = fields.map((field) => world.fieldName(node, field));
    assert.deepEqual(names.map((name) => world.fieldNamed(node, name)), fields);
  }
  // A Script has metadata, url, directOutput and mustEvaluate, and then what it declares.
  const declared = ["tick", "start", "step", "count"].map((name) => world.fieldNamed(count, name));
  assert.deepEqual(declared, [4, 5, 6, 7]);
  assert.equal(world.value(count, world.fieldNamed(count, "start")), "5");
  assert.equal(world.value(door, world.fieldNamed(door, "translation")), "0 1.5 0");
  for (const name of ["count", "set_translation", "translation\0", "", "\udcff"]) {
    refused("NoSuchField", () => world.fieldNamed(door, name));
  }
  refused("NoSuchField", () => world.fieldNamed(world.nodeCount(), "url"));
});

test("scripts are replaced by those of their kind", () => {
  const world = new World(library, COUNT);
  assert.equal(world.scriptCount(), 1);
  const scene = world.scene();
  world.replaceScript(0, "counter");
  assert.equal(world.scene(), scene);
  refused("KindDiffers", () => world.replaceScript(0, "gate"));
  refused("NoSuchScript", () => world.replaceScript(1, "counter"));
  refused("Range", () => world.replaceScript(0, "clock"));
});

test("a line feed in a string ends no change", () => {
  const text = '1 0.5 2 3 "a \\" b\nc" "d"\n4 1000000000000 20 12 0 1.5 0\n';
  assert.deepEqual(changesOf(text), [
    { input: 1, time: 500_000n, node: 2, field: 3, value: '"a \\" b\nc" "d"' },
    { input: 4, time: 10n ** 18n, node: 20, field: 12, value: "0 1.5 0" },
  ]);
});

test("a snapshot goes back", () => {
  const world = clicked();
  const [shot, scene] = [world.snapshot(1), world.scene()];
  world.clock(4, 11_000_002);
  refused("BootNotNew", () => world.load(1, shot));
  refused("Short", () => world.load(2, shot.subarray(0, 50)));
  assert.deepEqual(world.load(2, shot), { boot: 1, applied: 3 });
  assert.equal(world.scene(), scene);
});

test("times up to 10^18 microseconds are exact", () => {
  const world = new World(library, "#X3D V3.0 utf8\nDEF Motor TimeSensor { loop TRUE }\n");
  world.clock(1, 10n ** 18n - 1n);
  assert.deepEqual(new Set(world.changes(1).map(({ time }) => time)), new Set([10n ** 18n - 1n]));
  world.clock(2, 10n ** 18n);
  refused("Range", () => world.clock(3, 10n ** 18n + 1n));
});

test("what is refused changes nothing", () => {
  assert.throws(() => new World(library, "#X3D V3.0 utf8\nGrup {}\n"), new Refusal("refused UnknownNode line 2"));
  const world = new World(library, DOOR);
  refused("NotNext", () => world.clock(2, 5));
  refused("Range", () => world.clock(0, 5));
  refused("Range", () => world.clock(1, 1n << 64n));
  refused("Range", () => world.clock(1, 1.5));
  refused("NotNext", () => world.clock(2 ** 32 + 1, 5));
  refused("NotNext", () => world.clock(2 ** 48 - 1, 5));
  refused("Range", () => world.clock(2 ** 48, 5));
  refused("Range", () => world.clock(2 ** 53, 5));
  refused("Range", () => world.point(1, 5, 64, false, AIM));
  assert.throws(() => world.clock(1, "5"), TypeError);
  assert.throws(() => world.load(2, "no bytes"), TypeError);
  assert.throws(() => new World({}, DOOR), TypeError);
  assert.equal(world.applied(), 0);
  world.clock(1, 5);
  refused("TimeNotLater", () => world.clock(2, 5));
  world.close();
  world.close();
  refused("Closed", () => world.clock(2, 6));
});

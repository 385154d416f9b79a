// Measures calls in processor time, as bindings/c/speed.c does: node bindings/js/tests/speed.js [FILE], a file in the
// folder that scripts/wasm builds.
import { World } from "../index.js";
import { DOOR, fresh } from "./common.js";

const RUNNING = `#X3D V3.0 utf8
DEF Motor TimeSensor { cycleInterval 2 loop TRUE }
DEF Slide PositionInterpolator { key [ 0, 1 ] keyValue [ 0 0 0, 1 0 0 ] }
DEF Door Transform {}
ROUTE Motor.fraction_changed TO Slide.set_fraction
ROUTE Slide.value_changed TO Door.translation
`;
const WARM = 20_000;
const library = await fresh(process.argv[2]);

/** How many nanoseconds of a processor each of `many` calls takes, after some that are not counted. */
function each(many, call) {
  for (let k = 1; k <= Math.min(WARM, many / 10); k++) call(k);
  const begun = process.cpuUsage();
  for (let k = Math.min(WARM, many / 10) + 1; k <= many; k++) call(k);
  const { user, system } = process.cpuUsage(begun);
  return Math.round(((user + system) * 1000) / (many - Math.min(WARM, many / 10)));
}

function told(what, nanoseconds) {
  console.log(`${what}: ${nanoseconds} ns`);
}

const bare = new World(library, "#X3D V3.0 utf8\n");
told("a clock with nothing to do", each(500_000, (n) => bare.clock(n, n)));
told("a call that asks for a number", each(500_000, () => bare.applied()));
bare.close();
const running = new World(library, RUNNING);
const many = 200_000;
told("a clock of six lines", each(many, (n) => running.clock(n, n)));
told("to read the lines of the last", each(20_000, () => running.changes(many)));
told("to read that nothing came after them", each(100_000, () => running.changes(many + 1)));
const door = Array.from({ length: running.nodeCount() }, (_, node) => node).find((node) => running.label(node) === "Door");
const field = running.fieldNamed(door, "translation");
told("a field by its name", each(200_000, () => running.fieldNamed(door, "translation")));
told("the numbers of its value", each(200_000, () => running.numbers(door, field)));
running.close();
const worlds = [];
told("to open a world of a door", each(1_000, () => worlds.push(new World(library, DOOR))));
worlds.forEach((world) => world.close());

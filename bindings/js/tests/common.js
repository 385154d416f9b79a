// What the tests share: the module under test, a scene, and what a refused call says.
import assert from "node:assert/strict";
import { readFile } from "node:fs/promises";
import { load } from "../index.js";
import { Library } from "../library.js";

/** The folder that scripts/wasm builds, or X3D_WASM names. */
export const FOLDER = process.env.X3D_WASM ?? new URL("../../../out/wasm", import.meta.url).pathname;

/** A fresh library: of x3d.wasm, or of the file in that folder that X3D_MODULE or `file` names. */
export function fresh(file = process.env.X3D_MODULE ?? "x3d.wasm") {
  return load(readFile(`${FOLDER}/${file}`));
}

export const DOOR = `#X3D V3.0 utf8
DEF Motor TimeSensor { cycleInterval 2 }
DEF Slide PositionInterpolator { key [ 0, 1 ] keyValue [ 0 0 0, 1 0 0 ] }
DEF Door Transform {
  children [
    DEF Knob TouchSensor {}
    Shape { geometry Box { size 1 2 0.1 } }
  ]
}
ROUTE Knob.touchTime TO Motor.startTime
ROUTE Motor.fraction_changed TO Slide.set_fraction
ROUTE Slide.value_changed TO Door.translation
`;

/** From 10 units before the door, at it. */
export const AIM = { origin: [0, 0, 10_000_000], direction: [0, 0, -1_000_000] };

/** That a call is refused for this reason. */
export function refused(reason, call) {
  assert.throws(call, { name: "Fault", reason });
}

/** The number of the node that has this label. */
export function nodeOf(world, label) {
  const found = Array.from({ length: world.nodeCount() }, (_, node) => node).find((node) => world.label(node) === label);
  assert.notEqual(found, undefined);
  return found;
}

/** A library that can be refused memory: `refuseAt(n)` refuses it the n-th growth from then on, 0 none. */
export async function refusing() {
  const module = await WebAssembly.compile(await readFile(`${FOLDER}/tests/refusing.wasm`));
  const { exports } = await WebAssembly.instantiate(module);
  // (What the binding allocates is refused, too: the linker gives these names to what it has wrapped.)
  const library = new Library({ ...exports, malloc: exports.__wrap_malloc, free: exports.__wrap_free });
  const refuseAt = (call) => exports.refuse_at(BigInt(call));
  return { library, refuseAt, liveBlocks: () => Number(exports.live_blocks()) };
}

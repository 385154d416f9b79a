// Calls each function of include/x3d.h at random, with random numbers and bytes, on handles that are open or closed. Each
// returns a status that there is, writes nothing beyond what it is given, and closing frees all. What was passed and
// what was returned is written to the file that X3D_LOG names, so that the native library can be compared.
import assert from "node:assert/strict";
import { readFileSync, writeFileSync } from "node:fs";
import { test } from "node:test";
import { DOOR, refusing } from "./common.js";
import { Caller } from "./caller.js";

const CALLS = 20_000;
const HEADER = readFileSync(new URL("../../../include/x3d.h", import.meta.url), "utf8");
const LIST = /enum x3d_status \{(.*?)\};/s.exec(HEADER)[1];
const STATUSES = new Set(Array.from(LIST.matchAll(/^  X3D_\w+ = (\d+),? .*\/\*/gm), ([, status]) => Number(status)));
// A door that its motor slides again and again, with a script; and an empty scene, and a text that is refused.
const SCRIPT = `DEF Count Script {
  url "x3dshare:counter"
  inputOnly SFBool tick
  initializeOnly SFInt32 start 5
  initializeOnly SFInt32 step 2
  outputOnly SFInt32 count
}
`;
const RUNNING = DOOR.replace("cycleInterval 2", "cycleInterval 2 loop TRUE").replace("ROUTE", `${SCRIPT}ROUTE`);
const SCENES = [RUNNING, "#X3D V3.0 utf8\n", "#X3D V3.0 utf8\nGrup {}\n"];

test(`${CALLS} random calls`, async () => {
  const { library, liveBlocks } = await refusing();
  const before = liveBlocks();
  const caller = new Caller(library, HEADER, SCENES);
  const log = [];
  const counts = new Map();
  for (let k = 0; k < CALLS; k++) {
    const made = caller.make();
    assert.ok(STATUSES.has(made.status), `${made.name}: ${made.status}`);
    counts.set(made.name, (counts.get(made.name) ?? 0) + (made.status === 0));
    log.push(made);
  }
  const never = [...counts].filter(([, done]) => done === 0).map(([name]) => name);
  assert.deepEqual(never, [], "functions that never were done");
  caller.close();
  assert.equal(liveBlocks(), before);
  if (process.env.X3D_LOG) writeFileSync(process.env.X3D_LOG, JSON.stringify(log));
});

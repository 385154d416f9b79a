// What the module imports and exports, and what index.d.ts declares.
import assert from "node:assert/strict";
import { readFileSync } from "node:fs";
import { test } from "node:test";
import { FOLDER } from "./common.js";
import * as x3d from "../index.js";

const read = (path) => readFileSync(new URL(path, import.meta.url), "utf8");
const module = new WebAssembly.Module(readFileSync(`${FOLDER}/x3d.wasm`));

test("the module imports nothing", () => {
  assert.deepEqual(WebAssembly.Module.imports(module), []);
});

test("the module exports the calls of include/x3d.h but those of a log, its memory, malloc and free", () => {
  const declared = Array.from(read("../../../include/x3d.h").matchAll(/^\w+ (x3d_(?!log_)[a-z]+_\w+)\(/gm), ([, name]) => name);
  assert.ok(declared.length >= 76);
  const exported = WebAssembly.Module.exports(module).map(({ name }) => name);
  assert.deepEqual(exported.sort(), [...declared, "free", "malloc", "memory"].sort());
});

test("index.d.ts declares each method of each class, and nothing else", () => {
  const text = read("../index.d.ts").replace(/\/\*\*.*?\*\//gs, "");
  const isMethod = (name) => name !== "constructor" && !name.startsWith("_");
  const methods = (body) => Array.from(body.matchAll(/^  (\w+)\(/gm), ([, name]) => name).filter(isMethod);
  const classes = text.matchAll(/^(?:export|declare abstract) class (\w+)[^{]*\{\n(.*?)^\}/gms);
  const declared = Object.fromEntries(Array.from(classes, ([, name, body]) => [name, methods(body)]));
  const ofClass = (prototype) => Object.getOwnPropertyNames(prototype).filter(isMethod);
  for (const kind of ["World", "Host", "Viewer", "Part"]) {
    assert.deepEqual(declared[kind].sort(), ofClass(x3d[kind].prototype).sort(), kind);
  }
  const readable = Object.getPrototypeOf(x3d.World.prototype);
  assert.deepEqual(declared.Readable.sort(), ofClass(readable).sort());
  assert.deepEqual(declared.Held, ["close"]);
  const values = Array.from(text.matchAll(/^export (?:declare )?(?:class|function) (\w+)/gm), ([, name]) => name);
  assert.deepEqual(values.sort(), Object.keys(x3d).sort());
});

test("each status of include/x3d.h has its reason", () => {
  const word = (name) => name.toLowerCase().replace(/(?:^|_)(\w)/g, (_, letter) => letter.toUpperCase());
  const list = /enum x3d_status \{(.*?)\};/s.exec(read("../../../include/x3d.h"))[1];
  const statuses = Array.from(list.matchAll(/^  X3D_(\w+) = (\d+)/gm), ([, name, status]) => [name, +status]);
  // What is never a Fault: a call that succeeded, a Refusal, and a copy that is made again with more room.
  const others = ["DONE", "SCENE", "ROOM"];
  for (const [name, status] of statuses.filter(([name]) => !others.includes(name))) {
    assert.equal(new x3d.Fault(status).reason, word(name));
  }
  assert.equal(new x3d.Fault(99).reason, "Status99");
});

/* What three.js draws of the world: `things` are those of each node, `users` the Shapes that a part belongs to. */
import { addToBatch, fillBatches, forgetBatches, takeFromBatch } from "./batches.js";
import { color, field, listed, nodeIn, state, valueBy, valueOf, vector } from "./core.js";
import { LINE, linesOf } from "./names.js";
import { forgetShapes, geometryOf, isPainted, isShared, materialOf, textMesh } from "./shapes.js";

const STOPS = 120;
export const drawn = {
  scene: new THREE.Scene(), content: null, things: new Map(), users: new Map(), stale: new Set(), dirty: true,
  // What is done where a Viewpoint, a Background or the headlight changed.
  seen() {},
};

function meshOf(shape) {
  const node = nodeIn(shape, "geometry");
  if (!node) return new THREE.Group();
  const look = materialOf(shape);
  if (node.kind === "Text") return textMesh(node, look.color);
  look.side = field(node, "solid", true) ? THREE.FrontSide : THREE.DoubleSide;
  if (isPainted(node)) Object.assign(look, { vertexColors: THREE.VertexColors, color: new THREE.Color(0xffffff) });
  // A cone and a cylinder have a side, a top and a bottom, any of which may be left out.
  const has = ["side", "top", "bottom"].map((name) => field(node, name, true)), whole = has.every((part) => part);
  const parts = () => has.map((part) => (part ? look : Object.assign(look.clone(), { visible: false })));
  const key = JSON.stringify([node.kind, node.fields]);
  const mesh = new THREE.Mesh(geometryOf(node, key), whole ? look : parts());
  mesh.userData.solid = true;
  mesh.userData.box = node.kind === "Box";
  if (whole && look.emissive && !look.transparent && node.kind !== "IndexedFaceSet") {
    addToBatch(`${key} ${look.emissive.getHex()}`, mesh);
  }
  return mesh;
}

/* Draws a Shape once more: what it was drawn of goes, but geometries that others have too. */
function rebuild(thing, shape) {
  for (const mesh of [...thing.children]) {
    thing.remove(mesh);
    if (mesh.userData.batch) takeFromBatch(mesh);
    else if (mesh.geometry && !isShared(mesh.geometry)) mesh.geometry.dispose();
    for (const look of [mesh.material].flat().filter((each) => each)) {
      if (look.map) look.map.dispose();
      look.dispose();
    }
  }
  thing.add(meshOf(shape));
}

/* What is below a thing stands elsewhere, or is shown or not, from now on. */
function place(thing) {
  thing.updateMatrixWorld(true);
  thing.traverse((each) => { if (each.userData.batch) each.userData.batch.stale = true; });
}

const group = () => new THREE.Group();

/* What each kind of node is drawn by, at first (`make`) and whenever a field of it changed (`set`). */
const KINDS = {
  Transform: {
    make: group,
    set(thing, node) {
      const center = vector(node, "center"), size = new THREE.Vector3(...field(node, "scale", [1, 1, 1]));
      thing.scale.copy(size);
      thing.position.copy(vector(node, "translation")).add(center).sub(center.multiply(size));
    },
  },
  Group: { make: group, set() {} },
  Switch: {
    make: group,
    set(thing, node) { thing.children.forEach((kid, k) => { kid.visible = k === field(node, "whichChoice", -1); }); },
  },
  Shape: { make: group, set: rebuild },
  Viewpoint: { make: group, set(thing, node) { thing.position.copy(vector(node, "position")); } },
  Background: { make: group, set() {} },
  NavigationInfo: { make: group, set() {} },
  DirectionalLight: {
    make() {
      const light = new THREE.DirectionalLight();
      return group().add(light, light.target);
    },
    set(thing, node) {
      const light = thing.children[0];
      light.visible = field(node, "on", true);
      light.color = color(node, "color");
      light.intensity = 0.6 * field(node, "intensity", 1);
      light.position.copy(vector(node, "direction")).negate();
    },
  },
  PointLight: {
    make: () => group().add(new THREE.PointLight(),
      new THREE.Mesh(new THREE.SphereBufferGeometry(0.08, 16, 12), new THREE.MeshBasicMaterial())),
    set(thing, node) {
      const [light, bulb] = thing.children, on = field(node, "on", true);
      thing.position.copy(vector(node, "location"));
      light.visible = on;
      light.color = color(node, "color");
      light.intensity = 0.6 * field(node, "intensity", 1);
      light.distance = field(node, "radius", 100);
      bulb.material.color.set(on ? 0xffb726 : 0x777777);
    },
  },
};
const SEEN = ["Viewpoint", "Background", "NavigationInfo"];

function thingOf(number) {
  const node = state.nodes[number], kind = KINDS[node.kind];
  const thing = kind ? kind.make() : group();
  thing.userData.node = number;
  if (!kind) return thing;
  for (const child of listed(node, "children")) thing.add(thingOf(child));
  if (!drawn.things.has(number)) drawn.things.set(number, []);
  drawn.things.get(number).push(thing);
  if (node.kind === "Shape") uses(number, node);
  kind.set(thing, node);
  return thing;
}

/* Notes of each part of a Shape, its look and its geometry, that this Shape is drawn of it. */
function uses(shape, node) {
  // A Color has a field of that name too, of numbers.
  if (node.kind === "Color") return;
  for (const name of ["appearance", "material", "geometry", "coord", "color", "fontStyle"]) {
    for (const part of listed(node, name)) {
      if (!drawn.users.has(part)) drawn.users.set(part, new Set());
      drawn.users.get(part).add(shape);
      uses(shape, state.nodes[part]);
    }
  }
}

/* Brings what is drawn of the nodes that changed to their values. */
export function refresh() {
  for (const number of drawn.stale) {
    const node = state.nodes[number];
    for (const thing of drawn.things.get(number) || []) {
      KINDS[node.kind].set(thing, node);
      place(thing);
    }
    if (SEEN.includes(node.kind)) drawn.seen();
  }
  drawn.stale.clear();
  fillBatches();
}

/* A whole world, in place of what was shown. */
export function showScene(scene) {
  if (drawn.content) drawn.scene.remove(drawn.content);
  forgetBatches();
  forgetShapes();
  const labels = new Map(scene.nodes.map((node, k) => [node.label, k]));
  Object.assign(state, { n: scene.n, nodes: scene.nodes, roots: scene.roots, labels });
  for (const node of state.nodes) {
    for (const [name, text] of Object.entries(node.fields)) node.fields[name] = valueOf(text);
  }
  for (const [name, lane] of state.lanes) state.lanes.set(name, lane.filter((stop) => stop.number <= scene.n));
  for (const each of [drawn.things, drawn.users, drawn.stale]) each.clear();
  drawn.content = group();
  for (const root of scene.roots) drawn.content.add(thingOf(root));
  drawn.scene.add(drawn.content);
  place(drawn.content);
  drawn.seen();
  drawn.dirty = true;
}

/* A line of the trace goes to its lane. No field is set by it. */
function showLine(line) {
  const [, number, key, , , text] = LINE.exec(line), value = valueOf(text);
  if (!state.lanes.has(key)) state.lanes.set(key, []);
  const lane = state.lanes.get(key);
  lane.push({ number: Number(number), value, line });
  if (lane.length > STOPS) lane.shift();
}

/* What was set is drawn as it is now, and lines of the trace go to their lanes. */
export function showNews(news) {
  state.n = news.n;
  for (const line of linesOf(news.trace)) showLine(line);
  for (const [number, name, type, told] of news.now) {
    state.nodes[number].fields[name] = valueBy(type, told);
    for (const user of drawn.users.get(number) || [number]) if (KINDS[state.nodes[user].kind]) drawn.stale.add(user);
  }
}

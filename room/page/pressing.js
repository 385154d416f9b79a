/* What can be pressed, and what it is called: for a hand, a tooltip and hints. What a press does is the world's alone. */
import { isShown } from "./batches.js";
import { spotOf } from "./camera.js";
import { byId, element, field, listed, state } from "./core.js";
import { drawn, refresh } from "./scene.js";

const SENSORS = ["TouchSensor", "PlaneSensor"];
const enabled = (number) => SENSORS.includes(state.nodes[number].kind) && field(state.nodes[number], "enabled", true);

/* The sensors of a Box: those that are enabled in the lowest list of siblings above it that has one, a Switch's children
   apart. */
function sensorsOf(object) {
  for (let at = object; at && at !== drawn.scene; at = at.parent) {
    const above = at.userData.node === undefined && at !== drawn.content ? null : at;
    if (!above) continue;
    const node = state.nodes[above.userData.node];
    if (node && node.kind === "Switch") continue;
    const found = (above === drawn.content ? state.roots : listed(node, "children")).filter(enabled);
    if (found.length) return found;
  }
  return [];
}

/* The sensors that a ray concerns: those of the first Box that it meets. */
export function sensorsAt(ray) {
  if (!drawn.content) return [];
  refresh();
  const hit = new THREE.Raycaster(ray.origin, ray.direction).intersectObject(drawn.content, true)
    .find((item) => item.object.userData.box);
  return hit ? sensorsOf(hit.object) : [];
}

/* What sensors are called. One with neither a description nor a name of its own isn't spoken of. */
export const namesOf = (sensors) => [...new Set(sensors.map((number) => {
  const { label } = state.nodes[number];
  return field(state.nodes[number], "description", "") || (/^N\d+$/.test(label) ? "" : label);
}))].filter((name) => name).join(", ");

/* Shows what is below the pointer. */
export function showTip(sensors, x, y) {
  const tip = byId("tip"), told = namesOf(sensors);
  tip.hidden = !told;
  if (!told) return;
  tip.textContent = told;
  const right = x > innerWidth - 180;
  Object.assign(tip.style, { left: right ? "" : `${x + 18}px`, right: right ? `${innerWidth - x + 12}px` : "",
    top: `${y + 18}px` });
}

/* A ring that goes out where something was pressed. */
export function ring(x, y, hit) {
  const made = element("div", hit ? "ring hit" : "ring");
  Object.assign(made.style, { left: `${x}px`, top: `${y}px` });
  byId("over").append(made);
  setTimeout(() => made.remove(), 500);
}

const hints = { made: new Map(), over: true, content: null, looked: 0, due: null, boxes: new Map() };
/* What can be pressed is looked for so often at most, in milliseconds: a scene may have many boxes. */
const LOOK = 500;

/* From now on each thing that can be pressed has a mark, until one is pressed. */
export function hint() {
  hints.over = false;
  drawn.dirty = true;
}

export function endHints() {
  hints.over = true;
  byId("first").hidden = true;
  for (const made of hints.made.values()) made.remove();
  hints.made.clear();
}

/* Notes of each sensor that has a name the first box that is shown. */
function lookForBoxes() {
  Object.assign(hints, { content: drawn.content, looked: performance.now(), boxes: new Map() });
  drawn.content.traverse((object) => {
    if (!object.userData.box || !isShown(object)) return;
    const [sensor] = sensorsOf(object);
    if (sensor !== undefined && !hints.boxes.has(sensor) && namesOf([sensor])) hints.boxes.set(sensor, object);
  });
}

/* Puts the marks of hints where things are seen. */
export function placeHints(box) {
  if (hints.over) return;
  if (hints.content !== drawn.content || performance.now() - hints.looked >= LOOK) lookForBoxes();
  else {
    clearTimeout(hints.due);
    hints.due = setTimeout(() => { drawn.dirty = true; }, LOOK);
  }
  for (const [sensor, made] of hints.made) {
    if (!hints.boxes.has(sensor)) { made.remove(); hints.made.delete(sensor); }
  }
  for (const [sensor, object] of hints.boxes) {
    if (!hints.made.has(sensor)) {
      hints.made.set(sensor, element("div", "hint"));
      byId("over").append(hints.made.get(sensor));
    }
    const { x, y } = spotOf(new THREE.Vector3().setFromMatrixPosition(object.matrixWorld), box);
    hints.made.get(sensor).style.transform = `translate(${x}px, ${y}px)`;
  }
  byId("first").hidden = !hints.boxes.size;
}

/* Where others point: an arrow whose tip is at the place, and the name beside it. */
import { spotOf } from "./camera.js";
import { byId, element, personOf, state } from "./core.js";
import { on } from "./link.js";
import { drawn } from "./scene.js";
import { stage } from "./stage.js";

const ARROW = "M1 1 L1 15 L5 11.5 L8 18 L10.5 17 L7.6 10.6 L13 10.4 Z";
/* Of each viewer its last pointer, which isn't placed yet; where it is in the world; its tag; and when that fades, since it
   doesn't move. */
const moved = new Map(), places = new Map(), tags = new Map(), fades = new Map();
const STILL = 10000;

export function showPoints(points) {
  for (const [who, down, ray] of points) {
    if (who === state.who && !state.replay) continue;
    moved.set(who, [down, ray]);
    if (tags.has(who)) tags.get(who).classList.remove("still");
    clearTimeout(fades.get(who));
    fades.set(who, setTimeout(() => tags.has(who) && tags.get(who).classList.add("still"), STILL));
  }
  if (moved.size) drawn.dirty = true;
}

export function forgetPoints() {
  moved.clear();
  places.clear();
}

/* Where a ray meets what is drawn, or else some way off. */
function placeOf(ray) {
  const origin = new THREE.Vector3(...ray.slice(0, 3)).divideScalar(1e6);
  const way = new THREE.Vector3(...ray.slice(3)).normalize();
  const hit = new THREE.Raycaster(origin, way).intersectObject(drawn.content, true)
    .find((item) => item.object.userData.solid);
  return hit ? hit.point : origin.addScaledVector(way, 8);
}

function tagOf(who) {
  const made = element("div", "tag");
  made.innerHTML = `<svg width="16" height="20" aria-hidden="true"><path d="${ARROW}" stroke="#fff"/></svg>`;
  made.append(element("span", ""));
  byId("over").append(made);
  tags.set(who, made);
  return made;
}

/* Puts each tag where its place is seen. Whose viewer doesn't run, or who isn't here, has none. */
export function placeTags(box) {
  for (const [who, [down, ray]] of moved) places.set(who, [down, placeOf(ray)]);
  moved.clear();
  const runs = (who) => state.replay || !state.status || state.status.viewers.some((each) => each.who === who && each.runs);
  for (const [who, tag] of tags) if (!places.has(who)) { tag.remove(); tags.delete(who); }
  for (const [who, [down, place]] of places) {
    const person = personOf(who), tag = tags.get(who) || tagOf(who), { x, y, seen } = spotOf(place, box);
    tag.hidden = !seen || !(state.replay || (person && person.here && runs(who)));
    if (tag.hidden) continue;
    const { color = "#555", name = `Viewer ${who}` } = person || {};
    tag.classList.toggle("down", Boolean(down));
    tag.style.transform = `translate(${Math.round(x)}px, ${Math.round(y)}px)`;
    tag.firstChild.firstChild.setAttribute("fill", color);
    tag.lastChild.textContent = name;
    tag.lastChild.style.background = color;
  }
}

/* Whose viewer runs from now on is seen, though nothing else changes. */
let running = "";
on("status", ({ viewers }) => {
  const now = viewers.filter(({ runs }) => runs).map(({ who }) => who).join();
  if (now !== running) drawn.dirty = true;
  running = now;
});

export const pointsAt = (who) => (places.has(who) ? places.get(who)[1].toArray() : null);
stage.before.push(() => placeTags(stage.view.getBoundingClientRect()));

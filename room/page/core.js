/* What all parts of the page share: what is known of the room, and how values are read. */

export const byId = (id) => document.getElementById(id);
export const within = (value, least, most) => Math.max(least, Math.min(most, value));
export const pause = (time) => new Promise((resolve) => { setTimeout(resolve, time); });

/* `who` is the number of this window's viewer, or null where it only watches; `lanes` are the last lines of the trace, by
   output; `people` is who is here; `partly` is whether the file isn't read whole; `place` is where other
   machines reach the room, if they do. */
export const state = {
  id: null, who: null, token: null, trainer: false, n: 0, status: null, nodes: [], roots: [], labels: new Map(),
  lanes: new Map(), people: [], orientations: [], replay: null, run: 1,
  partly: false, place: null,
};

export function write(place, text) {
  if (place.textContent !== text) place.textContent = text;
}

/* An element with a class and a text. */
export function element(kind, name, text = "") {
  const made = document.createElement(kind);
  if (name) made.className = name;
  if (text) made.textContent = text;
  return made;
}

/* What a field holds comes as its text, as `0 1.5 0`, or as a list of nodes. */
export function valueOf(text) {
  if (text === null || Array.isArray(text)) return text;
  if (text === "TRUE" || text === "FALSE") return text === "TRUE";
  const list = text[0] === "[", inside = list ? text.slice(1, -1) : text;
  const strings = inside.match(/"(?:[^"\\]|\\.)*"/gs);
  const items = strings ? strings.map((word) => word.slice(1, -1).replace(/\\(.)/gs, "$1"))
    : inside.split(/\s+/).filter((word) => word).map(Number);
  return list || items.length !== 1 ? items : items[0];
}

/* What a field holds that was set: numbers by its type, in millionths and microseconds, or the text of strings. */
export function valueBy(type, told) {
  const kind = type.slice(2);
  if (kind === "String") return valueOf(told);
  const part = kind === "Bool" ? Boolean : ["Int32", "Node"].includes(kind) ? Number : (number) => number / 1e6;
  const items = told.map(part);
  return type[0] === "S" && items.length === 1 && kind !== "Node" ? items[0] : items;
}

export function field(node, name, otherwise) {
  const value = node && node.fields[name];
  return value === null || value === undefined ? otherwise : value;
}

export function listed(node, name) {
  const value = field(node, name, []);
  return Array.isArray(value) ? value : [value];
}

export const nodeIn = (node, name) => state.nodes[listed(node, name)[0]];
export const vector = (node, name) => new THREE.Vector3(...field(node, name, [0, 0, 0]));
export const color = (node, name) => new THREE.Color(...field(node, name, [0, 0, 0]));

/* Who has a viewer of this number, as others see it. */
export const personOf = (who) => state.people.find((person) => person.who === who);

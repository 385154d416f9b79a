/* Who is here: names and colors, raised hands, what was done, and the link by which others come in. */
import { byId, element, personOf, state, write } from "./core.js";
import { ask, happen, memory, on } from "./link.js";
import { drawn } from "./scene.js";

const SAID = 5000, LOG = 400;
let colors = [];

const me = () => state.people.find((person) => person.id === state.id);

on("you", (you) => {
  Object.assign(state, {
    id: you.id, who: you.who, token: you.token, trainer: you.trainer, orientations: you.orientations, run: you.run,
    place: you.place,
  });
  memory.token = you.token;
  colors = you.colors;
  write(byId("title"), you.room.replace(/[-_]/g, " "));
  document.title = `${you.room}: a shared room`;
  document.body.classList.toggle("trainer", you.trainer);
  byId("your-name").value = you.name;
  showColors(you.color);
  // Who comes by the name that was wished for isn't asked for one.
  if (memory.named || memory.name === you.name) byId("naming").hidden = true;
  else if (!byId("naming").hidden && !matchMedia("(pointer: coarse)").matches) byId("your-name").focus();
  if (memory.trainer && !you.trainer) say({ name: "", text: "You are the trainer no longer: the server prints the trainer's link anew." });
});

on("people", ({ people }) => {
  state.people = people;
  drawn.dirty = true;
  const order = [...people].sort((one, other) => (other.id === state.id) - (one.id === state.id) || one.id - other.id);
  byId("people").replaceChildren(...order.map(chipOf));
  const mine = me();
  byId("hand").setAttribute("aria-pressed", String(Boolean(mine && mine.hand)));
  write(byId("hand"), mine && mine.hand ? "Lower hand" : "Raise hand");
  document.body.classList.toggle("alone", people.length === 1);
  happen("drawn people", {});
});

function chipOf(person) {
  const chip = element("li", "chip"), dot = element("span", "dot");
  dot.style.background = person.color;
  chip.append(dot, element("span", "", person.name + (person.id === state.id ? " (you)" : "")));
  if (person.trainer) chip.append(element("small", "", "trainer"));
  if (person.who === null) chip.append(element("small", "", "watches"));
  if (person.hand) chip.append(element("small", "hand", "hand up"));
  chip.classList.toggle("away", !person.here);
  return chip;
}

/* The name and the color of this window's person. */

function showColors(chosen) {
  byId("colors").replaceChildren(...colors.map((color, k) => {
    const label = element("label"), input = element("input");
    Object.assign(input, { type: "radio", name: "color", value: color, checked: color === chosen });
    input.setAttribute("aria-label", `color ${k + 1}`);
    label.style.background = color;
    label.append(input);
    return label;
  }));
}

async function setName(event) {
  event.preventDefault();
  const name = byId("your-name").value, chosen = document.querySelector("#colors input:checked");
  byId("naming").hidden = true;
  byId("view").focus({ preventScroll: true });
  const answer = await ask("name", { name, color: chosen ? chosen.value : undefined });
  if (answer.status !== 200) return;
  memory.name = answer.name;
  memory.color = answer.color;
}

/* What was done, in words: the last of it is shown for a moment over the picture. */

on("log", ({ log, whole }) => {
  const list = byId("log"), atEnd = list.scrollHeight - list.scrollTop - list.clientHeight < 30;
  if (whole) list.replaceChildren();
  for (const entry of log) list.append(lineOf(entry));
  while (list.children.length > LOG) list.firstChild.remove();
  if (atEnd || whole) list.scrollTop = list.scrollHeight;
  if (!whole && log.length) say(log[log.length - 1]);
});

export const momentOf = (at) => new Date(1000 * at).toLocaleTimeString([], { hour12: false });

function lineOf(entry) {
  const line = element("li"), name = element("b", "", entry.name);
  name.style.borderColor = entry.color || "transparent";
  line.append(element("time", "", momentOf(entry.at)), name, ` ${entry.text}`);
  return line;
}

on("passed", say);

let quiet = null;
function say(entry) {
  const said = byId("said"), name = element("b", "", entry.name);
  name.style.color = entry.color;
  said.replaceChildren(...(entry.name ? [name, ` ${entry.text}`] : [entry.text]));
  said.hidden = false;
  clearTimeout(quiet);
  quiet = setTimeout(() => { said.hidden = true; }, SAID);
}

/* The link. */

function invite() {
  const dialog = byId("invite"), own = new URL(location.pathname, location.href).href;
  // At an address of this computer alone the server says by which one others reach it, if they do.
  const local = /^(localhost|127\..*|\[::1\])$/.test(location.hostname), here = local && !state.place;
  byId("link").value = local && state.place ? state.place : own;
  const code = byId("code");
  write(byId("copy"), "Copy");
  byId("only-here").hidden = !here;
  byId("second").href = own;
  // A phone has no use for an address of this computer alone.
  code.hidden = here;
  code.onerror = () => { code.hidden = true; };
  if (!here) code.src = "link.svg";
  dialog.showModal();
  byId("link").select();
}

async function copy() {
  byId("link").select();
  try { await navigator.clipboard.writeText(byId("link").value); } catch (error) { document.execCommand("copy"); }
  write(byId("copy"), "Copied");
}

export function beginPeople() {
  byId("naming").addEventListener("submit", setName);
  byId("your-name").addEventListener("focus", () => byId("your-name").select());
  byId("rename").addEventListener("click", () => {
    const card = byId("naming");
    card.hidden = !card.hidden;
    if (!card.hidden) byId("your-name").focus();
  });
  byId("hand").addEventListener("click", () => ask("hand", { up: !(me() && me().hand) }));
  byId("share").addEventListener("click", invite);
  byId("copy").addEventListener("click", copy);
  for (const id of ["shut", "second"]) byId(id).addEventListener("click", () => byId("invite").close());
}

export const nameOf = (who) => (personOf(who) || { name: `Viewer ${who}` }).name;

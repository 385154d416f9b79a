/* What happens inside: the viewers in a table, and, for the trainer, the network between them. */
import { byId, element, personOf, state, write } from "./core.js";
import { ask, on } from "./link.js";
import { drawLanes } from "./lanes.js";
import { nameOf } from "./people.js";

const SHARES = ["loss", "repeat", "reorder"];

/* A row of the table. Rows stay, and what differs in them is written. */
function rowOf(viewer) {
  const row = element("tr"), name = element("th"), dot = element("span", "dot");
  name.scope = "row";
  name.append(dot, element("span"));
  row.append(name, ...[0, 1, 2, 3].map(() => element("td")), buttonCell(viewer.who));
  row.dataset.who = viewer.who;
  return row;
}

/* The trainer stops a viewer here, and starts it again. */
function buttonCell(who) {
  const cell = element("td", "trainers"), button = element("button", "kill");
  button.type = "button";
  button.addEventListener("click", () => ask(button.dataset.does, { who }));
  cell.append(button);
  return cell;
}

function showViewers(viewers) {
  const table = byId("viewers"), known = [...table.children].map((row) => Number(row.dataset.who));
  if (String(known) !== String(viewers.map((viewer) => viewer.who))) table.replaceChildren(...viewers.map(rowOf));
  viewers.forEach(({ who, runs, n, waiting, lost, digest, at }, k) => {
    const row = table.children[k], button = row.querySelector("button"), [dot, name] = row.firstChild.children;
    dot.style.background = (personOf(who) || {}).color || "#888";
    write(name, `${nameOf(who)}${who === state.who ? " (you)" : ""}`);
    const told = runs ? [n, waiting, lost, `${digest} at ${at}`] : ["stopped", "", lost, ""];
    told.forEach((each, column) => write(row.children[column + 1], String(each)));
    button.dataset.does = runs ? "kill" : "start";
    write(button, runs ? "Stop viewer" : "Start viewer");
    button.title = runs ? "Ends this viewer, as a crash would; its person stays" : "";
  });
}

on("status", (status) => {
  if (status.replay) return;
  showViewers(status.viewers);
  write(byId("made"), `${status.numbered} inputs numbered in run ${status.run}. Digests are compared at the same input.`);
  showShares(status.channel);
});

function showShares(channel) {
  for (const name of SHARES) {
    const slider = byId(name);
    // What this window is about to say isn't written over by what was.
    if (!sliders.changed.has(name) && !sliders.busy) slider.value = Math.round(100 * channel[name]);
    write(slider.nextElementSibling, `${slider.value} %`);
  }
}

/* One slider's value is sent at a time, the latest, and the next once the answer is there. */
const sliders = { changed: new Map(), busy: false };

async function sendShares() {
  if (sliders.busy) return;
  sliders.busy = true;
  while (sliders.changed.size) {
    const [[name, share]] = sliders.changed;
    sliders.changed.delete(name);
    const { status } = await ask("channel", { [name]: share });
    if (status === 429 && !sliders.changed.has(name)) sliders.changed.set(name, share);
    if (status === 429) await new Promise((resolve) => { setTimeout(resolve, 200); });
  }
  sliders.busy = false;
}

export function beginInside() {
  for (const name of SHARES) {
    byId(name).addEventListener("input", () => {
      sliders.changed.set(name, Number(byId(name).value) / 100);
      write(byId(name).nextElementSibling, `${byId(name).value} %`);
      sendShares();
    });
  }
  byId("reset").addEventListener("click", () => byId("again").showModal());
  for (const id of ["sure", "not"]) byId(id).addEventListener("click", () => byId("again").close());
  byId("sure").addEventListener("click", () => ask("reset", {}));
  byId("good").addEventListener("click", () => {
    for (const name of SHARES) Object.assign(byId(name), { value: 0 }).dispatchEvent(new Event("input"));
  });
  byId("inside").addEventListener("toggle", drawLanes);
}

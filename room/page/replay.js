/* What happened: a slider over time with marks where people pressed, played at a speed, from any input on. */
import { byId, element, state, write } from "./core.js";
import { ask, download, happen, on } from "./link.js";
import { forgetPoints } from "./tags.js";

const marks = { log: [], of: 0 };

const clock = (seconds) => `${Math.floor(seconds / 60)}:${String(Math.floor(seconds % 60)).padStart(2, "0")}`;

on("log", ({ log, whole }) => {
  marks.log = [...(whole ? [] : marks.log), ...log];
  marks.of = 0;
  if (state.replay) showMarks(state.replay.of);
});
on("replay", show);
on("run", leave);
// Where the room is a run that is over there is no now to go back to.
on("status", (status) => { byId("now").hidden = Boolean(status.replay); });
on("you", leave);

function show(replay) {
  // Where others point now is no part of it; whose mark is passed is said.
  if (!state.replay) forgetPoints();
  else if (replay.playing) tellPassed(state.replay.n, replay.n);
  state.replay = replay;
  byId("past").setAttribute("aria-pressed", "true");
  byId("replay").hidden = false;
  document.body.classList.add("replays");
  const bar = byId("time");
  bar.max = replay.of;
  if (!seeking.wanted) bar.value = replay.n;
  write(byId("at"), `${clock(replay.seconds)} of ${clock(replay.whole)}, input ${replay.n}`);
  write(byId("play"), replay.playing ? "Pause" : "Play");
  if (replay.of !== marks.of) showMarks(replay.of);
}

function leave() {
  state.replay = null;
  byId("past").setAttribute("aria-pressed", "false");
  byId("replay").hidden = true;
  document.body.classList.remove("replays");
  forgetPoints();
  happen("live", {});
}

function tellPassed(from, to) {
  for (const entry of marks.log.filter(({ n }) => n > from && n <= to).slice(-1)) happen("passed", entry);
}

/* A mark for each thing that someone did, in the color of who did it. */
function showMarks(of) {
  marks.of = of;
  byId("marks").replaceChildren(...marks.log.filter((entry) => entry.color && entry.n <= of).map((entry) => {
    const mark = element("i");
    mark.style.left = `${100 * entry.n / Math.max(1, of)}%`;
    mark.style.background = entry.color;
    mark.title = `${entry.name} ${entry.text}`;
    return mark;
  }));
}

/* The slider asks for one input at a time: the last that it was at. */
const seeking = { wanted: null, busy: false };

async function seek() {
  if (seeking.busy) return;
  seeking.busy = true;
  while (seeking.wanted !== null) {
    const n = seeking.wanted;
    const answer = await ask("replay", { n, playing: false, speed: speed() });
    if (answer.status === 429) await new Promise((resolve) => { setTimeout(resolve, 100); });
    else if (seeking.wanted === n) seeking.wanted = null;
    if (answer.status === 200) show(answer);
  }
  seeking.busy = false;
}

const speed = () => Number(byId("speed").value);

async function play(playing) {
  const answer = await ask("replay", { playing, speed: speed() });
  if (answer.status === 200) show(answer);
}

async function toggle() {
  if (state.replay) {
    const answer = await ask("replay", { on: false });
    if (answer.status === 200) leave();
    return;
  }
  const answer = await ask("replay", { n: 0 });
  if (answer.status === 200) show(answer);
}

async function keep(kind) {
  const blob = await download(kind);
  if (!blob) return;
  const link = element("a");
  Object.assign(link, { href: URL.createObjectURL(blob), download: `${byId("title").textContent}.${kind}` });
  link.click();
  happen("passed", { name: "", text: `${link.download} is saved` });
  setTimeout(() => URL.revokeObjectURL(link.href), 10000);
}

export function beginReplay() {
  byId("time").addEventListener("input", () => {
    seeking.wanted = Number(byId("time").value);
    seek();
  });
  byId("play").addEventListener("click", () => play(!(state.replay && state.replay.playing)));
  byId("speed").addEventListener("change", () => play(Boolean(state.replay && state.replay.playing)));
  for (const name of ["past", "now"]) byId(name).addEventListener("click", toggle);
  for (const kind of ["job", "x3dlog"]) byId(kind).addEventListener("click", () => keep(kind));
}

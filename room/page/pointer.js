/* The pointer, of a mouse, a finger or the keyboard. What it does on a thing that can be pressed is offered to the world:
   a move so often at most, a press at once. Elsewhere it moves the camera. */
import { choose, orbit, pan, rayAt, viewpoints, zoom } from "./camera.js";
import { byId, pause, state, within } from "./core.js";
import { ask, memory } from "./link.js";
import { offerOwn } from "./own.js";
import { endHints, namesOf, ring, sensorsAt, showTip } from "./pressing.js";
import { drawn } from "./scene.js";
import { fit, stage } from "./stage.js";

const PACE = 90, STEPS = { ArrowLeft: [-1, 0], ArrowRight: [1, 0], ArrowUp: [0, 1], ArrowDown: [0, -1] };
const TURNS = { a: [-1, 0], d: [1, 0], w: [0, 1], s: [0, -1] };
const { view } = stage;
export const pointer = {
  x: 0, y: 0, down: false, sent: 0, due: null, waits: [], busy: false, answers: {},
  // What a drag does: "press", "orbit", "pan" or "pinch"; and the fingers that are down, by their ids.
  mode: null, fingers: new Map(),
};

function aim() {
  fit();
  const { origin, direction } = rayAt(pointer.x, pointer.y);
  const whole = (vector) => vector.toArray().map((part) => Math.round(part * 1e6));
  return [...whole(origin), ...whole(direction)];
}

/* Offers go one after the other, so that a press comes before its end. Of moves the last alone waits. */
async function offer(moves) {
  const { waits } = pointer, last = waits[waits.length - 1];
  if (!drawn.content || state.who === null || state.replay) return;
  if (moves && last && last.moves) waits.pop();
  waits.push({ moves, body: { down: pointer.down, aim: aim() } });
  if (pointer.busy) return;
  pointer.busy = true;
  while (waits.length) {
    const first = waits.shift();
    const status = memory.holds ? offerOwn(first.body) : (await ask("point", first.body)).status;
    pointer.answers[status] = (pointer.answers[status] || 0) + 1;
    if (status === 429) {
      waits.unshift(first);
      await pause(200);
    } else if (status === 0) waits.length = 0;
  }
  pointer.busy = false;
}

function moved() {
  if (pointer.due !== null) return;
  pointer.due = setTimeout(() => {
    Object.assign(pointer, { due: null, sent: Date.now() });
    offer(true);
  }, Math.max(0, pointer.sent + PACE - Date.now()));
}

const below = () => sensorsAt(rayAt(pointer.x, pointer.y));

function press(down) {
  if (pointer.down === down) return;
  pointer.down = down;
  offer(false);
}

/* A press begins with the button up, even where the end of another one never came here. */
function begin(x, y) {
  press(false);
  offer(false);
  press(true);
  ring(x, y, true);
  endHints();
}

/* A press ends, and what the pointer is over without the button learns of it. */
function end() {
  press(false);
  offer(false);
}

function follow(event) {
  const box = view.getBoundingClientRect();
  pointer.x = 2 * (event.clientX - box.left) / box.width - 1;
  pointer.y = 1 - 2 * (event.clientY - box.top) / box.height;
}

function hover(event) {
  const sensors = event.pointerType === "touch" || state.who === null || state.replay ? [] : below();
  view.style.cursor = namesOf(sensors) ? "pointer" : "";
  showTip(sensors, event.clientX, event.clientY);
}

function modeOf(event) {
  if (event.button === 1 || event.button === 2 || event.shiftKey) return "pan";
  if (event.button !== 0) return null;
  return state.who !== null && !state.replay && below().length ? "press" : "orbit";
}

view.addEventListener("pointerdown", (event) => {
  document.body.classList.remove("keys");
  pointer.fingers.set(event.pointerId, { x: event.clientX, y: event.clientY });
  if (pointer.fingers.size === 2 && pointer.mode !== "press") pointer.mode = "pinch";
  if (pointer.fingers.size > 1) return;
  follow(event);
  view.focus({ preventScroll: true });
  if (event.isTrusted) view.setPointerCapture(event.pointerId);
  pointer.mode = modeOf(event);
  showTip([]);
  if (pointer.mode === "press") begin(event.clientX, event.clientY);
  else if (event.button === 0) ring(event.clientX, event.clientY, false);
});

view.addEventListener("pointermove", (event) => {
  const { mode, fingers } = pointer, last = fingers.get(event.pointerId);
  if (mode === "pinch") return pinch(event);
  const across = last ? (event.clientX - last.x) / view.clientHeight : 0;
  const up = last ? (event.clientY - last.y) / view.clientHeight : 0;
  if (last) fingers.set(event.pointerId, { x: event.clientX, y: event.clientY });
  if (mode === "orbit") orbit(across / 2, up / 1.5);
  else if (mode === "pan") pan(across, up);
  else {
    follow(event);
    moved();
    if (!mode) hover(event);
  }
});

/* Two fingers: how far they are apart zooms, and both together move. */
function pinch(event) {
  const two = () => [...pointer.fingers.values()], apart = ([a, b]) => Math.hypot(a.x - b.x, a.y - b.y) || 1;
  const middle = ([a, b]) => [(a.x + b.x) / 2, (a.y + b.y) / 2];
  const before = two();
  pointer.fingers.set(event.pointerId, { x: event.clientX, y: event.clientY });
  const now = two();
  if (before.length < 2) return;
  zoom(apart(before) / apart(now));
  const [[x, y], [oldX, oldY]] = [middle(now), middle(before)];
  pan((x - oldX) / view.clientHeight, (y - oldY) / view.clientHeight);
}

function lifted(event) {
  pointer.fingers.delete(event.pointerId);
  if (pointer.mode === "press" && event.type === "pointerup" && !pointer.fingers.size) {
    follow(event);
    end();
  } else if (pointer.mode === "press") press(false);
  if (!pointer.fingers.size) pointer.mode = null;
}
view.addEventListener("pointerup", lifted);
view.addEventListener("pointercancel", lifted);
view.addEventListener("pointerleave", () => showTip([]));
view.addEventListener("contextmenu", (event) => event.preventDefault());
view.addEventListener("blur", () => press(false));
view.addEventListener("wheel", (event) => {
  event.preventDefault();
  zoom(Math.exp(within(event.deltaY, -200, 200) / 500));
}, { passive: false });

/* The keyboard: its pointer is shown once a key has moved it. */

function showAim() {
  document.body.classList.add("keys");
  const [wide, high] = stage.size;
  Object.assign(byId("aim").style, { left: `${(1 + pointer.x) / 2 * wide}px`, top: `${(1 - pointer.y) / 2 * high}px` });
  const sensors = below();
  showTip(sensors, (1 + pointer.x) / 2 * wide, (1 - pointer.y) / 2 * high);
}

function step([across, up], size) {
  pointer.x = within(pointer.x + across * size, -1, 1);
  pointer.y = within(pointer.y + up * size, -1, 1);
  showAim();
  moved();
}

function turn([across, up], moves) {
  if (moves) pan(-across / 20, up / 20);
  else orbit(-across / 48, up / 36);
}

view.addEventListener("keydown", (event) => {
  const key = event.key.length === 1 ? event.key.toLowerCase() : event.key;
  if (event.ctrlKey || event.metaKey || event.altKey) return;
  if (STEPS[key]) step(STEPS[key], event.shiftKey ? 0.01 : 0.05);
  else if (TURNS[key]) turn(TURNS[key], event.shiftKey);
  else if (key === "+" || key === "-") zoom(key === "+" ? 0.9 : 1.1);
  else if (key === "Home") choose(0);
  else if (/^[1-9]$/.test(key) && viewpoints().length >= Number(key)) choose(Number(key) - 1);
  else if (key === " ") {
    showAim();
    if (!event.repeat) begin((1 + pointer.x) / 2 * stage.size[0], (1 - pointer.y) / 2 * stage.size[1]);
  } else return;
  event.preventDefault();
});
view.addEventListener("keyup", (event) => { if (event.key === " ") end(); });

/* The trace as it comes, one lane an output. `marks` are those that are drawn, by lane; `chosen` is which one the keyboard
   is at. */
import { byId, state, within, write } from "./core.js";

const COLORS = ["#4aa3e8", "#e8933f", "#3fbf9a", "#c884c3", "#b5b54a", "#e0677c", "#8ea4e0", "#d0a050"];
const LANE = 18, STRIP = 222, SPAN = 90, LEFT = 190;
const STEPS = { ArrowLeft: [-1, 0], ArrowRight: [1, 0], ArrowUp: [0, 1], ArrowDown: [0, -1] };
const chosen = { lane: 0, back: 0 };
export let marks = [];

const heightOf = (value) => [value].flat().reduce((sum, part) => sum + Math.abs(Number(part)), 0);

/* As many lanes as the strip shows are drawn; it scrolls over all. */
export function drawLanes() {
  const canvas = byId("lanes"), names = [...state.lanes.keys()], all = LANE * Math.max(3, names.length) + 6;
  const wide = canvas.clientWidth, high = Math.min(all, STRIP), top = byId("strip").scrollTop;
  if (!wide) return;
  canvas.style.height = `${high}px`;
  byId("rest").style.height = `${all - high}px`;
  if (canvas.width !== wide || canvas.height !== high) Object.assign(canvas, { width: wide, height: high });
  const draw = canvas.getContext("2d");
  draw.clearRect(0, 0, wide, high);
  draw.font = '12px "DejaVu Sans", Verdana, sans-serif';
  marks = [];
  for (let k = Math.floor(top / LANE); k < names.length && LANE * k < top + high; k++) {
    marks[k] = drawLane(draw, names[k], COLORS[k % COLORS.length], LANE * (k + 1) - top, wide - 10);
  }
  const at = markAt();
  draw.strokeStyle = "#fff";
  if (at && document.activeElement === canvas) draw.strokeRect(at.x - 4.5, at.y - 4.5, 9, 9);
}

/* Draws a lane on its line, and answers its marks. */
function drawLane(draw, name, ink, low, right) {
  const recent = state.lanes.get(name).filter((stop) => stop.number > state.n - SPAN);
  draw.fillStyle = "#e8edf2";
  draw.fillText(name, 6, low - 4, LEFT - 14);
  draw.fillStyle = "#46525f";
  draw.fillRect(LEFT, low, right - LEFT, 1);
  const sizes = recent.map((stop) => heightOf(stop.value)), least = Math.min(...sizes);
  const range = Math.max(...sizes) - least;
  draw.fillStyle = ink;
  return recent.map((stop, place) => {
    const up = Number.isFinite(sizes[place]) && range > 0 ? (sizes[place] - least) / range : 0.4;
    const x = right - (right - LEFT) * (state.n - stop.number) / SPAN, y = low - 3 - up * (LANE - 8);
    draw.fillRect(x - 2, y - 2, 4, 4);
    return { x, y, line: stop.line };
  });
}

function markAt() {
  const lane = marks[chosen.lane] || [];
  return lane[lane.length - 1 - chosen.back];
}

function near(event) {
  const far = (mark) => Math.hypot(mark.x - event.offsetX, mark.y - event.offsetY);
  const best = marks.flat().reduce((one, mark) => (!one || far(mark) < far(one) ? mark : one), null);
  if (best && far(best) < 14) write(byId("line"), best.line);
}

function step(event) {
  const way = STEPS[event.key], names = [...state.lanes.keys()];
  if (!way) return;
  event.preventDefault();
  chosen.lane = within(chosen.lane - way[1], 0, Math.max(0, names.length - 1));
  byId("strip").scrollTop = LANE * (chosen.lane - 5);
  drawLanes();
  chosen.back = within(chosen.back - way[0], 0, Math.max(0, (marks[chosen.lane] || []).length - 1));
  drawLanes();
  const at = markAt();
  write(byId("line"), at ? at.line : `${names[chosen.lane] || "No output"} has sent nothing lately.`);
}

export function beginLanes() {
  byId("lanes").addEventListener("mousemove", near);
  byId("lanes").addEventListener("keydown", step);
  byId("strip").addEventListener("scroll", drawLanes);
  setInterval(() => { if (byId("inside").open) drawLanes(); }, 250);
}

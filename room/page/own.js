/* This window's own viewer, where the server has the library as WebAssembly: it speaks datagrams with the host, which
   is in the server, and the page draws its world. Else the viewer runs in the server, and nothing here is done. */
import { byId, state, within, write } from "./core.js";
import { digestOf } from "./digest.js";
import { ask, happen, memory, on, sendDatagram } from "./link.js";
import { Names } from "./names.js";

/* A turn of the viewer, in milliseconds; how often it asks in one at most; how many offers it sends. */
const TURN = 33, ASKS = 4, OFFERS = 8;
/* It asks again once something came, or else, as if that was lost, after that many times as long as an answer took lately; within
   these milliseconds. So a slow network, or a slow window, isn't sent what it can't take. */
const PATIENCE = 3, LEAST = 70, MOST = 1000;
/* A host answers an ask with at most this many inputs. */
const ANSWER = 64;
/* What a window that was hidden lacks is shown at once, if it is more inputs than this. A viewer that is saved keeps the
   lines of its trace of as many inputs, as seat.py has it: the digest of a world has its trace. */
const LATE = 300;
/* The tag of a datagram, and the tags of a piece (crates/share_wire). */
const TAG = 5, PIECES = [6, 12];

export const own = {
  // The package, the library that it loaded, why it didn't, and the viewer.
  x3d: null, library: null, failed: "", viewer: null, names: null,
  // The room's life, this viewer's number and boot; its snapshot at the last number at which worlds are compared.
  life: null, who: null, boot: 0, text: "", saved: null,
  // Numbers at which worlds will be compared; the one at which this one was, and its digest.
  marks: [], at: 0, digest: null,
  // What the page was told of; pointers that it wasn't; whether pieces of a snapshot are gathered.
  told: null, points: [], behind: false, whole: false, joining: false,
  // Asks of this turn; what the last was for, and when; whether something came since; how long that takes.
  asks: 0, asked: 0, askedAt: 0, heard: true, round: TURN, stands: "",
};

/* Loads the library, if the server has it. */
export async function loadOwn() {
  const folder = document.body.dataset.library;
  if (!folder) return;
  try {
    own.x3d = own.x3d || await import(`./${folder}/index.js`);
    own.library = await own.x3d.load(fetch(new URL(`${folder}/x3d.wasm`, import.meta.url)));
    memory.holds = true;
  } catch (error) {
    own.failed = String(error.message || error);
    memory.holds = false;
  }
}

function close() {
  try { if (own.viewer) own.viewer.close(); } catch (error) { /* What it held is lost with its library. */ }
  memory.boot = 0;
  Object.assign(own, { viewer: null, marks: [], at: 0, digest: null, told: null, points: [] });
  Object.assign(own, { behind: false, whole: false, heard: true, stands: "" });
}

/* The viewer ended by itself: its library may be broken. */
function fail(error) {
  console.error(error);
  close();
  own.library = null;
  ask("fail");
}

/* Does something with the viewer; why it is refused, if it is. What is refused changes nothing; another fault ends the
   viewer. */
function attempt(work) {
  if (!own.viewer) return "Closed";
  try {
    work(own.viewer);
    return "";
  } catch (error) {
    if (!(error instanceof own.x3d.Fault) || ["Memory", "Spoiled"].includes(error.reason)) fail(error);
    return error.reason || "Failed";
  }
}

/* Starts the viewer: in the snapshot that it saved in this life of the room, or else at the beginning. */
async function start({ who, boot, life, text }) {
  const known = own.life === life && own.who === who && own.saved;
  close();
  Object.assign(own, { who, boot, life, text, saved: known ? own.saved : null });
  if (!own.library) await loadOwn();
  if (own.boot !== boot || own.life !== life || !own.library) return;
  try {
    own.viewer = new own.x3d.Viewer(own.library, text, who, own.saved ? 1 : boot);
    own.viewer.keepLines = true;
    if (own.saved) own.viewer.rewind(own.saved, boot);
    own.names = new Names(own.viewer);
  } catch (error) {
    fail(error);
    return;
  }
  Object.assign(memory, { life, boot });
  attempt(mark);
  turn();
}

/* Saves the viewer where it stands, without old lines of its trace; its digest is told. */
function mark(viewer) {
  viewer.forgetBelow(Math.max(0, viewer.applied() + 1 - LATE));
  own.saved = viewer.snapshot();
  Object.assign(own, { at: viewer.applied(), digest: digestOf(own.saved) });
  stand(viewer);
}

/* Tells how the viewer stands, if that is new. */
async function stand(viewer) {
  const told = { at: own.at, digest: own.digest, waiting: viewer.waiting() }, stands = JSON.stringify(told);
  if (stands === own.stands) return;
  own.stands = stands;
  const { status } = await ask("stand", told);
  if (status !== 200) own.stands = "";
}

/* A pointer that an input has: who, whether the button is down, and the ray. */
function pointIn(datagram) {
  const { kind, number, who, down, aim } = own.x3d.datagram(own.library, datagram);
  if (kind !== "Input" || !aim) return null;
  return { number, point: [who, down ? 1 : 0, [...aim.origin, ...aim.direction].map(Number)] };
}

/* Something came: the first since the last ask says how long an answer takes. */
function hear() {
  if (!own.heard) own.round += (performance.now() - own.askedAt - own.round) / 5;
  own.heard = true;
}

/* A datagram of the host. */
function take(viewer, datagram) {
  if (PIECES.includes(datagram[TAG])) {
    gather(viewer, datagram);
    return;
  }
  const { kind } = viewer.take(datagram);
  if (kind === "Behind" && !own.behind) {
    own.behind = true;
    viewer.forget();
  }
  if (kind === "Applied" || kind === "Kept") {
    const pointed = pointIn(datagram);
    if (pointed) own.points.push(pointed);
  }
  const number = viewer.applied();
  while (own.marks.length && own.marks[0] < number) own.marks.shift();
  if (own.marks[0] === number) {
    own.marks.shift();
    mark(viewer);
  }
  // Something is lacking, or as much came as one answer has.
  if (own.asks < ASKS && (kind === "Kept" || number >= own.asked + ANSWER)) askHost(viewer);
}

function askHost(viewer) {
  Object.assign(own, { asks: own.asks + 1, asked: viewer.applied(), askedAt: performance.now(), heard: false });
  sendDatagram(viewer.ask());
}

/* A piece of a snapshot; once none is missing the viewer begins in it, as another boot. */
async function gather(viewer, piece) {
  if (!own.behind || own.joining) return;
  const kind = viewer.gather(piece);
  if (kind === "Other") viewer.forget();
  own.whole = kind === "Whole" || (own.whole && kind === "Again");
  if (!own.whole) return;
  own.joining = true;
  const { status, boot } = await ask("boot");
  own.joining = false;
  if (status !== 200 || own.viewer !== viewer) return;
  attempt(() => {
    viewer.join(boot);
    Object.assign(own, { boot, behind: false, whole: false, told: null, points: [] });
    memory.boot = boot;
    mark(viewer);
    askHost(viewer);
  });
}

/* What the page has to be told: what the last inputs changed, or all. */
function show(viewer) {
  const n = viewer.applied();
  if (n === own.told || state.id === null || state.replay || document.hidden) return;
  const first = own.told !== null && n - own.told <= LATE ? own.told : null;
  const here = own.points.filter(({ number }) => number <= n).sort((one, other) => one.number - other.number);
  own.points = own.points.filter(({ number }) => number > n);
  own.told = n;
  const told = { n, points: [...new Map(here.map(({ point }) => [point[0], point])).values()] };
  if (first === null) happen("scene", { ...told, ...own.names.scene(viewer) });
  else happen("news", { ...told, ...own.names.news(viewer, first) });
}

/* The viewer sends its offers that wait, and asks for what it lacks. */
function turn() {
  const since = performance.now() - own.askedAt;
  attempt((viewer) => {
    if (own.heard || since > within(PATIENCE * own.round, LEAST, MOST)) {
      for (const offer of viewer.resend().slice(0, OFFERS)) sendDatagram(offer);
      own.asks = 0;
      askHost(viewer);
    }
    show(viewer);
  });
}

/* Offers where the pointer is, and sends that at once, unless many offers wait: a status as the server's commands
   have. */
export function offerOwn({ down, aim }) {
  if (own.behind) return 429;
  const refused = attempt((viewer) => {
    viewer.offer(down, { origin: aim.slice(0, 3), direction: aim.slice(3) });
    const waiting = viewer.resend();
    if (waiting.length <= OFFERS) sendDatagram(waiting[waiting.length - 1]);
  });
  return refused === "OfferFull" ? 429 : refused ? 409 : 200;
}

function tellWhere() {
  const told = memory.holds ? "Your viewer runs in this window; the server has the host, which numbers inputs."
    : own.failed ? `Your viewer runs in the server: this browser didn't load the library (${own.failed}).`
      : "Your viewer runs in the server, which wasn't given the library for windows (make wasm); this window draws it.";
  write(byId("where"), state.who === null ? "The server shows this window what happens: it has no viewer." : told);
}

export function beginOwn() {
  on("start", start);
  on("stop", close);
  on("run", () => {
    close();
    own.saved = null;
  });
  on("mark", ({ n }) => own.marks.push(n));
  on("datagram", (datagram) => {
    hear();
    attempt((viewer) => take(viewer, datagram));
    // In a window that is hidden time passes slowly, but what the server sends comes.
    if (document.hidden && performance.now() - own.askedAt > TURN) turn();
  });
  on("you", tellWhere);
  on("status", () => {
    if (document.hidden) turn();
    attempt(stand);
  });
  on("live", () => { own.told = null; });
  document.addEventListener("visibilitychange", () => attempt(show));
  setInterval(turn, TURN);
}

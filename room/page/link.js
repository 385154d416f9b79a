/* The connection with the server: commands, each of which gets an answer, and events, by their kind. */
import { pause, state } from "./core.js";

const RETRY = 1500;
/* How the server ends the connection of a window that came in by another one. */
const ELSEWHERE = 4000;
const works = new Map(), waiting = new Map();
const given = new URLSearchParams(location.hash.slice(1));
const KEY = `room ${location.pathname}`;
let socket = null, number = 0;

/* What the page keeps for when it is loaded again: its token in this window, its name in this browser. */
export const memory = {
  get token() { return read(sessionStorage, KEY); },
  set token(token) { keep(sessionStorage, KEY, token); },
  // A name is this window's, and else the one that was given last in this browser.
  get name() { return given.get("name") || read(sessionStorage, "room name") || read(localStorage, "room name"); },
  set name(name) { for (const store of [sessionStorage, localStorage]) keep(store, "room name", name); },
  get color() { return read(localStorage, "room color"); },
  set color(color) { keep(localStorage, "room color", color); },
  get named() { return given.has("name"); },
  // Whether the page holds its viewer itself; of that the boot, and which life of the room it is of.
  holds: false, boot: 0, life: null,
};
let password = given.get("password") || undefined;
/* The trainer's secret leaves the address, which people copy and send on; this window keeps it. */
const trainer = given.get("trainer") || read(sessionStorage, `${KEY} trainer`);
memory.trainer = Boolean(trainer);
if (given.has("trainer")) {
  keep(sessionStorage, `${KEY} trainer`, trainer);
  given.delete("trainer");
  history.replaceState(null, "", String(given) ? `#${given}` : location.pathname);
}
// Another link to this room is opened here: only what stands behind # differs, so the page has to load again.
window.addEventListener("hashchange", () => location.reload());

function read(store, key) {
  try { return store.getItem(key) || undefined; } catch (error) { return undefined; }
}

function keep(store, key, value) {
  try { store.setItem(key, value); } catch (error) { /* Nothing is kept where the browser keeps nothing. */ }
}

/* `work` is done with each event of this kind. Beside those of the server there are `open` and `gone`. */
export function on(kind, work) {
  if (!works.has(kind)) works.set(kind, []);
  works.get(kind).push(work);
}

export function happen(kind, data) {
  for (const work of works.get(kind) || []) work(data);
}

/* The answer to a command: its status as HTTP numbers them, 0 where the server is gone. */
export function ask(command, body = {}) {
  if (!socket || socket.readyState !== WebSocket.OPEN) return Promise.resolve({ status: 0 });
  number += 1;
  const id = number;
  socket.send(JSON.stringify({ do: command, id, ...body }));
  return new Promise((resolve) => { waiting.set(id, resolve); });
}

/* Sends the host a datagram. One that can't be sent is lost. */
export function sendDatagram(datagram) {
  if (socket && socket.readyState === WebSocket.OPEN) socket.send(datagram);
}

function take(event) {
  if (event.data instanceof ArrayBuffer) {
    happen("datagram", new Uint8Array(event.data));
    return;
  }
  const told = JSON.parse(event.data);
  if (told.kind !== "answer") {
    happen(told.kind, told);
    return;
  }
  const resolve = waiting.get(told.id);
  waiting.delete(told.id);
  if (resolve) resolve(told);
}

/* Comes in, and again whenever the connection breaks. */
export function connect() {
  const address = new URL("socket", location.href);
  address.protocol = address.protocol === "https:" ? "wss:" : "ws:";
  address.hash = "";
  socket = new WebSocket(address);
  socket.binaryType = "arraybuffer";
  socket.onopen = () => {
    const { token, name, color, holds, boot, life } = memory;
    socket.send(JSON.stringify({
      do: "enter", token, name, color, password, trainer,
      watch: given.has("watch") || undefined, holds, boot, life,
    }));
    happen("open", {});
  };
  socket.onmessage = take;
  socket.onclose = async ({ code }) => {
    if (code === ELSEWHERE) happen("refused", { status: 409, why: "it is open in another window" });
    for (const resolve of waiting.values()) resolve({ status: 0 });
    waiting.clear();
    if (refused) return;
    happen("gone", {});
    await pause(RETRY);
    connect();
  };
}

/* Where the server refuses this window, it waits until there is a reason to try again. */
let refused = false;
on("refused", () => { refused = true; });

export function connectAgain(word) {
  refused = false;
  password = word === undefined ? password : word;
  connect();
}

/* What happened, as a `job` or an `x3dlog`. */
export async function download(kind) {
  const answer = await fetch(kind, { headers: { "X-Room-Token": state.token } });
  return answer.ok ? answer.blob() : null;
}

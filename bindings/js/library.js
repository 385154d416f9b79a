// The calls of x3d.wasm and its memory. Pointers and sizes are 64-bit numbers, which are BigInt in JavaScript.
import { DONE, Fault, MEMORY, ROOM } from "./faults.js";

const CLOSING = "_close";
const KINDS = ["world", "host", "viewer", "part", "text", "datagram"];

// What one block has, which is allocated once: numbers that a call writes, the size of what it copies, a ray, and
// short texts, numbers and datagrams.
const OUT = 0;
const WANTED = 24;
const AIM = 32;
const SHORT = 80;
/** How many bytes a text has at most that needs no memory of its own to be copied. */
const SHORT_ROOM = 1024;

/** The calls of each kind, by what their names have after `x3d_KIND_`: each returns a status. */
function callsOf(exports) {
  const calls = Object.fromEntries(KINDS.map((kind) => [kind, {}]));
  for (const [name, call] of Object.entries(exports)) {
    const [, kind, short] = /^x3d_([a-z]+)_(\w+)$/.exec(name) ?? [];
    if (kind in calls) calls[kind][short] = name.endsWith(CLOSING) ? call : (...passed) => call(...passed) & 255;
  }
  return calls;
}

export class Library {
  #exports;
  #scratch;
  #buffer;
  #data;
  #bytes;

  constructor(exports) {
    this.#exports = exports;
    this.calls = callsOf(exports);
    this.#scratch = this.allocate(SHORT + SHORT_ROOM);
    this.out = BigInt(this.#scratch + OUT);
    this.wanted = BigInt(this.#scratch + WANTED);
    this.aim = BigInt(this.#scratch + AIM);
    this.short = BigInt(this.#scratch + SHORT);
  }

  /** The memory as it is now: a call that grows it takes the buffer away that there was. */
  #renew() {
    if (this.#buffer === this.#exports.memory.buffer) return;
    this.#buffer = this.#exports.memory.buffer;
    this.#data = new DataView(this.#buffer);
    this.#bytes = new Uint8Array(this.#buffer);
  }

  get data() {
    this.#renew();
    return this.#data;
  }

  /** The address of n new bytes, which `free` gives back. Throws the fault of memory where there are none. */
  allocate(size) {
    const at = Number(this.#exports.malloc(BigInt(size)));
    if (at === 0) throw new Fault(MEMORY);
    return at;
  }

  free(at) {
    this.#exports.free(BigInt(at));
  }

  /** What `use` returns, given these bytes in memory and how many there are. */
  lend(bytes, use) {
    if (!(bytes instanceof Uint8Array)) throw new TypeError("bytes are given as a Uint8Array");
    const at = this.allocate(bytes.length);
    try {
      this.#renew();
      this.#bytes.set(bytes, at);
      return use(BigInt(at), BigInt(bytes.length));
    } finally {
      this.free(at);
    }
  }

  /** A copy of the n bytes at an address. */
  copy(at, size) {
    this.#renew();
    return this.#bytes.slice(Number(at), Number(at) + size);
  }

  /** The 32-bit number that a call wrote, and the ones after it. */
  told(place = 0) {
    return this.data.getUint32(this.#scratch + OUT + 4 * place, true);
  }

  /** The 64-bit number that a call wrote, and the ones after it. */
  toldWide(place = 0) {
    return this.data.getBigUint64(this.#scratch + OUT + 8 * place, true);
  }

  /** How large what a call copied is, or would be. */
  toldSize() {
    return Number(this.data.getBigUint64(this.#scratch + WANTED, true));
  }

  /** A copy of what `call` copies to a place with so much room. It returns a status. */
  copied(call, width = 1) {
    let status = call(this.short, BigInt(SHORT_ROOM / width), this.wanted);
    const size = this.toldSize() * width;
    if (status === DONE) return this.copy(this.short, size);
    if (status !== ROOM) throw new Fault(status);
    const at = this.allocate(size);
    try {
      status = call(BigInt(at), BigInt(size / width), this.wanted);
      if (status !== DONE) throw new Fault(status);
      return this.copy(at, size);
    } finally {
      this.free(at);
    }
  }
}

/** The bytes of x3d.wasm, or the module that was compiled of them. */
async function bytesOf(source) {
  const given = await source;
  if (typeof Response === "undefined" || !(given instanceof Response)) return given;
  if (!given.ok) throw new Error(`${given.url}: status ${given.status}`);
  return given.arrayBuffer();
}

export async function load(source) {
  const given = await bytesOf(source);
  const module = given instanceof WebAssembly.Module ? given : await WebAssembly.compile(given);
  return new Library((await WebAssembly.instantiate(module)).exports);
}

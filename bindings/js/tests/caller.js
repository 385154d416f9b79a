// Calls the functions that a header declares, with random numbers and bytes that are mostly of use.
import assert from "node:assert/strict";

const HANDLES = 3;
const KEPT = 64;
const GUARD = 16;
const FILLER = 0xaa;
const HANDLE = /^(?:const )?struct x3d_(world|host|viewer|part) \*$/;
const SIZES = { x3d_work: 24, x3d_met: 16, x3d_saved: 16, x3d_reply: 24, x3d_taken: 16, x3d_datagram: 72, x3d_field: 2 };
/** The sizes of items that are copied as a list, and the places in a struct that hold nothing. */
const ITEMS = { "uint8_t *": 1, "int64_t *": 8, "struct x3d_change *": 16 };
const LAST = [12, 13, 14, 15];
const UNUSED = {
  "struct x3d_change *": [16, [7]],
  "struct x3d_datagram *": [72, [3]],
  "struct x3d_saved *": [16, LAST],
  "struct x3d_taken *": [16, LAST],
  "struct x3d_reply *": [24, [20, 21, 22, 23]],
};
const WIDTHS = { "uint64_t *": 8, "uint32_t *": 4, "uint16_t *": 2, "size_t *": 8, "int64_t *": 8 };
const NAMES = ["translation", "children", "set_fraction", "Door", "\u00e9", ""];
/** How many numbers a parameter of this name usually has, from 0: others are mostly refused. */
const FEW = { k: 2, kind: 2, token: 4, answer: 3 };
const OF_SNAPSHOTS = /_(load|rewind|piece|piece_count)$/;
const encoder = new TextEncoder();

/** The functions of a header that return a status, but for those of a log's file, which a page has not: the name, and the
 *  type and the name of each parameter. */
function declared(header) {
  return Array.from(header.matchAll(/^\w+ (x3d_(?!log_)[a-z]+_\w+)\(([^)]*)\);/gm), ([, name, list]) => {
    const parameters = list.split(",").map((part) => /^\s*(.*?)(\w+)\s*$/s.exec(part).slice(1).map((word) => word.trim()));
    return { name, parameters };
  });
}

export class Caller {
  #state = 88172645;
  #places = [];
  #time = 1_000_000n;
  #boot = 1;

  constructor(library, header, scenes) {
    this.library = library;
    this.functions = declared(header);
    this.scenes = scenes.map((text) => encoder.encode(text));
    this.packets = [];
    this.shots = [];
    this.queue = [];
    const handles = () => Array.from({ length: HANDLES }, () => this.#place(new Uint8Array(8)));
    this.handles = { world: handles(), host: handles(), viewer: handles(), part: handles() };
    this.#places = [];
  }

  #below(limit) {
    this.#state ^= this.#state << 13;
    this.#state ^= this.#state >>> 17;
    this.#state ^= this.#state << 5;
    return (this.#state >>> 0) % limit;
  }

  #any(list) {
    return list[this.#below(list.length)];
  }

  /** Puts bytes into memory until the call is over. */
  #place(bytes) {
    const at = this.library.allocate(bytes.length);
    new Uint8Array(this.library.data.buffer).set(bytes, at);
    this.#places.push(at);
    return at;
  }

  /** How many inputs a world has had, as a call on the side says; 0 if there is none. */
  #applied(handle) {
    const status = this.library.calls.world.applied(BigInt(handle), this.library.out);
    return status === 0 ? Number(this.library.toldWide()) : 0;
  }

  #number(type, name, handle) {
    const usual = this.#below(8) > 0;
    if (type === "int64_t") return usual ? (this.#time += BigInt(this.#below(100_000))) : BigInt(this.#below(2 ** 32)) << 31n;
    if (type === "bool") return this.#below(2);
    if (name === "boot" && usual) return ++this.#boot;
    if (name === "number" && usual && handle) return BigInt(this.#applied(handle) + 1);
    const bits = { uint8_t: 8, uint16_t: 16 }[type] ?? 32;
    const found = this.#below(usual && name in FEW ? FEW[name] : this.#below(4) ? 12 : 2 ** bits);
    if (type === "uint64_t") return BigInt(found) << BigInt(usual ? 0 : 31);
    return type === "size_t" ? BigInt(found) : found;
  }

  #aim() {
    const coordinate = () => BigInt(this.#below(16) ? this.#below(4_000_001) - 2_000_000 : this.#below(2 ** 32)) << BigInt(this.#below(32) ? 0 : 31);
    return new Uint8Array(BigInt64Array.from({ length: 6 }, coordinate).buffer);
  }

  /** Bytes to pass: mostly as they were made, sometimes with another bit, or cut off. */
  #bytes(call, name) {
    if (name === "log" && this.#below(4)) return new Uint8Array(0);
    const kept = OF_SNAPSHOTS.test(call) ? this.shots : this.packets;
    const pool = { text: this.scenes, name: NAMES.map((word) => encoder.encode(word)) }[name] ?? kept;
    const scene = name === "text" && this.#below(8) ? this.scenes[0] : null;
    const bytes = Uint8Array.from(scene ?? (pool.length ? this.#any(pool) : []));
    if (bytes.length && !this.#below(8)) bytes[this.#below(bytes.length)] ^= 1 << this.#below(8);
    return this.#below(8) ? bytes : bytes.slice(0, this.#below(bytes.length + 1));
  }

  /** What is passed for the parameters, as `call` takes it. */
  #arguments({ name, parameters }) {
    const made = [];
    let handle = 0;
    for (let k = 0; k < parameters.length; k++) {
      const [type, word] = parameters[k];
      const kind = HANDLE.exec(type)?.[1];
      if (kind) {
        const which = this.#below(HANDLES);
        if (kind === "world") handle = this.handles.world[which];
        made.push({ kind, which });
      } else if (type === "const struct x3d_aim *") made.push({ bytes: this.#aim() });
      else if (type === "const uint8_t *") k++, made.push({ bytes: this.#bytes(name, word), counted: true });
      else if (type in ITEMS && parameters[k + 1]?.[1] === "room") {
        const width = ITEMS[type];
        const room = (this.#below(8) ? 8192 : this.#below(300)) / width;
        k++, made.push({ out: Math.floor(room) * width, room: Math.floor(room), type });
      } else if (type.endsWith("*")) made.push({ out: WIDTHS[type] ?? SIZES[type.split(" ")[1]], type });
      else made.push({ number: this.#number(type, word, handle) });
    }
    return made;
  }

  /** Calls a function, and returns what it was passed and what it returned. */
  #call(name, given) {
    const outs = [];
    const passed = given.flatMap(({ kind, which, bytes, counted, out, room, number, type }) => {
      if (kind) return [BigInt(this.handles[kind][which])];
      if (bytes) return [BigInt(this.#place(bytes)), ...(counted ? [BigInt(bytes.length)] : [])];
      if (out === undefined) return [number];
      outs.push([this.#place(new Uint8Array(out + GUARD).fill(FILLER)), out, type]);
      return [BigInt(outs.at(-1)[0]), ...(room === undefined ? [] : [BigInt(room)])];
    });
    const [, kind, short] = /^x3d_([a-z]+)_(\w+)$/.exec(name);
    const status = this.library.calls[kind][short](...passed) ?? 0;
    const written = outs.map(([at, size, type]) => {
      assert.ok(this.library.copy(at + size, GUARD).every((byte) => byte === FILLER), `${name} wrote too far`);
      return withoutUnused(this.library.copy(at, size), type);
    });
    this.#places.splice(0).forEach((at) => this.library.free(at));
    if (status === 0) this.#keep(name, written);
    return { name, given: given.map(logged), status, written: written.map((bytes) => hex(touched(bytes))) };
  }

  #keep(name, [bytes, wanted]) {
    if (!wanted || name.endsWith("_open") || /_(numbers|changed)$/.test(name)) return;
    const whole = bytes.slice(0, new DataView(wanted.buffer).getUint32(0, true));
    const isText = name.endsWith("_copy_text");
    const pool = isText ? this.shots : this.packets;
    if (isText && String.fromCharCode(...whole.subarray(0, 4)) !== "X3DW") return;
    pool.push(whole);
    if (pool.length > KEPT) pool.shift();
  }

  /** Queues what gives a viewer all pieces of a snapshot, copies a snapshot, or joins. */
  #follow(name, given) {
    const { kind, which } = given[0];
    const whole = this.#any(this.shots);
    if (name.endsWith("_make_snapshot")) this.queue.push([`x3d_${kind}_copy_text`, [given[0], { out: 8192, room: 8192 }, { out: 8 }]]);
    if (name !== "x3d_viewer_forget" || !whole) return;
    const bytes = { bytes: whole, counted: true };
    for (let index = 0; index < whole.length / 128; index++) {
      this.queue.push(["x3d_viewer_piece", [given[0], bytes, { number: index }, { out: 256, room: 256 }, { out: 8 }]]);
      this.queue.push(["x3d_viewer_gather", null, which]);
    }
    this.queue.push(["x3d_viewer_join", [given[0], { number: ++this.#boot }, { out: 8 }]]);
  }

  /** One call more. */
  make() {
    const next = this.queue.shift();
    if (next) {
      const [name, given, which] = next;
      const last = { bytes: this.packets.at(-1) ?? new Uint8Array(), counted: true };
      return this.#call(name, given ?? [{ kind: "viewer", which }, last, { out: 4 }]);
    }
    const made = this.#any(this.functions);
    if (made.name.endsWith("_close") && this.#below(8)) return this.make();
    const given = this.#arguments(made);
    this.#follow(made.name, given);
    return this.#call(made.name, given);
  }

  close() {
    for (const [kind, handles] of Object.entries(this.handles)) {
      for (const handle of handles) {
        this.library.calls[kind].close(BigInt(handle));
        this.library.free(handle);
      }
    }
  }
}

/** Structs whose unused bytes are fillers: what a call leaves there is not said. */
function withoutUnused(bytes, type) {
  const [size, places] = UNUSED[type] ?? [bytes.length, []];
  for (let at = 0; at < bytes.length; at += size) places.forEach((place) => (bytes[at + place] = FILLER));
  return bytes;
}

/** Bytes up to the last that a call wrote. */
function touched(bytes) {
  return bytes.subarray(0, bytes.findLastIndex((byte) => byte !== FILLER) + 1);
}

function hex(bytes) {
  return Buffer.from(bytes).toString("hex");
}

/** What was passed, as JSON has it. */
function logged({ bytes, number, ...more }) {
  return { ...more, ...(bytes && { bytes: hex(bytes) }), ...(number !== undefined && { number: String(number) }) };
}

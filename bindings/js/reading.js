// What an object of the library holds, and what is read of a world.
import { CHANGE_SIZE, changedOf, typeOf } from "./changed.js";
import { changesOf } from "./changes.js";
import { CLOSED, DONE, Fault, NO_SUCH_NODE, RANGE, Refusal, SCENE } from "./faults.js";
import { Library } from "./library.js";
import { fits, ordinal, signed } from "./numbers.js";

const HANDLE = 8;
const LINE = 64;
const ACCESSES = ["inputOnly", "outputOnly", "inputOutput", "initializeOnly"];
const KINDS = ["counter", "gate", "adder", "batch", "mover", "meter"];
const encoder = new TextEncoder();
const decoder = new TextDecoder("utf-8", { fatal: true, ignoreBOM: true });

/** Closes what a page has dropped without closing it. */
const dropped = new FinalizationRegistry((close) => close());

/** The bytes of a scene that is given as a text or as bytes. */
export function bytesOf(scene) {
  return typeof scene === "string" ? encoder.encode(scene) : scene;
}

/** What a handle holds: a world, a host, a viewer or a part. */
export class Held {
  constructor(library, kind) {
    if (!(library instanceof Library)) throw new TypeError("the library is wanted that `load` gives");
    const handle = library.allocate(HANDLE);
    library.data.setBigUint64(handle, 0n, true);
    this._library = library;
    this._calls = library.calls[kind];
    this._handle = BigInt(handle);
    this._free = () => {
      library.calls[kind].close(BigInt(handle));
      library.free(handle);
    };
    dropped.register(this, this._free, this);
  }

  close() {
    if (this._handle === null) return;
    this._handle = null;
    dropped.unregister(this);
    this._free();
  }

  /** The address of the handle. */
  _at() {
    if (this._handle === null) throw new Fault(CLOSED);
    return this._handle;
  }

  /** The status of a call. */
  _status(name, ...passed) {
    if (this._handle === null) throw new Fault(CLOSED);
    return this._calls[name](this._handle, ...passed);
  }

  _call(name, ...passed) {
    const status = this._status(name, ...passed);
    if (status !== DONE) throw new Fault(status);
  }

  /** What a call that writes one 32-bit number writes. */
  _number(name, ...passed) {
    this._call(name, ...passed, this._library.out);
    return this._library.told();
  }

  /** What a call that writes the number of an input, or of inputs, writes. */
  _ordinal(name, ...passed) {
    this._call(name, ...passed, this._library.out);
    return Number(this._library.toldWide());
  }

  /** Opens what a scene's text and numbers give. */
  _open(scene, ...numbers) {
    this._orClosed(() => this._library.lend(bytesOf(scene), (...text) => this._opened("open", [...text, ...numbers], text)));
  }

  /** Does what opens this, and closes it if that fails. */
  _orClosed(open) {
    try {
      open();
    } catch (error) {
      this.close();
      throw error;
    }
  }

  /** Opens what was passed, or throws the refusal, with the instance of the text that was passed. */
  _opened(name, passed, text = null) {
    this._orClosed(() => {
      const { short, wanted } = this._library;
      const status = this._status(name, ...passed, short, BigInt(LINE), wanted);
      if (status === SCENE) throw this._refusal(text);
      if (status !== DONE) throw new Fault(status);
    });
  }

  _refusal(text) {
    const line = decoder.decode(this._library.copy(this._library.short, this._library.toldSize()));
    const status = text === null ? RANGE : this._library.calls.text.instance(...text, this._library.out);
    return new Refusal(line, status === DONE ? this._library.told() : 0);
  }

  /** The numbers that were listed last. */
  _numbers() {
    const bytes = this._library.copied((...out) => this._status("copy_numbers", ...out), 8);
    return new BigInt64Array(bytes.buffer);
  }

  /** A datagram that a call copies. */
  _packet(name, ...passed) {
    return this._library.copied((...out) => this._status(name, ...passed, ...out));
  }

  /** The place of a ray in memory. */
  _aim({ origin, direction }) {
    const numbers = [...origin, ...direction].map(signed);
    if (numbers.length !== 6) throw new TypeError("an origin and a direction have three numbers each");
    const { aim, data } = this._library;
    numbers.forEach((number, place) => data.setBigInt64(Number(aim) + 8 * place, number, true));
    return aim;
  }
}

/** What is read of a world, of a World and of a Viewer. */
export class Readable extends Held {
  keepLines = false;

  /** The bytes that were made last. */
  _bytes() {
    return this._packet("copy_text");
  }

  _text(name, ...passed) {
    this._call(name, ...passed);
    return decoder.decode(this._bytes());
  }

  _listed(name, ...passed) {
    this._call(name, ...passed);
    return Array.from(this._numbers(), Number);
  }

  applied() {
    return this._ordinal("applied");
  }

  meet(aim) {
    this._call("meet", this._aim(aim), this._library.out);
    const entry = [this._library.toldWide(0), this._library.toldWide(1)];
    return entry[1] === 0n ? null : { entry, sensors: Array.from(this._numbers(), Number) };
  }

  trace(first = 0) {
    const text = this._text("make_trace", ordinal(first));
    this._forgetRead(first);
    return text;
  }

  changes(first = 0) {
    const text = this._text("make_changes", ordinal(first));
    this._forgetRead(first);
    return changesOf(text);
  }

  changed(since = 0) {
    this._call("list_changed", ordinal(since));
    const fields = this._library.copied((...out) => this._status("copy_changed", ...out), CHANGE_SIZE);
    const numbers = this._numbers();
    this._forgetRead(since + 1);
    return changedOf(fields, numbers);
  }

  /** Forgets the lines below a number that was read from, unless they are kept. */
  _forgetRead(first) {
    if (!this.keepLines) this.forgetBelow(Math.min(first, this.applied() + 1));
  }

  forgetBelow(below) {
    this._call("forget_below", ordinal(below));
  }

  scene() {
    return this._text("make_scene");
  }

  nodeCount() {
    return this._ordinal("node_count");
  }

  roots() {
    return this._listed("list_roots");
  }

  children(node) {
    return this._listed("list_children", fits(node, 32));
  }

  nodeType(node) {
    return this._text("make_type", fits(node, 32));
  }

  label(node) {
    return this._text("make_label", fits(node, 32));
  }

  fieldCount(node) {
    return this._number("field_count", fits(node, 32));
  }

  fieldName(node, field) {
    return this._text("make_field_name", fits(node, 32), fits(field, 16));
  }

  fieldNamed(node, name) {
    return this._library.lend(encoder.encode(name), (...text) => {
      this._call("field_named", fits(node, 32), ...text, this._library.out);
      return this._library.told() & 0xffff;
    });
  }

  fieldType(node, field) {
    this._call("field_type", fits(node, 32), fits(field, 16), this._library.out);
    const told = this._library.told();
    return { type: typeOf(told & 0xff), access: ACCESSES[(told >> 8) & 0xff] };
  }

  nodeNamed(name) {
    return this._library.lend(encoder.encode(name), (...text) => {
      const status = this._status("node_named", ...text, this._library.out);
      if (status === NO_SUCH_NODE) return null;
      if (status !== DONE) throw new Fault(status);
      return this._library.told();
    });
  }

  time() {
    this._call("time", this._library.out);
    return BigInt.asIntN(64, this._library.toldWide());
  }

  scriptCount() {
    return this._ordinal("script_count");
  }

  scripts() {
    const numbers = this._listed("list_scripts");
    const each = Array.from({ length: numbers.length / 2 }, (_, k) => numbers.slice(2 * k, 2 * k + 2));
    return each.map(([node, kind]) => ({ node, kind: KINDS[kind] }));
  }

  routes() {
    const numbers = this._listed("list_routes");
    const each = Array.from({ length: numbers.length / 4 }, (_, k) => numbers.slice(4 * k, 4 * k + 4));
    return each.map(([node, field, to, toField]) => ({ source: [node, field], target: [to, toField] }));
  }

  replaceScript(script, kind) {
    const number = KINDS.indexOf(kind);
    if (number < 0) throw new Fault(RANGE);
    this._call("replace_script", BigInt(fits(script, 32)), number);
  }

  value(node, field) {
    return this._text("make_value", fits(node, 32), fits(field, 16));
  }

  numbers(node, field) {
    this._call("list_value", fits(node, 32), fits(field, 16));
    return this._numbers();
  }
}

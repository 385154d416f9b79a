// The host of a shared world, which numbers inputs.
import { DONE, Fault, NO_PACKET, RANGE } from "./faults.js";
import { fits, ordinal, signed } from "./numbers.js";
import { bytesOf, Held } from "./reading.js";

const REPLIES = ["Asked", "Numbered", "Repeat", "Ahead", "OldBoot", "Below", "NothingToDo"];
const ANSWERS = ["Stored", "Taken", "InDoubt"];

/** What `copy` copies, or null if there is no such datagram. */
export function packetOrNull(copy) {
  try {
    return copy();
  } catch (error) {
    if (error instanceof Fault && error.status === NO_PACKET) return null;
    throw error;
  }
}

export class Host extends Held {
  constructor(library, scene, viewers, log = null) {
    super(library, "host");
    try {
      library.lend(bytesOf(scene), (...text) => {
        if (log === null) this._call("open", ...text, fits(viewers, 8));
        else library.lend(log, (...bytes) => this._resume([...text, fits(viewers, 8), ...bytes]));
      });
    } catch (error) {
      this.close();
      throw error;
    }
  }

  static resume(library, scene, viewers, log = new Uint8Array()) {
    return new Host(library, scene, viewers, log);
  }

  _resume(passed) {
    this._library.data.setBigUint64(Number(this._library.out), 0n, true);
    const status = this._status("resume", ...passed, this._library.out);
    if (status !== DONE) throw new Fault(status, Number(this._library.toldWide()));
  }

  append() {
    const bytes = this._packet("pending", this._library.out);
    return { token: this._library.told(), bytes };
  }

  stored(token, answer = "Stored") {
    const number = ANSWERS.indexOf(answer);
    if (number < 0) throw new Fault(RANGE);
    this._call("stored", fits(token, 32), number);
  }

  time() {
    this._call("time", this._library.out);
    return BigInt.asIntN(64, this._library.toldWide());
  }

  clock(time) {
    return this._ordinal("clock", signed(time));
  }

  take(datagram) {
    return this._library.lend(datagram, (...bytes) => {
      this._call("take", ...bytes, this._library.out);
      return this._reply();
    });
  }

  /** What the host did with a datagram. */
  _reply() {
    const [number, count] = [0, 1].map((place) => Number(this._library.toldWide(place)));
    return { kind: REPLIES[this._library.told(4)], number, count };
  }

  takeFrom(who, datagram) {
    return this._library.lend(datagram, (...bytes) => {
      this._call("take_from", fits(who, 8), ...bytes, this._library.out);
      return this._reply();
    });
  }

  heard(who) {
    return this._ordinal("heard", fits(who, 8)) || null;
  }

  keep(count) {
    this._call("keep", ordinal(count));
  }

  packet(number) {
    return packetOrNull(() => this._packet("packet", ordinal(number)));
  }

  packets(reply) {
    if (reply.kind === "Below") return [this.floorPacket()];
    if (reply.kind !== "Asked") return [];
    const found = Array.from({ length: reply.count }, (_, k) => this.packet(reply.number + k));
    return found.filter((packet) => packet !== null);
  }

  ack(who) {
    return this._packet("ack", fits(who, 8));
  }

  floor() {
    return this._ordinal("floor");
  }

  floorPacket() {
    return this._packet("floor_packet");
  }

  dropBelow(number) {
    this._call("drop_below", ordinal(number));
  }

  count() {
    return this._ordinal("count");
  }

  viewers() {
    return this._number("viewers");
  }
}

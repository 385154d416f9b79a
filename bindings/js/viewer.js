// A viewer of a shared world, which applies the host's inputs.
import { packetOrNull } from "./host.js";
import { fits, truth } from "./numbers.js";
import { Readable } from "./reading.js";

const TAKEN = ["Old", "Beyond", "Kept", "Applied", "Noted", "Behind"];
const GATHERED = ["New", "Again", "Whole", "Other"];

export class Viewer extends Readable {
  constructor(library, scene, who, boot) {
    super(library, "viewer");
    this._open(scene, fits(who, 8), fits(boot, 32));
  }

  boot() {
    return this._number("boot");
  }

  take(datagram) {
    return this._library.lend(datagram, (...bytes) => {
      this._call("take", ...bytes, this._library.out);
      return { kind: TAKEN[this._library.told(2)], count: Number(this._library.toldWide(0)) };
    });
  }

  offer(down, aim) {
    return this._number("offer", truth(down), this._aim(aim));
  }

  waiting() {
    return this._number("waiting");
  }

  /** The datagrams that `copy` copies for each number below a count. */
  _packets(count, copy) {
    return Array.from({ length: count }, (_, k) => packetOrNull(() => copy(k))).filter((packet) => packet !== null);
  }

  resend() {
    return this._packets(this.waiting(), (place) => this._packet("resend", place));
  }

  ask() {
    return this._packet("ask");
  }

  snapshot() {
    this._call("make_snapshot");
    return this._bytes();
  }

  rewind(snapshot, boot) {
    return this._library.lend(snapshot, (...bytes) => this._ordinal("rewind", fits(boot, 32), ...bytes));
  }

  pieces(snapshot = this.snapshot()) {
    return this._library.lend(snapshot, (...bytes) => {
      const count = this._number("piece_count", ...bytes);
      return this._packets(count, (index) => this._packet("piece", ...bytes, index));
    });
  }

  gather(datagram) {
    return GATHERED[this._library.lend(datagram, (...bytes) => this._number("gather", ...bytes))];
  }

  join(boot) {
    return this._ordinal("join", fits(boot, 32));
  }

  forget() {
    this._call("forget");
  }
}

// A world.
import { fits, ordinal, signed, truth } from "./numbers.js";
import { Part } from "./part.js";
import { Readable } from "./reading.js";

export class World extends Readable {
  constructor(library, scene) {
    super(library, "world");
    if (scene instanceof Part) this._opened("open_part", [scene._at()]);
    else this._open(scene);
  }

  /** What the input led to. */
  _work() {
    const [sends, deliveries, settles] = [0, 1, 2].map((place) => Number(this._library.toldWide(place)));
    return { sends, deliveries, settles };
  }

  clock(number, time) {
    this._call("clock", ordinal(number), signed(time), this._library.out);
    return this._work();
  }

  point(number, time, viewer, down, aim) {
    const numbers = [ordinal(number), signed(time), fits(viewer, 8), truth(down)];
    this._call("point", ...numbers, this._aim(aim), this._library.out);
    return this._work();
  }

  snapshot(boot) {
    this._call("make_snapshot", fits(boot, 32));
    return this._bytes();
  }

  load(boot, snapshot) {
    return this._library.lend(snapshot, (...bytes) => {
      this._call("load", fits(boot, 32), ...bytes, this._library.out);
      return { boot: this._library.told(2), applied: Number(this._library.toldWide(0)) };
    });
  }
}

// Carries datagrams between a host and its viewers. A lossy one loses about every fifth, by a rule without a period that
// a turn could be in step with.
export class Carrier {
  sent = 0;
  lost = 0;

  #dice = 1;

  constructor(host, lossy = false) {
    this.host = host;
    this.lossy = lossy;
  }

  arrives() {
    this.#dice = (Math.imul(this.#dice, 1_664_525) + 1_013_904_223) >>> 0;
    const arrives = !this.lossy || this.#dice >>> 16 >= 65_536 / 5;
    this.sent++;
    if (!arrives) this.lost++;
    return arrives;
  }

  /** What the host sends back that arrives. */
  toHost(datagram) {
    if (!this.arrives()) return [];
    return this.host.packets(this.host.take(datagram)).filter(() => this.arrives());
  }

  /** Lets a viewer send its offers and ask for what it lacks. Returns whether it is behind the floor. */
  turn(viewer, who) {
    for (const offer of viewer.resend()) this.toHost(offer);
    if (this.arrives()) viewer.take(this.host.ack(who));
    const kinds = this.toHost(viewer.ask()).map((packet) => viewer.take(packet).kind);
    return kinds.includes("Behind");
  }

  /** Gives a viewer the pieces of a snapshot, and lets it begin again in that once it has all. */
  join(viewer, pieces) {
    const whole = pieces.some((piece) => this.arrives() && viewer.gather(piece) === "Whole");
    if (whole) viewer.join(viewer.boot() + 1);
  }
}

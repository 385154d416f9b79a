// Memory is refused at each growth in turn. Every call is then done, or refused for memory or for a spoiled world;
// nothing is lost, and closing frees all.
import assert from "node:assert/strict";
import { test } from "node:test";
import { Fault, Host, Viewer, World } from "../index.js";
import { AIM, DOOR, refusing } from "./common.js";

const FEWEST = 20;

/** Runs `run` once for each growth, which is refused, until none is. */
async function refuseEach(run) {
  const { library, refuseAt, liveBlocks } = await refusing();
  for (let growth = 1; ; growth++) {
    let refusals = 0;
    /** What a call returns, or null if it was refused for one of the two reasons. */
    const told = (call) => {
      try {
        return call();
      } catch (error) {
        if (!(error instanceof Fault) || !["Memory", "Spoiled"].includes(error.reason)) throw error;
        refusals++;
        return null;
      }
    };
    const before = liveBlocks();
    refuseAt(growth);
    run(library, told, () => refuseAt(0));
    refuseAt(0);
    assert.equal(liveBlocks(), before, `growth ${growth}`);
    if (refusals === 0) {
      assert.ok(growth > FEWEST, `${growth - 1} growths`);
      return;
    }
  }
}

function moveOn(world, told) {
  told(() => world.clock(1, 10_000_000));
  if (world.applied() === 1) told(() => world.point(2, 10_000_001, 0, true, AIM));
  if (world.applied() === 2) told(() => world.point(3, 10_000_002, 0, false, AIM));
}

function read(world, told) {
  const calls = ["trace", "changes", "scene", "roots"].map((name) => () => world[name]());
  calls.push(() => world.value(0, 0), () => world.label(2), () => world.nodeType(2), () => world.children(2));
  calls.push(() => world.fieldNamed(2, "isActive"), () => world.meet(AIM));
  for (const call of calls) told(call);
}

test("each growth of a world", async () => {
  await refuseEach((library, told, allow) => {
    const world = told(() => new World(library, DOOR));
    if (!world) return;
    moveOn(world, told);
    read(world, told);
    const applied = world.applied();
    const shot = told(() => world.snapshot(1));
    if (shot) {
      const saved = told(() => world.load(2, shot));
      allow();
      // Refused memory, it is spoiled or, if there was none for the bytes, as it was; a snapshot brings it back.
      if (!saved) told(() => world.clock(applied + 1, 20_000_000));
      const back = world.load(2, shot);
      world.clock(back.applied + 1, 20_000_000);
    }
    world.close();
  });
});

/** A viewer gets what it lacks, as long as it takes it. */
function exchange(host, viewer, told) {
  for (const offer of told(() => viewer.resend()) ?? []) told(() => host.take(offer));
  const ask = told(() => viewer.ask());
  const reply = ask && told(() => host.take(ask));
  for (const packet of (reply && told(() => host.packets(reply))) ?? []) told(() => viewer.take(packet));
}

function clocks(host, viewers, told) {
  for (let k = 1; k <= 4; k++) {
    const before = host.count();
    const number = told(() => host.clock(10_000_000 + k * 500_000));
    assert.equal(host.count(), before + (number === null ? 0 : 1));
    if (viewers[0] && k < 3) told(() => viewers[0].offer(k === 1, AIM));
    for (const viewer of viewers) if (viewer) exchange(host, viewer, told);
  }
}

test("each growth of a host and two viewers", async () => {
  await refuseEach((library, told, allow) => {
    const host = told(() => new Host(library, DOOR, 2));
    if (!host) return;
    const viewers = [0, 1].map((who) => told(() => new Viewer(library, DOOR, who, 1)));
    const [first, other] = viewers;
    clocks(host, viewers, told);
    const pieces = first && told(() => first.pieces());
    if (other && pieces) {
      // The other viewer, spoiled or not, gathers them and begins again there. A piece that was refused comes again.
      for (const piece of [...pieces, ...pieces]) told(() => other.gather(piece));
      const joined = told(() => other.join(2));
      allow();
      if (joined === null) other.join(2);
      for (let turn = 0; other.applied() < host.count(); turn++) {
        assert.ok(turn < 10);
        exchange(host, other, told);
      }
    }
    for (const held of [host, ...viewers]) held?.close();
  });
});

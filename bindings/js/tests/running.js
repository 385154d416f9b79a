// Runs a job in whole numbers, in node and in a page.
import { Refusal, World } from "../index.js";

const SCENE = "\nscene\n";
const encoder = new TextEncoder();

function apply(world, line) {
  const [word, ...rest] = line.split(" ");
  const number = Number(rest[0]);
  const time = BigInt(rest[1]);
  if (word === "clock") return world.clock(number, time);
  const numbers = rest.slice(4).map(BigInt);
  const aim = { origin: numbers.slice(0, 3), direction: numbers.slice(3) };
  return world.point(number, time, Number(rest[2]), rest[3] === "1", aim);
}

/** The lines of a job's steps, and the bytes of its scene. */
function parted(job) {
  const text = "\n" + Array.from(job, (byte) => String.fromCharCode(byte)).join("");
  const at = text.indexOf(SCENE);
  return [text.slice(1, Math.max(at, 1)).split("\n").filter(Boolean), job.subarray(at + SCENE.length - 1)];
}

/** What the program prints for a job, and its status; with `again` the world goes back and forth by a snapshot after
 * each input. */
export function runJob(library, job, again = false) {
  const [steps, scene] = parted(job);
  let world;
  try {
    world = new World(library, scene);
    steps.forEach((line, k) => {
      apply(world, line);
      if (again) world.load(k + 2, world.snapshot(k + 1));
    });
    return { status: 0, output: encoder.encode(world.trace() + world.scene()), error: "" };
  } catch (error) {
    if (error instanceof Refusal) return { status: error.status, output: new Uint8Array(), error: `${error.line}\n` };
    throw error;
  } finally {
    world?.close();
  }
}

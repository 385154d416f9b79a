// The jobs of cases/ and examples/, which scripts/wasm lists: each prints what is wanted of the program.
import assert from "node:assert/strict";
import { readFileSync } from "node:fs";
import { test } from "node:test";
import { FOLDER, fresh } from "./common.js";
import { runJob } from "./running.js";

const FEWEST = 40;
const SMALL = 4096;
const bytes = (text) => Buffer.from(text, "base64");
const jobs = JSON.parse(readFileSync(`${FOLDER}/tests/jobs.json`)).map(({ name, job, status, output, error }) => {
  return { name, job: bytes(job), wanted: { status, error, output: bytes(output) } };
});

function same(library, { name, job, wanted }, again) {
  const { status, output, error } = runJob(library, job, again);
  assert.deepEqual({ status, error }, { status: wanted.status, error: wanted.error }, name);
  assert.ok(wanted.output.equals(output), `${name}: other bytes`);
}

test(`${jobs.length} jobs`, async () => {
  assert.ok(jobs.length >= FEWEST);
  const library = await fresh();
  for (const job of jobs) same(library, job, false);
});

test("small jobs, with a snapshot between any two inputs", async () => {
  const library = await fresh();
  const small = jobs.filter(({ job }) => job.length < SMALL);
  assert.ok(small.length >= FEWEST / 2);
  for (const job of small) same(library, job, true);
});

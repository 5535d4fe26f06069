// The command trlab-node: its streams and exit statuses are those of the program.

import assert from "node:assert/strict";
import { spawn, spawnSync } from "node:child_process";
import { closeSync, mkdtempSync, openSync, readFileSync, rmSync, writeFileSync } from "node:fs";
import { tmpdir } from "node:os";
import { join } from "node:path";
import { test } from "node:test";
import { COMMAND, example, missing } from "./pages.mjs";

const call = (words, input = "", options = {}) =>
  spawnSync(process.execPath, [COMMAND, ...words], { input, encoding: "utf8", maxBuffer: 1 << 28, ...options });
const LONG = example("jams.job").replace(/^steps \d+$/m, "steps 500000");

test("outputs and exit statuses", { skip: missing }, () => {
  const ran = call(["run"], example("two_cars.job"));
  assert.deepEqual([ran.status, ran.stdout, ran.stderr], [0, example("two_cars.job.out"), ""]);
  const rejected = call(["run"], "road 2\n");
  assert.deepEqual([rejected.status, rejected.stdout, rejected.stderr], [1, "fault line 1 cause 1\n", ""]);
  const wrong = call(["fly"]);
  assert.deepEqual([wrong.status, wrong.stdout], [2, ""]);
  assert.match(wrong.stderr, /fly/);
  assert.match(call(["--version"]).stdout, /^trlab \d+\.\d+\.\d+\n/);
  assert.equal(call(["--help"]).status, 0);
});

test("progress goes to standard error", { skip: missing }, () => {
  const { status, stdout, stderr } = call(["sweep", "--progress"], example("fundamental_diagram.sweep"));
  assert.deepEqual([status, stdout], [0, example("fundamental_diagram.csv")]);
  assert.match(stderr, /^trlab: 100 % \(point \d+ of \d+\)$/m);
});

test("files as standard input and output", { skip: missing }, () => {
  const folder = mkdtempSync(join(tmpdir(), "trlab-node-")), [from, to] = ["in", "out"].map(it => join(folder, it));
  writeFileSync(from, example("jams.job"));
  const streams = [openSync(from, "r"), openSync(to, "w"), "pipe"];
  const { status } = spawnSync(process.execPath, [COMMAND, "run"], { stdio: streams });
  streams.slice(0, 2).forEach(closeSync);
  assert.equal(status, 0);
  assert.equal(readFileSync(to, "utf8"), example("jams.job.out"));
  rmSync(folder, { recursive: true });
});

test("failing streams end with status 4", { skip: missing }, t => {
  if (process.platform !== "linux") return t.skip("/dev/full is for Linux");
  const full = openSync("/dev/full", "w"), folder = openSync("/", "r");
  const statusOf = options => spawnSync(process.execPath, [COMMAND, "run"], options).status;
  assert.equal(statusOf({ input: example("jams.job"), stdio: ["pipe", full, "pipe"] }), 4);
  assert.equal(statusOf({ stdio: [folder, "pipe", "pipe"] }), 4);
  closeSync(full);
  closeSync(folder);
});

/** Starts the command with a job that takes long, and waits for the first piece of its output. */
async function begun(input) {
  const child = spawn(process.execPath, [COMMAND, "run"], { stdio: ["pipe", "pipe", "inherit"] });
  const ended = new Promise(done => child.on("close", (status, signal) => done({ status, signal })));
  child.stdin.on("error", () => {});
  child.stdin.end(input);
  await new Promise(done => child.stdout.once("data", done));
  return { child, ended };
}
test("a reader that goes away ends the run with status 4", { skip: missing }, async () => {
  const { child, ended } = await begun(LONG);
  child.stdout.destroy();
  assert.deepEqual(await ended, { status: 4, signal: null });
});
test("a signal ends the run", { skip: missing }, async () => {
  for (const signal of ["SIGTERM", "SIGINT", "SIGKILL"]) {
    const { child, ended } = await begun(LONG);
    child.kill(signal);
    child.stdout.resume();
    assert.deepEqual(await ended, { status: null, signal });
  }
});

test("an input that never ends is rejected", { skip: missing }, async () => {
  const child = spawn(process.execPath, [COMMAND, "run"], { stdio: ["pipe", "pipe", "inherit"] });
  const pieces = [], piece = "x".repeat(1 << 16);
  child.stdout.on("data", it => pieces.push(it));
  child.stdin.on("error", () => {});
  const write = () => child.stdin.write(piece, fault => fault || write());
  write();
  const status = await new Promise(done => child.on("close", done));
  assert.deepEqual([status, Buffer.concat(pieces).toString()], [1, "fault line 0 cause 9\n"]);
});

test("without a page there is one message", () => {
  const folder = mkdtempSync(join(tmpdir(), "trlab-node-"));
  const source = new URL("..", import.meta.url), names = ["trlab-node.mjs", "command.mjs", "program.mjs"];
  names.forEach(name => writeFileSync(join(folder, name), readFileSync(new URL(name, source))));
  const ran = spawnSync(process.execPath, [join(folder, "trlab-node.mjs"), "run"], { encoding: "utf8" });
  assert.equal(ran.status, 70);
  assert.match(ran.stderr, /^trlab-node: there is no host.js: .*\n$/);
  writeFileSync(join(folder, "package.json"), '{ "type": "module" }');
  writeFileSync(join(folder, "host.js"), readFileSync(new URL("../python/trlab/lab/host.js", source)));
  const cases = [
    [undefined, "there is no trlab-lab.html"],
    ["<p>", "contains no program"],
    ['<script id="program">x<', "is damaged"],
  ];
  for (const [page, message] of cases) {
    if (page !== undefined) writeFileSync(join(folder, "trlab-lab.html"), page);
    const { status, stderr } = spawnSync(process.execPath, [join(folder, "trlab-node.mjs"), "run"], { encoding: "utf8" });
    assert.equal(status, 70);
    assert.ok(stderr.includes(message) && stderr.split("\n").length === 2, stderr);
  }
  rmSync(folder, { recursive: true });
});

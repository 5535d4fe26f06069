// The folder as a package of npm: it works away from the checkout, and packing leaves no files behind.

import assert from "node:assert/strict";
import { spawnSync } from "node:child_process";
import { existsSync, mkdirSync, mkdtempSync, readdirSync, rmSync, writeFileSync } from "node:fs";
import { tmpdir } from "node:os";
import { join } from "node:path";
import { test } from "node:test";
import { fileURLToPath } from "node:url";
import { example, missing } from "./pages.mjs";

const FOLDER = fileURLToPath(new URL("..", import.meta.url));
const hasNpm = spawnSync("npm", ["--version"]).status === 0;

test("npm pack", { skip: missing || !hasNpm && "npm is not installed" }, () => {
  const room = mkdtempSync(join(tmpdir(), "trlab-npm-")), before = readdirSync(FOLDER);
  const call = (cwd, command, ...words) => {
    const env = { ...process.env, npm_config_cache: room };
    const ended = spawnSync(command, words, { cwd, encoding: "utf8", input: example("two_cars.job"), env });
    assert.equal(ended.status, 0, ended.stderr);
    return ended.stdout;
  };
  call(FOLDER, "npm", "pack", "--offline", "--pack-destination", room);
  assert.deepEqual(readdirSync(FOLDER), before);
  const [packed] = readdirSync(room).filter(it => it.endsWith(".tgz"));
  const project = join(room, "project");
  mkdirSync(project);
  writeFileSync(join(project, "package.json"), '{ "name": "project", "version": "1.0.0", "private": true }');
  call(project, "npm", "install", "--offline", "--no-audit", "--no-fund", join(room, packed));
  const installed = join(project, "node_modules", "trlab-node");
  assert.deepEqual(["tests", "packing", "check"].filter(it => existsSync(join(installed, it))), []);
  assert.equal(call(project, "npx", "--offline", "trlab-node", "run"), example("two_cars.job.out"));
  writeFileSync(join(project, "script.mjs"), 'import { run } from "trlab-node"; console.log(run(process.argv[2]).length);');
  assert.equal(call(project, process.execPath, "script.mjs", example("two_cars.job")), "5\n");
  rmSync(room, { recursive: true });
});

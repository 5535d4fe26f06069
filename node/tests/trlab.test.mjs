// The functions for scripts: results, and the errors of rejected inputs.

import assert from "node:assert/strict";
import { readFileSync } from "node:fs";
import { test } from "node:test";
import { execFileSync } from "node:child_process";
import { fileURLToPath } from "node:url";
import { example as text, missing } from "./pages.mjs";
import * as trlab from "../trlab.mjs";

const { ParameterError, ProgramError, RejectedInputError, check, explain, run, series, sweep } = trlab;
const TWO_CARS = text("two_cars.job");

test("snapshots of a run", { skip: missing }, () => {
  const shots = run(TWO_CARS);
  assert.deepEqual(shots.map(it => it.step), [0, 1, 2, 3, 4]);
  assert.deepEqual(shots.at(-1), { step: 4, lanes: ["..4....3.."] });
  const written = ({ step, lanes }) => [`step ${step}`, ...lanes, ""].join("\n");
  for (const name of ["jam.job", "overtaking.job"]) {
    assert.equal(run(text(name)).map(written).join(""), text(`${name}.out`), name);
  }
  assert.deepEqual(run(TWO_CARS, { every: 2, from: 1 }).map(it => it.step), [1, 3]);
  assert.deepEqual(run(Buffer.from(TWO_CARS)), shots);
});

test("results one by one", { skip: missing }, () => {
  const seen = [];
  assert.equal(run(TWO_CARS, { each: it => seen.push(it) }), undefined);
  assert.deepEqual(seen, run(TWO_CARS));
  const stop = new Error("enough");
  assert.throws(() => run(TWO_CARS, { each: ({ step }) => { if (step === 2) throw stop; } }), stop);
});

test("windows of a series", { skip: missing }, () => {
  const windows = series(text("overtaking.job"), { every: 10 }), lines = text("overtaking.series.csv").trim().split("\n");
  const columns = ({ flowMillionths, ...rest }) => ({ ...rest, flow: flowMillionths });
  const names = lines[0].split(",");
  assert.deepEqual([names.join(), ...windows.map(it => names.map(name => columns(it)[name]).join())], lines);
});

test("points of a sweep", { skip: missing }, () => {
  const points = sweep(text("fundamental_diagram.sweep")), lines = text("fundamental_diagram.csv").trim().split("\n");
  assert.equal(points.length, lines.length - 1);
  for (const point of points) {
    assert.equal(point.density, point.cars / point.cells);
    assert.equal(Math.floor(point.distance * 1e6 / (point.cells * point.steps)), point.flowMillionths);
    assert.ok(Math.abs(point.flow - point.density * point.speed) < 1e-12);
    assert.equal(point.stoppedShare, point.stopped / (point.cars * point.steps));
    assert.equal(point.changeRate, 0);
  }
});

test("a road without cars has no mean speed", { skip: missing }, () => {
  const [point] = sweep(text("fundamental_diagram.sweep").replace(/(cars \d+\n)+/, "cars 0\n"));
  assert.deepEqual([point.speed, point.stoppedShare, point.changeRate, point.flow], [NaN, NaN, NaN, 0]);
});

test("programs", { skip: missing }, () => {
  const { budget, text: canonical } = check(text("nasch.rule"));
  assert.equal(`accepted budget ${budget}\n${canonical}`, text("nasch.rule.out"));
  const isRejection = fault => fault instanceof RejectedInputError && fault.reason > 0 && fault.pc === 1;
  assert.throws(() => check("motion\nget r0, speed\ngo r0\n"), isRejection);
});

test("explanations", { skip: missing }, () => {
  assert.match(explain(TWO_CARS), /^This is a valid job/);
  assert.equal(explain(TWO_CARS, { json: true }).numbers.cars, 2);
  assert.match(explain("road 2\n", { as: "run" }), /the format version must be 1/);
  assert.equal(explain("road 2\n", { as: "sweep", json: true }).command, "sweep");
});

test("a rejected input has a line, a cause and a message", { skip: missing }, () => {
  const wrong = TWO_CARS.replace("limit 5", "limit 99");
  for (const call of [() => run(wrong), () => series(wrong), () => run(wrong, { each: assert.fail })]) {
    assert.throws(call, fault => {
      const { answer, line, cause, reason } = fault;
      assert.ok(fault instanceof RejectedInputError);
      assert.deepEqual({ answer, line, cause, reason }, { answer: `fault line 3 cause ${cause}`, line: 3, cause, reason: null });
      assert.equal(fault.message, explain(wrong, { as: "run" }));
      assert.equal(typeof fault.meaning, "string");
      return true;
    });
  }
});

test("invalid arguments", { skip: missing }, () => {
  for (const every of ["2", 1.5, NaN, null]) assert.throws(() => run(TWO_CARS, { every }), ParameterError);
  const isUsageError = fault => fault instanceof ProgramError && fault.status === 2 && /every/.test(fault.said);
  assert.throws(() => run(TWO_CARS, { every: 0 }), isUsageError);
  for (const input of [undefined, 3, ["road 1"]]) assert.throws(() => run(input), ParameterError);
  assert.throws(() => explain(TWO_CARS, { as: "series" }), ParameterError);
});

test("the types name the exports of the module", () => {
  const types = readFileSync(new URL("../trlab.d.mts", import.meta.url), "utf8");
  const named = new Set([...types.matchAll(/^export (?:function|class) (\w+)/gm)].map(it => it[1]));
  assert.deepEqual([...named].sort(), Object.keys(trlab).sort());
});

test("the example prints the output on its page", { skip: missing }, () => {
  const path = fileURLToPath(new URL("../example.mjs", import.meta.url));
  const printed = execFileSync(process.execPath, [path], { encoding: "utf8" });
  const page = readFileSync(new URL("../README.md", import.meta.url), "utf8");
  assert.ok(page.includes("```text\n" + printed + "```"), printed);
});

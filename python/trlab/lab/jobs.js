// Job files and sweep files from the controls of the page. The same controls give the same files as `Job` and `Sweep` in Python.

import { MAX_CELLS, MAX_POINTS, MAX_SPEED, MAX_STEPS, checkedInteger, checkedParts, ensure, quoted, roundHalfEven } from "./checks.js";
import { randomCells } from "./random.js";
import { upTo } from "./job.js";

const SPEEDS = "0123456789abcdefghijklmnopqrstuvwxyz";
/** The densities of a sweep, closer to each other near the maximum of the flow. */
const DENSITIES = upTo(31).slice(1).map(k => k <= 16 ? k / 50 : 0.32 + (k - 16) * 0.045);

const joinLines = lines => lines.map(line => `${line}\n`).join("");

/** The job file: `rules` in their order, each with the step `at` which it takes over, and a road by its `start`. Random cells are
 * drawn with the `seed`, or else with the key. */
export function jobFile(job) {
  const key = parseKey(job.key), seed = parseKey(job.seed ?? job.key);
  const limit = checkedInteger("limit", job.limit, 1, MAX_SPEED), steps = checkedInteger("steps", job.steps, 0, MAX_STEPS);
  const lanes = roadLanes(job, seed, limit).map(lane => `lane ${lane}`), [first, ...later] = job.rules;
  checkedInteger("the first step of the first rule", first.at, 0, 0);
  return joinLines(["road 1", keyLine(key), `limit ${limit}`, ...lanes, ...ruleLines(first, job.lanes), `steps ${steps}`,
    ...inOrder(later, steps).flatMap(rule => atLines(rule, job.lanes))]);
}
function inOrder(rules, steps) {
  for (const { at } of rules) {
    checkedInteger("the first step of a rule", at, 0, MAX_STEPS);
    ensure(at < steps, () => `a step of \`at\` must be below \`steps\`, which is ${steps}, not ${at}`);
  }
  ensure(new Set(rules.map(rule => rule.at)).size === rules.length, () => "two rules take over at the same step");
  return rules.toSorted((one, other) => one.at - other.at);
}
function atLines(rule, lanes) {
  const [first, ...others] = ruleLines(rule, lanes);
  return [`at ${rule.at} ${first}`, ...others];
}

/** The sweep file of the road for a `rule`, with its `warm` and `measure` steps. On two lanes the numbers of cars are those
 * near the densities that an even initial state halves between the lanes. */
export function sweepFile({ key, limit, length, lanes, rule, warm, measure }) {
  checkedInteger("limit", limit, 1, MAX_SPEED);
  const cells = checkedInteger("length", length, 1, MAX_CELLS) * checkedInteger("lanes", lanes, 1, 2);
  const steps = checkedInteger("warm", warm, 0, MAX_STEPS) + checkedInteger("measure", measure, 1, MAX_STEPS);
  const near = DENSITIES.map(density => roundHalfEven(density * cells));
  const counts = lanes === 2 ? near.map(cars => halved(cars, length)) : near;
  const cars = [...new Set(counts)].sort((one, other) => one - other);
  ensure(cars.length <= MAX_POINTS && cars.length * steps <= MAX_STEPS, () => `a sweep file has at most ${MAX_POINTS} points and ` +
    `${MAX_STEPS} steps of all points together, and this sweep has ${cars.length} points of ${steps} steps: choose fewer steps`);
  return joinLines(["sweep 1", keyLine(parseKey(key)), `limit ${limit}`, `length ${length}`, `lanes ${lanes}`,
    ...ruleLines(rule, lanes), `warm ${warm}`, `measure ${measure}`, ...cars.map(count => `cars ${count}`)]);
}
const commonDivisor = (one, other) => other ? commonDivisor(other, one % other) : one;
/** Whether evenly spaced cars on two lanes are halved between them, up to one car. Their cells repeat `periods` times; one more
 * car of a period is on lane 0 if the period has an even number of cells, and otherwise every second period begins on lane 1.
 * */
function isHalved(cars, length) {
  const periods = commonDivisor(cars, 2 * length);
  return !cars || periods <= 1 || 2 * length / periods % 2 === 1;
}
/** The nearest number of cars that is halved between two lanes, and of two the smaller one. */
function halved(cars, length) {
  for (let away = 0; ; away++) {
    for (const near of [cars - away, cars + away]) if (near >= 0 && near <= 2 * length && isHalved(near, length)) return near;
  }
}

/** The key, a BigInt, from its decimal digits, because numbers of JavaScript are too small for it. */
function parseKey(digits) {
  const isKey = typeof digits === "string" && /^[0-9]{1,78}$/.test(digits);
  ensure(isKey, () => `the key must have 1 to 78 decimal digits, not ${quoted(digits)}`);
  const key = BigInt(digits);
  ensure(key < 2n ** 256n, () => `key must be between 0 and 2**256 - 1, not ${quoted(key)}`);
  return key;
}
const keyLine = key => `key ${key.toString(16).padStart(64, "0")}`;

function roadLanes({ start, road, length, lanes, cars }, seed, limit) {
  if (start === "file") return checkedRoad(road, limit);
  const cells = checkedInteger("length", length, 1, MAX_CELLS) * checkedInteger("lanes", lanes, 1, 2);
  const rows = upTo(lanes).map(() => new Array(length).fill("."));
  // Cells are counted across the lanes: on two lanes cell 0 is on lane 0, and cell 1 next to it on lane 1.
  const character = SPEEDS[start === "moving" ? limit : 0];
  for (const cell of startCells(start, checkedInteger("cars", cars, 0, cells), cells, seed)) {
    rows[cell % lanes][Math.floor(cell / lanes)] = character;
  }
  return rows.map(row => row.join(""));
}
function startCells(start, cars, cells, seed) {
  ensure(["even", "moving", "random", "jam"].includes(start), () => `the initial state is even, moving, random, jam or file, not ${quoted(start)}`);
  if (start === "random") return randomCells(seed, cars, cells);
  return upTo(cars).map(car => start === "jam" ? car : Math.floor(car * cells / cars));
}
function checkedRoad(road, limit) {
  ensure(road.length >= 1 && road.length <= 2, () => `a road has 1 or 2 lanes, not ${road.length}`);
  for (const lane of road) {
    const others = [...new Set(lane)].filter(it => it !== "." && !SPEEDS.slice(0, limit + 1).includes(it)).sort();
    ensure(!others.length, () => `a lane has the character ${quoted(others[0])}, and the limit is ${limit} cells per step: ` +
      `\`.\` is an empty cell, and 0 to ${SPEEDS[limit]} are cars`);
  }
  const [one, other] = [road[0].length, road.at(-1).length];
  ensure(one === other, () => `the lanes have ${one} and ${other} cells, and must have the same number`);
  checkedInteger("the number of cells of a lane", one, 1, MAX_CELLS);
  return road;
}

const PROBABILITIES = new Map([["nasch", ["brake"]], ["vdr", ["brake", "stopped"]], ["rickert", ["brake", "change"]]]);
/** The lines of a rule in a file. On one lane there is no program for lane changes. */
export function ruleLines({ model, p, q, motion, change }, lanes) {
  if (model === "own") {
    const changes = lanes === 2 && change?.trim() ? programLines("change", change) : [];
    return ["rule own", ...programLines("motion", motion), ...changes];
  }
  const names = PROBABILITIES.get(model);
  ensure(names, () => `the rule is nasch, vdr, rickert or own, not ${quoted(model)}`);
  return [`rule ${model} ${names.map((name, k) => checkedParts(name, [p, q][k])).join(" ")}`];
}
/** The lines of a program in a file. Its first line may be left out, and `end` is not one of them. Empty lines at its start do
 * not count. */
function programLines(kind, program) {
  const lines = program.replace(/^\n+/, "").replace(/\n$/, "").split("\n"), other = kind === "motion" ? "change" : "motion";
  ensure(program.isWellFormed(), () => `the ${kind} program has a character that UTF-8 does not have`);
  ensure(program.trim(), () => `the ${kind} program is empty`);
  ensure(lines[0] !== other, () => `this is a ${other} program, and a ${kind} program is needed`);
  const isCode = lines[0].startsWith("code ");
  ensure(!isCode || lines.slice(1).every(line => !line), () => "a program that is given as `code X` is one line");
  ensure(!lines.includes("end"), () => `the ${kind} program has a line \`end\`: leave it out`);
  return isCode ? [lines[0]] : [...lines[0] === kind ? [] : [kind], ...lines, "end"];
}

// Sweeps of the fundamental diagram from every initial state. A sweep file begins with evenly spaced, stopped cars, and `trlab
// sweep` counts it. From another state each density is a job, whose rows after the warm-up are added up as a sweep counts them.

import { $ } from "./dom.js";
import { post } from "./backend.js";
import { explain, messageOf } from "./editor.js";

/** The initial states of a sweep, as the diagram names them. A road of a file has one density, so it is swept as `even`. */
export const STATES = { even: "even start", moving: "moving start", random: "random start", jam: "jammed start" };
export const sweepableState = start => start in STATES ? start : "even";
export const BRANCHES = ["moving", "jam"];
const COLUMNS = ["cars", "cells", "steps", "distance", "stopped", "changes"];
const MILLION = 1000000n; // flows in tables are in millionths
const KEY_DIGITS = 64;
const BUTTONS = ["sweep", "branches"];

/** The key that follows from another one, as `Sweep.jobs()` of Python derives it: both are strings of decimal digits. */
export async function deriveKey(purpose, key, number) {
  const words = `trlab ${purpose} ${BigInt(key).toString(16).padStart(KEY_DIGITS, "0")} ${number}`;
  const hash = new Uint8Array(await crypto.subtle.digest("SHA-256", new TextEncoder().encode(words)));
  return BigInt(`0x${Array.from(hash, byte => byte.toString(16).padStart(2, "0")).join("")}`).toString();
}

/** The row of a sweep's table for a job file: its counts after `warm` steps. Counts may be too large for numbers of JavaScript. */
export async function sweepRow(file, warm) {
  const series = (await (await post("series", file)).text()).trim();
  const [head, ...rows] = series.split("\n").map(line => line.split(",")), counted = rows.slice(warm);
  const columnOf = name => head.indexOf(name), sumOf = name => counted.reduce((sum, row) => sum + BigInt(row[columnOf(name)]), 0n);
  const row = Object.fromEntries(COLUMNS.map(name => [name, sumOf(name)]));
  for (const name of ["cars", "cells"]) row[name] = BigInt(counted[0][columnOf(name)]);
  return [...COLUMNS.map(name => row[name]), row.distance * MILLION / (row.cells * row.steps)].join(",");
}

/** The table of a sweep from the initial state of the `job`, one row per number of cars. `jobOf(changes)` writes the job with
 * other numbers, and `onProgress` is called with the percentage that is done. */
async function tableOfJobs(job, counts, { warm, measure }, jobOf, onProgress) {
  const rows = [];
  for (const [number, cars] of counts.entries()) {
    onProgress(Math.floor(100 * number / counts.length));
    const [key, seed] = [await deriveKey("point", job.key, number), await deriveKey("seed", job.key, number)];
    rows.push(await sweepRow(jobOf({ cars, key, seed, steps: warm + measure }), warm));
  }
  return [`${COLUMNS.join(",")},flow`, ...rows].join("\n") + "\n";
}
/** The table of a sweep file. */
async function tableOfFile(source, onProgress) {
  const reader = (await post("sweep", source)).body.pipeThrough(new TextDecoderStream()).getReader();
  let output = "";
  for (let part = await reader.read(); !part.done; part = await reader.read()) {
    output += part.value;
    onProgress(Number(/.*trlab: (\d+) %/s.exec(output)?.[1] ?? 0));
  }
  const table = output.replace(/^trlab: .*\n/gm, "");
  if (!table.startsWith("cars,")) throw new Error(messageOf(await explain("sweep", source)));
  return table;
}
const numberIn = (source, name) => Number(new RegExp(`^${name} (\\d+)$`, "m").exec(source)[1]);
/** The numbers of cars of a sweep file. */
const carCounts = source => [...source.matchAll(/^cars (\d+)$/gm)].map(([, digits]) => Number(digits));
/** The points of a sweep's table. */
const pointsOf = table => table.trim().split("\n").slice(1).map(line => line.split(",").map(Number))
  .map(([cars, cells, steps, distance]) => ({ density: cars / cells, flow: distance / (cells * steps) }));

export class Sweeps {
  /** The sweeps of the page, one at a time. `onTable(mark, table)` is called for each: the mark of the fundamental diagram, and the
   * table to save. */
  constructor(onTable, onError) {
    this.onTable = onTable;
    this.onError = onError;
    this.group = 0;
  }
  /** Run a sweep file. */
  runFile(source, name) {
    this.group += 1;
    return this.withProgress("sweep", async onProgress => this.add(source, name, "even", await tableOfFile(source, onProgress)));
  }
  /** Sweep the road of a job from one or more initial states. `fileOf(kind, changes)` writes a file of the job. */
  runFrom(buttonId, job, name, spans, states, fileOf) {
    this.group += 1;
    return this.withProgress(buttonId, async onProgress => {
      const source = fileOf("sweep", spans);
      for (const [number, start] of states.entries()) {
        const onShare = percent => onProgress(Math.floor((100 * number + percent) / states.length));
        const jobOf = changes => fileOf("job", { start, road: null, ...changes });
        const table = start === "even" ? tableOfFile(source, onShare) : tableOfJobs(job, carCounts(source), spans, jobOf, onShare);
        this.add(source, name, start, await table);
      }
    });
  }
  add(source, name, start, table) {
    const [limit, length, lanes] = ["limit", "length", "lanes"].map(word => numberIn(source, word));
    this.onTable({ name, start, group: this.group, limit, length, lanes, points: pointsOf(table) }, table);
  }
  /** Do a sweep, and show its progress on a button. */
  async withProgress(buttonId, sweep) {
    const button = $(buttonId), label = button.textContent, setDisabled = disabled => BUTTONS.forEach(id => $(id).disabled = disabled);
    setDisabled(true);
    try {
      await sweep(percent => button.textContent = `${percent} %`);
    } catch (error) {
      this.onError(error);
    }
    button.textContent = label;
    setDisabled(false);
  }
}

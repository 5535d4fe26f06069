// The controls of the page from a job file or a sweep file that trlab accepts.

import { FIRST_JOB } from "./job.js";
import { ensure, roundHalfEven, shortestDecimal } from "./checks.js";

/** The controls that a file has, and those of the first page for the others. A sweep file gives its road and its rule, but not the
 * `density`. */
export function jobOf(text, density = FIRST_JOB.density) {
  const job = { ...FIRST_JOB, density, ...controlsOf(text) }, cells = job.length * job.lanes;
  if (!job.road) job.cars = roundHalfEven(job.density * cells);
  return { ...job, density: +(job.cars / cells).toFixed(4) };
}
/** The controls that a file has. */
export function controlsOf(text) {
  const lines = new Lines(text), controls = { start: "even", road: null, rules: [] }, road = [];
  while (lines.isLeft) {
    const [word, ...values] = lines.takeLine().split(" ");
    if (word === "lane") road.push(values[0]);
    else if (word === "rule") controls.rules.push(takeRule(0, values, lines, controls.rules.at(-1)));
    else if (word === "at") controls.rules.push(takeRule(wholeNumber(values[0]), values.slice(2), lines, controls.rules.at(-1)));
    else if (word === "key") controls.key = BigInt(`0x${values[0]}`).toString();
    else if (NUMBER_WORDS.has(word)) controls[word] = wholeNumber(values[0]);
    else ensure(OTHER_WORDS.has(word), () => unknownWordMessage(lines.next, word));
  }
  if (!road.length) return controls;
  const cars = road.reduce((sum, lane) => sum + lane.replaceAll(".", "").length, 0);
  return { ...controls, start: "file", road, lanes: road.length, length: road[0].length, cars };
}
const unknownWordMessage = (line, word) => `line ${line} of the file begins with a word that the page does not know: ${word.slice(0, 80)}`;
const NUMBER_WORDS = new Set(["limit", "length", "lanes", "steps"]);
/** The words of lines for which the page has no control, or several. */
const OTHER_WORDS = new Set(["road", "sweep", "warm", "measure", "cars"]);

function wholeNumber(digits) {
  ensure(/^[0-9]+$/.test(digits), () => `the file has ${String(digits).slice(0, 80)} instead of a number`);
  return +digits;
}
/** A rule from the words after `rule`. Values that the line does not have, such as the programs, stay as they were before. */
function takeRule(at, [model, ...numbers], lines, before = { p: 0.25, q: 0.5, motion: "", change: "" }) {
  if (model !== "own") {
    const [p = before.p, q = before.q] = numbers.map(digits => shortestDecimal(wholeNumber(digits)));
    return { ...before, at, model, p, q };
  }
  const motion = lines.takeProgram(), change = /^(change$|code )/.test(lines.current ?? "") ? lines.takeProgram() : "";
  return { ...before, at, model, motion, change };
}

/** The lines of a file, which are taken one after the other. */
class Lines {
  constructor(text) {
    this.all = text.replace(/\n$/, "").split("\n");
    this.next = 0;
  }
  get isLeft() { return this.next < this.all.length; }
  get current() { return this.all[this.next]; }
  takeLine() {
    ensure(this.isLeft, () => "the file ends too early");
    return this.all[this.next++];
  }
  /** A program: its one line `code X`, or its lines without `end`. */
  takeProgram() {
    const first = this.next;
    if (this.takeLine().startsWith("code ")) return `${this.all[first]}\n`;
    while (this.takeLine() !== "end");
    return this.all.slice(first, this.next - 1).map(line => `${line}\n`).join("");
  }
}

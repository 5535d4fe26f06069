// The fundamental diagram of the page: the points of its runs, the curves of its sweeps, and the exact curve of its road and rule. Its
// points can be read one by one, with the pointer or with the arrow keys.

import { $, setText } from "./dom.js";
import { clamp } from "./job.js";
import { WIDTH, densityAt, diagramBox, diagramElements, diagramFile, pointWords } from "./diagram.js";
import { exactCurve } from "./exact.js";

const MAX_MARKS = 200;
/** The flow of a run is averaged without its first steps: 200, or a quarter of a short run. A run of few steps is no point. */
const WARM_UP = { steps: 200, shareOfRun: 1 / 4 }, MIN_STEPS = 10;
const MILLISECONDS_PER_DRAWING = 100;
/** A finger may miss a point by this many pixels. */
const POINTER_REACH = 8;

export class FundamentalDiagram {
  /** `current()` gives { job, rule }: the job, and the rule that its cars follow. `onDensity(density)` is called when a place without
   * points is clicked. */
  constructor(current, onDensity) {
    this.current = current;
    this.onDensity = onDensity;
    this.marks = [];
    this.means = null;
    this.selected = null;
    this.drawnAt = 0;
    this.drawnElements = "";
    this.exact = { key: "", curve: null };
    this.addListeners();
  }

  // Points of runs

  /** A run of the job begins, or goes on from a step. */
  startRun({ limit, length, lanes, steps, cars }, step) {
    this.finishRun();
    const warmUp = Math.min(WARM_UP.steps, Math.floor(steps * WARM_UP.shareOfRun)), from = Math.max(0, step) + warmUp;
    this.means = { from, sum: 0, steps: 0, limit, length, lanes, density: cars / length / lanes };
  }
  addSnapshot(snapshot) {
    const { means } = this;
    if (!means || snapshot.step <= means.from) return;
    Object.assign(means, { from: snapshot.step, sum: means.sum + snapshot.flow, steps: means.steps + 1 });
  }
  /** The last run becomes a point: its mean flow. */
  finishRun() {
    const { limit, length, lanes, density, sum, steps } = this.means ?? {};
    if (steps >= MIN_STEPS) this.marks.push({ limit, length, lanes, points: [{ density, flow: sum / steps }] });
    this.marks.splice(0, this.marks.length - MAX_MARKS);
    this.means = null;
  }
  addMark(mark) {
    this.marks.push(mark);
    this.draw();
  }
  clear() {
    this.marks = [];
    this.selectPoint(null);
  }

  // Drawing

  /** The exact curve of the road and the rule, made again if they have changed; null if it is not known, or if the rule is not one. */
  exactCurve({ job: { limit, length, lanes }, rule: { model, p, q, motion, change } }) {
    const parameters = { limit, length, lanes, rule: { model, p, q, motion, change } }, key = JSON.stringify(parameters);
    if (key !== this.exact.key) this.exact = { key, curve: exactCurveOrNull(parameters) };
    return this.exact.curve;
  }
  /** The contents, as the drawing takes them. */
  contents() {
    const current = this.current(), { limit, length, lanes, cars } = current.job, { means, marks, selected } = this;
    const flow = means?.steps ? means.sum / means.steps : null, exact = this.exactCurve(current);
    return { limit, length, lanes, density: cars / (length * lanes), flow, marks, exact, selected: selected?.point };
  }
  draw(now = 0) {
    const contents = this.contents(), elements = diagramElements(contents);
    this.drawnAt = now;
    this.showSelected();
    if (elements === this.drawnElements) return;
    this.drawnElements = elements;
    $("diagram").setAttribute("viewBox", diagramBox(contents).join(" "));
    $("diagram").innerHTML = elements;
  }
  /** Draw again while cars are driving, at most ten times per second. */
  drawWhileDriving(now, isPaused) {
    if (isPaused || now - this.drawnAt > MILLISECONDS_PER_DRAWING) this.draw(now);
  }
  file() { return diagramFile(this.contents()); }

  // Reading points

  /** All points with their marks, in the order of their densities. */
  points() {
    const points = this.marks.flatMap(mark => mark.points.map(point => ({ mark, point })));
    return points.sort((one, other) => one.point.density - other.point.density || one.point.flow - other.point.flow);
  }
  /** Select a point, which is one of `points()`, or none. */
  selectPoint(selected) {
    this.selected = selected;
    this.draw();
  }
  /** The numbers of the selected point as text, and for screen readers as the value of a slider over all points. */
  showSelected() {
    const points = this.points(), number = points.findIndex(({ point }) => point === this.selected?.point);
    if (number < 0) this.selected = null;
    const text = this.selected ? pointWords(this.selected.mark, this.selected.point) : "";
    const summary = points.length ? `${points.length} point${points.length === 1 ? "" : "s"}, none selected` : "no points yet";
    setText($("pointnumbers"), text);
    const values = {
      "aria-valuemin": 0, "aria-valuemax": points.length, "aria-valuenow": number + 1,
      "aria-valuetext": text ? `Point ${number + 1} of ${points.length}: ${text}` : summary,
    };
    for (const [name, value] of Object.entries(values)) $("diagram").setAttribute(name, value);
  }
  addListeners() {
    $("diagram").addEventListener("click", event => this.onClick(event));
    $("diagram").addEventListener("keydown", event => this.onKeyDown(event));
  }
  /** The point nearest to a click, or null if none is near. The elements of points are in the order of the marks. */
  pointAt({ clientX, clientY }) {
    const points = this.marks.flatMap(mark => mark.points.map(point => ({ mark, point })));
    const near = [...document.querySelectorAll("#diagram .point")].map((element, k) => {
      const { left, top, width, height } = element.getBoundingClientRect();
      return { ...points[k], distance: Math.hypot(left + width / 2 - clientX, top + height / 2 - clientY) };
    });
    return near.filter(({ distance }) => distance <= POINTER_REACH).sort((one, other) => one.distance - other.distance)[0] ?? null;
  }
  onClick(event) {
    const selected = this.pointAt(event);
    this.selectPoint(selected);
    if (selected) return;
    const { left, width } = $("diagram").getBoundingClientRect();
    this.onDensity(clamp(densityAt((event.clientX - left) / width * WIDTH), 0, 1));
  }
  onKeyDown(event) {
    const points = this.points(), last = points.length - 1, now = points.findIndex(({ point }) => point === this.selected?.point);
    const next = Math.min(now + 1, last), previous = now < 0 ? last : Math.max(now - 1, 0);
    const target = { ArrowRight: next, ArrowUp: next, ArrowLeft: previous, ArrowDown: previous, Home: 0, End: last, Escape: -1 }[event.key];
    if (target === undefined || event.ctrlKey || event.metaKey || event.altKey) return;
    event.preventDefault();
    this.selectPoint(points[target] ?? null);
  }
}

function exactCurveOrNull(parameters) {
  try {
    return exactCurve(parameters);
  } catch (error) {
    if (error instanceof RangeError) return null; // The job file of this rule has the same fault, which is shown.
    throw error;
  }
}

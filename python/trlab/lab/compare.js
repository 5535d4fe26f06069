// A second model next to the first one: the same road, the same steps and the same random numbers, in a space-time diagram of its own.

import { $ } from "./dom.js";
import { watchBox } from "./boxes.js";
import { post } from "./backend.js";
import { clearedCanvas } from "./cars.js";
import { averageAt } from "./curves.js";
import { Film } from "./film.js";
import { jobFile } from "./jobs.js";
import { parseProbability } from "./numbers.js";
import { IDLE_MILLISECONDS } from "./player.js";
import { Run, bytesBefore } from "./runs.js";
import { SpacetimeDiagram } from "./spacetime.js";
import { formatted, unitOf } from "./units.js";

const FRAME_BUDGET = 8; // milliseconds that a frame may spend on snapshots
const NAMES = { nasch: "Nagel and Schreckenberg", vdr: "Slow to start", rickert: "Two lanes" };
const SECOND_PROBABILITIES = { vdr: "if stopped", rickert: "lane changes" };

export class Comparison {
  /** `player` plays the first model, and `onError` shows a message. */
  constructor(player, onError) {
    this.player = player;
    this.onError = onError;
    this.job = null;
    this.jobText = "";
    this.film = null;
    this.run = null;
    this.drawnState = "";
    this.neededAt = 0;
    this.p = 0.25;
    this.q = 0.5;
    this.diagram = new SpacetimeDiagram();
    $("against").onchange = () => this.update();
    for (const name of ["p", "q"]) {
      const setProbability = text => {
        this[name] = parseProbability(text);
        this.update();
      };
      watchBox($(`against${name}`), `against${name}`, setProbability, () => this.showControls());
    }
    requestAnimationFrame(now => this.onFrame(now));
  }
  /** The chosen model, or nothing: a model for two lanes needs two lanes. */
  get model() { return this.job && !(this.job.lanes === 1 && $("against").value === "rickert") ? $("against").value : ""; }

  /** The first model has a new run: the second one begins with the same road. */
  startJob(job) {
    this.job = job;
    this.update();
  }
  update() {
    $("against").querySelector("[value=rickert]").hidden = this.job?.lanes === 1;
    const { model, p, q } = this, isOn = model !== "";
    $("other").hidden = $("againstnumbers").hidden = $("compared").hidden = !isOn;
    this.showControls();
    this.player.redraw();
    try {
      const jobText = isOn ? jobFile({ ...this.job, rules: [{ at: 0, model, p, q }] }) : "";
      if (jobText !== this.jobText) this.load(jobText);
    } catch (error) {
      this.onError(error);
    }
  }
  showControls() {
    const { model, p, q } = this;
    $("againstq").parentNode.hidden = !(model in SECOND_PROBABILITIES);
    $("againstqlabel").textContent = SECOND_PROBABILITIES[model] ?? "";
    $("againstp").value = p;
    $("againstq").value = q;
  }
  load(jobText) {
    this.run?.abort();
    Object.assign(this, { jobText, run: null, drawnState: "", film: jobText ? new Film(this.job) : null });
  }
  /** Take the snapshots up to a step, as far as they have come. */
  takeSnapshots(step) {
    if (this.film.snapshots.length && step < this.film.first) this.load(this.jobText);
    const { film, jobText } = this, from = film.snapshots.length ? film.last + 1 : 0;
    if (from > step) return;
    this.run ??= new Run(signal => post(`run?skip=${bytesBefore(from, film)}`, jobText, signal), film, from, this.onError);
    const end = performance.now() + FRAME_BUDGET;
    while (performance.now() < end && !film.has(step)) {
      const snapshot = this.run.take();
      if (!snapshot) return;
      film.push(snapshot);
    }
  }
  onFrame(now) {
    requestAnimationFrame(later => this.onFrame(later));
    const { step } = this.player;
    if (!this.film || step < 0) return;
    if (!this.film.has(step)) {
      this.neededAt = now;
      this.takeSnapshots(step);
    } else if (this.run && now - this.neededAt > IDLE_MILLISECONDS) {
      this.run.abort();
      this.run = null;
    }
    if (this.film.snapshots.length) this.draw(Math.min(step, this.film.last));
  }
  draw(step) {
    const { film } = this, canvas = $("other"), { clientWidth, clientHeight } = canvas;
    const state = [step, clientWidth, clientHeight, devicePixelRatio, unitOf("speed").words].join();
    if (state === this.drawnState) return;
    const { pen, width, height } = clearedCanvas(canvas);
    this.diagram.draw(pen, width, height, { film, step, car: null });
    $("compared").textContent = this.averageWords(step);
    this.drawnState = state;
  }
  /** The averages of the second model at a step. */
  averageWords(step) {
    const average = kind => averageAt(this.film, kind, step), withUnit = kind => `${formatted(kind, average(kind))} ${unitOf(kind).words}`;
    return `${NAMES[this.model]}: flow ${withUnit("flow")}, speed ${withUnit("speed")}, stopped ${Math.round(100 * average("stopped"))} %`;
  }
}

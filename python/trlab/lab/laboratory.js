// The job of the page and its runs. The job file is the only truth: a control changes the job, which is written as a file, trlab reads
// the file, and the player draws the snapshots that come back.

import { FIRST_JOB, roadFits } from "./job.js";
import { post } from "./backend.js";
import { jobFile } from "./jobs.js";
import { jobOf } from "./reading.js";
import { bytesBefore } from "./runs.js";
import { disturbanceWords, disturbed } from "./disturbance.js";
import { hasOwnPrograms, programsOf } from "./modelprograms.js";

/** The milliseconds for which changes are collected before they are run, for example those of a slider that moves. */
const COLLECTING_MILLISECONDS = 25;
const MAX_RULES = 1000;
/** The step from which on a change is run: a step of the run, the whole road, or no change. */
const WHOLE_ROAD = -1, NO_CHANGE = Infinity;

export class Laboratory {
  job = structuredClone(FIRST_JOB);
  examples = {};
  changedFrom = NO_CHANGE;
  /** The car that the next run follows from its start. */
  carOfNextRun = null;
  /** The promise of the next job file, if one has to be written. */
  writing = null;
  /** Whether the message of the page outlives the start of the next run. */
  keepsMessage = false;

  /** `views` are { player, fundamental, comparison, editor }: the editor is that of the job file. `hooks` are { showJob, releaseBoxes,
   * judge, showMessage, showStory }: `releaseBoxes(names)` takes back what is typed in these boxes. */
  constructor(hooks) { this.hooks = hooks; }
  setViews(views) { this.views = views; }

  get isWriting() { return this.changedFrom < NO_CHANGE; }
  /** The rule that the cars follow at a step, and at the step that is shown. */
  ruleAt(step) { return this.job.rules.findLast(rule => rule.at <= step) ?? this.job.rules[0]; }
  get currentRule() { return this.ruleAt(Math.max(0, this.views.player.step)); }

  // Runs

  /** Run a job file from the start, or on from a step. */
  runFile(source, step = WHOLE_ROAD) {
    const { job, views: { player, fundamental, comparison } } = this, { length, lanes, steps } = job;
    const request = (from, signal) => post(`run?skip=${bytesBefore(from, { length, lanes })}`, source, signal);
    fundamental.startRun(job, step);
    this.changedFrom = NO_CHANGE;
    if (!this.keepsMessage) this.hooks.showMessage("");
    this.keepsMessage = false;
    if (step === WHOLE_ROAD) player.load(request, job, player.car && this.carOfNextRun);
    else player.continueWith(request, steps, step);
    this.carOfNextRun = null;
    comparison.startJob(job);
  }
  /** A control of the road has changed: start again, with the current rule as the first one, and follow a car of the new road. */
  restart(car = null) {
    const { job } = this;
    this.carOfNextRun = car;
    if (job.start === "file" && !roadFits(job)) job.start = "random";
    if (job.rules.some(rule => rule.isLive)) job.rules = [{ ...this.currentRule, at: 0, isLive: false }];
    return this.scheduleRun();
  }
  /** Run the job from the start, or on from a step. If it changes again soon, it is run once, from the first step that has changed. */
  scheduleRun(step = WHOLE_ROAD) {
    this.changedFrom = Math.min(this.changedFrom, step);
    return this.writing ??= new Promise(resolve => setTimeout(resolve, COLLECTING_MILLISECONDS)).then(() => {
      this.writing = null;
      if (this.isWriting) this.writeJob();
    }).catch(error => this.hooks.showMessage(error));
  }
  writeJob() {
    const source = jobFile(this.job);
    this.views.editor.value = source;
    this.runFile(source, this.changedFrom);
    this.hooks.showJob();
    this.hooks.judge();
  }
  /** The job file, once it has the last change of the controls. */
  async currentFile() {
    await this.writing;
    return this.views.editor.value;
  }
  /** Run a job file that trlab accepts, as it is. */
  takeFile(source) {
    this.job = jobOf(source);
    this.views.editor.value = source;
    this.hooks.releaseBoxes([...Object.keys(this.job), "p", "q"]);
    this.runFile(source);
    this.hooks.showJob();
  }

  // Changes

  /** Change the rule, from the step that is shown on if cars are driving. */
  changeRule(changes) {
    const { job, views: { player } } = this, step = this.changedFrom < 0 ? 0 : player.step, rule = { ...this.currentRule, ...changes, isLive: true };
    this.hooks.releaseBoxes(["p", "q"]);
    if (changes.model === "own") Object.assign(rule, this.ownPrograms(), changes);
    const needsSecondLane = rule.model === "rickert" && job.lanes === 1;
    if (needsSecondLane) this.resizeRoad({ lanes: 2 });
    if (needsSecondLane || step <= 0 || step >= job.steps || job.rules.length > MAX_RULES) {
      job.rules = [{ ...rule, at: 0, isLive: false }, ...job.rules.slice(1).filter(later => !later.isLive && step < job.steps)];
      return this.restart();
    }
    job.rules = [...job.rules.filter(other => other.at < step), { ...rule, at: step }];
    return this.scheduleRun(step);
  }
  /** The programs of a rule of one's own that begins now: those that the user had before, or else those of the current model. */
  ownPrograms() {
    const rule = this.currentRule, { motion, change } = rule;
    return rule.model === "own" || hasOwnPrograms(rule, this.examples) ? { motion, change } : programsOf(rule, this.examples);
  }
  /** Drive the road from its start by programs of one's own. */
  startOwnRule(programs) {
    this.job.rules = [{ ...this.currentRule, ...this.ownPrograms(), ...programs, at: 0, isLive: false, model: "own" }];
    return this.restart();
  }
  /** Change values of the job, and start again. */
  changeJob(changes) {
    const { job } = this;
    if (changes.steps !== undefined) job.rules = job.rules.filter(rule => rule.at === 0 || rule.at < changes.steps);
    Object.assign(job, changes);
    this.hooks.releaseBoxes(Object.keys(changes));
    this.restart();
    this.hooks.showJob();
  }
  /** Change the length or the lanes, and keep the density. */
  resizeRoad(changes) {
    const { job } = this;
    Object.assign(job, changes);
    job.cars = Math.round(job.density * job.length * job.lanes);
    this.hooks.releaseBoxes(["cars", "density"]);
    if (job.lanes === 1 && this.currentRule.model === "rickert") job.rules = [{ ...this.currentRule, at: 0, model: "nasch" }];
  }
  /** The followed car brakes to a stop: the run goes on from this road, as a new job. */
  async brakeFollowedCar() {
    const { player: { car, film } } = this.views, { length, lanes, limit } = this.job;
    const isOfJob = film.length === length && film.lanes === lanes && film.limit === limit;
    if (!car || this.isWriting || !isOfJob) return;
    this.job = disturbed(this.job, film, car);
    this.hooks.showStory(disturbanceWords(car, lanes));
    await this.restart({ ...car, step: 0 });
    this.hooks.showJob();
  }
}

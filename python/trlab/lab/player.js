// The player: the clock that shows the snapshots of a run, and the controls that play it. The page and exported files use
// it: their owner passes runs to the player, and is called for new snapshots.

import { $, setText } from "./dom.js";
import { EMPTY, clamp, upTo } from "./job.js";
import { Film } from "./film.js";
import { Run } from "./runs.js";
import { speedColour } from "./colours.js";
import { averageAt, drawCurves } from "./curves.js";
import { followedCarWords } from "./following.js";
import { axesWords, formatted, showUnits, speedWords, unitOf } from "./units.js";
import { RingImage, StraightRoadImage } from "./pixels.js";
import { clearedCanvas, followedPlace } from "./cars.js";
import { drawRing, placeOnRing } from "./ring.js";
import { drawRoad, enlargedPart, placeOnRoad } from "./road.js";
import { SpacetimeDiagram, hasSharedPixels, spacetimeRows } from "./spacetime.js";

const prefersReducedMotion = matchMedia("(prefers-reduced-motion: reduce)").matches;
const MAX_STEPS_PER_SECOND = 2000, SECONDS_OF_SHORT_RUN = 10;
/** A frame shows at most this much time, and takes at most this much, in milliseconds. */
const MAX_FRAME_TIME = 100, FRAME_BUDGET = 12;
/** After so long a pause, in milliseconds, a run ends; it is run again when needed. */
export const IDLE_MILLISECONDS = 5000;
// The numbered steps in the space-time diagram: possible distances in steps, and the least distance in pixels.
const MARK_DISTANCES = [1, 2, 5, 10, 20, 50, 100, 200], MIN_MARK_PIXELS = 45;
const MAX_LEGEND_SPEED = 9, TABLE_ROWS = 10;
/** A click in the space-time diagram means a car within this many pixels. */
const SPACETIME_REACH = 8;
/** An arrow key moves the enlarged part by this share of it. */
const LENS_SHARE = 0.1;

export class Player {
  /** `listeners` has onSnapshot(snapshot), onStep(time), onEnd(), ruleAt(step) and keys, and each may be missing. `onError` shows a
   * message. */
  constructor(listeners, onError) {
    this.listeners = listeners;
    this.onError = onError;
    this.film = null;
    this.run = null;
    this.step = -1;
    this.car = null;
    this.lens = 0;
    this.phase = 1;
    this.drawnStep = -1;
    this.playing = !prefersReducedMotion;
    this.moving = false;
    this.isStepDue = false;
    this.stale = true;
    this.lastFrame = 0;
    this.pausedAt = 0;
    this.spacetime = new SpacetimeDiagram();
    this.images = { ring: new RingImage(), road: new StraightRoadImage() };
    this.addListeners();
    this.setPlaying(this.playing);
    this.updateRate();
    requestAnimationFrame(now => this.onFrame(now));
  }

  // Runs

  /** Play a run from the start, and follow a car of its first road. `request(from, signal)` gives the response whose snapshots begin
   * at the step `from`. */
  load(request, job, car = null) {
    this.film = new Film(job);
    Object.assign(this, { step: -1, car, phase: 1, moving: this.playing, drawnStep: -1, lens: job.length / 2 });
    this.startRun(request);
    this.updateLegend(job.limit);
  }
  /** Go on from a step with another run, which is the same up to this step. */
  continueWith(request, steps, step) {
    if (this.step > step) this.showStep(step);
    this.film.steps = steps;
    this.film.cutAfter(step);
    this.startRun(request);
  }
  startRun(request) {
    const from = this.film.snapshots.length ? this.film.last + 1 : 0;
    this.request = request;
    this.run?.abort();
    this.run = new Run(signal => request(from, signal), this.film, from, this.onError);
    this.pausedAt = performance.now();
  }
  endRun() {
    this.run.abort();
    this.run = null;
  }
  get isOver() { return this.step === this.film.steps; }
  get share() { return prefersReducedMotion ? 1 : this.phase; }
  get view() {
    return { film: this.film, step: this.step, share: this.share, lens: this.lens, car: this.car, images: this.images };
  }
  get isShown() { return this.film !== null && this.film.has(this.step); }
  /** All cars of the step that is shown, or null before the first one. */
  get scene() { return this.isShown ? this.film.wholeScene(this.step) : null; }
  /** The rows of the space-time diagram as it is shown. */
  get rows() { return spacetimeRows(this.view, $("spacetime").clientWidth, $("spacetime").clientHeight); }

  // Frames

  /** Whether the next snapshot was there, and is shown now. */
  showNext() {
    const { film } = this;
    if (!film.has(this.step + 1)) {
      if (!this.run && !this.isOver) this.startRun(this.request);
      const snapshot = this.run?.take();
      if (!snapshot) return false;
      const kept = film.push(snapshot);
      this.listeners.onSnapshot?.(kept);
    }
    this.showStep(this.step + 1);
    return true;
  }
  showStep(step) {
    this.step = step;
    if (this.car) this.car = this.film.follow(this.car, step);
    this.stale = true;
  }
  onFrame(now) {
    requestAnimationFrame(later => this.onFrame(later));
    const passed = Math.min(MAX_FRAME_TIME, now - this.lastFrame);
    this.lastFrame = now;
    if (!this.film || (this.step < 0 && !this.showNext())) return;
    if (!this.playing && this.run && now - this.pausedAt > IDLE_MILLISECONDS) this.endRun();
    if (this.isStepDue && this.showNext()) Object.assign(this, { isStepDue: false, phase: 0, moving: true });
    if (this.moving) this.advance(passed);
    if (this.stale) this.draw(now);
  }
  /** Let the cars drive for some milliseconds. */
  advance(passed) {
    const end = performance.now() + FRAME_BUDGET;
    this.phase += passed / 1000 * this.rate;
    while (this.phase >= 1 && this.playing && performance.now() < end && this.showNext()) this.phase -= 1;
    if (this.phase >= 1) {
      this.phase = 1;
      this.moving = this.playing;
      if (this.isOver) {
        if (this.playing) this.setPlaying(false);
        this.listeners.onEnd?.();
      }
    }
    this.stale = true;
  }
  draw(now) {
    const { view } = this, ring = clearedCanvas($("ring")), road = clearedCanvas($("band"));
    if (this.car) view.lens = this.lens = followedPlace(view)[0];
    drawRing(ring.pen, ring.width, view);
    drawRoad(road.pen, road.width, road.height, view);
    if (this.drawnStep !== this.step) this.drawStep(view, now);
    this.updateLens();
    this.stale = false;
  }
  /** Draw all that changes only from step to step. */
  drawStep(view, now) {
    const { pen, width, height } = clearedCanvas($("spacetime")), curves = clearedCanvas($("curves")), rows = spacetimeRows(view, width, height);
    this.spacetime.draw(pen, width, height, view);
    drawCurves(curves.pen, curves.width, curves.height, view, rows);
    this.updateTexts(rows.top);
    this.updateStepMarks(rows);
    this.drawnStep = this.step;
    this.listeners.onStep?.(now);
  }
  redraw() { Object.assign(this, { drawnStep: -1, stale: true }); }

  // Texts

  /** Write the numbers of the step that is shown, and the axes of the diagram, whose first row is that of the step `top`. */
  updateTexts(top) {
    const { film, step, car } = this, average = kind => averageAt(film, kind, step);
    const flow = formatted("flow", average("flow")), speed = formatted("speed", average("speed")), stopped = `${Math.round(100 * average("stopped"))} %`;
    const followed = car && followedCarWords(film, car, this.listeners.ruleAt?.(car.step - 1));
    const texts = {
      step, steps: `of ${film.steps} steps`, flow, speed, stopped, dense: formatted("density", film.at(step).cars / (film.length * film.lanes)),
      kept: `The page keeps the last ${film.maxKept.toLocaleString("en")} snapshots: back to step ${film.first.toLocaleString("en")}.`,
      axes: axesWords(film.length, top, step), car: followed ?? (this.hint ??= $("car").textContent),
      mixed: hasSharedPixels(film, $("spacetime").clientWidth) ? "Colours of pixels are mean speeds, paler where there are fewer cars." : "",
    };
    for (const id in texts) setText($(id), texts[id]);
    $("follow").setAttribute("aria-pressed", car !== null);
    if ($("brake")) $("brake").disabled = car === null;
    if (!this.playing) {
      setText($("silent"), `Step ${step}: flow ${flow} ${unitOf("flow").words}, mean speed ${speed} ${unitOf("speed").words}, ` +
        `stopped ${stopped}. ${followed ?? ""}`);
    }
    if ($("numbers")?.open) this.updateTable();
  }
  /** Write the numbers of some steps beside their rows in the space-time diagram, at round distances. */
  updateStepMarks({ rowHeight, top }) {
    const distance = MARK_DISTANCES.find(steps => steps * rowHeight >= MIN_MARK_PIXELS) ?? MARK_DISTANCES.at(-1);
    const first = Math.ceil(top / distance) * distance, count = Math.max(0, Math.floor((this.step - first) / distance) + 1);
    const parent = $("stepmarks");
    while (parent.childElementCount < count) parent.append(document.createElement("span"));
    while (parent.childElementCount > count) parent.lastChild.remove();
    [...parent.children].forEach((mark, k) => {
      const step = first + k * distance;
      mark.textContent = step;
      mark.style.top = `${(step - top + 0.5) * rowHeight}px`;
    });
  }
  /** The last ten steps as a table. */
  updateTable() {
    const { film, step } = this, snapshots = upTo(Math.min(TABLE_ROWS, step - film.first + 1)).map(k => film.at(step - k));
    const cells = ({ step, flow, speed, stopped }) => [step, formatted("flow", flow, 1), formatted("speed", speed, 1), stopped.toFixed(3)];
    $("rows").innerHTML = snapshots.map(snapshot => `<tr><td>${cells(snapshot).join("</td><td>")}</td></tr>`).join("");
  }
  updateLegend(limit) {
    const speeds = Math.min(limit, MAX_LEGEND_SPEED), boxes = upTo(speeds + 1).map(() => document.createElement("i"));
    boxes.forEach((box, k) => box.style.background = `rgb(${speedColour(k / speeds)})`);
    $("legend").replaceChildren("stopped", ...boxes, speedWords(limit));
    $("legend").setAttribute("aria-label", `Colours: red for stopped cars, blue for ${speedWords(limit)}`);
    showUnits(limit);
  }

  // Playback

  setPlaying(playing) {
    if (playing && this.film && this.isOver) this.restart();
    Object.assign(this, { playing, isStepDue: false, moving: this.moving || playing, pausedAt: performance.now() });
    $("play").textContent = playing ? "Pause" : "Play";
    if (!playing) this.redraw();
  }
  updateRate() {
    this.rate = Math.round(MAX_STEPS_PER_SECOND ** ($("rate").value / 100));
    $("rateout").textContent = this.rate;
    $("rate").setAttribute("aria-valuetext", `${this.rate} steps per second`);
  }
  /** Choose the steps per second for a run: a short one takes ten seconds, so that there is time to watch it. */
  setPace(steps) {
    const slider = $("rate"), rate = Math.max(1, steps / SECONDS_OF_SHORT_RUN);
    slider.value = Math.min(slider.defaultValue, 100 * Math.log(rate) / Math.log(MAX_STEPS_PER_SECOND));
    this.updateRate();
  }
  stepForward() {
    this.setPlaying(false);
    this.isStepDue = !this.isOver; // the run may have ended in a long pause, and its snapshots come again
  }
  stepBack() {
    this.setPlaying(false);
    Object.assign(this, { phase: 1, moving: false });
    if (this.film.has(this.step - 1)) this.showStep(this.step - 1);
  }
  restart() {
    Object.assign(this, { phase: 1, moving: this.playing });
    if (this.film.has(0)) {
      this.showStep(0);
      return;
    }
    this.film.snapshots.length = 0;
    Object.assign(this, { step: -1, car: null, drawnStep: -1 });
    this.startRun(this.request);
  }

  // The followed car

  /** Follow the car nearest to a place, or no car if none is within `reach` cells. */
  followNearest(place, reach = place?.reach ?? -1) {
    if (place && !this.isShown) return null;
    this.car = place ? this.nearestCar(place, reach) : null;
    this.redraw();
    return this.car;
  }
  /** The car that is drawn nearest to a place. Cars of another lane are farther than all of this lane. */
  nearestCar({ cell, lane }, reach) {
    const { scene, film: { length, limit }, share } = this;
    let nearest = null, minimum = reach;
    for (let speed = 0; speed <= limit; speed++) {
      for (let k = scene.starts[speed]; k < scene.starts[speed + 1]; k++) {
        const around = Math.abs(scene.cell[k] + 0.5 - speed * (1 - share) - cell + length) % length;
        const distance = Math.min(around, length - around) + (scene.lane[k] === lane ? 0 : 2 * length);
        if (distance <= minimum) [nearest, minimum] = [{ step: this.step, lane: scene.lane[k], cell: scene.cell[k] }, distance];
      }
    }
    return nearest;
  }
  stopFollowing() { this.followNearest(null); }
  /** Follow the next car ahead (1) or behind (-1). */
  followNeighbour(direction) {
    if (!this.car) {
      this.followNearest({ cell: this.lens, lane: 0 }, 3 * this.film.length);
      return;
    }
    const { length } = this.film, { cells } = this.film.at(this.step), { lane, cell, step } = this.car;
    let next = cell;
    do next = (next + direction + length) % length; while (cells[lane * length + next] === EMPTY);
    this.car = { step, lane, cell: next };
    this.redraw();
  }

  // The enlarged part of the straight road

  /** The keyboard can move the enlarged part, and a screen reader can read it, as a slider along the road. While cars drive, its words
   * stay as they are: otherwise a screen reader would never be silent. */
  updateLens() {
    const road = $("band"), part = enlargedPart(this.view, road.clientWidth), { film, step, lens } = this;
    road.tabIndex = part ? 0 : -1;
    road.setAttribute("role", part ? "slider" : "img");
    const names = ["aria-valuemin", "aria-valuemax", "aria-valuenow", "aria-valuetext"];
    if (!part) names.forEach(name => road.removeAttribute(name));
    else if (!this.playing || !road.hasAttribute("aria-valuetext")) {
      const values = [0, film.length - 1, Math.floor(lens) % film.length, enlargedWords(film, step, part)];
      names.forEach((name, k) => road.setAttribute(name, values[k]));
    }
  }
  /** Move the enlarged part along the ring. It no longer follows a car. */
  moveLens(lens) {
    const { length } = this.film;
    if (this.car) this.stopFollowing();
    this.lens = (lens % length + length) % length;
    this.stale = true;
  }
  onLensKey(event) {
    const part = this.isShown && enlargedPart(this.view, $("band").clientWidth);
    if (!part || event.ctrlKey || event.metaKey || event.altKey) return;
    const some = Math.max(1, Math.round(part.cells * LENS_SHARE)), { lens, film: { length } } = this;
    const target = {
      ArrowRight: lens + some, ArrowUp: lens + some, ArrowLeft: lens - some, ArrowDown: lens - some,
      PageUp: lens + part.cells, PageDown: lens - part.cells, Home: part.cells / 2, End: length - part.cells / 2,
    }[event.key];
    if (target === undefined) return;
    event.preventDefault();
    this.moveLens(target);
  }

  // Listeners

  addListeners() {
    const buttons = {
      play: () => this.setPlaying(!this.playing), back: () => this.stepBack(), one: () => this.stepForward(), again: () => this.restart(),
      follow: () => this.car || !this.isShown ? this.stopFollowing() : this.followNeighbour(1),
    };
    for (const id in buttons) $(id).onclick = buttons[id];
    $("rate").oninput = () => this.updateRate();
    $("ring").onclick = event => this.isShown && this.onRingClick(event);
    $("spacetime").onclick = event => this.isShown && this.onSpacetimeClick(event);
    $("band").onpointerdown = event => this.isShown && this.onRoadPointerDown(event);
    $("band").onpointermove = event => this.onRoadPointerMove(event);
    $("band").onkeydown = event => this.onLensKey(event);
    addEventListener("resize", () => this.redraw());
    addEventListener("keydown", event => this.onKeyDown(event));
  }
  onRingClick(event) {
    const { x, y, width } = pointerIn($("ring"), event);
    this.followNearest(placeOnRing(this.view, width, x, y));
  }
  /** Follow the car at the pointer. If there is none in the whole road, the pointer drags the enlarged part. */
  onRoadPointerDown(event) {
    const { x, y, width, height } = pointerIn($("band"), event), place = placeOnRoad(this.view, width, height, x, y);
    if (this.followNearest(place) || !place.movesLens) return;
    this.lens = place.cell;
    $("band").setPointerCapture(event.pointerId);
  }
  onRoadPointerMove(event) {
    if (!$("band").hasPointerCapture?.(event.pointerId)) return;
    const { x, width } = pointerIn($("band"), event);
    this.lens = clamp(x / width, 0, 1) * this.film.length;
    this.stale = true;
  }
  onSpacetimeClick(event) {
    const { x, y, width, height } = pointerIn($("spacetime"), event), { rowHeight, top } = spacetimeRows(this.view, width, height), { film } = this;
    const step = top + Math.floor(y / rowHeight), lane = Math.floor(y % rowHeight / rowHeight * film.lanes), scale = film.length / width;
    const isRow = film.has(step) && step <= this.step;
    this.car = isRow ? film.follow(film.nearestCar(step, lane, x * scale, SPACETIME_REACH * scale), this.step) : null;
    this.redraw();
  }
  /** Keys for the page itself, with no control in focus. */
  onKeyDown(event) {
    if (event.target !== document.body || event.ctrlKey || event.metaKey || event.altKey) return;
    const action = {
      " ": () => this.setPlaying(!this.playing), ArrowRight: () => this.stepForward(), ArrowLeft: () => this.stepBack(),
      Home: () => this.restart(), ArrowUp: () => this.followNeighbour(1), ArrowDown: () => this.followNeighbour(-1),
      Escape: () => this.stopFollowing(), ...this.listeners.keys,
    }[event.key];
    if (!action || !(this.isShown || event.key === "Escape")) return;
    event.preventDefault();
    action();
  }
}

/** The place of the pointer in an element, and the size of the element. */
function pointerIn(element, event) {
  const { left, top, width, height } = element.getBoundingClientRect();
  return { x: event.clientX - left, y: event.clientY - top, width, height };
}
/** The enlarged part of the road in words. */
function enlargedWords(film, step, { from, cells }) {
  const { length, lanes } = film, first = (Math.ceil(from) % length + length) % length, last = (first + Math.floor(cells) - 1) % length;
  const { cars, starts } = film.scene(step, first, Math.floor(cells)), stopped = starts[1];
  const road = `cells ${first} to ${last} of ${length}${lanes === 2 ? " on both lanes" : ""}`;
  return `${road}: ${cars} ${cars === 1 ? "car" : "cars"}, ${stopped} stopped`;
}

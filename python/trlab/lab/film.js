// The kept snapshots of a run, so that the page can step back, and the cars in them.

import { countColumns } from "./columns.js";
import { CARS, EMPTY, SPEEDS, STOPPED, clamp, speedOf, upTo } from "./job.js";

const MIN_KEPT = 100, MAX_KEPT = 4000, MAX_KEPT_BYTES = 32e6;

/** The kept snapshots of a run: at most 4000 and at most 32 MB, the last ones. Each knows its counts. */
export class Film {
  constructor({ length, lanes, limit, steps }) {
    const maxKept = clamp(Math.floor(MAX_KEPT_BYTES / (length * lanes)), MIN_KEPT, MAX_KEPT);
    this.length = length;
    this.lanes = lanes;
    this.limit = limit;
    this.steps = steps;
    this.snapshots = [];
    this.maxKept = maxKept;
  }
  get first() { return this.snapshots[0].step; }
  get last() { return this.snapshots.at(-1).step; }
  has(step) { return this.snapshots.length > 0 && step >= this.first && step <= this.last; }
  at(step) { return this.snapshots[step - this.first]; }
  /** Keep a snapshot, and return it with its counts. */
  push({ step, cells }) {
    const { cars, distance, stopped, densities } = this.countCars(cells);
    const snapshot = {
      step, cells, cars, densities, flow: step ? distance / cells.length : null,
      speed: cars ? distance / cars : 0, stopped: cars ? stopped / cars : 0,
    };
    this.snapshots.push(snapshot);
    if (this.snapshots.length > this.maxKept) this.snapshots.shift();
    return snapshot;
  }
  countCars(cells) {
    const { length, lanes } = this, densities = [];
    let cars = 0, distance = 0, stopped = 0;
    for (let lane = 0, k = 0; lane < lanes; lane++) {
      const carsBefore = cars;
      for (const end = k + length; k < end; k++) {
        cars += CARS[cells[k]];
        distance += SPEEDS[cells[k]];
        if (cells[k] === STOPPED) stopped++;
      }
      densities.push((cars - carsBefore) / length);
    }
    return { cars, distance, stopped, densities };
  }
  /** Forget the snapshots after a step. */
  cutAfter(step) { this.snapshots.length = clamp(step - this.first + 1, 0, this.snapshots.length); }

  /** The lane from which a car comes, if the cells of the step `before` are known. Cars change lanes before they move, and only to an
   * empty cell: so it is the other lane if the cell that the car comes from was empty on its lane. */
  originLane(before, lane, cell, speed) {
    if (this.lanes === 1 || !before) return lane;
    const from = cell < speed ? cell - speed + this.length : cell - speed;
    return before[lane * this.length + from] === EMPTY ? 1 - lane : lane;
  }
  /** The cars that have changed lanes in a step, as places in its cells; they are kept until another step is asked for. */
  laneChangers(step) {
    const { cells } = this.at(step);
    if (this.changes?.cells !== cells) this.changes = { cells, places: this.findLaneChangers(cells, this.at(step - 1)?.cells) };
    return this.changes.places;
  }
  findLaneChangers(cells, before) {
    const { length, lanes } = this, places = [];
    if (lanes === 1 || !before) return places;
    for (let lane = 0, k = 0; lane < lanes; lane++) {
      for (let x = 0; x < length; x++, k++) { // `originLane` written out, because calls for each cell of a long road take too long
        const speed = SPEEDS[cells[k]];
        if (cells[k] !== EMPTY && before[x < speed ? k - speed + length : k - speed] === EMPTY) places.push(k);
      }
    }
    return places;
  }
  /** The cars in the pixels of a step, as `countColumns` counts them, which are kept until another step is asked for: the straight road
   * and the space-time diagram have the same pixels. */
  columns(step, pixels) {
    const { cells } = this.at(step);
    if (this.counted?.cells !== cells) this.counted = { cells, byPixels: new Map() };
    const { byPixels } = this.counted;
    if (!byPixels.has(pixels)) byPixels.set(pixels, countColumns(this, cells, pixels));
    return byPixels.get(pixels);
  }
  /** The cars of a step by speed, of the whole road or of a part of it: their cell and lane, and the lane that they come from. Those
   * of a speed v have the numbers from `starts[v]` up to `starts[v + 1]`. */
  scene(step, from = 0, part = this.length) {
    const { length, lanes, limit } = this, { cells } = this.at(step), before = this.at(step - 1)?.cells;
    const first = (from % length + length) % length, count = Math.min(part, length), starts = new Int32Array(limit + 2);
    const forEachCar = call => {
      for (let onLane = 0; onLane < lanes; onLane++) {
        for (let n = 0, x = first; n < count; n++, x = x + 1 === length ? 0 : x + 1) {
          const byte = cells[onLane * length + x];
          if (byte !== EMPTY) call(onLane, x, speedOf(byte));
        }
      }
    };
    forEachCar((_, __, speed) => { starts[speed + 1]++; });
    for (let speed = 0; speed <= limit; speed++) starts[speed + 1] += starts[speed];
    const cars = starts[limit + 1], next = starts.slice();
    const cell = new Int32Array(cars), lane = new Uint8Array(cars), originLane = new Uint8Array(cars);
    forEachCar((onLane, x, speed) => {
      const car = next[speed]++;
      cell[car] = x;
      lane[car] = onLane;
      originLane[car] = this.originLane(before, onLane, x, speed);
    });
    return { step, cars, starts, cell, lane, originLane };
  }
  /** All cars of a step, which are kept until another step is asked for. */
  wholeScene(step) {
    const { cells } = this.at(step);
    if (this.shown?.cells !== cells) this.shown = { cells, scene: this.scene(step) };
    return this.shown.scene;
  }

  /** The same car at another step, or null if a snapshot in between is not kept. */
  follow(car, step) {
    let now = car;
    while (now && now.step < step) now = this.carLater(now);
    while (now && now.step > step) now = this.carEarlier(now);
    return now;
  }
  /** The car of a step and lane nearest to a place, within some cells, or null. */
  nearestCar(step, lane, place, reach) {
    const { length } = this, { cells } = this.at(step), middle = Math.floor(place);
    for (let distance = 0; distance <= reach; distance++) {
      for (const x of [middle + distance, middle - distance]) {
        const cell = (x % length + length) % length;
        if (cells[lane * length + cell] !== EMPTY) return { step, lane, cell };
      }
    }
    return null;
  }
  speed({ step, lane, cell }) { return speedOf(this.at(step).cells[lane * this.length + cell]); }
  carLater({ step, lane, cell }) {
    const { length, lanes, limit } = this;
    if (!this.has(step) || !this.has(step + 1)) return null;
    for (const target of upTo((limit + 1) * lanes)) {
      const speed = Math.floor(target / lanes), next = { step: step + 1, lane: target % lanes, cell: (cell + speed) % length };
      if (this.speed(next) === speed && this.carEarlier(next).lane === lane) return next;
    }
    return null;
  }
  carEarlier({ step, lane, cell }) {
    const { length } = this;
    if (!this.has(step) || !this.has(step - 1)) return null;
    const from = (cell - this.speed({ step, lane, cell }) + length) % length;
    const hasStayed = this.at(step - 1).cells[lane * length + from] !== EMPTY;
    return { step: step - 1, lane: hasStayed ? lane : 1 - lane, cell: from };
  }
}

// Long roads, whose cells are narrower than pixels. Then several cells share a pixel, which shows the mean speed of their cars, the
// paler the fewer of the cells have a car. The slowest or the last of the cars would make every long road a jam.

import { CARS, SPEEDS, upTo } from "./job.js";
import { speedColour } from "./colours.js";

/** From this many cells per pixel on, cells share pixels: a mark for each car would hide too many other cars. */
const MAX_CELLS_PER_PIXEL = 1.5;
export const sharesPixels = (cells, pixels) => cells > MAX_CELLS_PER_PIXEL * pixels;

// A colour for each mean speed and each strength, both in equal steps.
const SPEED_STEPS = 200, STRENGTH_STEPS = 64, OPAQUE = 0xff000000;
const COLOURS = upTo((SPEED_STEPS + 1) * (STRENGTH_STEPS + 1)).map(index => {
  const strength = index % (STRENGTH_STEPS + 1) / STRENGTH_STEPS, full = speedColour(Math.floor(index / (STRENGTH_STEPS + 1)) / SPEED_STEPS);
  return full.map(part => Math.round(255 - (255 - part) * strength));
});
const STYLES = COLOURS.map(colour => `rgb(${colour.join(",")})`);
const PIXELS = Uint32Array.from(COLOURS, ([red, green, blue]) => OPAQUE | blue << 16 | green << 8 | red);

/** The index of the colour of `cells`, of which `cars` have a car, whose speeds have the sum `speeds`. Its strength is the square root
 * of the density, so that sparse traffic is visible; marks of single cars have the full strength. */
function colourIndex(cells, cars, speeds, limit, isMark) {
  const strength = isMark ? 1 : Math.sqrt(Math.min(1, cars / cells));
  return Math.round(Math.min(1, speeds / cars / limit) * SPEED_STEPS) * (STRENGTH_STEPS + 1) + Math.round(strength * STRENGTH_STEPS);
}
export const columnStyle = (cells, cars, speeds, limit, isMark) => STYLES[colourIndex(cells, cars, speeds, limit, isMark)];
/** The same as one number for the pixel of an image. */
export const columnPixel = (cells, cars, speeds, limit, isMark) => PIXELS[colourIndex(cells, cars, speeds, limit, isMark)];

/** The first cell of each of `pixels` pixels, and the end. */
const columnEdges = (length, pixels) => new Uint32Array(pixels + 1).map((_, pixel) => Math.ceil(pixel * length / pixels));

/** The numbers of cars and the sums of their speeds in the pixels of a step, lane by lane. */
export function countColumns({ length, lanes }, cells, pixels) {
  const counts = new Uint32Array(pixels * lanes), sums = new Uint32Array(pixels * lanes), edges = columnEdges(length, pixels);
  for (let lane = 0, column = 0; lane < lanes; lane++) {
    for (let pixel = 0; pixel < pixels; pixel++, column++) {
      let count = 0, sum = 0;
      for (let k = lane * length + edges[pixel], end = lane * length + edges[pixel + 1]; k < end; k++) {
        count += CARS[cells[k]];
        sum += SPEEDS[cells[k]];
      }
      counts[column] = count;
      sums[column] = sum;
    }
  }
  return { counts, sums, edges };
}

/** The same while the cars are on their way from the step before. Most cars stay in one pixel meanwhile: these are counted once for a
 * step, and only the travellers, which come from another pixel or lane, are counted for each frame. */
export class Columns {
  constructor(film, step, pixels) {
    const { counts, sums, edges } = film.columns(step, pixels);
    this.film = film;
    this.step = step;
    this.pixels = pixels;
    this.cells = film.at(step).cells;
    this.counts = counts.slice();
    this.sums = sums.slice();
    this.edges = edges;
    this.travellers = [];
    this.originLanes = [];
    this.separateLaneChangers();
    this.separateArrivals();
  }
  separateLaneChangers() {
    const { film, step, pixels } = this, { length } = film;
    for (const k of film.laneChangers(step)) {
      const lane = k < length ? 0 : 1;
      this.addTraveller(k, lane * pixels + Math.floor((k - lane * length) * pixels / length), 1 - lane);
    }
  }
  /** Cars come from another pixel of their lane only to the first cells of a pixel. */
  separateArrivals() {
    const { film, step, pixels, cells, edges } = this, { length, lanes, limit } = film, before = film.at(step - 1)?.cells;
    for (let lane = 0, column = 0; lane < lanes; lane++) {
      for (let pixel = 0; pixel < pixels; pixel++, column++) {
        for (let cell = edges[pixel], end = Math.min(cell + limit, edges[pixel + 1]); cell < end; cell++) {
          const k = lane * length + cell, speed = SPEEDS[cells[k]];
          if (cell - speed < edges[pixel] && film.originLane(before, lane, cell, speed) === lane) this.addTraveller(k, column, lane);
        }
      }
    }
  }
  /** The car in a cell does not stay in its column. */
  addTraveller(k, column, originLane) {
    this.counts[column]--;
    this.sums[column] -= SPEEDS[this.cells[k]];
    this.travellers.push(k);
    this.originLanes.push(originLane);
  }
  /** The numbers of cars and the sums of their speeds when they have gone this share of their way. */
  countsAt(share) {
    const { film: { length }, pixels, cells, travellers, originLanes } = this, counts = this.counts.slice(), sums = this.sums.slice();
    for (let n = 0; n < travellers.length; n++) {
      const k = travellers[n], lane = k < length ? 0 : 1, speed = SPEEDS[cells[k]], place = k - lane * length - speed * (1 - share);
      const shownLane = share < 0.5 ? originLanes[n] : lane;
      const column = shownLane * pixels + Math.floor((place < 0 ? place + length : place) * pixels / length);
      counts[column]++;
      sums[column] += speed;
    }
    return { counts, sums };
  }
  /** Whether these are the columns of a view. */
  isOf({ film, step }, pixels) {
    return this.film === film && this.step === step && this.pixels === pixels && this.cells === film.at(step).cells;
  }
  /** Call for each pixel that has cars. */
  forEach(share, call) {
    const { counts, sums } = this.countsAt(share), { edges, pixels, film: { lanes, limit } } = this;
    for (let lane = 0, column = 0; lane < lanes; lane++) {
      for (let pixel = 0; pixel < pixels; pixel++, column++) {
        if (counts[column]) call(pixel, lane, columnStyle(edges[pixel + 1] - edges[pixel], counts[column], sums[column], limit));
      }
    }
  }
  /** The colours of all pixels as numbers, and 0 where there is no car. */
  colours(share) {
    const { counts, sums } = this.countsAt(share), { edges, pixels, film: { limit } } = this;
    for (let column = 0, pixel = 0; column < counts.length; column++, pixel = pixel + 1 === pixels ? 0 : pixel + 1) {
      if (counts[column]) counts[column] = columnPixel(edges[pixel + 1] - edges[pixel], counts[column], sums[column], limit, false);
    }
    return counts;
  }
}

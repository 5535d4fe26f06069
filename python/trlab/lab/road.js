// The straight road: all of it, and below it a part of it that is drawn larger.

import { clamp, upTo } from "./job.js";
import { INK, LANE_LINE, MUTED, WASH } from "./colours.js";
import { sharesPixels } from "./columns.js";
import { drawCars, drawColumns, followedPlace } from "./cars.js";

// All sizes are in pixels. The heights of lanes are those of one lane and of two.
const ENLARGED_CELL = 9; // the width of a cell of the enlarged part
const SHORT_ROAD = 1.5; // a road of at most so many enlarged parts is drawn only once
const LANE_HEIGHT = { short: { 1: 30, 2: 24 }, whole: { 1: 20, 2: 11 }, enlarged: { 1: 26, 2: 19 } };
const MIN_CAR = 1.4, CAR_SHARE = 0.78; // the width of a car, and its share of a cell
const HIGH_LANE = 14; // lanes above this height have wide margins
const MARGIN = { high: 4, low: 2 }, FRAME = { high: 3, low: 2 };
const CLICK_REACH = 10;

const isHigh = laneHeight => laneHeight > HIGH_LANE ? "high" : "low";

/** The number of cells in the enlarged part. */
const enlargedCells = width => Math.round(width / ENLARGED_CELL);
/** Whether a road is so long that a part of it is enlarged. */
export const hasEnlargedPart = ({ length }, width) => length > enlargedCells(width) * SHORT_ROAD;
/** The first cell of the enlarged part and the number of its cells; null if the road is short. */
export function enlargedPart({ film, lens }, width) {
  if (!hasEnlargedPart(film, width)) return null;
  const cells = enlargedCells(width);
  return { from: lens - cells / 2, cells };
}

/** The bands in which the road is drawn: all of it, and its enlarged part, which a short road does not have. */
function bandsOf(view, width, height) {
  const { length, lanes } = view.film, part = enlargedPart(view, width), laneHeight = kind => LANE_HEIGHT[kind][lanes];
  const whole = { from: 0, cells: length, width };
  if (!part) return [{ ...whole, laneHeight: laneHeight("short"), top: (height - lanes * laneHeight("short")) / 2 }];
  const enlarged = { ...part, width, laneHeight: laneHeight("enlarged"), top: height - lanes * laneHeight("enlarged") - 1 };
  return [{ ...whole, laneHeight: laneHeight("whole"), top: 0 }, enlarged];
}
export function drawRoad(pen, width, height, view) {
  const [whole, enlarged] = bandsOf(view, width, height);
  if (enlarged) {
    drawLens(pen, width, height, view.film, whole, enlarged);
    drawBand(pen, view, enlarged);
  }
  drawBand(pen, view, whole);
  if (enlarged) outlineLens(pen, width, view.film, whole, enlarged);
}
/** The parts of the whole road that are enlarged: two if the part goes over the end of the road. */
function lensParts(width, { length }, { from, cells }) {
  const scale = width / length, left = from * scale, right = left + cells * scale;
  return [-width, 0, width].map(shift => [Math.max(0, left + shift), Math.min(width, right + shift)]).filter(([start, end]) => end > start);
}
/** A wash from the enlarged part down to its enlargement. */
function drawLens(pen, width, height, film, whole, enlarged) {
  const foot = whole.laneHeight * film.lanes;
  pen.fillStyle = WASH;
  for (const [left, right] of lensParts(width, film, enlarged)) {
    pen.fillRect(left, 0, right - left, foot);
    pen.beginPath();
    for (const [x, y] of [[left, foot], [0, enlarged.top], [width, enlarged.top], [right, foot]]) pen.lineTo(x, y);
    pen.fill();
  }
  pen.fillRect(0, enlarged.top, width, height - enlarged.top);
}
/** Lines around the wash, which is too pale to be seen by everyone. */
function outlineLens(pen, width, film, whole, enlarged) {
  const foot = whole.laneHeight * film.lanes + 1.5;
  Object.assign(pen, { strokeStyle: MUTED, lineWidth: 1 });
  for (const [left, right] of lensParts(width, film, enlarged)) {
    pen.beginPath();
    for (const [x, y] of [[0, enlarged.top], [left, foot], [right, foot], [width, enlarged.top]]) pen.lineTo(x, y);
    pen.stroke();
  }
}
function drawBand(pen, view, band) {
  const { film, step, images } = view, { length, lanes, limit } = film, { top, laneHeight, from, cells, width } = band;
  const margin = MARGIN[isHigh(laneHeight)], laneTop = lane => top + lane * laneHeight + margin + 0.5, boxHeight = laneHeight - 2 * margin;
  pen.fillStyle = LANE_LINE;
  for (const k of upTo(lanes + 1)) pen.fillRect(0, top + k * laneHeight, width, 1);
  const drawCar = carDrawer(pen, band, length, laneTop, boxHeight), isLong = sharesPixels(cells, width), pixels = Math.round(width);
  if (isLong && images) images.road.draw(pen, view, pixels, lane => [0, laneTop(lane), width, boxHeight]);
  else if (isLong) drawColumns(pen, view, pixels, (pixel, lane) => pen.fillRect(pixel / pixels * width, laneTop(lane), width / pixels, boxHeight));
  const followed = followedPlace(view);
  if (followed) {
    pen.fillStyle = INK;
    drawCar(...followed, FRAME[isHigh(laneHeight)]);
  }
  if (isLong) return;
  // Cars that are on their way into the enlarged part are drawn too.
  const scene = cells < length ? film.scene(step, Math.floor(from) - 1, cells + limit + 3) : film.wholeScene(step);
  drawCars(pen, view, scene, drawCar);
}
/** A function that draws a car of a band. */
function carDrawer(pen, { from, cells, width }, length, laneTop, boxHeight) {
  const scale = width / cells, carWidth = Math.max(MIN_CAR, scale * CAR_SHARE);
  return (cell, lane, frame = 0) => {
    let place = ((cell - from) % length + length) % length;
    if (place > cells) place -= length;
    if (place <= -1) return;
    pen.fillRect(place * scale + (scale - carWidth) / 2 - frame, laneTop(lane) - frame, carWidth + 2 * frame, boxHeight + 2 * frame);
  };
}
/** The cell and the lane at a point of the bands, within how many cells a car is meant, and whether the point moves the enlarged
 * part. */
export function placeOnRoad(view, width, height, x, y) {
  const bands = bandsOf(view, width, height), [whole, enlarged] = bands, { length, lanes } = view.film;
  const isBelow = enlarged && y > (whole.laneHeight * lanes + enlarged.top) / 2, band = isBelow ? enlarged : whole;
  return {
    cell: (band.from + x / width * band.cells + length) % length, lane: clamp(Math.floor((y - band.top) / band.laneHeight), 0, lanes - 1),
    reach: Math.max(1, CLICK_REACH * band.cells / width), movesLens: enlarged !== undefined && !isBelow,
  };
}

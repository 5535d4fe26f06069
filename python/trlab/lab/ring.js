// The road as a ring, on which cars drive clockwise.

import { clamp, upTo } from "./job.js";
import { INK, LANE_LINE, MUTED, PAPER } from "./colours.js";
import { sharesPixels } from "./columns.js";
import { drawCars, drawColumns, followedPlace } from "./cars.js";

const FULL_TURN = 2 * Math.PI;
// All sizes are in pixels.
const EDGE = 4, LANE_GAP = 5, LANE_INSET = LANE_GAP / 2;
const LANE_WIDTH = { 1: 18, 2: 13 };
const MIN_CAR = 1.7, MAX_CAR = 12, CAR_SHARE = 0.72; // the length of a car, and its share of a cell
const COLUMN_WIDTH = 1.3;
const HALO = 3, FRAME = 2; // around the followed car
const CLICK_MARGIN = 8, CLICK_REACH = 10;
const ARROW = { inset: 12, halfAngle: 0.16, head: [[-5, -4.2], [0, 0], [-6, 2.4]] };

function ringShape({ film: { lanes } }, size) {
  const laneWidth = LANE_WIDTH[lanes];
  return { middle: size / 2, outer: size / 2 - EDGE, laneWidth, laneDepth: lane => LANE_INSET + lane * (laneWidth + LANE_GAP) };
}
/** Cars are boxes on a turned pen, which is much faster than lines in Firefox. */
export function drawRing(pen, size, view) {
  const { film, images } = view, ring = ringShape(view, size), { middle, outer, laneWidth, laneDepth } = ring, turn = FULL_TURN / film.length;
  drawLanes(pen, film, ring);
  let angle = 0;
  const drawBox = (boxAngle, width, lane, margin) => {
    pen.rotate(boxAngle - angle);
    angle = boxAngle;
    pen.fillRect(-width / 2 - margin, laneDepth(lane) - outer - margin, width + 2 * margin, laneWidth + 2 * margin);
  };
  const carWidth = clamp(turn * (outer - MAX_CAR) * CAR_SHARE, MIN_CAR, MAX_CAR);
  const drawCar = (place, lane, margin = 0) => drawBox((place + 0.5) * turn, carWidth, lane, margin);
  pen.translate(middle, middle);
  const columns = Math.round(outer * FULL_TURN), isLong = sharesPixels(film.length, columns), followed = followedPlace(view);
  if (isLong && images) images.ring.draw(pen, view, columns, ring);
  else if (isLong) drawColumns(pen, view, columns, (column, lane) => drawBox((column + 0.5) / columns * FULL_TURN, COLUMN_WIDTH, lane, 0));
  for (const [style, margin] of followed ? [[PAPER, HALO], [INK, FRAME]] : []) {
    pen.fillStyle = style;
    drawCar(...followed, margin);
  }
  if (!isLong) drawCars(pen, view, film.wholeScene(view.step), drawCar);
}
function drawLanes(pen, { lanes }, { middle, outer, laneWidth }) {
  Object.assign(pen, { strokeStyle: LANE_LINE, lineWidth: 1 });
  for (const k of upTo(lanes + 1)) {
    pen.beginPath();
    pen.arc(middle, middle, outer - k * (laneWidth + LANE_GAP), 0, FULL_TURN);
    pen.stroke();
  }
  drawArrow(pen, middle, outer - lanes * (laneWidth + LANE_GAP) - ARROW.inset);
}
/** The direction of the traffic: clockwise. */
function drawArrow(pen, middle, radius) {
  const top = -FULL_TURN / 4, end = top + ARROW.halfAngle, x = middle + radius * Math.cos(end), y = middle + radius * Math.sin(end);
  Object.assign(pen, { strokeStyle: MUTED, lineWidth: 1 });
  pen.beginPath();
  pen.arc(middle, middle, radius, top - ARROW.halfAngle, end);
  pen.stroke();
  pen.beginPath();
  for (const [dx, dy] of ARROW.head) pen.lineTo(x + dx, y + dy);
  pen.stroke();
}
/** The cell and the lane at a point of the ring, and within how many cells a car is meant; null if the point is not on the road. */
export function placeOnRing(view, size, x, y) {
  const { middle, outer, laneWidth } = ringShape(view, size), { length, lanes } = view.film, depth = outer - Math.hypot(x - middle, y - middle);
  if (depth < -CLICK_MARGIN || depth > lanes * (laneWidth + LANE_GAP) + CLICK_MARGIN) return null;
  const turn = (Math.atan2(x - middle, middle - y) / FULL_TURN + 1) % 1, lane = Math.floor(depth / (laneWidth + LANE_GAP));
  return { cell: turn * length, lane: clamp(lane, 0, lanes - 1), reach: length / FULL_TURN / outer * CLICK_REACH };
}

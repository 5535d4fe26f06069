// Curves next to the space-time diagram, with the same time axis: flow, density, mean speed and the share of stopped cars.

import { upTo } from "./job.js";
import { ACCENT, LANE_LINE, MUTED, SECOND } from "./colours.js";

const KINDS = ["flow", "density", "speed", "stopped"];
/** The number of steps of an average. */
const AVERAGED_STEPS = 25;
export const CURVE_GAP = 14; // pixels between two curves
/** The ends of the axes: the most that a run can have. */
export const curveMaxima = limit => ({ flow: limit / (limit + 1), density: 1, speed: limit, stopped: 1 });

/** Averages over the last 25 kept steps, from a step to another one; null for the flow of step 0, before which no car has moved. */
export function movingAverages(film, kind, from, to) {
  const first = Math.max(film.first, from - AVERAGED_STEPS, kind === "flow" ? 1 : 0), averages = from < first ? [null] : [];
  for (let step = first, sum = 0; step <= to; step++) {
    sum += film.at(step)[kind] - (step >= first + AVERAGED_STEPS ? film.at(step - AVERAGED_STEPS)[kind] : 0);
    if (step >= from) averages.push(sum / Math.min(AVERAGED_STEPS, step - first + 1));
  }
  return averages;
}
/** The average at a step. */
export const averageAt = (film, kind, step) => movingAverages(film, kind, step, step)[0];

/** Draw the curves for the rows of a space-time diagram. */
export function drawCurves(pen, width, height, { film, step }, { rowHeight, top }) {
  const curveWidth = (width - (KINDS.length - 1) * CURVE_GAP) / KINDS.length, maxima = curveMaxima(film.limit);
  const snapshots = upTo(step - top + 1).map(k => film.at(top + k));
  KINDS.forEach((kind, k) => {
    const left = k * (curveWidth + CURVE_GAP), axisWidth = curveWidth - 2;
    const drawCurve = (style, values) => { // lines of one pixel are fast in every browser
      Object.assign(pen, { strokeStyle: style, lineWidth: 1 });
      pen.beginPath();
      values.forEach((value, n) => value === null || pen.lineTo(left + 1 + axisWidth * value / maxima[kind], (n + 0.5) * rowHeight));
      pen.stroke();
    };
    pen.fillStyle = MUTED;
    pen.fillRect(left, 0, 1, height);
    pen.fillStyle = LANE_LINE;
    for (const part of [0.5, 1]) pen.fillRect(left + 1 + axisWidth * part, 0, 1, height);
    if (kind === "density") {
      for (const lane of upTo(film.lanes)) drawCurve(lane ? SECOND : ACCENT, snapshots.map(({ densities }) => densities[lane]));
    } else {
      drawCurve(MUTED, snapshots.map(snapshot => snapshot[kind]));
      drawCurve(ACCENT, movingAverages(film, kind, top, step));
    }
  });
}

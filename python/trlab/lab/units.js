// Units: those of the model, or kilometres and hours. Nagel and Schreckenberg (1992) take both numbers from traffic: in a jam each
// car occupies about 7.5 m, which is the length of a cell, and free traffic of 4.5 cells per step drives at about 120 km/h, so
// that a step takes about 1 s.

import { setText } from "./dom.js";
import { curveMaxima } from "./curves.js";

const METRES_PER_CELL = 7.5, SECONDS_PER_STEP = 1;
const SYSTEMS = {
  cells: {
    density: { factor: 1, digits: 3, words: "cars per cell", short: "per cell" },
    flow: { factor: 1, digits: 3, words: "cars per step and lane", short: "per step" },
    speed: { factor: 1, digits: 2, words: "cells per step", short: "cells/step" },
  },
  road: {
    density: { factor: 1000 / METRES_PER_CELL, digits: 0, words: "vehicles per km and lane", short: "per km" },
    flow: { factor: 3600 / SECONDS_PER_STEP, digits: 0, words: "vehicles per hour and lane", short: "per hour" },
    speed: { factor: 3.6 * METRES_PER_CELL / SECONDS_PER_STEP, digits: 0, words: "km/h", short: "km/h" },
  },
};

/** The units that the page shows: "cells" or "road". */
export const shownUnits = { system: "cells" };
const isRoad = () => shownUnits.system === "road";
export const unitOf = kind => SYSTEMS[shownUnits.system][kind];
/** A density, flow or speed in the shown unit, as a number, and formatted, with more digits on request. */
export const converted = (kind, number) => number * unitOf(kind).factor;
export const formatted = (kind, number, moreDigits = 0) => converted(kind, number).toFixed(unitOf(kind).digits + moreDigits);
/** A speed in cells per step with its unit. */
export const speedWords = number =>
  `${+converted("speed", number).toFixed(2)} ${!isRoad() && number === 1 ? "cell per step" : unitOf("speed").words}`;
/** A number of cells as a length. */
export const lengthWords = cells => isRoad() ? `${cells * METRES_PER_CELL} m` : `${cells} cell${cells === 1 ? "" : "s"}`;

/** The axes of a space-time diagram: the road across, and the steps down. */
export const axesWords = (length, first, last) => isRoad()
  ? `Across: 0 to ${lengthWords(length)}. Down: ${first * SECONDS_PER_STEP} to ${last * SECONDS_PER_STEP} s.`
  : `Across: cells 0 to ${length - 1}. Down: steps ${first} to ${last}.`;

/** The digits of a tick are cut after rounding errors, which are smaller than this share of a step. */
const ROUNDING = 1e-9, TICK_DIGITS = 6, ALMOST = 0.999;
/** The ticks of an axis from 0 to `maximum` of the model's unit: round numbers of the shown unit, each with its place. */
export function axisTicks(kind, maximum, count = 6) {
  const { factor } = unitOf(kind), end = maximum * factor, rough = end / count, power = 10 ** Math.floor(Math.log10(rough));
  const step = [1, 2, 5, 10].find(digit => digit * power >= rough * ALMOST) * power;
  const places = Array.from({ length: Math.floor(end / step + ROUNDING) + 1 }, (_, k) => k * step);
  return places.map(place => ({ at: place / factor, words: String(+place.toPrecision(TICK_DIGITS)) }));
}
/** The end of an axis in the shown unit: two digits, or a whole number. */
export function axisEnd(kind, maximum) {
  const end = converted(kind, maximum);
  return String(end < 100 ? +end.toPrecision(2) : Math.round(end));
}
/** Write the units and the scales above the curves. */
export function showUnits(limit) {
  const maxima = curveMaxima(limit);
  for (const place of document.querySelectorAll("[data-unit]")) setText(place, unitOf(place.dataset.unit).short);
  for (const place of document.querySelectorAll("[data-most]")) setText(place, axisEnd(place.dataset.most, maxima[place.dataset.most]));
}

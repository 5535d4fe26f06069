// The page's job: the first one, and the cells of its roads. Small functions for numbers and calls are here too.

/** The byte of an empty cell. */
export const EMPTY = ".".charCodeAt(0);
/** The byte of a stopped car. */
export const STOPPED = "0".charCodeAt(0);
const NINE = "9".charCodeAt(0), LETTER_A = "a".charCodeAt(0);
/** A car's speed from its byte: 0 to 9, and then a to z. */
export const speedOf = byte => byte <= NINE ? byte - STOPPED : byte - LETTER_A + 10;

export const clamp = (number, minimum, maximum) => Math.min(maximum, Math.max(minimum, number));
/** The whole numbers from 0 up to `count`, without it. */
export const upTo = count => Array.from({ length: count }, (_, k) => k);
/** By the byte of a cell, its number of cars and their speed: sums of these need no branches, so that they are fast. */
export const CARS = Uint8Array.from({ length: 256 }, (_, byte) => byte === EMPTY ? 0 : 1);
export const SPEEDS = Uint8Array.from({ length: 256 }, (_, byte) => byte === EMPTY ? 0 : speedOf(byte));

/** A function that calls when it has not been called for some milliseconds. */
export function debounce(milliseconds, call) {
  let timer;
  return () => {
    clearTimeout(timer);
    timer = setTimeout(call, milliseconds);
  };
}

/** The job with which the page begins. `rules` have the step `at` which they take over, and `road` has the lanes if `start` is "file". */
export const FIRST_JOB = {
  key: "1", limit: 5, lanes: 1, length: 1000, cars: 150, density: 0.15, start: "random", road: null, steps: 5000,
  rules: [{ at: 0, model: "nasch", p: 0.25, q: 0.5, motion: "", change: "" }],
};
/** Whether the road of a file still fits the job's length, lanes and maximum speed. */
export const roadFits = ({ road, lanes, length, limit }) => road.length === lanes && road[0].length === length &&
  ![...road.join("")].some(character => character !== "." && speedOf(character.charCodeAt(0)) > limit);

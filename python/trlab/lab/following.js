// The sentence about the followed car: its gap, the car ahead, and why it drives as it does. The reason follows from the
// published rule and two snapshots; of a rule of one's own only the bound by the gap is known.

import { EMPTY } from "./job.js";
import { converted, lengthWords, speedWords } from "./units.js";

/** The empty cells ahead of a car and the cell of the next car, which is null if the lane has no other car. */
function lookAhead(length, cell, hasCar) {
  for (let gap = 0; gap < length - 1; gap++) if (hasCar((cell + gap + 1) % length)) return { gap, nextCell: (cell + gap + 1) % length };
  return { gap: length - 1, nextCell: null };
}
/** The gap that a car had when it moved to its place: after the lane changes of the step, and before anyone moved. */
function gapBeforeMoving(film, before, lane) {
  const { length, lanes } = film, { step } = before;
  const movesOnLane = (fromLane, cell) => film.at(step).cells[fromLane * length + cell] !== EMPTY &&
    (lanes === 1 || film.carLater({ step, lane: fromLane, cell })?.lane === lane);
  return lookAhead(length, before.cell, cell => movesOnLane(lane, cell) || (lanes === 2 && movesOnLane(1 - lane, cell))).gap;
}

const changeWords = (from, to) => `from ${converted("speed", from)} to ${speedWords(to)}`;
/** Why a car that had the speed `from` and the gap `gap` has the speed `to` now, by a built-in rule; nothing if it cannot be so. */
function reasonByModel(from, to, gap, limit) {
  const wanted = Math.min(from + 1, limit), safe = Math.min(wanted, gap), isRandom = to === safe - 1;
  if (to !== safe && !isRandom) return "";
  const change = changeWords(from, to);
  if (to > from) return `It sped up ${change}.`;
  if (to < from && !isRandom) return `It braked ${change}, because its gap was ${lengthWords(gap)}.`;
  if (to < from && gap < from) {
    return `It braked ${change}: its gap was ${lengthWords(gap)}, and it braked by one more at random.`;
  }
  if (to < from) return `It braked ${change} at random.`;
  if (isRandom) return from ? "It could have sped up, but braked at random." : "It could have started, but braked at random.";
  if (from === limit) return "It keeps the maximum speed.";
  return from ? `It could not speed up, because its gap was ${lengthWords(gap)}.` : "It waits, because it had no gap.";
}
/** The same for a rule of one's own, which decides for reasons that the snapshots do not show. */
function reasonByOwnRule(from, to, gap) {
  if (to >= from) return "";
  const change = `It braked ${changeWords(from, to)}`;
  return gap >= from ? `${change}: its rule chose so, with a gap of ${lengthWords(gap)}.`
    : `${change}: its gap was ${lengthWords(gap)}${to < gap ? ", and its rule chose less" : ""}.`;
}
/** Why a car has its speed, if the step before is kept and the `rule` of that step is known. */
export function reasonOf(film, car, rule) {
  const before = film.carEarlier(car);
  if (!before || !rule) return "";
  const [from, to] = [film.speed(before), film.speed(car)], gap = gapBeforeMoving(film, before, car.lane);
  const reason = rule.model === "own" ? reasonByOwnRule(from, to, gap) : reasonByModel(from, to, gap, film.limit);
  return before.lane === car.lane ? reason : `It changed lanes. ${reason}`.trim();
}
/** The sentences about the followed car. */
export function followedCarWords(film, car, rule) {
  const { length, lanes } = film, { step, lane, cell } = car, { cells } = film.at(step);
  const { gap, nextCell } = lookAhead(length, cell, other => cells[lane * length + other] !== EMPTY);
  const ahead = nextCell === null ? "No other car is on its lane."
    : `Its gap is ${lengthWords(gap)}, and the car ahead drives at ${speedWords(film.speed({ step, lane, cell: nextCell }))}.`;
  const place = `${lanes === 2 ? `lane ${lane}, ` : ""}cell ${cell}`;
  return `You follow the car in ${place}, at ${speedWords(film.speed(car))}. ${ahead} ${reasonOf(film, car, rule)}`.trim();
}

// A disturbance by the user: the followed car brakes to a stop. Files have no line for one car, so the run continues as a new
// job, whose first road is the shown one with this car stopped: `trlab run` replays it.

import { STOPPED, upTo } from "./job.js";

/** The job that goes on from the shown step of a film, with a car stopped. */
export function disturbed(job, film, car) {
  const cells = film.at(car.step).cells.slice(), { length, lanes } = film;
  cells[car.lane * length + car.cell] = STOPPED;
  const text = new TextDecoder().decode(cells), now = job.rules.findLast(rule => rule.at <= car.step) ?? job.rules[0];
  const later = job.rules.filter(rule => rule.at > car.step).map(rule => ({ ...rule, at: rule.at - car.step, isLive: false }));
  return {
    ...job, start: "file", road: upTo(lanes).map(lane => text.slice(lane * length, (lane + 1) * length)),
    rules: [{ ...now, at: 0, isLive: false }, ...later],
  };
}
/** The sentence about it on the page. */
export const disturbanceWords = ({ step, lane, cell }, lanes) =>
  `The car in ${lanes === 2 ? `lane ${lane}, ` : ""}cell ${cell} braked to a stop at step ${step}. A new run begins with that road, ` +
  "and the job file replays it.";

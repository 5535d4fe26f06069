// The exact curve of a fundamental diagram: the flow of a ring at each density, for the rules for which it is known.

import { ALWAYS, roundHalfEven } from "./checks.js";
import { ruleLines } from "./jobs.js";
import { upTo } from "./job.js";

/** The rule with the new speed min(limit, gap), as files have it. */
const GAP_RULE = "rule own\nmotion\nget r0, limit\nget r1, gap\nmin r0, r0, r1\ngo r0\nend";
/** A curve of a long ring has one point more than this. */
const INTERVALS = 100;
/** A term of a sum that is smaller than the largest one by this factor does not change the sum in double precision. */
const NEGLIGIBLE = 1e-22;

/** The curve of one lane: its `kind`, and its `points`, each with density and flow. It is the triangle for a rule without
 * randomization, and for limit 1 the stationary flow of the Nagel-Schreckenberg model. Other flows are not known: null. */
export function exactCurve({ limit, length, lanes, rule }) {
  if (lanes !== 1) return null;
  const lines = ruleLines(rule, lanes), [, model, ...numbers] = lines[0].split(" ");
  if (lines.join("\n") === GAP_RULE || isNasch(model, numbers) && rule.p === 0) {
    const triangle = density => ({ density, flow: Math.min(limit * density, 1 - density) });
    return { kind: "triangle", points: [0, 1 / (limit + 1), 1].map(triangle) };
  }
  if (limit > 1 || !isNasch(model, numbers)) return null;
  const counts = new Set(upTo(INTERVALS + 1).map(k => roundHalfEven(k * length / INTERVALS)));
  const point = cars => ({ density: cars / length, flow: stationaryFlow(length, cars, numbers[0] / ALWAYS) });
  return { kind: "stationary", points: [...counts].map(point) };
}
/** Whether a rule is the Nagel-Schreckenberg model, possibly under another name. */
const isNasch = (model, [brake, other]) =>
  model === "nasch" || model === "vdr" && brake === other || model === "rickert" && other === "0";

/** The mean flow of the Nagel-Schreckenberg model with v_max = 1 in its stationary state. With N cars on n cells, E of them
 * empty, and the braking probability q, it is (1 - q) * S / Z cars per step and lane, where
 *
 *     S = sum over k from 1 to min(N, E) of C(N - 1, k - 1) * C(E - 1, k - 1) * q**(N - k)
 *     Z = sum of the same terms, each times n / k
 *
 * Both sums are added up from their largest term outwards. The relative error is below 1e-12, which is tested and not proved. */
export function stationaryFlow(length, cars, brake) {
  const empty = length - cars, most = Math.min(cars, empty);
  if (most === 0 || brake === 0) return most / length;
  const growth = k => (cars - k) * (empty - k) / (k * k * brake), largest = largestTerm(most, growth);
  let moving = 1, roads = 1 / largest;
  const add = (term, k) => [moving, roads] = [moving + term, roads + term / k];
  for (let k = largest, term = growth(k); k < most && term >= NEGLIGIBLE; k++, term *= growth(k)) add(term, k + 1);
  for (let k = largest - 1, term = 1 / growth(k); k > 0 && term >= NEGLIGIBLE; k--, term /= growth(k)) add(term, k);
  return (1 - brake) * moving / (length * roads);
}
/** The k for which the term is largest: terms grow up to it, and then fall. `growth(k)` is the term of k + 1 divided by that of
 * k. */
function largestTerm(most, growth) {
  let [low, high] = [1, most];
  while (low < high) {
    const k = Math.floor((low + high) / 2);
    [low, high] = growth(k) > 1 ? [k + 1, high] : [low, k];
  }
  return low;
}

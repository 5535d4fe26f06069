// The flow in the Nagel-Schreckenberg model against the density, for p = 1/4 and v_max = 5: `node node/example.mjs`.

import { RejectedInputError, sweep } from "./trlab.mjs";

const ALWAYS = 2 ** 31, p = 1 / 4;
/** @param {number[]} counts The cars of each road of the sweep. */
const file = counts => `sweep 1
key ${"0".repeat(64)}
limit 5
length 1000
lanes 1
rule nasch ${p * ALWAYS}
warm 200
measure 400
${counts.map(cars => `cars ${cars}\n`).join("")}`;

for (const { density, flow, speed } of sweep(file([50, 100, 200]))) console.log(density, flow, speed.toFixed(3));
try {
  sweep(file([1001]));
} catch (fault) {
  if (!(fault instanceof RejectedInputError)) throw fault;
  console.log(`line ${fault.line}, error ${fault.cause}: ${fault.meaning}`);
}

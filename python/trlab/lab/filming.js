// A film: one file that plays the run without a server, as `trlab-lab --export` writes it.

import { loadFilmPage, post } from "./backend.js";
import { jobOf } from "./reading.js";
import { bytesBefore } from "./runs.js";

const MAX_BYTES = 2 ** 28;
const TOO_LONG = "The run is too long for a film: its snapshots may have 256 MiB before they are compressed. Choose fewer steps or a shorter road.";
const MODELS = {
  nasch: ({ p }) => `Nagel and Schreckenberg (1992), p = ${p}`,
  vdr: ({ p, q }) => `Barlovic et al. (1998), p = ${p}, and ${q} if stopped`,
  rickert: ({ p, q }) => `Rickert et al. (1996), p = ${p}, lane changes with ${q}`,
  own: () => "A rule of one's own",
};
/** The model, its probabilities, the random seed and the road in words. */
function titleOf({ rules, key, cars, lanes, length, limit }) {
  const model = MODELS[rules[0].model](rules[0]), later = rules.length > 1 ? ", later another rule" : "";
  return `${model}${later}, random seed ${key}: ${cars} ${cars === 1 ? "car" : "cars"} on ${lanes === 2 ? "two rings" : "a ring"} of ` +
    `${length} cells, at most ${limit} cells per step`;
}
const toBase64 = blob => new Promise((resolve, reject) => {
  const reader = new FileReader();
  Object.assign(reader, { onload: () => resolve(reader.result.split(",")[1]), onerror: () => reject(reader.error) });
  reader.readAsDataURL(blob);
});
const escapeHtml = text => text.replace(/[&<>"']/g, character => `&#${character.charCodeAt(0)};`);

/** The parts of the page that plays the run of a job file. */
export async function filmOf(source) {
  const job = jobOf(source), title = titleOf(job), { length, lanes, limit, steps } = job;
  if (bytesBefore(steps + 1, job) > MAX_BYTES) throw new Error(TOO_LONG);
  const compressed = (await post("run", source)).body.pipeThrough(new CompressionStream("gzip"));
  const run = await toBase64(await new Response(compressed).blob());
  const fields = { title: escapeHtml(title), lead: escapeHtml(`${title}.`), job: JSON.stringify({ length, lanes, limit, steps }), run };
  return (await loadFilmPage()).split(/@(title|lead|job|run)@/).map((part, k) => k % 2 ? fields[part] : part);
}

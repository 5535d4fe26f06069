// trlab for scripts: jobs, series, sweeps and driver programs, computed by the program in WebAssembly. trlab.d.mts has the types.

import { ParameterError, ProgramError, RejectedInputError } from "./errors.mjs";
import { rowOf, snapshotsFrom } from "./results.mjs";
import { runProgram } from "./program.mjs";

export { ParameterError, ProgramError, RejectedInputError } from "./errors.mjs";
export { MissingProgramError, StoppedError } from "./program.mjs";

const DONE = 0, REJECTED = 1;
/** `explain` reads a rejected input as one of these commands does. */
const READ_AS = { series: "run" };

/** Compute a job, and return its snapshots, or pass each of them to `each` while the program runs. */
export function run(job, { every, from, each } = {}) {
  return collected(each, take => {
    const snapshots = snapshotsFrom(take);
    call(["run", ...option("every", every), ...option("from", from)], job, snapshots.line);
    snapshots.end();
  });
}
/** Compute a job, and return the counts of its windows, or pass each of them to `each` while the program runs. */
export function series(job, { every, from, each } = {}) {
  return collected(each, take => table(["series", ...option("every", every), ...option("from", from)], job, take));
}
/** Compute a sweep, and return its points, or pass each of them to `each`. */
export function sweep(sweep, { each } = {}) {
  return collected(each, take => table(["sweep"], sweep, take));
}
/** Verify a driver program: its budget, and its canonical form. */
export function check(program) {
  const [first, ...lines] = collected(undefined, take => call(["check"], program, take));
  return { budget: Number(first.split(" ").at(-1)), text: lines.map(it => `${it}\n`).join("") };
}
/** Explain the error in an input and how to fix it, or describe a valid input. The first word of the input decides how it is
 * read, unless `as` is "run", "sweep" or "check". With `json` the result is an object. */
export function explain(input, { as, json = false } = {}) {
  if (![undefined, "run", "sweep", "check"].includes(as)) throw new ParameterError(`\`as\` must be "run", "sweep" or "check", not ${as}`);
  const { output } = ended(["explain", ...json ? ["--json"] : [], ...as ? [as] : []], input, [DONE, REJECTED]);
  return json ? JSON.parse(output) : output.replace(/\n+$/, "");
}

/** The results that a computation passes on, if the caller does not take them one by one. */
function collected(each, compute) {
  const results = [];
  compute(each ?? (it => results.push(it)));
  return each ? undefined : results;
}
function option(name, value) {
  if (value === undefined) return [];
  if (!Number.isSafeInteger(value)) throw new ParameterError(`\`${name}\` must be a whole number, not ${value}`);
  return [`--${name}`, String(value)];
}
function table(words, input, take) {
  let names;
  call(words, input, line => {
    if (names) take(rowOf(names, line));
    else names = line.split(",");
  });
}

/** Run a command, and pass each line of its output on. Throws a `RejectedInputError` if the input is rejected. */
function call(words, input, take) {
  let rest = "", answer;
  const decoder = new TextDecoder(), takeLine = line => {
    if (/^(fault|refused) /.test(line)) answer = line;
    else take(line);
  };
  const said = new TextDecoder(), messages = [];
  const put = (bytes, isError) => {
    if (isError) return void messages.push(said.decode(bytes, { stream: true }));
    const lines = (rest + decoder.decode(bytes, { stream: true })).split("\n");
    rest = lines.pop();
    lines.forEach(takeLine);
  };
  const status = runProgram(words, { input: bytesOf(input), put });
  if (answer) throw rejection(words[0], input);
  if (status !== DONE) throw new ProgramError(status, messages.join(""));
}
/** The output of a command as one text. */
function ended(words, input, statuses) {
  const pieces = [[], []];
  const status = runProgram(words, { input: bytesOf(input), put: (bytes, isError) => pieces[+isError].push(bytes) });
  const [output, said] = pieces.map(it => Buffer.concat(it).toString());
  if (!statuses.includes(status)) throw new ProgramError(status, said);
  return { status, output };
}
function rejection(command, input) {
  const as = READ_AS[command] ?? command;
  return new RejectedInputError(explain(input, { as }), explain(input, { as, json: true }));
}
function bytesOf(input) {
  if (input instanceof Uint8Array) return input;
  if (typeof input !== "string") throw new ParameterError(`an input is a text or its bytes, not ${input}`);
  return new TextEncoder().encode(input);
}

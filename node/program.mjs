// The program in WebAssembly: its module, which the page trlab-lab.html contains, and single runs of it.

import { existsSync, readFileSync } from "node:fs";
import { fileURLToPath } from "node:url";
import { gunzipSync } from "node:zlib";

/** The place of a file: next to this script in a package for npm, otherwise in the Python package or in a checkout. */
function placeOf(...places) {
  const found = places.map(it => new URL(it, import.meta.url)).find(it => existsSync(it));
  if (!found) throw new MissingProgramError(`there is no ${places[0].replace("./", "")}: release/make builds it in a checkout`);
  return found;
}

/** The page that contains the program was not found, is damaged or contains none. */
export class MissingProgramError extends Error {
  name = "MissingProgramError";
}
/** WebAssembly stopped the program before its end, for example because its stack was too small. */
export class StoppedError extends Error {
  name = "StoppedError";
}

const { Exit, StreamError, hostOf } = await import(placeOf("./host.js", "../lab/host.js", "../python/trlab/lab/host.js"));
export { StreamError };

/** The bytes of the module in a page: the element with the id `program`, which is compressed and then in base64. */
export function moduleIn(page) {
  const found = /<script [^>]*\bid="program"[^>]*>([^<]*)</.exec(page);
  if (!found) throw new MissingProgramError("the page contains no program");
  return gunzipSync(Buffer.from(found[1], "base64"));
}

let compiled;
/** The module of the page, which is compiled once. */
function compiledModule() {
  if (!compiled) {
    const page = placeOf("./trlab-lab.html", "../programs/trlab-lab.html", "../release/trlab-lab.html");
    try {
      compiled = new WebAssembly.Module(moduleIn(readFileSync(page, "utf8")));
    } catch (fault) {
      throw new MissingProgramError(`${fileURLToPath(page)} is damaged: ${fault.message}`);
    }
  }
  return compiled;
}

/** Run the program once, in an instance of its own, and return its exit status. `streams` are those of `hostOf`: `input`, `put`
 * and `isTerminal`. Throws a `StoppedError` if WebAssembly stops the program. */
export function runProgram(words, streams, module = compiledModule()) {
  const host = hostOf({ words, ...streams }), main = host.start(new WebAssembly.Instance(module, host.importsOf(module)));
  try {
    return main();
  } catch (fault) {
    if (fault instanceof Exit) return fault.status;
    // A stack that overflows: that of the program in its memory, or that of the engine.
    const isStopped = fault instanceof WebAssembly.RuntimeError || fault instanceof RangeError;
    throw isStopped ? new StoppedError(`WebAssembly stopped the program: ${fault.message}`) : fault;
  }
}

#!/usr/bin/env node
// The command trlab-node: the program trlab in WebAssembly, with the arguments, the streams and the exit status of the command.

/** The exit status if the program could not be run to its end. */
const NOT_RUN = 70;

try {
  await import("./command.mjs");
} catch (fault) {
  process.exitCode = NOT_RUN;
  console.error(`trlab-node: ${fault.message}`);
}

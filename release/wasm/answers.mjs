// Makes calls of the program in WebAssembly, for tests: each line of standard input is a call, and each line of standard output its
// result, both in JSON. A call has `words` and `input`; a result has `status`, `output` and `error`. Bytes are in base64.
// `node answers.mjs PAGE` takes the program of a page.

import { readFileSync } from "node:fs";
import { createInterface } from "node:readline";
import { moduleIn, runProgram } from "../../node/program.mjs";

const module = new WebAssembly.Module(moduleIn(readFileSync(process.argv[2], "utf8")));

/** The result of a call. If WebAssembly stops the program, its status is the message. */
function answer({ words, input }) {
  const pieces = [[], []];
  const streams = { input: Buffer.from(input, "base64"), put: (bytes, isError) => pieces[+isError].push(bytes) };
  let status;
  try {
    status = runProgram(words, streams, module);
  } catch (fault) {
    status = fault.message;
  }
  const [output, error] = pieces.map(it => Buffer.concat(it).toString("base64"));
  return { status, output, error };
}
for await (const line of createInterface({ input: process.stdin })) console.log(JSON.stringify(answer(JSON.parse(line))));

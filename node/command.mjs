// Runs the program with the arguments and the streams of this process, and sets its exit status.

import { readSync, writeSync } from "node:fs";
import { isatty } from "node:tty";
import { StreamError, runProgram } from "./program.mjs";

/** The number that the program gets for errors other than those below: an error of input or output. */
const OTHER = 5;
/** Linux's numbers of errors by their names: other systems have other numbers. */
const NUMBERS = { EBADF: 9, EFAULT: 14, EISDIR: 21, EFBIG: 27, ENOSPC: 28, EPIPE: 32 };

/** Wait a moment for the other end of a stream. */
const pause = () => Atomics.wait(new Int32Array(new SharedArrayBuffer(4)), 0, 0, 5);

/** The result of a call on a stream, which is repeated as long as the stream is not ready. */
function ready(call) {
  for (;;) {
    try {
      return call();
    } catch (fault) {
      // Windows reports the end of some inputs as an error.
      if (fault.code === "EOF") return 0;
      if (fault.code !== "EAGAIN" && fault.code !== "EINTR") throw new StreamError(NUMBERS[fault.code] ?? OTHER);
      pause();
    }
  }
}
function put(bytes, isError) {
  for (let at = 0; at < bytes.length;) at += ready(() => writeSync(isError ? 2 : 1, bytes, at));
}
const input = buffer => ready(() => readSync(0, buffer));

process.exitCode = runProgram(process.argv.slice(2), { input, put, isTerminal: isatty });

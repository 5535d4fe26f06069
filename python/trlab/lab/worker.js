// The Worker in which the program runs once. If the browser can suspend the program (JavaScript Promise Integration), it waits
// while too much of its output is unread, as it would at a pipe. Otherwise it ends, and the page runs it again when it has read
// everything.

import { Exit, hostOf } from "./host.js";

const canSuspend = "Suspending" in WebAssembly;
/** A program that cannot wait ends when this many bytes of its output are unread. */
const MAX_BUFFERED_BYTES = 2 ** 26;
class BufferFullError extends Error {}

/** How many bytes the page has taken, and the call that resumes the program if that is enough. */
let bytesTaken = 0, resumeIfRead = () => {};

onmessage = ({ data }) => {
  if (data.module) return runProgram(data);
  bytesTaken = data.bytesTaken;
  resumeIfRead();
};

/** The call that takes the program's output. The page has its first `skip` bytes already. Progress is a part of the output, but no
 * other text on standard error is. */
function outputWriter({ args, skip, maxUnread }) {
  let bytesWritten = 0;
  bytesTaken = skip;
  return (bytes, isError) => {
    if (isError && !args.includes("--progress")) return undefined;
    const unsent = bytes.subarray(Math.max(0, skip - bytesWritten));
    bytesWritten += bytes.length;
    if (unsent.length) postMessage({ bytes: unsent }, [unsent.buffer]);
    if (!canSuspend && bytesWritten - bytesTaken > MAX_BUFFERED_BYTES) throw new BufferFullError();
    const isRead = () => bytesWritten - bytesTaken <= maxUnread;
    return !canSuspend || isRead() ? undefined : new Promise(resolve => resumeIfRead = () => isRead() && resolve());
  };
}
async function runProgram(request) {
  const { module, args, input } = request;
  const host = hostOf({ words: args, input: new TextEncoder().encode(input), put: outputWriter(request) });
  if (canSuspend) host.known.write = new WebAssembly.Suspending(host.known.write);
  try {
    const instance = await WebAssembly.instantiate(module, host.importsOf(module));
    postMessage({ status: await host.start(instance, canSuspend ? WebAssembly.promising : undefined)() });
  } catch (error) {
    if (error instanceof Exit) postMessage({ status: error.status });
    else postMessage(error instanceof BufferFullError ? { isFull: true } : { error: `${error.name}: ${error.message}` });
  }
}

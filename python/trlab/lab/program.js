// The program in WebAssembly, if the page contains it. It takes the requests that a page with a server sends to trlab-lab:
// each of them runs the program in a Worker of its own, with the body as standard input, and the response is a stream of its
// output.

/** The arguments of the program by request. */
const COMMANDS = new Map([
  ["run", ["run"]], ["series", ["series"]], ["sweep", ["sweep", "--progress"]], ["explain", ["explain", "run"]],
  ...["run", "sweep", "check"].map(kind => [`explain/${kind}`, ["explain", "--json", kind]]),
]);
/** The program waits while this many bytes of its output are unread. */
const MAX_UNREAD_BYTES = 2 ** 20;
/** The exit statuses of the program for accepted and for rejected inputs. */
const COMPLETE_STATUSES = new Set([0, 1]);
/** Messages about runs without a result, by exit status. */
const STATUS_MESSAGES = {
  3: "The program needs more memory than this browser gives it. Choose a shorter road or a shorter input.",
  4: "The program could not read its input or write its output.",
};
const stoppedMessage = reason => `The program has stopped because of an error, so its output is not complete: ${reason}`;
const UNUSABLE_MESSAGE = "This browser cannot run the program. Use a browser of 2025 or later.";

const embeddedText = id => document.getElementById(id).textContent;
async function unpackModule(base64) {
  const bytes = Uint8Array.from(atob(base64.trim()), character => character.charCodeAt(0));
  return new Response(new Blob([bytes]).stream().pipeThrough(new DecompressionStream("gzip"))).arrayBuffer();
}

export class Program {
  /** The program that the page contains, or null. */
  static ofPage() {
    if (!document.getElementById("program")) return null;
    return new Program(embeddedText("program"), embeddedText("worker"), JSON.parse(embeddedText("examples")));
  }
  constructor(packedModule, workerScript, examples) {
    this.examples = examples;
    this.workerUrl = URL.createObjectURL(new Blob([workerScript], { type: "text/javascript" }));
    this.module = unpackModule(packedModule).then(bytes => WebAssembly.compile(bytes)).catch(error => {
      throw new Error(`${UNUSABLE_MESSAGE} (${error.message})`);
    });
    this.module.catch(() => {}); // Each request reports it.
    this.spareWorker = new Worker(this.workerUrl);
  }
  /** A Worker that has started already; the next one starts meanwhile. */
  takeWorker() {
    const worker = this.spareWorker;
    this.spareWorker = new Worker(this.workerUrl);
    return worker;
  }
  /** Run a command, as the server does for the same request. `?skip=N` leaves out the first N bytes of its output. */
  async post(path, input, signal) {
    const [name, skip = "0"] = path.split("?skip="), args = COMMANDS.get(name);
    if (!args) throw new Error(`There is no command ${name}.`);
    const request = { module: await this.module, args, input, maxUnread: MAX_UNREAD_BYTES };
    const source = new OutputSource(this, request, Number(skip), signal);
    signal?.throwIfAborted();
    return new OutputResponse(new ReadableStream(source, new ByteLengthQueuingStrategy({ highWaterMark: MAX_UNREAD_BYTES })));
  }
}

/** The response to a request, as `fetch` gives it. A `Response` would hide the error of a run behind one of its own. */
class OutputResponse {
  ok = true;
  constructor(body) { this.body = body; }
  async blob() {
    const reader = this.body.getReader(), parts = [];
    for (let part = await reader.read(); !part.done; part = await reader.read()) parts.push(part.value);
    return new Blob(parts);
  }
  async text() { return (await this.blob()).text(); }
  async json() { return JSON.parse(await this.text()); }
}

/** The output of one run of the program, as the source of a stream. The page has the first `bytesTaken` bytes already. */
class OutputSource {
  worker = null;
  constructor(program, request, bytesTaken, signal) {
    this.program = program;
    this.request = request;
    this.bytesTaken = bytesTaken;
    this.signal = signal;
  }
  start(controller) {
    this.startWorker(controller);
    this.signal?.addEventListener("abort", () => {
      this.cancel();
      controller.error(this.signal.reason);
    });
  }
  /** Run the program without the bytes that the page has, so that a second run continues the output of the first one. */
  startWorker(controller) {
    this.worker = this.program.takeWorker();
    this.worker.onmessage = ({ data }) => this.onWorkerMessage(controller, data);
    this.worker.onerror = event => {
      this.endWorker();
      controller.error(new Error(stoppedMessage(event.message)));
    };
    this.worker.postMessage({ ...this.request, skip: this.bytesTaken });
  }
  onWorkerMessage(controller, { bytes, status, error, isFull }) {
    if (bytes) {
      this.bytesTaken += bytes.length;
      controller.enqueue(bytes);
      return;
    }
    this.endWorker();
    if (isFull) {
      if (controller.desiredSize > 0) this.startWorker(controller);
    } else if (COMPLETE_STATUSES.has(status)) controller.close();
    else controller.error(new Error(STATUS_MESSAGES[status] ?? stoppedMessage(error ?? `exit status ${status}`)));
  }
  /** The page has read enough for the buffer to have room: the program continues, or runs again if it could not wait. */
  pull(controller) {
    if (this.worker) this.worker.postMessage({ bytesTaken: this.bytesTaken });
    else this.startWorker(controller);
  }
  cancel() { this.endWorker(); }
  endWorker() {
    if (this.worker) Object.assign(this.worker, { onmessage: null, onerror: null }).terminate();
    this.worker = null;
  }
}

// A run: its snapshots arrive as a stream, and wait until they are shown.

import { clamp } from "./job.js";

const LINE_END = 10, STEP_WORD = "step ";
const MIN_WAITING = 2, MAX_WAITING = 400, MAX_WAITING_BYTES = 4e6;

/** The bytes of a run's output before the snapshot of a step: `step N` and the lanes, each with its line end. */
export function bytesBefore(step, { length, lanes }) {
  let digits = step; // every number has one digit, and another one from each power of ten on
  for (let power = 10; power < step; power *= 10) digits += step - power;
  return digits + step * (STEP_WORD.length + 1 + lanes * (length + 1));
}

/** Snapshots wait here until they are shown. While enough wait, nothing is read, and the program waits too. */
export class Run {
  /** `request(signal)` gives the response; its first snapshot is that of the step `from`. */
  constructor(request, { length, lanes }, from, onError) {
    this.length = length;
    this.lanes = lanes;
    this.from = from;
    this.waiting = [];
    this.isOver = false;
    this.abortion = new AbortController();
    this.maxWaiting = clamp(Math.floor(MAX_WAITING_BYTES / (length * lanes)), MIN_WAITING, MAX_WAITING);
    this.read(request).catch(error => error.name === "AbortError" || onError(error.message));
  }
  abort() { this.abortion.abort(); }
  async read(request) {
    const reader = (await request(this.abortion.signal)).body.getReader();
    let rest = new Uint8Array(0);
    for (;;) {
      while (this.waiting.length >= this.maxWaiting) await new Promise(resolve => this.continueReading = resolve);
      const { value, done } = await reader.read();
      if (done) break;
      const bytes = new Uint8Array(rest.length + value.length);
      bytes.set(rest);
      bytes.set(value, rest.length);
      rest = this.cutSnapshots(bytes);
    }
    this.isOver = true;
  }
  /** Take whole snapshots off the bytes, and return the rest. */
  cutSnapshots(bytes) {
    const { length, lanes } = this;
    for (let at = 0; ;) {
      const lineEnd = bytes.indexOf(LINE_END, at), end = lineEnd + 1 + lanes * (length + 1);
      if (lineEnd < 0 || end > bytes.length) return bytes.subarray(at);
      const step = Number(String.fromCharCode(...bytes.subarray(at + STEP_WORD.length, lineEnd))), cells = new Uint8Array(lanes * length);
      for (let lane = 0, from = lineEnd + 1; lane < lanes; lane++, from += length + 1) {
        cells.set(bytes.subarray(from, from + length), lane * length);
      }
      if (step >= this.from) this.waiting.push({ step, cells });
      at = end;
    }
  }
  /** The next snapshot, or nothing if none waits. */
  take() {
    this.continueReading?.();
    return this.waiting.shift();
  }
}

// Memory that runs out, stacks that overflow and Workers that are stopped: an error or the right output, and nothing else.

import assert from "node:assert/strict";
import { test } from "node:test";
import { Worker } from "node:worker_threads";
import { Exit, hostOf } from "../../python/trlab/lab/host.js";
import { StoppedError, runProgram } from "../program.mjs";
import { example, missing, moduleBytes } from "./pages.mjs";

const MEMORY = 3, PAGE = 65536;
/** The most bytes of the module's memory. */
const LIMIT = 2 ** 32 - 2 ** 20;
const bytesOf = text => new TextEncoder().encode(text);
/** The end of a call: its status, or the error that stopped it, and its output. All blocks of memory are above the address
 * `base`, if there is one, and otherwise above the data of the module. */
function ended(words, text, module, { prepare = () => {}, base } = {}) {
  const pieces = [], put = (bytes, isError) => isError || pieces.push(bytes);
  const host = hostOf({ words, input: bytesOf(text), put });
  let status, instance;
  prepare(host.known, () => instance);
  try {
    instance = new WebAssembly.Instance(module, host.importsOf(module));
    const { memory, main, __heap_base } = instance.exports;
    status = host.start({ exports: { memory, main, __heap_base: { value: base ?? __heap_base.value } } })();
  } catch (fault) {
    status = fault instanceof Exit ? fault.status : fault;
  }
  return { status, output: Buffer.concat(pieces).toString() };
}
const SHORT_SWEEP = example("triangle.sweep").replace(/(cars \d+\n)+/, "cars 3\ncars 50\n");
// The words and the input of each call.
const CALLS = [
  [["run"], example("overtaking.job")],
  [["series", "--every", "5"], example("overtaking.job")],
  [["sweep"], SHORT_SWEEP],
  [["check"], example("lane_change.rule")],
  [["explain"], example("jam.job")],
  [["run", "--workers", "4"], example("jam.job")],
];

test("each allocation fails in turn", { skip: missing }, () => {
  const module = new WebAssembly.Module(moduleBytes());
  for (const [words, text] of CALLS) {
    const right = ended(words, text, module), needed = new Set();
    assert.equal(right.status, 0);
    let refused = 0;
    const refuse = number => known => {
      let count = 0;
      for (const name of ["rattle_alloc", "rattle_realloc"]) {
        const allowed = known[name];
        known[name] = (to, ...rest) => {
          // No block has this many bytes, so the allocation fails.
          if (++count !== number) return allowed(to, ...rest);
          refused = number;
          return known.rattle_alloc(to, 1n << 40n, 8n);
        };
      }
    };
    for (let number = 1; ; number++) {
      const { status, output } = ended(words, text, module, { prepare: refuse(number) });
      if (refused < number) break;
      assert.ok(status === MEMORY || status === 0, `${words}, allocation ${number}: ${status}`);
      if (status === 0) assert.equal(output, right.output);
      else needed.add(number);
      assert.ok(right.output.startsWith(output), `${words}, allocation ${number}: the output is not a prefix`);
    }
    assert.ok(needed.size > 0);
  }
});

/** The module with a stack of 2**14, 2**15 .. bytes. Four bytes hold the start of the stack pointer, its first global. */
function withStack(power) {
  const bytes = moduleBytes(), stackOf1MiB = Buffer.from([0x7f, 0x01, 0x41, 0x80, 0x80, 0xc0, 0x00, 0x0b]);
  const place = bytes.indexOf(stackOf1MiB);
  assert.ok(place > 0 && bytes.indexOf(stackOf1MiB, place + 1) < 0, "the module has one stack of 1 MiB");
  bytes.set([0x80, 0x80, 0x80 | 1 << power - 14, 0x00], place + 3);
  return new WebAssembly.Module(bytes);
}

test("a stack that overflows is an error, and never a wrong output", { skip: missing }, () => {
  const ample = new WebAssembly.Module(moduleBytes()), stopped = new Set();
  for (const [words, text] of CALLS) {
    const right = ended(words, text, ample);
    for (const power of [14, 15, 16, 17, 18, 19]) {
      for (const isFull of [false, true]) {
        // In a memory of 4 GiB without its end, the addresses below 0, into which the stack overflows, are still outside.
        const fill = (known, instance) => {
          const main = known.rattle_arg;
          known.rattle_arg = (...given) => {
            const { memory } = instance().exports;
            if (isFull && memory.buffer.byteLength < 2 ** 31) memory.grow((LIMIT - memory.buffer.byteLength) / PAGE);
            return main(...given);
          };
        };
        const { status, output } = ended(words, text, withStack(power), { prepare: fill });
        const isStopped = status instanceof WebAssembly.RuntimeError;
        if (isStopped) stopped.add(power);
        const isRight = isStopped ? right.output.startsWith(output) : status === 0 && output === right.output;
        assert.ok(isRight, `${words}, 2**${power} bytes: ${status}`);
      }
    }
  }
  assert.ok(stopped.has(14) && !stopped.has(19), [...stopped].join());
});

test("addresses of 31 and 32 bits give the same output", { skip: missing }, () => {
  const module = new WebAssembly.Module(moduleBytes());
  // Above 2 GiB an address is negative for instructions that have a sign. The second heap has blocks on both sides of 2 GiB.
  for (const base of [2 ** 31, 2 ** 31 - 2 ** 14, LIMIT - 2 ** 26]) {
    for (const [words, text] of CALLS) {
      const { status, output } = ended(words, text, module, { base });
      assert.equal(status, 0, `${words} above ${base}`);
      assert.equal(output, ended(words, text, module).output);
    }
  }
});

test("the memory ends 1 MiB below 4 GiB", { skip: missing }, () => {
  const module = new WebAssembly.Module(moduleBytes()), host = hostOf({ words: [], input: new Uint8Array(0), put() {} });
  const { memory } = new WebAssembly.Instance(module, host.importsOf(module)).exports;
  const room = (LIMIT - memory.buffer.byteLength) / PAGE;
  assert.throws(() => memory.grow(room + 1), RangeError);
  memory.grow(room);
  assert.equal(memory.buffer.byteLength, LIMIT);
});

test("a program that WebAssembly stops is an error with a name", { skip: missing }, () => {
  const input = bytesOf(example("jams.job"));
  assert.throws(() => runProgram(["run"], { input, put() {} }, withStack(14)), StoppedError);
  const fault = new Error("of the caller");
  assert.throws(() => runProgram(["run"], { input, put() { throw fault; } }), fault);
});

test("a Worker can be stopped at any time", { skip: missing }, async () => {
  const job = example("jams.job").replace(/^steps \d+$/m, "steps 500000");
  const script = `
    const { workerData, parentPort } = require("node:worker_threads");
    import(workerData.program).then(({ runProgram }) => {
      const put = bytes => parentPort.postMessage(bytes.length);
      runProgram(["run"], { input: new TextEncoder().encode(workerData.job), put });
    });`;
  const worker = new Worker(script, { eval: true, workerData: { program: new URL("../program.mjs", import.meta.url).href, job } });
  await new Promise((go, fail) => {
    worker.once("message", go);
    worker.once("error", fail);
  });
  const ended = new Promise(go => worker.once("exit", go));
  await worker.terminate();
  assert.equal(await ended, 1);
});

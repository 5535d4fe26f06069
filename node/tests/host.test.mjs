// The C library of the program, without the program: its memory, arguments and streams.

import assert from "node:assert/strict";
import { test } from "node:test";
import { Exit, StreamError, hostOf } from "../../python/trlab/lab/host.js";

const BASE = 70000, PAIR = 1024, TEXT = 2048, PAGE = 65536;
/** A host that has started, with a memory of two pages at first. */
function started({ words = [], input = new Uint8Array(0), put = () => {}, isTerminal, most = 64 } = {}) {
  const memory = new WebAssembly.Memory({ initial: 2, maximum: most });
  const host = hostOf({ words, input, put, isTerminal });
  const main = host.start({ exports: { memory, main: () => 7, __heap_base: { value: BASE } } });
  const view = () => new DataView(memory.buffer);
  const pair = () => [Number(view().getBigUint64(PAIR, true)), Number(view().getBigUint64(PAIR + 8, true))];
  return { ...host.known, host, memory, main, pair, bytes: (at, length) => new Uint8Array(memory.buffer, at, length) };
}

test("blocks do not overlap, are aligned, and are used again", () => {
  const { rattle_alloc, rattle_dealloc, pair, bytes } = started(), taken = [];
  for (let k = 0; k < 400; k++) {
    const size = (k * 37) % 3000;
    rattle_alloc(PAIR, BigInt(size), 8n);
    const [isThere, at] = pair();
    assert.equal(isThere, 1);
    assert.equal(at % 16, 0);
    assert.ok(at >= BASE);
    taken.push({ at, size });
    bytes(at, size).fill(k);
    if (k % 3 === 0) rattle_dealloc(taken.splice((k * 7) % taken.length, 1)[0].at);
  }
  taken.sort((a, b) => a.at - b.at);
  taken.forEach(({ at, size }, k) => assert.ok(k === 0 || taken[k - 1].at + taken[k - 1].size <= at, `${at} of ${size}`));
  rattle_alloc(PAIR, 1000n, 8n);
  const [, first] = pair();
  rattle_dealloc(first);
  rattle_alloc(PAIR, 900n, 8n);
  assert.equal(pair()[1], first);
});

test("a block keeps its bytes when it grows", () => {
  const { rattle_alloc, rattle_realloc, pair, bytes } = started();
  rattle_alloc(PAIR, 40n, 8n);
  const [, first] = pair();
  bytes(first, 40).set(Array.from({ length: 40 }, (_, k) => k));
  rattle_realloc(PAIR, first, 40n, 64n, 8n);
  assert.equal(pair()[1], first, "a block of 64 bytes is large enough");
  rattle_realloc(PAIR, first, 40n, 100000n, 8n);
  const [isThere, second] = pair();
  assert.equal(isThere, 1);
  assert.notEqual(second, first);
  assert.deepEqual([...bytes(second, 40)], Array.from({ length: 40 }, (_, k) => k));
});

test("without memory there is no block, and the old one stays", () => {
  const { rattle_alloc, rattle_realloc, rattle_dealloc, pair, bytes, memory } = started({ most: 4 });
  rattle_alloc(PAIR, 50000n, 8n);
  const [, at] = pair();
  bytes(at, 50000).fill(9);
  for (const size of [4 * PAGE, 2 ** 30, 2 ** 31, 2 ** 31 + 1, 2 ** 33]) {
    rattle_alloc(PAIR, BigInt(size), 8n);
    assert.deepEqual(pair(), [0, 16], `${size} bytes`);
    rattle_realloc(PAIR, at, 50000n, BigInt(size), 8n);
    assert.deepEqual(pair(), [0, 16], `${size} bytes instead`);
  }
  assert.ok(bytes(at, 50000).every(it => it === 9));
  assert.ok(memory.buffer.byteLength <= 4 * PAGE);
  rattle_dealloc(at);
  rattle_alloc(PAIR, 60000n, 8n);
  assert.deepEqual(pair(), [1, at]);
});

test("addresses above 2 GiB, which arrive as negative numbers", () => {
  const { rattle_alloc, rattle_dealloc, rattle_realloc, pair, bytes } = started({ most: 65536 - 16 }), taken = [];
  const take = size => (rattle_alloc(PAIR, BigInt(size), 8n), pair());
  for (let k = 0; k < 5; k++) {
    const [isThere, at] = take(2 ** 29);
    assert.equal(isThere, 1);
    taken.push(at);
  }
  const high = taken.at(-1);
  assert.ok(high > 2 ** 31);
  bytes(high, 3).set([1, 2, 3]);
  rattle_realloc(PAIR, high | 0, 3n, 2n ** 29n + 1n, 8n);
  const [, moved] = pair();
  assert.deepEqual([...bytes(moved, 3)], [1, 2, 3]);
  rattle_dealloc(moved | 0);
  assert.deepEqual(take(2 ** 30), [1, moved]);
});

test("no block is larger than 1 GiB", () => {
  const { rattle_alloc, pair } = started({ most: 65536 - 16 });
  rattle_alloc(PAIR, 2n ** 30n + 1n, 8n);
  assert.deepEqual(pair(), [0, 16]);
});

test("arguments", () => {
  const { rattle_arg, bytes } = started({ words: ["run", "é"] });
  const texts = ["trlab", "run", "é"];
  texts.forEach((text, k) => {
    const wanted = new TextEncoder().encode(text);
    assert.equal(rattle_arg(BigInt(k), TEXT, 100n), BigInt(wanted.length));
    assert.deepEqual([...bytes(TEXT, wanted.length)], [...wanted]);
  });
  assert.equal(rattle_arg(3n, TEXT, 100n), -1n);
  assert.equal(rattle_arg(0n, TEXT, 4n), -2n);
});

test("input in pieces, from bytes and from a call", () => {
  const text = new TextEncoder().encode("a text of a job");
  let at = 0;
  const call = buffer => {
    const piece = text.subarray(at, at + Math.min(2, buffer.length));
    buffer.set(piece);
    at += piece.length;
    return piece.length;
  };
  for (const input of [text, call]) {
    const { read, bytes } = started({ input }), found = [];
    for (let count; (count = Number(read(0, TEXT, 4n))) > 0;) found.push(...bytes(TEXT, count));
    assert.deepEqual(found, [...text]);
    assert.equal(read(0, TEXT, 4n), 0n);
  }
});

test("output is copied, and errors are distinguished", () => {
  const written = [], { write, bytes } = started({ put: (piece, isError) => written.push([piece, isError]) });
  bytes(TEXT, 3).set([97, 98, 99]);
  assert.equal(write(1, TEXT, 3n), 3n);
  bytes(TEXT, 3).fill(120);
  assert.equal(write(2, TEXT, 2n), 2n);
  bytes(TEXT, 3).fill(0);
  const texts = written.map(([piece, isError]) => [String.fromCharCode(...piece), isError]);
  assert.deepEqual(texts, [["abc", false], ["xx", true]]);
});

test("errors of streams reach the program, and no others", () => {
  const fail = () => {
    throw new StreamError(32);
  };
  const { read, write, open, rattle_errno, rattle_set_errno } = started({ input: fail, put: fail });
  assert.equal(write(1, TEXT, 1n), -1n);
  assert.equal(rattle_errno(), 32);
  rattle_set_errno(0);
  assert.equal(rattle_errno(), 0);
  assert.equal(read(0, TEXT, 1n), -1n);
  assert.equal(rattle_errno(), 32);
  for (const call of [() => read(3, TEXT, 1n), () => write(0, TEXT, 1n)]) {
    assert.equal(call(), -1n);
    assert.equal(rattle_errno(), 9);
  }
  assert.equal(open(TEXT, 0, 0), -1);
  assert.equal(rattle_errno(), 2);
  const other = started({ put: () => { throw new RangeError("another fault"); } });
  assert.throws(() => other.write(1, TEXT, 1n), /another fault/);
});

test("a write may have to wait", async () => {
  const { write } = started({ put: () => Promise.resolve() });
  assert.equal(await write(1, TEXT, 5n), 5n);
});

test("no thread is made, and no call waits", () => {
  const { pthread_create, syscall } = started();
  assert.equal(pthread_create(0, 0, 0, 0), 11);
  assert.equal(syscall(202n, 0, 1n), 0n);
  assert.throws(() => syscall(202n, 0, 0n), /syscall/);
});

test("the end", () => {
  const { _exit, abort, main } = started();
  assert.equal(main(), 7);
  assert.throws(() => _exit(3), fault => fault instanceof Exit && fault.status === 3);
  assert.throws(abort, fault => fault instanceof Exit && fault.status === 134);
});

test("a function that is not known fails when it is called", () => {
  // A module with the one import env.fork, which takes and returns nothing.
  const bytes = [0, 97, 115, 109, 1, 0, 0, 0, 1, 4, 1, 96, 0, 0, 2, 12, 1, 3, 101, 110, 118, 4, 102, 111, 114, 107, 0, 0];
  const { env } = hostOf({ words: [], input: new Uint8Array(0), put() {} }).importsOf(new WebAssembly.Module(new Uint8Array(bytes)));
  assert.throws(() => env.fork(), /the program called fork/);
});

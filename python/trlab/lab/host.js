// The C library of the program in WebAssembly: the functions that the module imports. A page's Worker uses them, and so does Node.
// They give the program its arguments, its standard input, output and error, and its memory. There is one thread, and there are
// neither files nor environment variables.

// The numbers of errors on Linux, for which the program is compiled.
const NO_SUCH_FILE = 2, NOT_OPEN = 9, TRY_AGAIN = 11;
// The numbers of the open streams.
const INPUT = 0, OUTPUT = 1, ERROR = 2;
/** The bytes of a page of memory, by which it grows. */
const PAGE = 65536;

/** Thrown when the program ends itself. */
export class Exit extends Error {
  constructor(status) {
    super(`the program ended with status ${status}`);
    this.status = status;
  }
}

/** `input` and `put` throw this if reading or writing fails. The program sees the error with this number, which is Linux's. */
export class StreamError extends Error {
  constructor(number) {
    super(`error ${number} of a stream`);
    this.number = number;
  }
}

/** The memory of an instance. Its addresses have 32 bits, and arrive as numbers with a sign. */
class Memory {
  attach(memory) { this.memory = memory; }
  bytes(address, length) { return new Uint8Array(this.memory.buffer, address >>> 0, Number(length)); }
  /** Write two numbers of 64 bits. */
  setPair(address, first, second) {
    const view = new DataView(this.memory.buffer);
    view.setBigUint64(address >>> 0, BigInt(first), true);
    view.setBigUint64((address >>> 0) + 8, BigInt(second), true);
  }
  copy(from, to, length) { this.bytes(to, length).set(this.bytes(from, length)); }
  /** Whether the memory reaches up to an address, now or after it has grown. */
  growTo(end) {
    const missingPages = Math.ceil((end - this.memory.buffer.byteLength) / PAGE);
    try {
      if (missingPages > 0) this.memory.grow(missingPages);
      return true;
    } catch (error) {
      if (error instanceof RangeError) return false;
      throw error;
    }
  }
}

const HEADER_BYTES = 16, MIN_POWER = 4, MAX_POWER = 30;
/** The power of the smallest block that holds a number of bytes. No block is larger than 1 GiB: compiled code counts bytes within a
 * block with a sign. */
function powerFor(size) {
  return size > 2 ** MAX_POWER ? MAX_POWER + 1 : Math.max(MIN_POWER, 32 - Math.clz32(Math.max(size, 1) - 1));
}

/** Blocks of memory above the data of the module. Each has 2**power bytes, behind a header that contains the power; a block that is
 * freed waits until one of its power is allocated. An address of 0 means that there is no memory left. */
class Heap {
  constructor(memory, base) {
    this.memory = memory;
    this.top = Math.ceil(base / HEADER_BYTES) * HEADER_BYTES;
    this.freeBlocks = Array.from({ length: MAX_POWER + 1 }, () => []);
  }
  header(address) { return this.memory.bytes(address - HEADER_BYTES, 1); }
  allocate(size) {
    const power = powerFor(size);
    if (power > MAX_POWER) return 0;
    return this.freeBlocks[power].pop() ?? this.addBlock(power);
  }
  addBlock(power) {
    const address = this.top + HEADER_BYTES, end = address + 2 ** power;
    if (!this.memory.growTo(end)) return 0;
    this.top = end;
    this.header(address)[0] = power;
    return address;
  }
  free(address) { this.freeBlocks[this.header(address)[0]].push(address >>> 0); }
  /** The block at an address, or another one with the bytes of the first, of which `used` are in use. */
  resize(address, used, size) {
    if (powerFor(size) <= this.header(address)[0]) return address >>> 0;
    const target = this.allocate(size);
    if (target) {
      this.memory.copy(address, target, used);
      this.free(address);
    }
    return target;
  }
}

/** Allocation, as Rattle's library calls it: whether there is a block, and its address, or any other address. */
function memoryFunctions(memory, heap) {
  const setResult = (result, address) => memory.setPair(result, address ? 1 : 0, address || HEADER_BYTES);
  return {
    rattle_alloc: (result, size) => setResult(result, heap().allocate(Number(size))),
    rattle_realloc: (result, address, used, size) => setResult(result, heap().resize(address, Number(used), Number(size))),
    rattle_dealloc: address => heap().free(address),
    malloc: size => heap().allocate(Number(size)),
    free: address => { if (address) heap().free(address); },
  };
}

const NO_ARGUMENT = -1n, TOO_LONG = -2n;
function argumentFunctions(memory, words) {
  const texts = ["trlab", ...words].map(word => new TextEncoder().encode(word));
  return {
    /** Copy an argument, and return its length, or that there is none, or that it is too long. */
    rattle_arg(number, address, room) {
      const text = texts[Number(number)];
      if (!text) return NO_ARGUMENT;
      if (text.length > Number(room)) return TOO_LONG;
      memory.bytes(address, text.length).set(text);
      return BigInt(text.length);
    },
  };
}

/** A call that reads from bytes as from a file. */
function readerOf(bytes) {
  let position = 0;
  return buffer => {
    const piece = bytes.subarray(position, position + buffer.length);
    buffer.set(piece);
    position += piece.length;
    return piece.length;
  };
}

const FAILED = -1n;
/** Standard input, output and error. */
function streamFunctions(memory, { input, put, isTerminal }) {
  const read = typeof input === "function" ? input : readerOf(input);
  let lastError = 0;
  const fail = (error, result) => {
    lastError = error;
    return result;
  };
  const withErrors = call => {
    try {
      return call();
    } catch (error) {
      if (error instanceof StreamError) return fail(error.number, FAILED);
      throw error;
    }
  };
  return {
    read: (stream, address, room) => stream === INPUT ? withErrors(() => BigInt(read(memory.bytes(address, room)))) : fail(NOT_OPEN, FAILED),
    write(stream, address, length) {
      if (stream !== OUTPUT && stream !== ERROR) return fail(NOT_OPEN, FAILED);
      return withErrors(() => {
        const written = put(memory.bytes(address, length).slice(), stream === ERROR);
        return written instanceof Promise ? written.then(() => length) : length;
      });
    },
    isatty: stream => isTerminal(stream) ? 1 : 0,
    open: () => fail(NO_SUCH_FILE, -1),
    close: () => 0,
    rattle_errno: () => lastError,
    rattle_set_errno: number => { lastError = number; },
  };
}

// The numbers of a system call and of its operation.
const FUTEX = 202n, WAKE = 1n, OPERATION_BITS = 127n;
/** Threads: none can be made, and the program continues without. So nobody waits, and there is nobody to wake. */
const THREAD_FUNCTIONS = {
  pthread_create: () => TRY_AGAIN,
  pthread_attr_init: () => 0,
  pthread_attr_setguardsize: () => 0,
  pthread_attr_setstacksize: () => 0,
  pthread_attr_destroy: () => 0,
  pthread_self: () => 1n,
  sched_yield: () => 0,
  sched_getaffinity: () => -1,
  sysconf: () => 1n,
  syscall(number, _, operation) {
    if (number !== FUTEX || (operation & OPERATION_BITS) !== WAKE) throw new Error(`the program called syscall ${number} ${operation}`);
    return 0n;
  },
};

/** The exit status of a shell's child that aborts. */
const ABORTED = 134;
const EXIT_FUNCTIONS = {
  __sysv_signal: () => 0n,
  abort() { throw new Exit(ABORTED); },
  _exit(status) { throw new Exit(status); },
};

/** The host of one run of the program. `words` are the arguments. `input` is the bytes of standard input, or a call that puts bytes
 * into a buffer and returns how many, 0 at the end. `put(bytes, isError)` takes the output of the program.
 *
 * `known` has the functions by their names, and may be changed before `importsOf`. */
export function hostOf({ words, input, put, isTerminal = () => false }) {
  const memory = new Memory();
  let heap;
  const known = {
    ...memoryFunctions(memory, () => heap), ...argumentFunctions(memory, words), ...streamFunctions(memory, { input, put, isTerminal }),
    ...THREAD_FUNCTIONS, ...EXIT_FUNCTIONS,
  };
  const unknown = name => () => {
    throw new Error(`the program called ${name}`);
  };
  return {
    known,
    /** The imports of a module. A function that is not known fails when it is called. */
    importsOf: module => ({
      env: Object.fromEntries(WebAssembly.Module.imports(module).map(({ name }) => [name, known[name] ?? unknown(name)])),
    }),
    /** The `main` of an instance, as a call that returns the exit status or throws `Exit`. `wrap` may change the function first. */
    start({ exports }, wrap = main => main) {
      memory.attach(exports.memory);
      heap = new Heap(memory, exports.__heap_base.value);
      const main = wrap(exports.main);
      return () => main(0, 0);
    },
  };
}

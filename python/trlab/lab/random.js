// Random cells, the same as `trlab.random_cells(seed)` in Python, whose random numbers are those of the Mersenne Twister
// (Matsumoto and Nishimura 1998, ACM Trans. Model. Comput. Simul. 8, 3).

const SIZE = 624, MIDDLE = 397;

/** A call that returns the random words of 32 bits of `random.Random(seed)` in Python. The seed is a BigInt, or decimal digits.
 * */
function randomWords(seed) {
  const state = seededState(seed);
  let next = SIZE;
  return () => {
    if (next === SIZE) next = refreshState(state);
    let word = state[next++];
    word ^= word >>> 11;
    word ^= word << 7 & 0x9d2c5680;
    word ^= word << 15 & 0xefc60000;
    return (word ^ word >>> 18) >>> 0;
  };
}
function refreshState(state) {
  for (let k = 0; k < SIZE; k++) {
    const both = state[k] & 0x80000000 | state[(k + 1) % SIZE] & 0x7fffffff;
    state[k] = state[(k + MIDDLE) % SIZE] ^ both >>> 1 ^ (both & 1 ? 0x9908b0df : 0);
  }
  return 0;
}
/** The state for the 32-bit words of a seed, as `init_by_array` of the authors fills it. */
function seededState(seed) {
  const state = new Uint32Array(SIZE), words = [];
  for (let rest = BigInt(seed); rest > 0n || !words.length; rest >>= 32n) words.push(Number(rest & 0xffffffffn));
  const mixed = (k, factor) => Math.imul(state[k - 1] ^ state[k - 1] >>> 30, factor);
  state[0] = 19650218;
  for (let k = 1; k < SIZE; k++) state[k] = mixed(k, 1812433253) + k;
  let at = 1;
  const step = () => {
    if (++at < SIZE) return;
    state[0] = state[SIZE - 1];
    at = 1;
  };
  for (let k = 0; k < Math.max(SIZE, words.length); k++, step()) {
    state[at] = (state[at] ^ mixed(at, 1664525)) + words[k % words.length] + k % words.length;
  }
  for (let k = 1; k < SIZE; k++, step()) state[at] = (state[at] ^ mixed(at, 1566083941)) - at;
  state[0] = 0x80000000;
  return state;
}

/** The first random numbers from 0 to 1, which have 53 bits. */
export function randomNumbers(seed, count) {
  const word = randomWords(seed);
  return Float64Array.from({ length: count }, () => ((word() >>> 5) * 2 ** 26 + (word() >>> 6)) / 2 ** 53);
}
/** Random cells, of which there are `cells`: each draws a number, and the lowest numbers win. */
export function randomCells(seed, cars, cells) {
  if (!cars) return [];
  const drawn = randomNumbers(seed, cells), highest = drawn.toSorted()[cars - 1], found = [], equal = [];
  drawn.forEach((draw, cell) => draw < highest ? found.push(cell) : draw === highest && equal.push(cell));
  return [...found, ...equal].slice(0, cars);
}

// The numbers of job files: whole numbers in their range, and probabilities as multiples of 1 / 2**31. The errors are those of
// the Python package, except where the page has something else to do.

/** The number in files for the probability 1. */
export const ALWAYS = 2 ** 31;
export const MAX_CELLS = 100000;
export const MAX_SPEED = 35;
export const MAX_STEPS = 500000;
export const MAX_POINTS = 200;

/** Raises an error with the message that a call returns, unless the condition is true. */
export function ensure(condition, message) {
  if (!condition) throw new RangeError(message());
}
/** A value in a message, cut to a readable length. */
export function quoted(value) {
  const text = typeof value === "string" ? `'${value}'` : String(value);
  return text.length <= 80 ? text : `${text.slice(0, 77)}...`;
}
/** A whole number from `minimum` to `maximum`; raises an error that names it if it is anything else. */
export function checkedInteger(name, number, minimum, maximum) {
  ensure(Number.isInteger(number), () => `${name} must be a whole number, from ${minimum} to ${maximum}, not ${quoted(number)}`);
  ensure(number >= minimum && number <= maximum, () => `${name} must be between ${minimum} and ${maximum}, not ${quoted(number)}`);
  return number;
}
/** The nearest whole number, and of two the even one, as Python rounds. */
export function roundHalfEven(number) {
  const low = Math.floor(number), rest = number - low;
  return rest > 0.5 || rest === 0.5 && low % 2 === 1 ? low + 1 : low;
}
/** A probability as files have it: the nearest multiple of 1 / 2**31. The product is exact, because it is one with a power of
 * two. */
export const nearestParts = probability => roundHalfEven(probability * ALWAYS);

/** The same, or an error that names the probability. A number so close to 0 or 1 that files would have 0 or 1 is an error too. */
export function checkedParts(name, number) {
  ensure(Number.isFinite(number), () => `${name} must be a number between 0 and 1, not ${quoted(number)}`);
  ensure(number >= 0 && number <= 1, () => `${name} must be between 0 and 1, not ${quoted(number)}`);
  const found = nearestParts(number), nearest = found / ALWAYS;
  ensure(number === nearest || found > 0 && found < ALWAYS,
    () => `${name} is ${quoted(number)}, which is ${nearest} in multiples of 1 / 2**31: write ${nearest}`);
  return found;
}
/** The shortest rounded decimal of a probability in a file, or of a number that files write in the same way. Ten digits suffice,
 * because they are closer than half of 1 / 2**31. */
export function shortestDecimal(found, number = found / ALWAYS) {
  for (let power = 1; ; power *= 10) {
    const decimal = Math.round(number * power) / power;
    if (nearestParts(decimal) === found) return decimal;
  }
}

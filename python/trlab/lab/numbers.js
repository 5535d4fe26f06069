// Numbers as you write them, which Python reads in the same way: whole numbers, decimals, and fractions such as 1/3.

import { ALWAYS, nearestParts, shortestDecimal } from "./checks.js";

const NUMBER = /^[-+]?(?:(\d+)\/(\d+)|(?:\d+\.?\d*|\.\d+)(?:e[-+]?\d{1,3})?)$/i;

/** The boxes show decimals of at most 8 characters whole, and fractions with a denominator of at most 99. */
const MAX_DECIMAL_LENGTH = 8, MAX_DENOMINATOR = 99;
const MAX_SHOWN_LENGTH = 30;

/** A text is not a valid number; the message names the numbers that are. */
export class NumberError extends Error {}
/** The number in a text. Raises a `NumberError` if it is not a number, or out of its range. */
export function parseNumber(text, { minimum = -Infinity, maximum = Infinity, isWhole = false } = {}) {
  const trimmed = text.trim(), wanted = isWhole ? "a whole number" : "a number", bounds = minimum > -Infinity ? ` from ${minimum} to ${maximum}` : "";
  const example = isWhole ? "" : ", such as 0.25 or 1/4";
  if (!trimmed) throw new NumberError(`Write ${wanted}${bounds}.`);
  if (/^\d+,\d+$/.test(trimmed)) {
    throw new NumberError(isWhole ? `Write ${trimmed.replace(",", "")}, without a comma.` : `Write ${trimmed.replace(",", ".")} instead of ${trimmed}.`);
  }
  const [found, numerator, denominator] = NUMBER.exec(trimmed) ?? [], number = numerator === undefined ? Number(trimmed) : numerator / denominator;
  if (found === undefined || !Number.isFinite(number)) throw new NumberError(`${shortened(trimmed)} is not a number: write ${wanted}${bounds}${example}.`);
  if (isWhole && !Number.isInteger(number)) throw new NumberError(`${shortened(trimmed)} is not a whole number: write one${bounds}.`);
  if (number < minimum) throw new NumberError(`${shortened(trimmed)} is less than ${minimum}: write ${wanted}${bounds}.`);
  if (number > maximum) throw new NumberError(`${shortened(trimmed)} is more than ${maximum}: write ${wanted}${bounds}.`);
  return number;
}
/** A probability, as the shortest decimal that files write in the same way. */
export function parseProbability(text) {
  const number = parseNumber(text, { minimum: 0, maximum: 1 }), found = nearestParts(number), nearest = found / ALWAYS;
  if (found % ALWAYS === 0 && nearest !== number) {
    throw new NumberError(`${shortened(text.trim())} would be ${nearest} in a file, which has multiples of 1 / 2^31: write ${nearest}.`);
  }
  return shortestDecimal(found, number);
}
/** A probability as you would write it: as a fraction, such as 1/3, if that is much shorter than its decimal. */
export function formatProbability(number) {
  const decimal = String(number), found = nearestParts(number);
  if (decimal.length <= MAX_DECIMAL_LENGTH) return decimal;
  for (let denominator = 3; denominator <= MAX_DENOMINATOR; denominator++) {
    const numerator = Math.round(number * denominator);
    if (nearestParts(numerator / denominator) === found) return `${numerator}/${denominator}`;
  }
  return decimal;
}
/** A random seed, as decimal digits: it may be too large for a number. */
export function parseSeed(text) {
  const trimmed = text.trim();
  if (!/^\d{1,78}$/.test(trimmed) || BigInt(trimmed) >= 2n ** 256n) {
    throw new NumberError(`${shortened(trimmed) || "Nothing"} is not a seed: write a whole number from 0 to 2^256 - 1, without signs or spaces.`);
  }
  return String(BigInt(trimmed));
}
const shortened = text => text.length > MAX_SHOWN_LENGTH ? `${text.slice(0, MAX_SHOWN_LENGTH - 3)}...` : text;

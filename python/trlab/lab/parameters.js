// The parameters of a program: numbers in its text, each of which gets a slider. The probability of each `draw` is one. Another
// number is one if the comment of its line says so: `num r1, 2 ; parameter g`, or with a range, `; parameter g 0 10`.

import { ALWAYS, checkedParts, shortestDecimal } from "./checks.js";
import { parseNumber, parseProbability } from "./numbers.js";

/** An instruction that ends with a number: what comes before, its word, the number, and its comment. */
const INSTRUCTION = /^(\s*(?:\w+:\s*)?(draw|num|mul|div)\s[^;]*,\s*)(\d+)(?=\s*(?:;\s*(.*))?$)/;
const PARAMETER = /^parameter\s+(\w+)(?:\s+(\d+(?:\.\d+)?)\s+(\d+(?:\.\d+)?))?(?=$|[\s:,;.])/;
const MAX_NUMBER = 4294967295;
/** Without a range a number goes up to 10, or to this multiple of itself. */
const USUAL_MAXIMUM = 10, USUAL_MULTIPLE = 3;
const PROBABILITY_STEP = 0.01;

/** A parameter in a line of a program, or null. A draw without a name is called by its comment and its line. */
function parameterIn(line, k) {
  const [found, , word, digits, comment = ""] = INSTRUCTION.exec(line) ?? [];
  if (found === undefined) return null;
  const [isNamed, name, minimum, maximum] = PARAMETER.exec(comment) ?? [], isProbability = word === "draw";
  if (isNamed === undefined && !isProbability) return null;
  const number = Number(digits), usualMaximum = isProbability ? 1 : Math.max(USUAL_MAXIMUM, USUAL_MULTIPLE * number);
  return {
    line: k, isProbability, value: isProbability ? shortestDecimal(Math.min(number, ALWAYS)) : number,
    label: name ?? `${comment || "probability"} (line ${k + 1})`, step: isProbability ? PROBABILITY_STEP : 1,
    minimum: Number(minimum ?? 0), maximum: Number(maximum ?? usualMaximum),
  };
}
/** The parameters of a program, in the order of its lines. */
export const parametersOf = program => program.split("\n").map(parameterIn).filter(Boolean);

/** A program with another value of a parameter, which is given as a text. Raises a `NumberError` if the text is not one. */
export function withParameter(program, { line, isProbability }, text) {
  const number = isProbability ? checkedParts("probability", parseProbability(text))
    : parseNumber(text, { minimum: 0, maximum: MAX_NUMBER, isWhole: true });
  return program.split("\n").map((old, k) => k === line ? old.replace(INSTRUCTION, (_, before) => before + number) : old).join("\n");
}

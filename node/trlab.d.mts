/** Types of trlab for Node: the functions take the text of a file, and return the output of the program. */

/** The text of a file, or its bytes. */
export type Input = string | Uint8Array;

/** The road at a step. In a lane `.` is an empty cell, and any other character a car: its speed, 0 to 9 and then a (10) to z (35). */
export interface Snapshot {
  step: number;
  lanes: string[];
}

/** Counts on a road during `steps` steps, of all lanes together. */
export interface Point {
  cars: number;
  cells: number;
  steps: number;
  /** The sum of the new speeds of all cars in all steps, in cells. */
  distance: number;
  /** How often a car had the speed 0 after a step. */
  stopped: number;
  /** How often a car changed lanes. */
  changes: number;
  /** The column `flow` of the file: distance * 1000000 / (cells * steps), rounded down. */
  flowMillionths: number;
  /** Cars per cell. */
  readonly density: number;
  /** Cars per step and lane: distance / (cells * steps). */
  readonly flow: number;
  /** The mean speed in cells per step; NaN without cars. */
  readonly speed: number;
  /** The share of stopped cars, 0 to 1; NaN without cars. */
  readonly stoppedShare: number;
  /** Lane changes per car and step; NaN without cars. */
  readonly changeRate: number;
}

/** Counts of a window of steps, which ends with the snapshot of `step`. `cars0` and `stopped0` are car-steps on lane 0. */
export interface Window extends Point {
  step: number;
  cars0: number;
  distance0: number;
  stopped0: number;
  cars1: number;
  distance1: number;
  stopped1: number;
}

/** A driver program that the verifier accepts. */
export interface AcceptedProgram {
  /** The most instructions that a call can take. */
  budget: number;
  /** The program in canonical form. */
  text: string;
}

/** Which steps are reported: every `every`-th one, or windows of `every` steps, from the step `from` on. */
export interface Steps {
  every?: number;
  from?: number;
}
/** Results are passed to `each`, one by one while the program runs, instead of being returned. */
export interface Each<Result> {
  each: (result: Result) => void;
}

/** Compute a job, and return its snapshots. */
export function run(job: Input, options: Steps & Each<Snapshot>): undefined;
export function run(job: Input, options?: Steps): Snapshot[];

/** Compute a job, and return the counts of its windows. */
export function series(job: Input, options: Steps & Each<Window>): undefined;
export function series(job: Input, options?: Steps): Window[];

/** Compute a sweep, and return its points. */
export function sweep(sweep: Input, options: Each<Point>): undefined;
export function sweep(sweep: Input): Point[];

/** Verify a driver program. */
export function check(program: Input): AcceptedProgram;

/** How an input is read; without it the input's first word decides. */
export interface ReadAs {
  as?: "run" | "sweep" | "check";
}
/** Explain the error in an input and how to fix it, or describe a valid input. */
export function explain(input: Input, options?: ReadAs & { json?: false }): string;
/** The same as an object; docs/FILES.md describes its members. */
export function explain(input: Input, options: ReadAs & { json: true }): Report;

/** The members of `trlab explain --json` that every input has. */
export interface Report {
  format: number;
  command: "run" | "sweep" | "check";
  error: object | null;
  facts: string[];
  known: object[];
  repairs: Repair[];
  numbers: Record<string, unknown> | null;
  status: number;
  answer: string | null;
}

/** A change that makes the input valid: edits of its lines, or a command that accepts the input as it is. */
export interface Repair {
  why: string;
  edits?: { line: number; first: number; last: number; replacement: string }[];
  command?: string;
}

/** An input that the program rejects. The message is the text of `trlab explain`. */
export class RejectedInputError extends Error {
  /** The output of the command, for example `fault line 5 cause 2`. */
  readonly answer: string;
  /** The line, from 1; 0 if the input is too long. */
  readonly line: number;
  /** The rejected bytes of the line, from 1; null for the whole line. */
  readonly first: number | null;
  readonly last: number | null;
  /** The error number of an input. */
  readonly cause: number | null;
  /** The error number of the verifier, also for a program within an input. */
  readonly reason: number | null;
  /** The rejected instruction of a program, from 0. */
  readonly pc: number | null;
  readonly meaning: string;
  readonly found: string | null;
  readonly expected: string[];
  readonly advice: string | null;
  readonly facts: string[];
  readonly repairs: Repair[];
}

/** The program ended with an error other than a rejected input. */
export class ProgramError extends Error {
  /** The exit status: 2 for invalid arguments, 3 if memory ran out. */
  readonly status: number;
  /** The text of the program on standard error. */
  readonly said: string;
}

/** An argument of a call that has the wrong type or is out of range. */
export class ParameterError extends TypeError {}

/** The page that contains the program was not found, is damaged or contains none. */
export class MissingProgramError extends Error {}

/** WebAssembly stopped the program before its end, for example because its stack was too small. */
export class StoppedError extends Error {}

// Calls of each function with its types, for `tsc`, which reads this file and does not run it. Below `@ts-expect-error` it must
// find an error.

import {
  check, explain, run, series, sweep, MissingProgramError, ParameterError, ProgramError, RejectedInputError, StoppedError,
  type AcceptedProgram, type Point, type Repair, type Report, type Snapshot, type Window,
} from "trlab-node";

declare const file: string;
declare const bytes: Uint8Array;

const snapshots: Snapshot[] = run(file);
const everyTenth: Snapshot[] = run(bytes, { every: 10, from: 5 });
const passedOn: undefined = run(file, { each: snapshot => snapshot.lanes[0]!.length });
const windows: Window[] = series(file, { every: 100 });
const stoppedOnLane1: number = windows[0]!.stopped1 / (windows[0]!.steps || 1);
const rowsPassedOn: undefined = series(file, { from: 10, each: window => window.step });
const points: Point[] = sweep(bytes);
const flows: number[] = points.map(point => point.flow * point.flowMillionths * point.density * point.speed);
const pointsPassedOn: undefined = sweep(file, { each: point => point.changeRate });
const program: AcceptedProgram = check(file);
const budget: number = program.budget + program.text.length;
const text: string = explain(file, { as: "sweep" });
const report: Report = explain(file, { json: true });
const repairs: Repair[] = report.repairs;

// @ts-expect-error: a number is not an input
run(5);
// @ts-expect-error: the option is called `every`
run(file, { each_step: 10 });
// @ts-expect-error: a sweep has no windows
sweep(file, { every: 10 });
// @ts-expect-error: there is no command `series` for `as`
explain(file, { as: "series" });
// @ts-expect-error: the results of computations with `each` are passed on
const returned: Point[] = sweep(file, { each: () => {} });
// @ts-expect-error: a result cannot be changed
points[0]!.flow = 0;

/** What an error says, by its class. */
export function messageOf(error: unknown): string | number | null {
  if (error instanceof RejectedInputError) return error.line + (error.first ?? 0) + (error.cause ?? error.reason ?? 0);
  if (error instanceof ProgramError) return error.status;
  if (error instanceof ParameterError || error instanceof MissingProgramError || error instanceof StoppedError) return error.message;
  return null;
}

export {
  snapshots, everyTenth, passedOn, stoppedOnLane1, rowsPassedOn, flows, pointsPassedOn, budget, text, repairs, returned,
};

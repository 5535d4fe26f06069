// The errors of a call, as those of the Python package.

/** An input that the program rejects. The message is the text of `trlab explain`. */
export class RejectedInputError extends Error {
  name = "RejectedInputError";
  /** `report` is the object that `trlab explain --json` prints. */
  constructor(explanation, report) {
    super(explanation);
    const { kind, number, reason, line, first, last, pc, meaning, found, expected, advice } = report.error;
    Object.assign(this, {
      answer: report.answer, line, first, last, pc, meaning, found, expected, advice, facts: report.facts, repairs: report.repairs,
      cause: kind === "cause" ? number : null, reason: kind === "reason" ? number : reason?.number ?? null,
    });
  }
}

const MEANING = { 2: "the arguments are invalid", 3: "memory ran out", 4: "reading the input or writing the output failed" };

/** The program ended with an error other than a rejected input: its exit `status`, and its text on standard error. */
export class ProgramError extends Error {
  name = "ProgramError";
  constructor(status, said) {
    super(`trlab ended with status ${status}: ${said.trim() || MEANING[status] || "no message"}`);
    Object.assign(this, { status, said });
  }
}

/** An argument of a call that has the wrong type or is out of range. */
export class ParameterError extends TypeError {
  name = "ParameterError";
}

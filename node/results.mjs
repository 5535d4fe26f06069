// Results from the lines that the program writes.

/** Builds snapshots from lines, and passes each on when it is complete. */
export function snapshotsFrom(take) {
  let snapshot;
  const end = () => {
    if (snapshot) take(snapshot);
    snapshot = undefined;
  };
  return {
    line(text) {
      if (!text.startsWith("step ")) return void snapshot.lanes.push(text);
      end();
      snapshot = { step: Number(text.slice(5)), lanes: [] };
    },
    end,
  };
}

/** The counts of a row, and the values that follow from them. */
class Row {
  constructor(names, numbers) {
    names.forEach((name, k) => this[name === "flow" ? "flowMillionths" : name] = numbers[k]);
  }
  get density() { return this.cars / this.cells; }
  get flow() { return this.distance / (this.cells * this.steps); }
  get speed() { return this.cars ? this.distance / (this.cars * this.steps) : NaN; }
  get stoppedShare() { return this.cars ? this.stopped / (this.cars * this.steps) : NaN; }
  get changeRate() { return this.cars ? this.changes / (this.cars * this.steps) : NaN; }
}
/** The row of a line of a table, whose columns have these names. */
export const rowOf = (names, line) => new Row(names, line.split(",").map(Number));

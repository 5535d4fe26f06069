"""False statements of the laws of traffic, each with a counterexample by numbers.

A false statement is a law with one change: `old` is in the file `specs/FILE.antt` of its crate once, and `new` replaces
it. The counterexample has runs of the program, and two expressions: that of the law is true on these runs, and that of the
false statement is false. They have the symbols of docs/LAWS.md, such as D and N, for the first run, and b.D and c.D for the
second and third; counterexamples.py defines these and further names. Without runs, the numbers are in the expressions."""
from . import comparison, flow, invariance, rings

FALSE = [*flow.FALSE, *comparison.FALSE, *invariance.FALSE, *rings.FALSE]

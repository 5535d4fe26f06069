// The built-in models as programs, with their probabilities as parameters: the first text of a rule of one's own.

import { parametersOf, withParameter } from "./parameters.js";

/** The examples with the programs of each model, and their draws in the order of their lines: each the name of its probability in the
 * controls, and what it decides. */
const NASCH = { file: "nasch.rule", title: "Nagel and Schreckenberg (1992)", draws: [["p", "brake at random"]] };
const MODELS = {
  nasch: { motion: NASCH },
  vdr: {
    motion: {
      file: "slow_to_start.rule", title: "Slow to start, Barlovic, Santen, Schadschneider and Schreckenberg (1998)",
      draws: [["q", "a stopped car brakes"], ["p", "a moving car brakes"]],
    },
  },
  rickert: {
    motion: NASCH,
    change: {
      file: "lane_change.rule", title: "After Rickert, Nagel, Schreckenberg and Latour (1996)", draws: [["q", "change lanes"]],
    },
  },
};
const COMMENT = /\s*;.*$/;

/** A program of the examples with other probabilities. Its comments about those of the example are left out. */
function programWith({ file, title, draws }, probabilities, examples) {
  const [kind, ...lines] = examples[file].split("\n").filter(line => !line.startsWith(";"));
  let program = [kind, `; ${title}`, ...lines].join("\n");
  draws.forEach(([name, action], k) => {
    const parameter = parametersOf(program)[k];
    program = withParameter(program, parameter, String(probabilities[name])).split("\n")
      .map((line, number) => number === parameter.line ? `${line.replace(COMMENT, "")}  ; parameter ${name}: ${action}` : line).join("\n");
  });
  return program;
}
/** The programs of a rule of a built-in model: one for motion, and one for lane changes or nothing. */
export function programsOf({ model, ...probabilities }, examples) {
  const { motion, change } = MODELS[model];
  return { motion: programWith(motion, probabilities, examples), change: change ? programWith(change, probabilities, examples) : "" };
}

/** A program without the values of its parameters. */
const withoutValues = program => parametersOf(program).reduce((text, parameter) => withParameter(text, parameter, "0"), program);
/** Whether a rule has programs of one's own: any but those of a model, whose probabilities may have been changed. */
export function hasOwnPrograms({ motion, change }, examples) {
  if (!motion) return false;
  const now = withoutValues(motion), nowChange = withoutValues(change ?? "");
  return !Object.keys(MODELS).map(model => programsOf({ model, p: 0, q: 0 }, examples)).some(model => model.motion === now && model.change === nowChange);
}

// Rules in Python: an editor, a choice among the rules in it, and a slider for each of their parameters.

import { $ } from "./dom.js";
import { isStandalone, post } from "./backend.js";
import { debounce } from "./job.js";
import { Editor } from "./editor.js";
import { ParameterField, createField } from "./fields.js";
import { releaseBox } from "./boxes.js";
import { parseNumber } from "./numbers.js";

/** The message of a page without a server, which cannot translate rules. */
export const WITHOUT_SERVER = "Rules in Python need the command trlab-lab of the Python package, whose server translates them. Here you can " +
  "write the programs below.";
const NO_RULE = "There is no rule: begin a function with @trlab.motion or @trlab.change.";
const OTHER_PROGRAMS = "The cars follow the programs below, which are not those of these functions.";
const KINDS = { motion: "Motion rule", change: "Lane-change rule" };
const TYPING_PAUSE = 200; // milliseconds

export class PythonRules {
  /** `onAccepted` is called with the programs of the chosen rules, after each change that the verifier accepts, and with whether the
   * text is that of a new file. */
  constructor(onAccepted, onError) {
    this.onAccepted = onAccepted;
    this.onError = onError;
    this.editor = new Editor("python");
    this.chosen = {};
    this.values = {};
    this.programs = null;
    this.lastRequest = 0;
    this.editor.onChange = debounce(TYPING_PAUSE, () => this.translate());
    this.setVerdict("", isStandalone ? WITHOUT_SERVER : "");
    $("python").hidden = isStandalone;
  }
  set text(source) {
    Object.assign(this, { chosen: {}, values: {}, isNew: true });
    this.editor.value = source;
  }
  /** Have the server translate the rules, which are read and not run. */
  async translate() {
    const request = ++this.lastRequest, { chosen, values } = this, text = this.editor.value;
    if (!text.trim()) {
      this.showParameters(null);
      this.setVerdict("", "");
      return;
    }
    const answer = await post("rules", JSON.stringify({ text, chosen, values })).then(response => response.json()).catch(this.onError);
    if (!answer || request !== this.lastRequest) return;
    this.editor.showMessage(answer.line ?? 0, answer.message);
    if (answer.message !== undefined) {
      const place = answer.line ? ` at line ${answer.line}` : `: ${answer.message}`;
      this.setVerdict("bad", `Rejected${place}. The cars follow the last accepted one.`);
      return;
    }
    this.setVerdict("good", this.budgetWords(answer));
    this.showParameters(answer);
    this.programs = { motion: answer.motion, change: answer.change };
    this.onAccepted(this.programs, this.isNew);
    this.isNew = false;
  }
  budgetWords({ budgets }) {
    const words = Object.entries(budgets).map(([name, budget]) => `${name} takes at most ${budget} instructions`);
    return words.length ? `Accepted: ${words.join(", ")} per car and step.` : NO_RULE;
  }
  setVerdict(kind, words) {
    this.verdict = { kind, words };
    this.showVerdict(this.verdict);
  }
  showVerdict({ kind, words }) {
    $("pythonverdict").className = `verdict ${kind}`;
    $("pythonverdict").textContent = words;
  }
  /** Show the choices and sliders of an answer. Those that are there keep the focus. */
  showParameters(answer) {
    const parameters = answer?.parameters ?? [], shape = JSON.stringify([answer?.names, parameters.map(({ value, ...rest }) => rest)]);
    this.shownValues = new Map(parameters.map(({ rule, name, value }) => [`${rule}.${name}`, value]));
    if (shape !== this.shape) {
      this.fields = parameters.map(parameter => this.createParameter(parameter));
      $("parameters").replaceChildren(...answer ? this.createChoices(answer.names) : [], ...this.fields.map(({ field }) => field));
    }
    this.shape = shape;
    for (const field of this.fields) field.show();
  }
  createChoices(names) {
    return Object.entries(names).filter(([, all]) => all.length > 1).map(([kind, all]) => {
      const control = document.createElement("select"), field = createField(`${kind}rule`, KINDS[kind], control);
      control.append(...all.map(name => new Option(name, name, false, name === this.chosen[kind])));
      control.onchange = () => {
        this.chosen[kind] = control.value;
        this.translate();
      };
      field.dataset.kind = kind;
      return field;
    });
  }
  createParameter({ rule, kind, name, most, step }) {
    const id = `${rule}.${name}`, range = { minimum: 0, maximum: most, step, name: `${name} of ${rule}` };
    const parameter = new ParameterField(id, `${name} (${rule})`, range, () => this.shownValues.get(id), text => {
      (this.values[rule] ??= {})[name] = parseNumber(text, { isWhole: step === 1 });
      releaseBox(parameter.box);
      this.translate();
    });
    parameter.field.dataset.kind = kind;
    return parameter;
  }
  /** Whether the programs of a rule are those of the functions. The user may have changed them, or they come from another job. */
  hasPrograms(rule) {
    if (!this.programs || this.verdict.kind !== "good") return false;
    return Object.entries(this.programs).every(([kind, program]) => program === null || program === rule[kind]);
  }
  /** Show whether the cars follow these functions. */
  showRule(rule, lanes) {
    for (const field of $("parameters").children) field.hidden = lanes === 1 && field.dataset.kind === "change";
    if (!this.programs || this.verdict.kind !== "good") return;
    this.showVerdict(this.hasPrograms(rule) ? this.verdict : { kind: "", words: OTHER_PROGRAMS });
  }
}

// The rule of one's own: editors for its two programs, and a slider for each of their parameters.

import { $ } from "./dom.js";
import { debounce } from "./job.js";
import { Editor } from "./editor.js";
import { ParameterField } from "./fields.js";
import { formatProbability } from "./numbers.js";
import { parametersOf, withParameter } from "./parameters.js";
import { judgeProgram, showFacts } from "./verdicts.js";

const TYPING_PAUSE = 200; // milliseconds

/** The editor of a program of a `kind`, "motion" or "change". */
class ProgramEditor {
  /** `onAccepted(kind, program)` is called for each program that the verifier accepts. */
  constructor(kind, onAccepted, onError) {
    this.kind = kind;
    this.onAccepted = onAccepted;
    this.onError = onError;
    this.editor = new Editor(kind);
    this.fields = [];
    this.shape = "";
    this.isJudging = false;
    this.editor.onChange = debounce(TYPING_PAUSE, () => this.take());
    this.editor.onCaretMove = line => showFacts(kind, this.editor, line);
  }
  /** The cars follow the program, if the verifier accepts it. Texts that follow each other fast, as those of a slider that moves, are
   * judged one at a time, and only the last one of those that wait. */
  async take() {
    this.showParameters();
    if (this.isJudging) return;
    this.isJudging = true;
    let text, program;
    do {
      text = this.editor.value;
      program = await this.judge();
    } while (text !== this.editor.value);
    this.isJudging = false;
    if (program === null) return;
    this.program = program;
    this.onAccepted(this.kind, program);
  }
  judge() { return judgeProgram(this.kind, this.editor, this.onError); }
  /** Show a program that the cars follow. What the user writes stays, also if it is rejected, as long as they follow the same one. */
  show(program) {
    if (this.editor.hasFocus || this.program === program) return;
    this.program = program;
    this.editor.value = program;
    this.showParameters();
    this.judge();
  }
  /** Show the sliders. Those that are there keep the focus. */
  showParameters() {
    this.parameters = parametersOf(this.editor.value);
    const shape = JSON.stringify(this.parameters.map(({ line, label }) => [line, label]));
    if (shape !== this.shape) {
      this.fields = this.parameters.map((parameter, k) => this.createField(parameter, k));
      $(`${this.kind}parameters`).replaceChildren(...this.fields.map(({ field }) => field));
    }
    this.shape = shape;
    for (const field of this.fields) field.show();
  }
  createField({ label, minimum, maximum, step, isProbability }, k) {
    const range = { minimum, maximum, step, name: `${label} of the ${this.kind} program` };
    const setValue = text => {
      this.editor.value = withParameter(this.editor.value, this.parameters[k], text);
      this.take();
    };
    const format = isProbability ? formatProbability : String;
    return new ParameterField(`${this.kind}parameter${k}`, label, range, () => this.parameters[k].value, setValue, format);
  }
  /** Hide the sliders if Python functions have others for the same numbers. */
  set hasSliders(isShown) { $(`${this.kind}parameters`).hidden = !isShown; }
}

export class OwnRule {
  /** `changeRule(changes)` is called with each program that the verifier accepts, and `python` are the rules in Python. */
  constructor(python, changeRule, onError) {
    const onAccepted = (kind, program) => program !== this.shownRule[kind] && changeRule({ [kind]: program });
    this.python = python;
    this.shownRule = {};
    this.editors = ["motion", "change"].map(kind => new ProgramEditor(kind, onAccepted, onError));
  }
  /** Show the programs of the rule that the cars follow. */
  show(rule, lanes) {
    const isOwn = rule.model === "own";
    this.shownRule = rule;
    $("own").hidden = !isOwn;
    $("changepart").hidden = lanes === 1;
    this.python.showRule(rule, lanes);
    for (const editor of isOwn ? this.editors : []) {
      editor.show(rule[editor.kind]);
      editor.hasSliders = !this.python.hasPrograms(rule);
    }
  }
}

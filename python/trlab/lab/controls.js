// The controls of the job: those in the form, and those in the sentence above it.

import { $ } from "./dom.js";
import { isEdited, releaseBox, watchBox } from "./boxes.js";
import { MAX_CELLS, MAX_SPEED, MAX_STEPS } from "./checks.js";
import { addSlider } from "./fields.js";
import { describeModel } from "./models.js";
import { NumberError, formatProbability, parseNumber, parseProbability, parseSeed } from "./numbers.js";

const DENSITY_DIGITS = 6;
const MODELS_WITH_Q = { vdr: "When stopped", rickert: "Lane changes" };
const roundedDensity = density => +density.toFixed(DENSITY_DIGITS);

/** The boxes and choices of a value of the job. */
const controlsOf = name => document.querySelectorAll(`[data-set=${name}]`);
/** Make a control of the sentence as wide as its text, if the browser does not. */
function fitWidth(box) {
  if (box.closest(".lead") && !CSS.supports("field-sizing: content")) box.style.width = `${Math.max(1, box.value.length)}ch`;
}
/** Boxes show these values of the job again, and no longer the typed text. */
export const releaseBoxes = names => names.forEach(name => controlsOf(name).forEach(releaseBox));

export class JobControls {
  /** `lab` is the laboratory, whose job the controls show and change. */
  constructor(lab) {
    this.lab = lab;
    this.shownRule = null;
    this.addSliders();
    this.addListeners();
  }

  // Changing the job

  /** The range of a number of the job, which is whole unless it is a density. */
  rangeOf(name) {
    const { length, lanes } = this.lab.job;
    const [minimum, maximum] = {
      density: [0, 1], limit: [1, MAX_SPEED], length: [1, MAX_CELLS], lanes: [1, 2], steps: [0, MAX_STEPS], cars: [0, length * lanes],
    }[name];
    return { minimum, maximum, isWhole: name !== "density" };
  }
  /** Set a value of the job as a text. Raises a `NumberError` if it is not one, and then nothing changes. */
  setValue(name, text) {
    if (name === "model") this.setModel(text);
    else if (name === "start") this.lab.changeJob({ start: text });
    else if (name === "p" || name === "q") this.setProbability(name, parseProbability(text));
    else if (name === "density") this.setDensity(text);
    else if (name === "cars") this.setCars(parseNumber(text, this.rangeOf("cars")));
    else this.setNumber(name, name === "key" ? parseSeed(text) : parseNumber(text, this.rangeOf(name)));
  }
  setModel(model) {
    if (model !== this.lab.currentRule.model) this.lab.changeRule({ model });
  }
  setProbability(name, probability) {
    releaseBoxes([name]);
    if (probability === this.lab.currentRule[name]) this.show();
    else this.lab.changeRule({ [name]: probability });
  }
  setDensity(text) {
    const { job } = this.lab, density = parseNumber(text, this.rangeOf("density")), cells = job.length * job.lanes, cars = Math.round(density * cells);
    if (density > 0 && cars === 0) {
      throw new NumberError(`${text} is less than one car on ${cells} cells: write at least ${+(1 / cells).toPrecision(3)}, or 0.`);
    }
    releaseBoxes(["density"]);
    if (density === job.density && cars === job.cars) this.show();
    else this.changeCars(cars, density);
  }
  setCars(cars) {
    const { job } = this.lab;
    releaseBoxes(["cars"]);
    if (cars === job.cars) this.show();
    else this.changeCars(cars, roundedDensity(cars / (job.length * job.lanes)));
  }
  changeCars(cars, density) {
    const { start } = this.lab.job;
    this.lab.changeJob({ cars, density, start: start === "file" ? "random" : start });
  }
  setNumber(name, value) {
    releaseBoxes([name]);
    if (value === this.lab.job[name]) this.show();
    else if (name !== "length" && name !== "lanes") this.lab.changeJob({ [name]: value });
    else {
      this.lab.resizeRoad({ [name]: value });
      this.lab.changeJob({});
    }
  }

  // Showing the job

  /** Show the job in the controls and in the sentence above them. A box that you type into keeps its text. */
  show() {
    const { job, currentRule: rule } = this.lab, cells = job.length * job.lanes;
    const values = {
      ...job, density: roundedDensity(job.cars / cells), model: rule.model, p: formatProbability(rule.p), q: formatProbability(rule.q),
    };
    this.shownRule = rule;
    for (const control of document.querySelectorAll("[data-set]")) {
      if (isEdited(control)) continue;
      control.value = values[control.dataset.set];
      fitWidth(control);
    }
    this.showSliders({ ...values, p: rule.p, q: rule.q }, cells);
    this.showWords(job, rule);
  }
  showSliders(values, cells) {
    $("cars").parentNode.querySelector("[type=range]").max = cells;
    for (const slider of document.querySelectorAll("[data-range] [type=range]")) slider.value = values[slider.parentNode.querySelector("input").id];
  }
  showWords({ cars, lanes, road }, { model }) {
    for (const part of document.querySelectorAll("[data-model]")) part.hidden = !part.dataset.model.split(" ").includes(model);
    $("carword").textContent = cars === 1 ? "car" : "cars";
    $("rings").textContent = lanes === 2 ? "two rings" : "a ring";
    $("p").parentNode.hidden = model === "own";
    $("q").parentNode.hidden = !(model in MODELS_WITH_Q);
    $("q").parentNode.querySelector("label").textContent = MODELS_WITH_Q[model] ?? "";
    $("start").querySelector("[value=file]").hidden = !road;
    describeModel(model, $("about"));
  }

  // Listeners

  /** Put a slider below each number that has a range. */
  addSliders() {
    for (const field of document.querySelectorAll("[data-range]")) {
      const [minimum, maximum, step] = field.dataset.range.split(" "), [label, box] = field.children;
      addSlider(field, box, { minimum, maximum, step, name: label.textContent }, text => this.setValue(box.id, text));
    }
  }
  addListeners() {
    for (const [k, control] of document.querySelectorAll("[data-set]").entries()) {
      const name = control.dataset.set;
      if (control.tagName === "SELECT") control.addEventListener("change", () => this.setValue(name, control.value));
      else watchBox(control, control.id || `lead${k}`, text => this.setValue(name, text), () => this.show());
      if (!control.closest(".lead")) continue;
      control.addEventListener("input", () => fitWidth(control));
      control.addEventListener("keydown", event => event.key === "Enter" && control.blur());
    }
    $("controls").addEventListener("submit", event => event.preventDefault());
  }
}

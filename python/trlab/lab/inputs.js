// Inputs that the page opens: files of the disk, examples, and the job in the address.

import { $ } from "./dom.js";
import { FIRST_JOB } from "./job.js";
import { isStandalone } from "./backend.js";
import { explain, lineOf, messageOf } from "./editor.js";
import { LINK_START, MAX_BYTES, textOfLink } from "./links.js";
import { describeExample } from "./phenomena.js";
import { jobOf } from "./reading.js";
import { WITHOUT_SERVER } from "./rules.js";
import { BRANCHES } from "./sweeps.js";

const CHOOSE = "choose", MAX_NAME = 40;
const CHANGE_IN_PYTHON = /^@(trlab\.)?change\b/m;

/** How trlab reads a file: as a program, a sweep or a job. */
function kindOf(name, source) {
  if (name.endsWith(".rule") || /^(motion|change)\b/.test(source)) return "check";
  return /^sweep/i.test(source) ? "sweep" : "run";
}

export class Inputs {
  /** `lab` is the laboratory, `python` are the rules in Python, `sweeps` runs sweep files, `sweepBranches()` sweeps from several
   * initial states, and `onError` shows a message. */
  constructor(lab, { python, sweeps, sweepBranches, onError }) {
    this.lab = lab;
    this.python = python;
    this.sweeps = sweeps;
    this.sweepBranches = sweepBranches;
    this.onError = onError;
    this.addListeners();
  }
  /** Open a file. `density` is the one of the road for a sweep file, which has many. */
  async open(name, source, density = FIRST_JOB.density) {
    if (name.endsWith(".py")) return this.openPython(source);
    const kind = kindOf(name, source), explanation = await explain(kind, source);
    if (explanation.error) throw new Error(`${name} is rejected at line ${lineOf(explanation.error)}.\n${messageOf(explanation)}`);
    if (kind === "check") return this.openProgram(source);
    if (kind === "sweep") return this.openSweep(name, source, density);
    this.lab.takeFile(source);
    return this.lab.hooks.judge();
  }
  openProgram(source) {
    const { job } = this.lab, kind = source.startsWith("change") ? "change" : "motion";
    if (kind === "change" && job.lanes === 1) [job.lanes, job.cars] = [2, 2 * job.cars];
    return this.lab.startOwnRule({ [kind]: source });
  }
  async openSweep(name, source, density) {
    this.lab.job = jobOf(source, density);
    await this.lab.restart();
    await this.sweeps.runFile(source, name.replace(".sweep", "").replaceAll("_", " ").slice(0, MAX_NAME));
  }
  /** Rules in Python drive the road from the start; if they change lanes, there are two of them. */
  openPython(source) {
    if (isStandalone) return this.onError(WITHOUT_SERVER);
    if (CHANGE_IN_PYTHON.test(source) && this.lab.job.lanes === 1) this.lab.resizeRoad({ lanes: 2 });
    this.python.text = source;
    $("own").hidden = false;
    return this.python.translate();
  }
  openOrComplain(name, source, density) { return this.open(name, source, density).catch(this.onError); }
  openFile(file) {
    if (file.size > MAX_BYTES) this.onError(`${file.name} is too long: at most ${MAX_BYTES} bytes are allowed.`);
    else file.text().then(source => this.open(file.name, source)).catch(this.onError);
  }

  // Examples

  openExample(id) {
    const { lab } = this, example = describeExample(id, $("story"));
    $("example").options[0].text = CHOOSE;
    if (!id) return;
    lab.views.player.setPace(this.stepsOfExample(id, example));
    if (example?.job) this.openControls(example.job).catch(this.onError);
    else this.openOrComplain(id, lab.examples[id], example?.density);
  }
  /** The steps of the run that an example begins. A program drives the road that the page has already. */
  stepsOfExample(id, example) {
    const { job, examples } = this.lab;
    return (example?.job ?? (/\.(job|sweep)$/.test(id) ? jobOf(examples[id]) : job)).steps;
  }
  /** An example that has no file: set the controls, and sweep from moving and from jammed cars. */
  async openControls(job) {
    Object.assign(this.lab.job, structuredClone(job));
    await this.lab.restart();
    this.lab.hooks.showJob();
    await this.sweepBranches(BRANCHES);
  }
  /** Before the list opens, the chosen example becomes its first line, so that choosing the same one again is a change. */
  forgetExample() {
    const select = $("example");
    if (!select.value) return;
    select.options[0].text = select.selectedOptions[0].text;
    select.selectedIndex = 0;
  }

  // Addresses

  /** Open the job in the address, if there is one. If it cannot be opened, a message stays, because the page plays another job. */
  async openLink() {
    const { lab } = this;
    if (!location.hash.startsWith(LINK_START)) return;
    try {
      await this.open("The job in this address", await textOfLink(location.hash));
    } catch (error) {
      lab.keepsMessage = lab.views.player.film === null;
      this.onError(`${error.message}\nThe page ${lab.keepsMessage ? "plays its first job instead" : "still plays the job that it had before"}.`);
    }
  }

  addListeners() {
    $("open").onclick = () => $("file").click();
    $("file").onchange = event => event.target.files[0] && this.openFile(event.target.files[0]);
    $("example").onmousedown = () => this.forgetExample();
    $("example").onchange = event => this.openExample(event.target.value);
    addEventListener("hashchange", () => this.openLink());
  }
}

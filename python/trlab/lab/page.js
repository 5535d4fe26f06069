// The page of trlab-lab: its parts, and the controls that belong to none of them.

import { $ } from "./dom.js";
import { debounce } from "./job.js";
import { loadExamples } from "./backend.js";
import { applyToBox, watchBox } from "./boxes.js";
import { speedColour } from "./colours.js";
import { Comparison } from "./compare.js";
import { JobControls, releaseBoxes } from "./controls.js";
import { Editor } from "./editor.js";
import { FIGURES } from "./figures.js";
import { FundamentalDiagram } from "./fundamental.js";
import { Inputs } from "./inputs.js";
import { jobFile, sweepFile } from "./jobs.js";
import { Laboratory } from "./laboratory.js";
import { formatProbability, parseNumber } from "./numbers.js";
import { OwnRule } from "./ownrule.js";
import { listExamples } from "./phenomena.js";
import { Player } from "./player.js";
import { PythonRules } from "./rules.js";
import { copyLink, saveFile, saveFilm, saveTable } from "./saving.js";
import { BRANCHES, Sweeps, sweepableState } from "./sweeps.js";
import { shownUnits } from "./units.js";
import { judgeJob } from "./verdicts.js";

const JUDGING_PAUSE = 250, TYPING_PAUSE = 300; // milliseconds
const SWEEP_RANGES = { warm: { minimum: 0, maximum: 10000, isWhole: true }, measure: { minimum: 1, maximum: 10000, isWhole: true } };

const showMessage = error => { $("fault").textContent = error.message ?? error; };
const jobEditor = new Editor("text");
const judge = () => judgeJob(jobEditor, showMessage);
const lab = new Laboratory({ showJob, releaseBoxes, judge: debounce(JUDGING_PAUSE, judge), showMessage, showStory: words => $("story").textContent = words });
const fundamental = new FundamentalDiagram(
  () => ({ job: lab.job, rule: lab.currentRule }), density => controls.setValue("cars", String(Math.round(density * lab.job.length * lab.job.lanes))),
);
const brake = () => lab.brakeFollowedCar();
const player = new Player({
  onSnapshot: snapshot => fundamental.addSnapshot(snapshot),
  onStep(now) {
    if (lab.currentRule !== controls.shownRule) showJob();
    fundamental.drawWhileDriving(now, !player.playing);
  },
  onEnd() {
    fundamental.finishRun();
    fundamental.draw();
  },
  ruleAt: step => step < 0 ? undefined : lab.ruleAt(step),
  keys: { b: brake, B: brake },
}, showMessage);
const comparison = new Comparison(player, showMessage);
lab.setViews({ player, fundamental, comparison, editor: jobEditor });
const python = new PythonRules(followPython, showMessage);
const ownRule = new OwnRule(python, changes => lab.changeRule(changes), showMessage);
const controls = new JobControls(lab);
let sweepTable = "";
const sweeps = new Sweeps((mark, table) => {
  sweepTable = table;
  $("savesweep").disabled = false;
  fundamental.addMark(mark);
}, showMessage);
const inputs = new Inputs(lab, { python, sweeps, sweepBranches: states => sweepFrom("branches", states), onError: showMessage });

globalThis.lab = { // for the console and for tests
  player, comparison, fundamental, python, speedColour, open: (name, source) => inputs.openOrComplain(name, source),
  get job() { return lab.job; }, get marks() { return fundamental.marks; }, get table() { return sweepTable; }, get isWriting() { return lab.isWriting; },
};

/** Show the job in the controls, in the editors of its programs, and in the fundamental diagram. */
function showJob() {
  controls.show();
  ownRule.show(lab.currentRule, lab.job.lanes);
  fundamental.draw();
}
/** The cars follow the programs of rules in Python, from the step that is shown on, or from the start if the rules are new. */
function followPython({ motion, change }, isNew) {
  const rule = lab.currentRule, own = lab.ownPrograms();
  const programs = { motion: motion ?? own.motion, change: change ?? (motion === null ? own.change : "") };
  if (isNew) lab.startOwnRule(programs);
  else if (rule.model !== "own" || programs.motion !== rule.motion || programs.change !== rule.change) lab.changeRule({ model: "own", ...programs });
}

// Sweeps

function curveName({ model, ...rule }) {
  const [p, q] = [rule.p, rule.q].map(formatProbability);
  return { nasch: `p ${p}`, vdr: `p ${p}, ${q}`, rickert: `p ${p}, two lanes`, own: "own program" }[model];
}
/** Sweep the road with the current rule, from one or more initial states. A button shows the progress. */
async function sweepFrom(buttonId, states) {
  const [warm, measure] = Object.keys(SWEEP_RANGES).map(id => applyToBox($(id), () => parseNumber($(id).value, SWEEP_RANGES[id])));
  if (warm === undefined || measure === undefined) return;
  const job = structuredClone(lab.job), rule = { ...lab.currentRule, at: 0 };
  const fileOf = (kind, changes) => (kind === "sweep" ? sweepFile : jobFile)({ ...job, rule, rules: [rule], ...changes });
  await sweeps.runFrom(buttonId, job, curveName(rule), { warm, measure }, states, fileOf);
}

// Listeners

function listenToSweeps() {
  for (const id in SWEEP_RANGES) {
    watchBox($(id), id, text => parseNumber(text, SWEEP_RANGES[id]), () => $(id).value = $(id).defaultValue);
  }
  $("sweep").onclick = () => sweepFrom("sweep", [sweepableState(lab.job.start)]);
  $("branches").onclick = () => sweepFrom("branches", BRANCHES);
  $("clear").onclick = () => fundamental.clear();
  $("units").onchange = () => {
    shownUnits.system = $("units").value;
    player.updateLegend(lab.job.limit);
    player.redraw();
    fundamental.draw();
  };
}
function listenToSaving() {
  const withFile = call => () => lab.currentFile().then(call).catch(showMessage);
  $("savejob").onclick = withFile(file => saveFile("traffic.job", [file], "text/plain"));
  $("savetable").onclick = withFile(saveTable);
  $("savefilm").onclick = withFile(saveFilm);
  $("link").onclick = withFile(copyLink);
  $("savesweep").onclick = () => saveFile("sweep.csv", [sweepTable], "text/csv");
  $("savefigure").onclick = () => {
    const name = $("figure").value, image = name === "diagram" ? fundamental.file() : FIGURES[name](player.view);
    saveFile(`${name}.svg`, [image], "image/svg+xml");
  };
}
function listenToRuns() {
  $("brake").onclick = brake;
  $("newkey").onclick = () => lab.changeJob({ key: String(crypto.getRandomValues(new Uint32Array(1))[0]) });
  $("numbers").ontoggle = () => player.redraw();
  jobEditor.onChange = debounce(TYPING_PAUSE, () => judge().then(source => source !== null && lab.takeFile(source)).catch(showMessage));
  // A hidden page draws nothing, and a page that is left may be kept for the way back: neither needs a run.
  for (const name of ["visibilitychange", "pagehide"]) {
    addEventListener(name, () => (document.hidden || name === "pagehide") && player.run && !player.run.isOver && player.endRun());
  }
}
async function start() {
  lab.examples = await loadExamples();
  listExamples($("example"), lab.examples);
  listenToSweeps();
  listenToSaving();
  listenToRuns();
  await inputs.openLink();
  if (!player.film) lab.restart();
}
start().catch(error => showMessage(`The page cannot reach trlab-lab: ${error.message}`));

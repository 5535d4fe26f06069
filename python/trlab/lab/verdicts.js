// The verdicts of trlab on inputs that you type, shown at their lines.

import { $ } from "./dom.js";
import { post } from "./backend.js";
import { explain, lineOf, messageOf } from "./editor.js";

const NO_CHANGES = "No program: no car changes lanes.";
/** The first line of a program: its kind, or the bytes of a program. */
const FIRST_LINE = /^(?:notes )?(?:(motion|change)$|code )/;
const OTHER_KIND = {
  motion: "This is a program for lane changes. The editor below, which two lanes have, is for these.",
  change: "This is a motion program. The editor above is for these.",
};

function showVerdict(id, line, acceptedWords) {
  $(`${id}verdict`).className = `verdict ${line ? "bad" : "good"}`;
  $(`${id}verdict`).textContent = line ? `Rejected at line ${line}. The cars follow the last accepted one.` : acceptedWords;
}
/** Judge the input of an editor, whose elements have names that begin with `id`. The result is the accepted input, or null if the
 * input is rejected, or if you typed on meanwhile. `onError` shows why there is no verdict. */
async function judge(kind, id, editor, onError) {
  const source = editor.value, explanation = await explain(kind, source).catch(onError);
  if (!explanation || source !== editor.value) return null;
  const { error, repairs, numbers, known } = explanation, line = lineOf(error);
  editor.showMessage(line, error && messageOf(explanation), repairs);
  showVerdict(id, line, kind === "check" ? `Accepted: at most ${numbers?.budget} instructions per car and step.` : "Accepted.");
  editor.facts = new Map(known.map(({ line, facts }) => [line, facts]));
  if (editor.hasFocus) editor.onCaretMove(editor.caretLine());
  return error ? null : source;
}
/** The same for the job file, with its explanation. */
export async function judgeJob(editor, onError) {
  const accepted = await judge("run", "text", editor, onError);
  showExplanation(editor).catch(onError);
  return accepted;
}
/** Show the explanation of the job file, unless you typed on meanwhile: then another explanation is shown, which may come first. */
async function showExplanation(editor) {
  const source = editor.value, text = await (await post("explain", source)).text();
  if (source === editor.value) $("explained").textContent = text;
}
/** The same for a program of a `kind`. No program for lane changes is one that never changes lanes. */
export async function judgeProgram(kind, editor, onError) {
  if (kind === "change" && !editor.value.trim()) {
    editor.hideMessage();
    editor.facts = null;
    $("changeverdict").textContent = NO_CHANGES;
    return "";
  }
  const [firstLine] = editor.value.split("\n", 1), [isFirstLine, foundKind = kind] = FIRST_LINE.exec(firstLine) ?? [];
  if (isFirstLine !== undefined && foundKind === kind) return judge("check", kind, editor, onError);
  const insertion = { why: "the first line is missing.", edits: [{ line: 1, first: 1, last: 0, replacement: `${kind}\n` }] };
  const missing = `A program begins with its kind: write \`${kind}\` above this line. Comments and instructions come below it.`;
  editor.showMessage(1, isFirstLine === undefined ? missing : OTHER_KIND[kind], isFirstLine === undefined ? [insertion] : []);
  showVerdict(kind, 1);
  return null;
}
/** Show the known facts before the line of a program at which the cursor is. */
export function showFacts(kind, editor, line) {
  const facts = editor.facts?.get(line), none = editor.facts ? `Nothing is known before line ${line}.` : "";
  $(`${kind}facts`).textContent = facts?.length ? `Known before line ${line}: ${facts.join("; ")}.` : none;
}

// Editors of inputs, and the explanations of trlab that they show.

import { post } from "./backend.js";
import { upTo } from "./job.js";

/** The explanation of an input: the object that `trlab explain --json` prints. */
export const explain = async (kind, text) => (await post(`explain/${kind}`, text)).json();
/** The line of an error: that of the rejected instruction if a program is rejected; 0 if there is no error. */
export const lineOf = error => Number(/^line (\d+)/.exec(error?.reason?.instruction)?.[1] ?? error?.line ?? 0);
/** The message about a rejected input, one sentence per line. */
export function messageOf({ error, facts, repairs }) {
  const { kind, number, meaning, reason, expected, found, advice } = error;
  return [
    `${kind === "cause" ? "Cause" : "Reason"} ${number}: ${meaning}`, reason && `${reason.instruction}\nReason ${reason.number}: ${reason.meaning}`,
    ...expected.map((form, k) => `${k ? "or" : "Expected:"} ${form}`), found && `Found: ${found}`,
    facts.length && `Known before it: ${facts.join("; ").replace(/\.$/, "")}.`, advice && `Advice: ${advice}`,
    ...repairs.filter(({ command }) => command).map(({ why }) => why),
  ].filter(Boolean).join("\n");
}
const LINE_FEED = 10;
/** A repair in words, and the text after its edits, whose places are bytes of lines. */
export function repaired(text, { why, edits }) {
  const bytes = [...new TextEncoder().encode(text)], lineStarts = [0], changes = [];
  const decode = bytes => new TextDecoder().decode(Uint8Array.from(bytes)), quoted = bytes => `\`${decode(bytes).trim()}\``;
  bytes.forEach((byte, k) => byte === LINE_FEED && lineStarts.push(k + 1));
  for (const { line, first, last, replacement } of edits.toReversed()) {
    const unescaped = replacement.replace(/\\x(..)/g, (_, byte) => String.fromCharCode(parseInt(byte, 16)));
    const inserted = [...unescaped].map(character => character.charCodeAt(0));
    const deleted = bytes.splice(lineStarts[line - 1] + first - 1, last - first + 1, ...inserted);
    if (!deleted.length) changes.unshift(`Insert ${quoted(inserted)}`);
    else changes.unshift(inserted.length ? `Replace ${quoted(deleted)} with ${quoted(inserted)}` : `Delete ${quoted(deleted)}`);
  }
  return { words: `${changes.join(", ")}: ${why}`, text: decode(bytes) };
}

const MAX_LENGTH = 262144;
const TOO_LONG = "This input is too long for the editor. Save the job file to see it.";
// Sizes in pixels, as in the style sheet.
const LINE_HEIGHT = 20, SIDE_MARGINS = 68, MESSAGE_MARGINS = { top: 4, both: 12 }, SCROLL_MARGIN = 24;
const CONTENT = '<div class="lines" aria-hidden="true"><div></div><div></div></div><div class="sheet"><div class="gap" hidden><div class="words"></div></div>' +
  '<pre class="code" role="textbox" aria-multiline="true" contenteditable="plaintext-only" spellcheck="false" tabindex="0"></pre></div>';

/** An editor of plain lines with numbers. `onChange` is called after a change, and `onCaretMove` with the line of the cursor. */
export class Editor {
  onChange = () => {};
  onCaretMove = () => {};

  constructor(id) {
    this.box = document.getElementById(id);
    this.box.innerHTML = CONTENT;
    const [numbers, sheet] = this.box.children, [numbersAbove, numbersBelow] = numbers.children, [gap, code] = sheet.children;
    this.sheet = sheet;
    this.numbersAbove = numbersAbove;
    this.numbersBelow = numbersBelow;
    this.gap = gap;
    this.code = code;
    this.message = gap.firstChild;
    this.message.id = `${id}words`;
    code.setAttribute("aria-labelledby", `${id}label`);
    code.setAttribute("aria-describedby", `${id}verdict ${id}words`);
    code.addEventListener("input", () => {
      this.hideMessage();
      this.onChange();
    });
    document.addEventListener("selectionchange", () => this.hasFocus && this.onCaretMove(this.caretLine()));
  }
  // Enter makes a `br`: so the text is `innerText`, with one line end at the end.
  get value() { return this.longText ?? (this.code.innerText && this.code.innerText.replace(/\n{1,2}$/, "") + "\n"); }
  set value(text) {
    if (text === this.value) return;
    this.longText = text.length > MAX_LENGTH ? text : undefined;
    this.code.textContent = this.longText ? TOO_LONG : text.replace(/\n$/, "");
    this.code.contentEditable = this.longText ? "false" : "plaintext-only";
    this.hideMessage();
  }
  get hasFocus() { return document.activeElement === this.code; }
  caretLine() {
    const selection = getSelection(), before = document.createRange();
    before.setStart(this.code, 0);
    before.setEnd(selection.focusNode, selection.focusOffset);
    const part = before.cloneContents();
    return part.textContent.split("\n").length + part.querySelectorAll("br").length;
  }
  /** A button that makes a repair. */
  repairButton(repair) {
    const { words, text } = repaired(this.value, repair);
    const onclick = () => {
      this.value = text;
      this.code.focus();
      this.onChange();
    };
    return Object.assign(document.createElement("button"), { type: "button", textContent: words, onclick });
  }
  hideMessage() { this.showMessage(0); }
  /** Number the lines, and open a gap below one of them for a message and buttons for its repairs; line 0 means no message. */
  showMessage(line, message = null, repairs = []) {
    const lines = this.longText ? [""] : this.value.split("\n").slice(0, -1), linesAbove = Math.min(line || lines.length, lines.length);
    const longest = lines.reduce((maximum, text) => Math.max(maximum, text.length), 0);
    const buttons = this.longText ? [] : repairs.filter(({ edits }) => edits.length);
    this.sheet.style.minWidth = `calc(${longest + 1}ch + ${SIDE_MARGINS}px)`; // so that no line wraps
    this.message.replaceChildren(message ?? "", ...buttons.map(repair => this.repairButton(repair)));
    this.message.style.width = `${this.box.clientWidth - SIDE_MARGINS}px`;
    this.openGap(line > 0, linesAbove);
    this.numbersAbove.textContent = upTo(linesAbove).map(k => k + 1).join("\n");
    this.numbersBelow.textContent = upTo(lines.length - linesAbove).map(k => linesAbove + k + 1).join("\n");
    if (line) this.box.scrollTop = Math.max(this.box.scrollTop, this.gap.offsetHeight + SCROLL_MARGIN - this.box.clientHeight);
  }
  openGap(isOpen, linesAbove) {
    const top = linesAbove * LINE_HEIGHT;
    this.gap.hidden = !isOpen;
    this.message.style.marginTop = `${top + MESSAGE_MARGINS.top}px`;
    const height = isOpen ? this.message.offsetHeight + MESSAGE_MARGINS.both : 0;
    this.gap.style.height = `${top + height}px`;
    this.gap.style.shapeOutside = `inset(${top}px 0 0 0)`;
    this.numbersBelow.style.marginTop = `${height}px`;
  }
}

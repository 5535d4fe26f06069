// Boxes that you type numbers into. A box keeps its text while you type, and while it is rejected: then a message below it explains
// which numbers are allowed. Escape brings back the number that the box had.

import { NumberError } from "./numbers.js";

const editedBoxes = new WeakSet(), errorTexts = new WeakMap();

/** Whether a box keeps its text for now, and does not show the number that is in force. */
export const isEdited = box => editedBoxes.has(box);

/** Call `apply(text)` when a text is complete, and show the message of a `NumberError`; `restore()` shows the old number. */
export function watchBox(box, id, apply, restore) {
  const errorText = document.createElement("span");
  Object.assign(errorText, { id: `${id}wrong`, className: "wrong", role: "alert" });
  box.closest(".field, .lead, figcaption, .compare").append(errorText);
  box.setAttribute("aria-describedby", errorText.id);
  errorTexts.set(box, errorText);
  box.addEventListener("input", () => editedBoxes.add(box));
  box.addEventListener("change", () => applyToBox(box, () => apply(box.value)));
  box.addEventListener("keydown", event => {
    if (event.key !== "Escape") return;
    releaseBox(box);
    restore();
  });
}
/** The result of a call; if it raises a `NumberError`, the box is marked with it. */
export function applyToBox(box, apply) {
  try {
    releaseBox(box);
    return apply();
  } catch (error) {
    if (!(error instanceof NumberError)) throw error;
    editedBoxes.add(box);
    box.setAttribute("aria-invalid", "true");
    errorTexts.get(box).textContent = error.message;
    return undefined;
  }
}
/** The box shows the number in force again, and no longer the typed text. */
export function releaseBox(box) {
  editedBoxes.delete(box);
  box.removeAttribute("aria-invalid");
  if (errorTexts.has(box)) errorTexts.get(box).textContent = "";
}

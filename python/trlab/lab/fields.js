// Fields of controls: a label with a control, and numbers with a slider.

import { applyToBox, isEdited, watchBox } from "./boxes.js";

/** A labelled control. */
export function createField(id, labelText, control) {
  const field = document.createElement("div"), label = document.createElement("label");
  Object.assign(label, { htmlFor: id, textContent: labelText });
  field.className = "field";
  control.id = id;
  field.append(label, control);
  return field;
}
/** Add a slider below the number of a field. `apply(text)` takes a number, also from the slider. */
export function addSlider(field, box, { minimum, maximum, step, name }, apply) {
  const slider = document.createElement("input");
  Object.assign(slider, { type: "range", min: minimum, max: maximum, step, ariaLabel: `${name}, slider` });
  slider.addEventListener("input", () => {
    box.value = slider.value;
    applyToBox(box, () => apply(slider.value));
  });
  field.append(slider);
  return slider;
}
/** A parameter of a rule: a labelled number with a slider. `value()` is the number in force, and `format` writes it into the box. */
export class ParameterField {
  constructor(id, label, range, value, apply, format = String) {
    this.box = document.createElement("input");
    this.box.className = "number";
    this.field = createField(id, label, this.box);
    this.slider = addSlider(this.field, this.box, range, apply);
    this.value = value;
    this.format = format;
    watchBox(this.box, id, apply, () => this.show());
    this.show();
  }
  /** Show the number in force, but not in a box that you type into, nor at a slider that you move. */
  show() {
    if (!isEdited(this.box)) this.box.value = this.format(this.value());
    if (this.slider !== document.activeElement) this.slider.value = this.value();
  }
}

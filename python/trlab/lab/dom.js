// Access to the elements of the page.

/** The element with an id. */
export const $ = id => document.getElementById(id);

/** Set the text of an element, but only if it differs: an unchanged live region stays silent. */
export function setText(element, text) {
  if (element.textContent !== String(text)) element.textContent = text;
}

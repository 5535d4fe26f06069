// Drawings as SVG: elements and files, and a pen with which the drawings of canvases become SVG.

import { PAPER, SOFT } from "./colours.js";

const FONT_SIZE = 12;
const rounded = number => +number.toFixed(2);

export const svgElement = (name, attributes, content = "") =>
  `<${name}${Object.entries(attributes).map(([key, value]) => ` ${key}="${value}"`).join("")}>${content}</${name}>`;
export const escapeXml = text => text.replace(/[&<>]/g, character => `&#${character.charCodeAt(0)};`);
/** A file with elements on paper; its box is [left, top, width, height]. */
export function svgFile([x, y, width, height], ...elements) {
  const paper = svgElement("rect", { x, y, width, height, fill: PAPER });
  const attributes = { xmlns: "http://www.w3.org/2000/svg", viewBox: [x, y, width, height].join(" "), "font-family": "sans-serif", "font-size": FONT_SIZE };
  return svgElement("svg", attributes, `\n${[paper, ...elements].join("\n")}\n`) + "\n";
}

/** The parts of a canvas context that the drawings use, written as SVG. Only boxes are turned. */
export class SvgPen {
  elements = [];
  path = "";
  boxes = "";
  lineWidth = 1;
  angle = 0;
  origin = [0, 0];

  beginPath() { this.path = ""; }
  moveTo(x, y) { this.path += `M${rounded(x)} ${rounded(y)}`; }
  lineTo(x, y) { this.path += `${this.path ? "L" : "M"}${rounded(x)} ${rounded(y)}`; }
  arc(x, y, radius, from, to) {
    const pointAt = angle => `${rounded(x + radius * Math.cos(angle))} ${rounded(y + radius * Math.sin(angle))}`;
    const [first, ...others] = [from, (from + to) / 2, to].map(pointAt);
    this.path += `M${first}` + others.map(end => `A${rounded(radius)} ${rounded(radius)} 0 0 1 ${end}`).join("");
  }
  stroke() { this.add("path", { d: this.path, fill: "none", stroke: this.strokeStyle, "stroke-width": this.lineWidth }); }
  fill() { this.add("path", { d: this.path, fill: this.fillStyle }); }
  translate(x, y) { this.origin = [x, y]; }
  rotate(angle) { this.angle += angle; }
  /** Boxes of one colour become one path. */
  fillRect(x, y, width, height) {
    if (this.boxStyle !== this.fillStyle) this.flushBoxes();
    this.boxStyle = this.fillStyle;
    const sin = Math.sin(this.angle), cos = Math.cos(this.angle), [left, top] = this.origin;
    const corner = (x, y) => `${rounded(left + cos * x - sin * y)} ${rounded(top + sin * x + cos * y)}`;
    this.boxes += `M${corner(x, y)}L${corner(x + width, y)} ${corner(x + width, y + height)} ${corner(x, y + height)}z`;
  }
  text(words, x, y, attributes = {}) { this.add("text", { x: rounded(x), y: rounded(y), fill: SOFT, ...attributes }, words); }
  add(name, attributes, content) {
    this.flushBoxes();
    this.elements.push(svgElement(name, attributes, content));
  }
  flushBoxes() {
    if (this.boxes) this.elements.push(svgElement("path", { d: this.boxes, fill: this.boxStyle }));
    this.boxes = "";
  }
  /** The file, with margins for the words around the drawing. */
  file(width, height, { top, right, bottom, left }) {
    this.flushBoxes();
    return svgFile([-left, -top, width + left + right, height + top + bottom], ...this.elements);
  }
}

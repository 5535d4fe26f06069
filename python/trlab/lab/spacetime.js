// The space-time diagram: a row for each step, the last one at the bottom, and the path of the followed car.

import { clamp } from "./job.js";
import { INK, PAPER } from "./colours.js";
import { columnPixel, sharesPixels } from "./columns.js";

const MAX_ROW = 8; // pixels of a row, unless the run is so short that there is room for more
const PATH_HALO = 4, PATH_WIDTH = 1.5;

/** The height of a row, the number of rows, and the first step that has one. Cells are squares as far as possible. A run that almost
 * fits has lower rows, because its first steps explain the others, and a short one fills the diagram. */
export function spacetimeRows({ film, step }, width, height) {
  const square = Math.round(width / film.length), usual = clamp(square, 1, MAX_ROW), fitting = Math.floor(height / (film.steps + 1));
  const preferred = 2 * fitting < usual ? usual : clamp(square, 1, fitting);
  const rowHeight = Math.max(film.lanes, preferred), rows = Math.max(1, Math.floor(height / rowHeight));
  return { rowHeight, rows, top: Math.max(film.first, step - rows + 1) };
}
/** Whether several cells share a pixel of the diagram. */
export const hasSharedPixels = ({ length }, width) => sharesPixels(length, width * devicePixelRatio);

/** The diagram of a film. Rows are kept in a canvas, with a dot for each cell or for each pixel; the oldest row is overwritten. */
export class SpacetimeDiagram {
  constructor() { this.pen = document.createElement("canvas").getContext("2d", { willReadFrequently: true }); }
  draw(pen, width, height, view) {
    const { film, step } = view, { rowHeight, rows, top } = spacetimeRows(view, width, height), { lanes } = film;
    const dots = Math.min(film.length, Math.round(width * devicePixelRatio)), shape = [dots, film.length, lanes, film.limit, rows].join();
    if (shape !== this.shape || film !== this.film) this.reset(shape, film, dots, rows);
    if (step !== this.step) this.writeRows(step > this.step && this.step >= top ? this.step + 1 : top, step, rows, dots);
    this.step = step;
    pen.imageSmoothingEnabled = false;
    const copyRows = (from, to) => to > from && pen.drawImage(
      this.pen.canvas, 0, from % rows * lanes, dots, (to - from) * lanes, 0, (from - top) * rowHeight, width, (to - from) * rowHeight);
    const firstOfCanvas = Math.ceil((top + 1) / rows) * rows; // the first step above `top` whose row is the first of the canvas
    copyRows(top, Math.min(firstOfCanvas, step + 1));
    copyRows(firstOfCanvas, step + 1);
    drawPath(pen, width, rowHeight, top, view);
  }
  reset(shape, film, dots, rows) {
    Object.assign(this, { shape, film, step: -1, image: this.pen.createImageData(dots, 1) });
    Object.assign(this.pen.canvas, { width: dots, height: rows * film.lanes });
  }
  writeRows(from, to, rows, dots) {
    for (let step = from; step <= to; step++) this.writeRow(step, rows, dots);
  }
  writeRow(step, rows, dots) {
    const { film, image } = this, { counts, sums, edges } = film.columns(step, dots), words = new Uint32Array(image.data.buffer);
    const isMark = !sharesPixels(film.length, dots);
    for (let lane = 0, column = 0; lane < film.lanes; lane++) {
      for (let dot = 0; dot < dots; dot++, column++) {
        words[dot] = counts[column] ? columnPixel(edges[dot + 1] - edges[dot], counts[column], sums[column], film.limit, isMark) : 0;
      }
      this.pen.putImageData(image, 0, step % rows * film.lanes + lane);
    }
  }
}
/** The path of the followed car. */
export function drawPath(pen, width, rowHeight, top, { film, car, step }) {
  if (!car || car.step !== step) return;
  const scale = width / film.length, places = [];
  for (let now = car; now && now.step >= top; now = film.carEarlier(now)) places.push(now);
  for (const [style, lineWidth] of [[PAPER, PATH_HALO], [INK, PATH_WIDTH]]) {
    Object.assign(pen, { strokeStyle: style, lineWidth });
    pen.beginPath();
    places.forEach((now, k) => {
      const x = (now.cell + 0.5) * scale, y = (now.step - top + (now.lane + 0.5) / film.lanes) * rowHeight;
      if (k && now.cell <= places[k - 1].cell) pen.lineTo(x, y);
      else pen.moveTo(x, y);
    });
    pen.stroke();
  }
}

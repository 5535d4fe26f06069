// The drawings of the page as SVG files.

import { columnStyle, sharesPixels } from "./columns.js";
import { CURVE_GAP, curveMaxima, drawCurves } from "./curves.js";
import { drawRing } from "./ring.js";
import { drawRoad } from "./road.js";
import { drawPath, spacetimeRows } from "./spacetime.js";
import { SvgPen } from "./svg.js";
import { axisEnd, unitOf } from "./units.js";

// All sizes are in pixels.
const MARGIN = 8, AXIS_MARGIN = 70, WORDS_MARGIN = 28, TITLES_MARGIN = 42;
const RING = { size: 300, font: 28 }, ROAD = { width: 1000, height: 84 }, SPACETIME = { width: 1000, height: 300 }, CURVES = { width: 480, count: 4 };
const AXIS_WORDS_X = -6, ASCENT = 9, TITLE_Y = -22, UNIT_Y = -8;

const even = margin => ({ top: margin, right: margin, bottom: margin, left: margin });
/** The view of a file: cars at their places, and no images, which a file cannot have. */
const stillView = view => ({ ...view, share: 1, images: null });
const rowsOf = view => spacetimeRows(view, SPACETIME.width, SPACETIME.height);

/** Write the first and the last step on the left, and return the height of all rows. */
function writeTimeAxis(pen, view) {
  const { rowHeight, top } = rowsOf(view), bottom = (view.step - top + 1) * rowHeight;
  for (const [step, y] of [[top, ASCENT], [view.step, bottom]]) pen.text(`step ${step}`, AXIS_WORDS_X, y, { "text-anchor": "end" });
  return bottom;
}
function ringFigure(view) {
  const pen = new SvgPen(), { size, font } = RING;
  drawRing(pen, size, stillView(view));
  pen.text(view.step, size / 2, size / 2 + 4, { "text-anchor": "middle", "font-size": font });
  return pen.file(size, size, even(MARGIN));
}
function roadFigure(view) {
  const pen = new SvgPen();
  drawRoad(pen, ROAD.width, ROAD.height, stillView(view));
  return pen.file(ROAD.width, ROAD.height, even(MARGIN));
}
function spacetimeFigure(view) {
  const pen = new SvgPen(), { width } = SPACETIME, { film, step } = view, { rowHeight, top } = rowsOf(view);
  const dots = sharesPixels(film.length, width) ? width : film.length, dotWidth = width / dots, dotHeight = rowHeight / film.lanes;
  for (let now = top; now <= step; now++) {
    const { counts, sums, edges } = film.columns(now, dots);
    counts.forEach((count, column) => {
      const dot = column % dots, lane = Math.floor(column / dots);
      if (!count) return;
      pen.fillStyle = columnStyle(edges[dot + 1] - edges[dot], count, sums[column], film.limit);
      pen.fillRect(dot * dotWidth, (now - top) * rowHeight + lane * dotHeight, dotWidth, dotHeight);
    });
  }
  drawPath(pen, width, rowHeight, top, view);
  const bottom = writeTimeAxis(pen, view);
  pen.text(`position, 0 to ${film.length - 1} cells; time runs down`, width, bottom + WORDS_MARGIN - 10, { "text-anchor": "end" });
  return pen.file(width, bottom, { top: MARGIN, right: MARGIN, bottom: WORDS_MARGIN, left: AXIS_MARGIN });
}
function curvesFigure(view) {
  const pen = new SvgPen(), bottom = writeTimeAxis(pen, view), pitch = (CURVES.width + CURVE_GAP) / CURVES.count;
  drawCurves(pen, CURVES.width, bottom, view, rowsOf(view));
  Object.entries(curveMaxima(view.film.limit)).forEach(([kind, maximum], k) => {
    const hasUnit = kind !== "stopped";
    pen.text(`${kind}, 0 to ${hasUnit ? axisEnd(kind, maximum) : maximum}`, k * pitch, TITLE_Y);
    if (hasUnit) pen.text(unitOf(kind).words, k * pitch, UNIT_Y);
  });
  return pen.file(CURVES.width, bottom, { top: TITLES_MARGIN, right: MARGIN, bottom: MARGIN, left: AXIS_MARGIN });
}
/** The file of each drawing, from the view that is shown. */
export const FIGURES = { ring: ringFigure, road: roadFigure, spacetime: spacetimeFigure, curves: curvesFigure };

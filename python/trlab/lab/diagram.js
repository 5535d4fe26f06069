// The fundamental diagram: flow against density. Runs are points, sweeps are curves, and thin lines show the maximum that
// is proved for every rule: a triangle for each maximum speed. A thick grey line is the flow that is known exactly.
//
// Its contents are { limit, length, lanes, density, flow, marks, exact, selected }. A mark is { limit, length, lanes, points:
// [{ density, flow }] }, and that of a sweep has a `name`, its initial state as `start`, and the `group` of sweeps that it was made
// with. The exact curve is { kind, points }, or null if it is not known. `selected` is one of the points, or null.

import { ACCENT, INK, MUTED, PAPER, SECOND, SOFT } from "./colours.js";
import { STATES } from "./sweeps.js";
import { escapeXml, svgElement, svgFile } from "./svg.js";
import { axisTicks, formatted, unitOf } from "./units.js";

const PROOFS = {
  triangle: "Proved: without randomization every initial state reaches this flow",
  stationary: "Proved: the mean flow of the stationary state on this ring, over all random words",
};
// All sizes are in units of the image, which are about those of pixels.
export const WIDTH = 360;
const HEIGHT = 276, PLOT = { left: 34, width: 316, bottom: 240, height: 222 };
const FONT_SIZE = 11, LEGEND = { rowHeight: 16, maxRows: 5, wordsX: 58, maxLetters: 50, maxWidth: 300, symbolWidth: 16 };
const RADIUS = { run: 3.5, sweep: 2.5, now: 5, selected: 8 };
const EXACT_WIDTH = 3, NOW_WIDTH = 2;

/** The place of a density across the image, and the density at such a place. */
export const xOf = density => PLOT.left + PLOT.width * density;
export const densityAt = x => (x - PLOT.left) / PLOT.width;

const words = (x, y, text, attributes) => svgElement("text", { x, y, fill: SOFT, "font-size": FONT_SIZE, ...attributes }, text);
const line = (path, stroke, attributes) => svgElement("path", { d: path, stroke, ...attributes });

/** A road in words. Points of roads other than the present one differ in shape. */
const roadWords = ({ limit, length, lanes }) => `v_max ${limit}, ${lanes === 2 ? "2 \u00d7 " : ""}${length} cells`;
/** The numbers of a point in words. */
export const pointWords = (mark, { density, flow }) =>
  `density ${formatted("density", density)}, flow ${formatted("flow", flow)}, ${roadWords(mark)}`;

/** The outlines of the points of other roads. */
const OTHER_SHAPES = [
  (x, y) => `M${x - 3} ${y - 3}h6v6h-6z`, (x, y) => `M${x} ${y - 4.5}l4.5 4.5l-4.5 4.5l-4.5 -4.5z`,
  (x, y) => `M${x} ${y - 4}l4 7h-8z`, (x, y) => `M${x} ${y + 4}l4 -7h-8z`,
];
const shapeOf = number => OTHER_SHAPES[number % OTHER_SHAPES.length];
/** The roads of single points that are not the present road, in the order of their first points. */
const otherRoads = (marks, road) => [...new Set(marks.filter(mark => !mark.name).map(roadWords))].filter(other => other !== road);
const lastSweeps = marks => {
  const group = marks.findLast(mark => mark.name)?.group;
  return marks.filter(mark => mark.name && mark.group === group);
};

/** The rows below the axis: the curves of the last sweep with their initial states, and the shapes of other roads. A row has its
 * `words`, and `drawSymbol(y)` draws the symbol in front of them. */
function legendRows(contents) {
  const symbolX = PLOT.left, middle = symbolX + LEGEND.symbolWidth / 2;
  const sweeps = lastSweeps(contents.marks).map((mark, k) => {
    const colour = k ? SECOND : ACCENT;
    const drawSymbol = y => line(`M${symbolX} ${y}h${LEGEND.symbolWidth}`, colour) + svgElement("circle", { cx: middle, cy: y, r: RADIUS.sweep, fill: colour });
    return { drawSymbol, words: `${mark.name}, ${STATES[mark.start]}: ${roadWords(mark)}` };
  });
  const roads = otherRoads(contents.marks, roadWords(contents)).map((road, k) => (
    { drawSymbol: y => svgElement("path", { d: shapeOf(k)(middle, y), fill: MUTED }), words: `runs: ${road}` }
  ));
  return [...sweeps, ...roads].slice(0, LEGEND.maxRows);
}
/** A long row is squeezed to the width of the image, because the drawing cannot measure its words. */
function legendElement(row, k) {
  const top = HEIGHT + LEGEND.rowHeight * k, isLong = row.words.length > LEGEND.maxLetters;
  const squeezed = isLong ? { textLength: LEGEND.maxWidth, lengthAdjust: "spacingAndGlyphs" } : {};
  return row.drawSymbol(top + 10) + words(LEGEND.wordsX, top + 14, escapeXml(row.words), { class: "legend-row", ...squeezed });
}
/** The box of the image, which is higher with a legend: left, top, width, height. */
export const diagramBox = contents => [0, 0, WIDTH, HEIGHT + LEGEND.rowHeight * legendRows(contents).length + 2];

/** One run or sweep: `shape` draws the points of other roads, and `hasLabel` writes the name of an earlier sweep at its curve. */
function markElement(mark, { plot, stroke, shape, hasLabel }) {
  const { name, points } = mark;
  const dot = point => {
    const x = +xOf(point.density).toFixed(1), y = +plot.yOf(point.flow).toFixed(1), title = svgElement("title", {}, pointWords(mark, point));
    return shape ? svgElement("path", { class: "point", d: shape(x, y), fill: stroke }, title)
      : svgElement("circle", { class: "point", cx: x, cy: y, r: name ? RADIUS.sweep : RADIUS.run, fill: stroke }, title);
  };
  const labelled = hasLabel && points.find(({ density }) => density > 0.5);
  return [
    name ? svgElement("polyline", { points: plot.path(points), fill: "none", stroke }) : "", ...points.map(dot),
    labelled ? words(xOf(labelled.density) - 4, plot.yOf(labelled.flow) + 16, escapeXml(name), { "text-anchor": "end" }) : "",
  ].join("");
}
function markElements(contents, plot) {
  const { marks } = contents, road = roadWords(contents), roads = otherRoads(marks, road), sweeps = lastSweeps(marks), last = marks.at(-1);
  return marks.map(mark => {
    const place = sweeps.indexOf(mark), other = mark.name ? -1 : roads.indexOf(roadWords(mark));
    const stroke = place > 0 ? SECOND : place === 0 || mark === last ? ACCENT : MUTED;
    return markElement(mark, { plot, stroke, shape: other < 0 ? null : shapeOf(other), hasLabel: mark.name && place < 0 });
  });
}
/** The axes with their scales, and the meaning of thin and thick lines. */
function axisElements({ yOf, top, maxLimit }, hasExact) {
  const { left, bottom } = PLOT, right = xOf(1);
  const sample = (x, name, stroke, width) => line(`M${x} ${bottom + 28}h16`, stroke, { "stroke-width": width }) + words(x + 21, bottom + 32, name);
  const flowTicks = axisTicks("flow", top).slice(1).filter(({ at }) => at < 0.97 * top); // below the name of the axis
  return [
    line(`M${left} ${bottom}H${right}`, INK),
    ...axisTicks("density", 1, 7).map(tick => words(xOf(tick.at), bottom + 16, tick.words, { "text-anchor": "middle" })),
    ...flowTicks.map(tick => words(left - 6, yOf(tick.at) + 4, tick.words, { "text-anchor": "end" })),
    words(right, bottom + 32, `density (${unitOf("density").words})`, { "text-anchor": "end" }),
    sample(left, "maximum", SOFT, 1), hasExact ? sample(left + 90, "exact", MUTED, EXACT_WIDTH) : "",
    words(xOf(1 / (maxLimit + 1)) + 10, yOf(top) + 4, `flow (${unitOf("flow").words})`),
  ];
}
function triangleElement(triangleLimit, limit, plot) {
  const peak = { density: 1 / (triangleLimit + 1), flow: triangleLimit / (triangleLimit + 1) };
  const points = plot.path([{ density: 0, flow: 0 }, peak, { density: 1, flow: 0 }]), stroke = triangleLimit === limit ? SOFT : MUTED;
  const dashed = triangleLimit === limit ? {} : { "stroke-dasharray": "4 3" };
  return svgElement("polyline", { points, fill: "none", stroke, ...dashed },
    svgElement("title", {}, `Proved for every rule with maximum speed ${triangleLimit}: the flow is never above this triangle`));
}
function exactElement(exact, plot) {
  const attributes = { class: "exact", points: plot.path(exact.points), fill: "none", stroke: MUTED, "stroke-width": EXACT_WIDTH, "stroke-linejoin": "round" };
  return svgElement("polyline", attributes, svgElement("title", {}, PROOFS[exact.kind]));
}
/** The places of the flows up to the highest triangle. */
function plotOf(limits) {
  const maxLimit = Math.max(...limits), top = maxLimit / (maxLimit + 1), yOf = flow => PLOT.bottom - PLOT.height * flow / top;
  return { maxLimit, top, yOf, path: points => points.map(({ density, flow }) => `${xOf(density).toFixed(1)},${yOf(flow).toFixed(1)}`).join(" ") };
}
const circleAt = ({ density, flow }, plot, attributes) =>
  svgElement("circle", { cx: xOf(density).toFixed(1), cy: plot.yOf(flow).toFixed(1), "stroke-width": NOW_WIDTH, ...attributes });

/** The contents of the SVG image. */
export function diagramElements(contents) {
  const { limit, density, flow, marks, exact, selected } = contents;
  const limits = [...new Set([...marks.map(mark => mark.limit), limit])], plot = plotOf(limits), maxFlow = Math.min(limit * density, 1 - density);
  return [
    exact ? exactElement(exact, plot) : "", ...limits.map(other => triangleElement(other, limit, plot)), ...axisElements(plot, exact),
    line(`M${xOf(density)} ${PLOT.bottom}V${plot.yOf(maxFlow)}`, ACCENT, { "stroke-dasharray": "1 3" }),
    ...markElements(contents, plot), ...legendRows(contents).map(legendElement),
    flow === null ? "" : circleAt({ density, flow }, plot, { r: RADIUS.now, fill: PAPER, stroke: ACCENT }),
    selected ? circleAt(selected, plot, { class: "selected", r: RADIUS.selected, fill: "none", stroke: INK }) : "",
  ].join("\n");
}
export const diagramFile = contents => svgFile(diagramBox(contents), diagramElements({ ...contents, selected: null }));

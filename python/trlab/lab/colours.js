// The colours of speeds, and those of lines and words in drawings. Drawings are made for white paper; the style sheet inverts them on
// dark pages. Words need a contrast of 4.5 with the paper, and lines and shapes that mean something need 3 (WCAG 2.2).

import { clamp } from "./job.js";

// Dark red, orange, sky, blue: these differ in lightness too, and without red and green.
const SPEED_COLOURS = [[122, 16, 22], [208, 66, 24], [243, 154, 46], [142, 196, 232], [76, 142, 200], [26, 86, 150]];

/** The colour of a speed as a share of the maximum speed: red, green and blue. */
export function speedColour(share) {
  const position = clamp(share, 0, 1) * (SPEED_COLOURS.length - 1), below = Math.min(SPEED_COLOURS.length - 2, Math.floor(position));
  const [low, high] = [SPEED_COLOURS[below], SPEED_COLOURS[below + 1]];
  return low.map((part, k) => Math.round(part + (high[k] - part) * (position - below)));
}

export const PAPER = "#ffffff";
/** Axes and frames of cars. */
export const INK = "#16191d";
/** Words and thin lines. */
export const SOFT = "#656d78";
/** The runs and sweeps of today. */
export const ACCENT = "#1d5f9e";
/** The second of two curves. */
export const SECOND = "#c8501e";
/** Earlier runs, single steps, and lines to compare with. */
export const MUTED = "#7f8894";
/** Decoration: the cars show where the lanes are, and a frame shows which part of the road is enlarged. */
export const LANE_LINE = "#e3e6ea";
export const WASH = "#f1f3f5";

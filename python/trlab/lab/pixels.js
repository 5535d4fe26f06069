// Long roads on a canvas. All pixels of a road are written into one image, because a box for each of them would take much longer.

import { clamp } from "./job.js";
import { Columns } from "./columns.js";

/** An image for the pixels of a road, and the columns of the step that is shown. */
class RoadImage {
  constructor() { this.pen = document.createElement("canvas").getContext("2d", { willReadFrequently: true }); }
  /** Make an image of another size. */
  resize(width, height) {
    Object.assign(this.pen.canvas, { width, height });
    this.image = this.pen.createImageData(width, height);
    this.imageWords = new Uint32Array(this.image.data.buffer);
  }
  /** The colours of a view's columns, lane by lane. */
  columnColours(view, pixels) {
    if (!this.columns?.isOf(view, pixels)) this.columns = new Columns(view.film, view.step, pixels);
    return this.columns.colours(view.share);
  }
  /** The canvas with the image. */
  canvas() {
    this.pen.putImageData(this.image, 0, 0);
    return this.pen.canvas;
  }
}

/** A straight road: a row of the image for each lane. */
export class StraightRoadImage extends RoadImage {
  /** `laneBox(lane)` gives left, top, width and height of a lane. */
  draw(pen, view, pixels, laneBox) {
    const { lanes } = view.film, shape = [pixels, lanes].join();
    if (shape !== this.shape) {
      this.resize(pixels, lanes);
      this.shape = shape;
    }
    this.imageWords.set(this.columnColours(view, pixels));
    const canvas = this.canvas();
    pen.imageSmoothingEnabled = false;
    for (let lane = 0; lane < lanes; lane++) pen.drawImage(canvas, 0, lane, pixels, 1, ...laneBox(lane));
  }
}

/** The ring: its pixels know the columns that they show. */
export class RingImage extends RoadImage {
  /** `ring` has `middle`, the radius `outer`, the `laneWidth`, and `laneDepth(lane)`, which is how far a lane is inside `outer`. */
  draw(pen, view, columns, ring) {
    const { lanes } = view.film, scale = devicePixelRatio, size = 2 * ring.middle, shape = [columns, lanes, ring.middle, scale].join();
    if (shape !== this.shape) {
      this.resize(Math.round(size * scale), Math.round(size * scale));
      this.assignPixels(columns, lanes, ring, scale);
      this.shape = shape;
    }
    const { imageWords, inside, edge } = this, colours = this.columnColours(view, columns);
    for (let n = 0; n < inside.pixel.length; n++) imageWords[inside.pixel[n]] = colours[inside.column[n]];
    for (let n = 0; n < edge.pixel.length; n++) {
      const colour = colours[edge.column[n]];
      imageWords[edge.pixel[n]] = colour && (colour & 0xffffff | edge.cover[n] << 24);
    }
    pen.drawImage(this.canvas(), -ring.middle, -ring.middle, size, size);
  }
  /** List the pixels of the lanes, those inside and those at an edge: each with its column and how much of it the lane covers. */
  assignPixels(columns, lanes, { middle, outer, laneWidth, laneDepth }, scale) {
    const { width } = this.image, inside = { pixel: [], column: [] }, edge = { pixel: [], column: [], cover: [] };
    for (let pixel = 0; pixel < width * width; pixel++) {
      const x = (pixel % width + 0.5) / scale - middle, y = (Math.floor(pixel / width) + 0.5) / scale - middle;
      const depth = outer - Math.hypot(x, y), turn = (Math.atan2(x, -y) / (2 * Math.PI) + 1) % 1;
      for (let lane = 0; lane < lanes; lane++) {
        const within = Math.min(depth - laneDepth(lane), laneDepth(lane) + laneWidth - depth) * scale, cover = clamp(within + 0.5, 0, 1);
        if (cover === 0) continue;
        const list = cover === 1 ? inside : edge;
        list.pixel.push(pixel);
        list.column.push(lane * columns + Math.floor(turn * columns));
        list.cover?.push(Math.round(255 * cover));
      }
    }
    Object.assign(this, { inside, edge });
  }
}

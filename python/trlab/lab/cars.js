// Drawings of cars. Each draws with a pen, which is the context of a canvas or an `SvgPen`, and a view:
// { film, step, share, lens, car, images }. `share` is the part of the way from the step before, 0 to 1, and `images` draws long roads
// on a canvas; without it they are drawn as boxes.

import { speedColour } from "./colours.js";
import { Columns } from "./columns.js";

/** The context of a canvas, cleared, at the size that it has on the page. */
export function clearedCanvas(canvas) {
  const { clientWidth: width, clientHeight: height } = canvas, scale = devicePixelRatio || 1;
  const pixelWidth = Math.round(width * scale), pixelHeight = Math.round(height * scale);
  if (canvas.width !== pixelWidth || canvas.height !== pixelHeight) Object.assign(canvas, { width: pixelWidth, height: pixelHeight });
  const pen = canvas.getContext("2d");
  pen.setTransform(scale, 0, 0, scale, 0, 0);
  pen.clearRect(0, 0, width, height);
  return { pen, width, height };
}

/** The part of a lane change that is done after a share of the way: slow at both ends. */
const easedShare = share => share * share * (3 - 2 * share);

/** Draw the cars of a scene, the slowest last: `draw(place, lane)` draws one with the pen's colour. */
export function drawCars(pen, { film: { limit }, share }, { starts, cell, lane, originLane }, draw) {
  const laneShare = easedShare(share);
  for (let speed = limit; speed >= 0; speed--) {
    pen.fillStyle = `rgb(${speedColour(speed / limit).join(",")})`;
    for (let car = starts[speed]; car < starts[speed + 1]; car++) {
      draw(cell[car] - speed * (1 - share), originLane[car] + (lane[car] - originLane[car]) * laneShare);
    }
  }
}
/** Draw the pixels of a long road that have cars: `draw(pixel, lane)` draws one with the pen's colour. */
export function drawColumns(pen, { film, step, share }, pixels, draw) {
  new Columns(film, step, pixels).forEach(share, (pixel, lane, style) => {
    pen.fillStyle = style;
    draw(pixel, lane);
  });
}
/** The place and the lane of the followed car, as `drawCars` has them; null if no car is followed. */
export function followedPlace({ film, share, car, step }) {
  if (!car || car.step !== step) return null;
  const before = film.carEarlier(car), fromLane = before ? before.lane : car.lane;
  return [car.cell - film.speed(car) * (1 - share), fromLane + (car.lane - fromLane) * easedShare(share)];
}

// Where the label of an execution stands, so that it hides as little as may be; as python/wfcheck/drawing/labels.py.
import { areaOf, sumOf } from "./graphs.js";

/** @typedef {[number, number]} XY */

/** The radius from which a spot is large enough for a label. */
export const READABLE = 6.5;
const LARGE = 12.5, SMALL = 9, LEAST = 6.5, FINE = 12;
const SHARES = [[1 / 3, 1 / 3, 1 / 3]];
for (let a = 1; a < FINE; a++) for (let b = 1; b < FINE - a; b++) SHARES.push([a / FINE, b / FINE, (FINE - a - b) / FINE]);

/** The place of a label and its size, for an execution between spots at these places: in a triangle, else beside it.
 * @param {XY[]} places @param {XY} middle @param {number} radius @returns {[number, number, number]} */
export function labelPlace(places, middle, radius) {
  const large = radius >= READABLE ? LARGE : SMALL;
  if (places.length === 3) return roomiest(places, radius, large);
  if (places.length === 2) return [...besideEdge(places[0], places[1], middle, radius), large];
  const [[x, y]] = places, far = radius * 0.8 + 18;
  return [x < middle[0] ? x - far : x + far, y - far * 0.55, large];
}

/** The place in a triangle that has most room beside its edges and the spots at its corners. @returns {[number, number, number]} */
function roomiest(places, radius, large) {
  const sides = [[1, 2], [0, 2], [0, 1]].map(([a, b]) => Math.hypot(places[a][0] - places[b][0], places[a][1] - places[b][1]));
  const heights = sides.map(side => 2 * Math.abs(areaOf(places)) / side);
  let best = [0, 0, -Infinity];
  for (const parts of radius >= READABLE ? SHARES : SHARES.slice(0, 1)) {
    const x = sumOf(parts.map((part, at) => part * places[at][0])), y = sumOf(parts.map((part, at) => part * places[at][1]));
    const room = Math.min(...parts.map((part, at) => part * heights[at] * 1.5), ...places.map(it => Math.hypot(x - it[0], y - it[1]) - radius * 1.2));
    if (room > best[2] + 1e-3) best = [x, y, room];
  }
  return [best[0], best[1], Math.max(LEAST, Math.min(large, best[2]))];
}

/** The place beside the middle of an edge: at the side that looks away from the middle of the whole, or above. @returns {XY} */
function besideEdge([ax, ay], [bx, by], middle, radius) {
  const x = (ax + bx) / 2, y = (ay + by) / 2, cx = by - ay, cy = ax - bx, length = Math.hypot(cx, cy);
  let out = cx * (x - middle[0]) + cy * (y - middle[1]);
  if (Math.abs(out) < 1) out = -cy;
  const far = Math.sign(out) * (length < 5 * radius ? radius + 12 : radius * 0.55 + 11);
  return [x + far * cx / length, y + far * cy / length];
}

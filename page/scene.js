// What is drawn: points and executions at their places, and the names of corners and faces; as python/wfcheck/drawing/scene.py.
import { GAP, layout } from "./embedding.js";
import { mean } from "./graphs.js";
import { faces, keyOf, vertexKey } from "./tasks.js";
import { blockWords, manyExecutions } from "./subdivision.js";

/** @typedef {import("./graphs.js").XY} XY */
/** @typedef {{point: number, process: number, at: XY, name?: string}} Spot */
/** @typedef {{execution: number, spots: number[], isCopy: boolean, middle: XY}} Cell */
/** @typedef {{at: XY, text: string, kind: "corner" | "face"}} Note */
/**
 * @typedef {object} Scene      y grows downwards
 * @property {Spot[]} spots
 * @property {Cell[]} cells
 * @property {Note[]} notes
 * @property {XY} size
 * @property {number} radius    of spots
 */

/** The lengths of sides in pixels by rounds: of triangles, and of edges of a graph. */
const SIDES = [300, 520, 820, 1180], EDGES = [260, 420, 720, 1080];
/** How much shorter sides are if there are so many groups of patches in a row. */
const SHORTER = { 1: 1, 2: 0.74, 3: 0.56, 4: 0.46 }, LEAST_PART = 0.38;
export const MOST_RADIUS = 12;
const LEAST_RADIUS = 2;
const SIDE_MARGIN = 44, ABOVE = 40, BELOW = 24, TINY = 1e5;
const MOST_TRIANGLES = 9000, MOST_EDGES = 3000, MOST_EXECUTIONS = 60000;

/** Why the complex over some facets is not drawn after some rounds, or null if it is: "large".
 * @param {import("./tasks.js").Rules} rules */
export function notDrawn(rules, rounds, facets) {
  const each = { 2: { 2: 1, 3: 3, 4: 9 }, 3: { 3: 1, 4: 4 } }, parts = size => facets.reduce((sum, it) => sum + (each[size][it.length] ?? 0), 0);
  const many = size => parts(size) * blockWords(size, rules.firstBlock).length ** rounds;
  return many(3) > MOST_TRIANGLES || many(2) > MOST_EDGES || manyExecutions(rules, rounds, 3) > MOST_EXECUTIONS ? "large" : null;
}

/** The scene of a complex over some facets.
 * @param {import("./subdivision.js").Complex} made
 * @param {import("./tasks.js").Simplex[]} facets
 * @param {{inputName?: (value: number) => string, wide?: number, least?: number}} how  `least` is the least width of the picture
 * @returns {Scene} */
export function sceneOf(made, facets, { inputName = String, wide = 4, least = 380 } = {}) {
  const placed = layout(facets, wide), scale = scaleOf(made.rounds, placed);
  const at = ([x, y]) => /** @type {XY} */ ([x * scale, -y * scale]);
  const spots = [], cells = [], known = new Map(), drawn = new Set(), seen = new Set(), bySimplex = new Map();
  made.executions.forEach((it, number) => {
    const key = keyOf(it.simplex);
    if (!bySimplex.has(key)) bySimplex.set(key, []);
    bySimplex.get(key).push(number);
  });
  const spotOf = (view, patch) => {
    let x = 0, y = 0;
    for (const [vertex, part] of made.views[view].share) { x += part * patch.corners.get(vertex)[0]; y += part * patch.corners.get(vertex)[1]; }
    const key = view + "/" + Math.round(x * TINY) + "/" + Math.round(y * TINY);
    if (!known.has(key)) {
      known.set(key, spots.length);
      spots.push({ point: made.points[view], process: made.views[view].process, at: at([x, y]) });
    }
    return known.get(key);
  };
  for (const patch of placed.patches) for (const face of faces(patch.simplex)) for (const number of bySimplex.get(keyOf(face)) ?? []) {
    const ends = made.executions[number].ends.map(view => spotOf(view, patch)), key = number + ":" + ends.join();
    if (drawn.has(key)) continue;
    drawn.add(key);
    cells.push({ execution: number, spots: ends, isCopy: seen.has(number), middle: at(patch.middle) });
    seen.add(number);
  }
  const scene = { spots, cells, notes: [], size: /** @type {XY} */ ([0, 0]), radius: MOST_RADIUS };
  scene.radius = Math.max(LEAST_RADIUS, Math.min(MOST_RADIUS, 0.36 * nearest(spots.map(it => it.at))));
  nameCorners(scene, placed, at, inputName);
  if (placed.isApart) nameFaces(scene, placed, at);
  return onSheet(scene, least);
}

/** How many pixels a side is long. */
function scaleOf(rounds, placed) {
  const isGraph = placed.patches.every(it => it.simplex.length < 3);
  const width = Math.max(...placed.patches.flatMap(it => [...it.corners.values()].map(xy => xy[0])));
  const side = (isGraph ? EDGES : SIDES)[Math.min(rounds, 3)];
  if (isGraph) return side / (width <= 1.01 ? 1 : width <= 2.1 ? 1.5 : 2.2);
  return side * (SHORTER[Math.max(1, Math.round((width + GAP) / (1 + GAP)))] ?? LEAST_PART);
}

/** Gives the corners of patches the names of their inputs. */
function nameCorners(scene, placed, at, inputName) {
  const named = new Set();
  for (const patch of placed.patches) for (const [key, xy] of patch.corners) {
    const [x, y] = at(xy), id = key + "/" + Math.round(x) + "/" + Math.round(y);
    if (named.has(id)) continue;
    named.add(id);
    const [p, v] = key.split("=").map(Number);
    scene.notes.push({ at: beside([x, y], at(patch.middle), scene.radius), text: `p${p} = ${inputName(v)}`, kind: "corner" });
  }
}

/** Gives each edge that is drawn at several places a letter. */
function nameFaces(scene, placed, at) {
  const known = new Map();
  for (const patch of placed.patches) for (const edge of faces(patch.simplex)) if (edge.length === 2) {
    const middle = edge.map(it => at(patch.corners.get(vertexKey(it)))), corners = [...patch.corners.values()].map(at);
    const centreOf = places => [mean(places.map(it => it[0])), mean(places.map(it => it[1]))];
    const places = known.get(keyOf(edge)) ?? new Map();
    places.set(centreOf(middle).map(Math.round).join(), [centreOf(middle), centreOf(corners)]);
    known.set(keyOf(edge), places);
  }
  [...known.values()].filter(it => it.size > 1).forEach((places, number) => {
    const name = (number >= 26 ? String.fromCharCode(96 + Math.floor(number / 26)) : "") + String.fromCharCode(97 + number % 26);
    for (const [[x, y], [cx, cy]] of places.values()) {
      const far = Math.hypot(x - cx, y - cy) || 1, by = scene.radius + 9;
      scene.notes.push({ at: [x + by * (x - cx) / far, y + by * (y - cy) / far], text: name, kind: "face" });
    }
  });
}

/** Moves all so that the least coordinates have a margin, and says how large the sheet is. @param {Scene} scene */
export function onSheet(scene, least) {
  const every = [...scene.spots, ...scene.notes].map(it => it.at);
  const left = Math.min(...every.map(it => it[0])) - SIDE_MARGIN;
  const top = Math.min(...scene.spots.map(it => it.at[1] - ABOVE), ...scene.notes.map(it => it.at[1] - BELOW));
  const size = [Math.max(...every.map(it => it[0])) - left + SIDE_MARGIN, Math.max(...every.map(it => it[1])) - top + BELOW];
  const more = Math.max(0, ((size[0] > 3 * size[1] ? least : Math.min(least, 380)) - size[0]) / 2);
  scene.size = [size[0] + 2 * more, size[1]];
  for (const it of [...scene.spots, ...scene.notes]) it.at = [it.at[0] - left + more, it.at[1] - top];
  for (const it of scene.cells) it.middle = [it.middle[0] - left + more, it.middle[1] - top];
  return scene;
}

/** Where the name of a corner stands: above or below it, or at its side if it lies at the side of the middle. @returns {XY} */
function beside([x, y], [mx, my], radius) {
  const dx = x - mx, dy = y - my, length = Math.hypot(dx, dy);
  if (length < 1 || Math.abs(dy) < 0.02 * length) return [x, y + radius + 18];
  if (Math.abs(dy) < 0.3 * length) return [x + Math.sign(dx) * (radius + 32), y];
  return [x + 14 * dx / length, y + Math.sign(dy) * (radius + 19)];
}

/** The least distance of two places. */
export function nearest(places) {
  const ordered = [...places].sort((a, b) => a[0] - b[0]);
  let least = Infinity;
  for (let one = 0; one < ordered.length; one++) for (let other = one + 1; other < ordered.length; other++) {
    if (ordered[other][0] - ordered[one][0] >= least) break;
    least = Math.min(least, Math.hypot(ordered[other][0] - ordered[one][0], ordered[other][1] - ordered[one][1]));
  }
  return least;
}

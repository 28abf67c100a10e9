// The scene of a task's output complex: a graph of what processes may decide; as python/wfcheck/drawing/outputs.py.
import { byDistances, disc, graph, lowest, middleOf, neighbours } from "./graphs.js";
import { components } from "./embedding.js";
import { MOST_RADIUS, nearest, onSheet } from "./scene.js";
import { facetsOf, keyOf, simplicesOf, vertexKey } from "./tasks.js";

/** @typedef {import("./tasks.js").Rules} Rules */
/** @typedef {import("./tasks.js").Simplex} Simplex */

const MOST_VERTICES = 120, SIDE = 150, GAP = 1, WIDEST = 1000;

/** The tuples that an input simplex allows, as output simplices. @param {Rules} rules @param {Simplex} simplex @returns {Simplex[]} */
export const allowedSimplices = (rules, simplex) => (rules.allowed.get(keyOf(simplex)) ?? []).map(each => simplex.map(([p], at) => [p, each[at]]));

/** The output simplices that some inputs allow, and their faces. @param {Rules} rules */
export const outputsOf = rules => simplicesOf(rules.simplices.flatMap(it => allowedSimplices(rules, it)));

/** The vertices about which triangles fall apart: no walk over edges at the vertex joins them all. @param {Simplex[]} tuples @returns {string[]} */
export function pinched(tuples) {
  const found = [], vertices = new Map(tuples.flat().map(it => [vertexKey(it), it]));
  for (const [key] of [...vertices].sort(([, a], [, b]) => a[0] - b[0] || a[1] - b[1])) {
    const links = tuples.filter(it => it.length === 3 && it.some(one => vertexKey(one) === key)).map(it => it.filter(one => vertexKey(one) !== key));
    if (components(links).length > 1) found.push(key);
  }
  return found;
}

/** Places for all vertices of a complex: its connected parts stand side by side. */
function placesOf(listed) {
  const found = new Map();
  let left = 0;
  for (const part of components(listed)) {
    const facets = facetsOf(part), flat = facets.length > 1 ? disc(facets) : null;
    const places = flat ?? (part.every(it => it.length <= 2) ? graph(part) : lowest(byDistances(neighbours(part))));
    for (const [key, [x, y]] of places) found.set(key, [x + left, y]);
    left = Math.max(...[...found.values()].map(it => it[0])) + GAP;
  }
  return found;
}

/** Whether who decides what makes no difference to what a facet allows: then values alone are drawn. @param {Rules} rules */
export const isColourless = rules => rules.facets.every(facet => {
  const tuples = rules.allowed.get(keyOf(facet)) ?? [], known = new Set(tuples.map(it => it.join()));
  const swapped = (it, a, b) => it.map((v, at) => it[at === a ? b : at === b ? a : at]).join();
  return facet.length > 1 && tuples.every(it => it.every((_, a) => known.has(swapped(it, 0, a))));
});
/** The process of a vertex that is a value alone. */
export const ANYBODY = -1;
/** The values of an output simplex, as vertices of nobody. @param {Simplex} simplex @returns {Simplex} */
export const valuesAlone = simplex => [...new Set(simplex.map(([, v]) => v))].sort((a, b) => a - b).map(v => [ANYBODY, v]);

/** The scene of the output complex, with its vertices and simplices, or null if it is too large. A cell's number is that of its simplex, and a
 * spot's number that of its vertex. @param {Rules} rules @param {{least?: number, chromatic?: boolean}} how  `chromatic` if processes are told apart
 * in any case */
export function sceneOfOutputs(rules, { least = 380, chromatic = false } = {}) {
  const alone = !chromatic && isColourless(rules), listed = alone ? simplicesOf(outputsOf(rules).map(valuesAlone)) : outputsOf(rules);
  const vertices = listed.filter(it => it.length === 1).map(it => it[0]);
  if (rules.processes > 3 || !vertices.length || vertices.length > MOST_VERTICES) return null;
  const places = placesOf(listed), wide = Math.max(...[...places.values()].map(it => it[0]));
  const scale = Math.min(SIDE * (vertices.length <= 12 ? 1.6 : 1), WIDEST / Math.max(wide, 1));
  const at = vertices.map(it => { const [x, y] = places.get(vertexKey(it)); return /** @type {[number, number]} */ ([x * scale, -y * scale]); });
  const keys = vertices.map(vertexKey), middle = middleOf(at);
  const scene = {
    spots: vertices.map(([process], number) => ({ point: number, process, at: at[number] })),
    cells: listed.map((it, number) => ({ execution: number, spots: it.map(one => keys.indexOf(vertexKey(one))), isCopy: false, middle })),
    notes: [], size: /** @type {[number, number]} */ ([0, 0]), radius: at.length > 1 ? Math.min(MOST_RADIUS, 0.3 * nearest(at)) : MOST_RADIUS,
  };
  return { scene: onSheet(scene, least), listed, vertices, alone };
}

/** The numbers of the output simplices that an input simplex allows. @param {{listed: Simplex[], alone: boolean}} drawn @param {Rules} rules
 * @param {Simplex} simplex @returns {Set<number>} */
export function simplexCells(drawn, rules, simplex) {
  const numbers = new Map(drawn.listed.map((it, at) => [keyOf(it), at]));
  return new Set(allowedSimplices(rules, simplex).map(it => numbers.get(keyOf(drawn.alone ? valuesAlone(it) : it))));
}

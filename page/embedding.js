// Where the facets of an input complex are drawn; as python/wfcheck/drawing/embedding.py. A patch is an input simplex of at most three
// vertices with places of its vertices.
import { disc, graph, middleOf } from "./graphs.js";
import { vertexKey } from "./tasks.js";

/** @typedef {import("./tasks.js").Simplex} Simplex */
/** @typedef {import("./graphs.js").XY} XY */
/** @typedef {{simplex: Simplex, corners: Map<string, XY>, middle: XY}} Patch */
/** @typedef {{patches: Patch[], isApart: boolean}} Layout   `isApart` if places that several facets share are drawn several times */

const HEIGHT = Math.sqrt(3) / 2;
/** How far apart patches stand that share no place, as a part of a side. */
export const GAP = 0.42;
/** An equilateral triangle, and the middle of the sides of one that is twice as large. @type {XY[]} */
const TRIANGLE = [[0, 0], [1, 0], [0.5, HEIGHT]], NET = [[0.5, HEIGHT], [1.5, HEIGHT], [1, 0]];
/** @type {[number, number, XY][]} */
const NET_CORNERS = [[0, 2, [0, 0]], [1, 2, [2, 0]], [0, 1, [1, 2 * HEIGHT]]];

/** Facets by the connected parts of their complex, in order. @param {Simplex[]} facets @returns {Simplex[][]} */
export function components(facets) {
  let found = [];
  for (const facet of facets) {
    const keys = new Set(facet.map(vertexKey)), met = found.filter(part => part.some(other => other.some(it => keys.has(vertexKey(it)))));
    found = [...found.filter(it => !met.includes(it)), [...met.flat(), facet]];
  }
  return found.map(part => facets.filter(it => part.includes(it)));
}

/** Patches of facets that share the places of their vertices. @returns {Patch[]} */
function patchesAt(facets, places) {
  const middle = middleOf([...places.values()]);
  return facets.map(simplex => ({ simplex, middle, corners: new Map(simplex.map(it => [vertexKey(it), places.get(vertexKey(it))])) }));
}

/** The boundary of a tetrahedron unfolded: one face in the middle, and the fourth vertex at three corners. @returns {Patch[]} */
function net(facet) {
  const around = new Map(facet.slice(0, 3).map((it, at) => [vertexKey(it), NET[at]])), top = facet[3], middle = middleOf(NET);
  return [{ simplex: facet.slice(0, 3), corners: around, middle }, ...NET_CORNERS.map(([one, other, corner]) => {
    const face = [facet[one], facet[other], top];
    return { simplex: face, middle, corners: new Map([...face.slice(0, 2).map(it => [vertexKey(it), around.get(vertexKey(it))]), [vertexKey(top), corner]]) };
  })];
}

/** The patches of a connected complex: in one group if it fits in the plane, else a group for each facet. @returns {Patch[][]} */
function groupsOf(facets) {
  if (Math.max(...facets.map(it => it.length)) <= 2) return [patchesAt(facets, graph(facets))];
  const flat = facets.length > 1 ? disc(facets) : null;
  if (flat) return [patchesAt(facets, flat)];
  return facets.map(it => it.length === 4 ? net(it) : patchesAt([it], new Map(it.map((vertex, at) => [vertexKey(vertex), TRIANGLE[at]]))));
}

/** Where the facets of an input complex are drawn, in at most `wide` columns. @param {Simplex[]} facets @returns {Layout} */
export function layout(facets, wide = 4) {
  const parts = components(facets), groups = parts.flatMap(groupsOf);
  const columns = Math.min(groups.length, groups.length === 6 ? 3 : groups.length <= 12 ? wide : 8), rows = Math.ceil(groups.length / columns);
  const size = [0, 1].map(at => Math.max(0, ...groups.flat().flatMap(it => [...it.corners.values()].map(xy => xy[at]))));
  const patches = groups.flatMap((group, number) => {
    const by = [number % columns * (size[0] + GAP), (rows - 1 - Math.floor(number / columns)) * (size[1] + GAP + 0.1)];
    return group.map(it => ({ simplex: it.simplex, middle: /** @type {XY} */ ([it.middle[0] + by[0], it.middle[1] + by[1]]),
      corners: new Map([...it.corners].map(([key, [x, y]]) => [key, /** @type {XY} */ ([x + by[0], y + by[1]])])) }));
  });
  return { patches, isApart: groups.length > parts.length || facets.some(it => it.length === 4) };
}

/** Whether facets make one picture: edges, or a disc. @param {Simplex[]} facets */
export const isOnePicture = facets => Math.max(...facets.map(it => it.length)) <= 2 || facets.length === 1
  || components(facets).length === 1 && Boolean(disc(facets));

/** Few facets in which all these simplices lie, by how many each has of what is left. @param {Simplex[]} facets @param {Simplex[]} wanted */
export function chosenFacets(facets, wanted) {
  const inside = (small, large) => { const keys = new Set(large.map(vertexKey)); return small.every(it => keys.has(vertexKey(it))); };
  let left = [...wanted];
  const found = [];
  while (left.length) {
    const [many, best] = facets.reduce(([most, chosen], facet) => {
      const fits = left.filter(it => inside(it, facet)).length;
      return fits > most ? [fits, facet] : [most, chosen];
    }, [0, null]);
    if (!many) break;
    found.push(best);
    left = left.filter(it => !inside(it, best));
  }
  return facets.filter(it => found.includes(it));
}

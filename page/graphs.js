// Places of vertices in the plane: of a path, a cycle, a disc of triangles, or any graph; as python/wfcheck/drawing/graphs.py.
import { compareLists, faces, keyOf, vertexKey } from "./tasks.js";

/** @typedef {[number, number]} XY */
/** @typedef {Map<string, XY>} Places   by `vertexKey` */

const TURNS = 400, THINNEST = 0.08;
export const sumOf = list => list.reduce((sum, it) => sum + it, 0);
export const mean = list => sumOf(list) / list.length;
/** @param {XY[]} places @returns {XY} */
export const middleOf = places => [mean(places.map(it => it[0])), mean(places.map(it => it[1]))];
/** The area of a triangle, which is negative if its corners go round with the clock. */
export const areaOf = ([[ax, ay], [bx, by], [cx, cy]]) => ((bx - ax) * (cy - ay) - (cx - ax) * (by - ay)) / 2;

/** The vertices of simplices, each with those that share an edge with it. @returns {Map<string, string[]>} */
export function neighbours(simplices) {
  const found = new Map();
  for (const simplex of simplices) for (const one of simplex) {
    const key = vertexKey(one);
    if (!found.has(key)) found.set(key, new Set());
    for (const other of simplex) if (vertexKey(other) !== key) found.get(key).add(vertexKey(other));
  }
  const order = (a, b) => compareLists(a.split("=").map(Number), b.split("=").map(Number));
  return new Map([...found.keys()].sort(order).map(key => [key, [...found.get(key)].sort(order)]));
}

/** The vertices of a path or a cycle in their order, from one of them on. */
function walk(around, first) {
  const found = [first];
  for (;;) {
    const more = around.get(found[found.length - 1]).filter(it => !found.includes(it));
    if (!more.length) return found;
    found.push(more[0]);
  }
}

/** Places moved so that the least coordinates are 0. @param {Places} places @returns {Places} */
export function lowest(places) {
  const all = [...places.values()], left = Math.min(...all.map(it => it[0])), low = Math.min(...all.map(it => it[1]));
  return new Map([...places].map(([key, [x, y]]) => [key, [x - left, y - low]]));
}

/** Vertices on a circle, with an edge at the bottom. */
function polygon(keys) {
  const many = keys.length, radius = 1 / (2 * Math.sin(Math.PI / many));
  return lowest(new Map(keys.map((key, at) => {
    const angle = -Math.PI / 2 + Math.PI / many * (2 * at - 1);
    return [key, [radius * Math.cos(angle), radius * Math.sin(angle)]];
  })));
}

/** Places for a connected graph. @returns {Places} */
export function graph(simplices) {
  const around = neighbours(simplices), keys = [...around.keys()];
  const degrees = keys.map(it => around.get(it).length).sort((a, b) => a - b), most = degrees[degrees.length - 1];
  if (keys.length === 1) return new Map([[keys[0], [0, 0]]]);
  if (most <= 2 && degrees[0] === 1) return new Map(walk(around, keys.find(it => around.get(it).length === 1)).map((key, at) => [key, [at, 0]]));
  if (most <= 2) return polygon(walk(around, keys[0]));
  return byDistances(around);
}

/** How far vertices are from one another, in edges. */
function distances(around) {
  const found = new Map();
  for (const start of around.keys()) {
    const far = new Map([[start, 0]]);
    let border = [start];
    while (border.length) {
      const after = [];
      for (const it of border) for (const other of around.get(it)) if (!far.has(other)) { far.set(other, far.get(it) + 1); after.push(other); }
      border = after;
    }
    found.set(start, far);
  }
  return found;
}

/** Places whose distances are near to those in the graph: each turn moves a vertex to where the others would have it. @returns {Places} */
export function byDistances(around) {
  const far = distances(around), first = far.get([...around.keys()][0]), order = [...around.keys()].sort((a, b) => first.get(a) - first.get(b));
  const places = new Map(order.map((key, at) => [key, [Math.cos(2.4 * at) * (1 + at / order.length), Math.sin(2.4 * at) * (1 + at / order.length)]]));
  for (let turn = 0; turn < TURNS; turn++) for (const it of order) {
    let x = 0, y = 0, weights = 0;
    for (const other of order) if (other !== it) {
      const wanted = far.get(it).get(other) ?? order.length, [ax, ay] = places.get(it), [bx, by] = places.get(other);
      const length = Math.hypot(ax - bx, ay - by) || 1e-6, weight = 1 / wanted ** 2;
      x += weight * (bx + wanted * (ax - bx) / length);
      y += weight * (by + wanted * (ay - by) / length);
      weights += weight;
    }
    places.set(it, [x / weights, y / weights]);
  }
  return lowest(turned(places));
}

/** Places turned so that they are widest from left to right. */
function turned(places) {
  const all = [...places.values()], [mx, my] = middleOf(all);
  const xx = sumOf(all.map(([x, y]) => (x - mx) ** 2 - (y - my) ** 2)), xy = sumOf(all.map(([x, y]) => 2 * (x - mx) * (y - my)));
  const angle = -0.5 * Math.atan2(xy, xx), sine = Math.sin(angle), cosine = Math.cos(angle);
  return new Map([...places].map(([key, [x, y]]) => [key, [(x - mx) * cosine - (y - my) * sine, (x - mx) * sine + (y - my) * cosine]]));
}

/** The border of a disc of triangles as a cycle, or null if they are no disc. */
function borderOf(triangles) {
  const edges = new Map();
  for (const triangle of triangles) for (const edge of faces(triangle)) if (edge.length === 2) {
    const found = edges.get(keyOf(edge)) ?? { edge, many: 0 };
    found.many++;
    edges.set(keyOf(edge), found);
  }
  const vertices = new Set(triangles.flat().map(vertexKey)), all = [...edges.values()];
  if (all.some(it => it.many > 2) || vertices.size - edges.size + triangles.length !== 1) return null;
  const around = neighbours(all.filter(it => it.many === 1).map(it => it.edge));
  if ([...around.values()].some(it => it.length !== 2)) return null;
  const cycle = walk(around, [...around.keys()][0]);
  return cycle.length === around.size ? cycle : null;
}

/** Places for a disc of triangles, none of them thin, or null: the border is a polygon, and each other vertex is in the middle of its
 * neighbours. @returns {Places | null} */
export function disc(facets) {
  const cycle = facets.every(it => it.length === 3) ? borderOf(facets) : null;
  if (!cycle) return null;
  const around = neighbours(facets), places = polygon(cycle), inner = [...around.keys()].filter(it => !places.has(it));
  const middle = middleOf([...places.values()]);
  for (const it of inner) places.set(it, middle);
  for (let turn = 0; turn < (inner.length ? TURNS : 0); turn++) {
    for (const it of inner) places.set(it, middleOf(around.get(it).map(other => places.get(other))));
  }
  const thinnest = Math.min(...facets.map(it => Math.abs(areaOf(it.map(vertex => places.get(vertexKey(vertex)))))));
  return thinnest > THINNEST ? places : null;
}

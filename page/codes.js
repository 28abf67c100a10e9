// The small tasks: three processes that begin alike decide 0 or 1. A code has the mask of the triangle, those of the edges 01, 02 and 12, and
// those of the processes alone; as the table gallery/atlas/three-binary.tsv.
import { compareLists, textOf } from "./tasks.js";

/** @typedef {{t: number, e: number[], v: number[]}} Masks */

export const OCTA_EDGES = [[0, 1], [0, 2], [1, 2]];
const CODE = /^b-([0-9a-f]{2})-([0-9a-f])\.([0-9a-f])\.([0-9a-f])-([0-3])\.([0-3])\.([0-3])$/;

/** @param {Masks} masks */
export const codeOf = ({ t, e, v }) => `b-${t.toString(16).padStart(2, "0")}-${e.map(it => it.toString(16)).join(".")}-${v.join(".")}`;

/** The masks of a code, or null. @param {string} code @returns {Masks | null} */
export function masksOf(code) {
  const found = CODE.exec(code.trim().toLowerCase());
  if (!found) return null;
  const [t, e1, e2, e3, ...v] = found.slice(1).map(it => parseInt(it, 16));
  return { t, e: [e1, e2, e3], v };
}

/** Which bits of a face's mask lie under bits of a larger one's. */
function shadowOf(mask, width, places) {
  let found = 0;
  for (let k = 0; k < 1 << width; k++) {
    if (mask >> k & 1) found |= 1 << places.reduce((sum, p, at) => sum + ((k >> p & 1) << at), 0);
  }
  return found;
}

/** The masks without tuples from which a larger simplex can't go on. @param {Masks} masks @returns {Masks} */
export function pruned({ t, e, v }) {
  const edges = e.map((mask, at) => mask & shadowOf(t, 3, OCTA_EDGES[at]));
  const ends = v.map((mask, p) => OCTA_EDGES.reduce(
    (left, edge, at) => edge.includes(p) ? left & shadowOf(edges[at], 2, [edge.indexOf(p)]) : left, mask & shadowOf(t, 3, [p])));
  return { t, e: edges, v: ends };
}

/** The least code of the class of a task, or null if pruning leaves nothing somewhere. @param {Masks} masks */
export function classOf(masks) {
  const { t, e, v } = pruned(masks);
  if (!t || e.includes(0) || v.includes(0)) return null;
  let least = null;
  for (const order of [[0, 1, 2], [0, 2, 1], [1, 0, 2], [1, 2, 0], [2, 0, 1], [2, 1, 0]]) for (let flip = 0; flip < 8; flip++) {
    const moved = (mask, who) => {
      const target = who.map(p => order[p]).sort();
      let found = 0;
      for (let k = 0; k < 1 << who.length; k++) if (mask >> k & 1) {
        found |= 1 << who.reduce((sum, p, at) => sum + (((k >> at & 1) ^ (flip >> p & 1)) << target.indexOf(order[p])), 0);
      }
      return [target.join(""), found];
    };
    const edges = Object.fromEntries(OCTA_EDGES.map((edge, at) => moved(e[at], edge)));
    const ends = Object.fromEntries([0, 1, 2].map(p => moved(v[p], [p])));
    const code = codeOf({ t: moved(t, [0, 1, 2])[1], e: ["01", "02", "12"].map(it => edges[it]), v: ["0", "1", "2"].map(it => ends[it]) });
    if (least === null || code < least) least = code;
  }
  return least;
}

/** The text of the task of a code. @param {Masks} masks */
export function taskOfMasks({ t, e, v }) {
  const lists = (mask, width) => Array.from({ length: 1 << width }, (_, k) => k).filter(k => mask >> k & 1)
    .map(k => Array.from({ length: width }, (_, at) => k >> at & 1)).sort(compareLists);
  const start = who => who.map(p => [p, 0]);
  return textOf({ processes: 3, symmetric: false }, [
    ...[0, 1, 2].map(p => [start([p]), lists(v[p], 1)]), ...OCTA_EDGES.map((edge, at) => [start(edge), lists(e[at], 2)]),
    [start([0, 1, 2]), lists(t, 3)]]);
}

/** How many tuples a code allows. @param {Masks} masks */
export const tuplesOf = ({ t, e, v }) => [t, ...e, ...v].reduce((sum, it) => sum + [...it.toString(2)].filter(bit => bit === "1").length, 0);

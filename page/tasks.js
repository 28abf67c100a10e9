// Tasks: simplices, the text of a task file, and what it says; as python/wfcheck/tasks.py.

/** @typedef {[number, number]} Vertex  a process with its value */
/** @typedef {Vertex[]} Simplex         by ascending process */
/**
 * @typedef {object} Rules              what a task file says
 * @property {number} processes
 * @property {boolean} symmetric
 * @property {number} firstBlock
 * @property {Simplex[]} simplices      in the order of their numbers
 * @property {Simplex[]} facets
 * @property {Map<string, number[][]>} allowed   by `keyOf` of an input simplex, ascending
 * @property {number[]} values
 */

/** What a task can't be made from, in a sentence. */
export class Mistake extends Error {}

export const LARGEST = 255;
export const LARGEST_PLAIN = 63;
export const LONGEST = 16777216;
export const MOST = { "input vertices": 64, "input simplices, with their faces": 4096, "listed outputs": 65536, "value lists": 65536 };

/** What simplices are compared by. @param {Simplex} simplex */
export const keyOf = simplex => simplex.map(([p, v]) => p + "=" + v).join(",");
/** @param {Vertex} vertex */
export const vertexKey = ([p, v]) => p + "=" + v;

/** The non-empty parts of a list by size, each size in the order of combinations. @template T @param {T[]} items @returns {T[][]} */
export function faces(items) {
  const found = [];
  const longer = (begun, from, size) => {
    if (begun.length === size) { found.push(begun); return; }
    for (let at = from; at < items.length; at++) longer([...begun, items[at]], at + 1, size);
  };
  for (let size = 1; size <= items.length; size++) longer([], 0, size);
  return found;
}

/** Which of two lists comes first, as Python compares lists. */
export function compareLists(a, b) {
  for (let at = 0; at < Math.min(a.length, b.length); at++) {
    const by = Array.isArray(a[at]) ? compareLists(a[at], b[at]) : a[at] - b[at];
    if (by) return by;
  }
  return a.length - b.length;
}
export const bySize = (a, b) => a.length - b.length || compareLists(a, b);

/** Simplices and their faces, in the order of their numbers. @param {Simplex[]} listed @returns {Simplex[]} */
export function simplicesOf(listed) {
  const found = new Map();
  for (const simplex of listed) for (const face of faces([...simplex].sort(compareLists))) found.set(keyOf(face), face);
  return [...found.values()].sort(bySize);
}

/** The simplices that are no part of another one. @param {Simplex[]} listed @returns {Simplex[]} */
export function facetsOf(listed) {
  const every = new Map(listed.map(it => [keyOf(it), it])), parts = new Set();
  for (const it of every.values()) for (const face of faces(it)) if (face.length < it.length) parts.add(keyOf(face));
  return [...every].filter(([key]) => !parts.has(key)).map(([, it]) => it).sort(bySize);
}

/**
 * The text of a task file: `rules` are pairs of an input simplex and its value lists, in the order of their numbers.
 * @param {{processes: number, symmetric: boolean, firstBlock?: number | null}} about
 * @param {[Simplex, number[][]][]} rules
 */
export function textOf({ processes, symmetric, firstBlock = null }, rules) {
  const ends = new Map();
  for (const [start, rule] of rules) for (const each of rule) {
    const end = start.map(([p], at) => [p, each[at]]);
    ends.set(keyOf(end), end);
  }
  return JSON.stringify({
    delta: rules.map(([start, rule]) => ({ in: start, out: rule })),
    ...(firstBlock === null ? {} : { first_block: firstBlock }),
    inputs: facetsOf(rules.map(([start]) => start)), outputs: facetsOf([...ends.values()]),
    processes, symmetric, version: firstBlock === null ? 1 : 2,
  }) + "\n";
}

/** What the text of a task says. The program has to accept the text. @param {string} text @returns {Rules} */
export function rulesOf(text) {
  const whole = JSON.parse(text);
  const simplices = simplicesOf(whole.inputs), facets = facetsOf(whole.inputs), allowed = new Map();
  for (const it of whole.delta) {
    const each = new Map(it.out.map(values => [values.join(), values]));
    allowed.set(keyOf(it.in), [...each.values()].sort(compareLists));
  }
  const values = [...new Set(whole.outputs.flat().map(([, v]) => v))].sort((a, b) => a - b);
  return { processes: whole.processes, symmetric: whole.symmetric, firstBlock: whole.first_block ?? 1, simplices, facets, allowed, values };
}

// The executions of a task after some rounds, and the views in which they end; as python/wfcheck/drawing/subdivision.py.
import { compareLists, keyOf, vertexKey } from "./tasks.js";

/** @typedef {import("./tasks.js").Rules} Rules */
/** @typedef {import("./tasks.js").Simplex} Simplex */
/** @typedef {{process: number, seen: number[], start: [number, number] | null, share: Map<string, number>}} View  `share` has the parts of the
 *   input vertices in its place: its barycentric coordinates */
/** @typedef {{simplex: Simplex, words: number[][], ends: number[]}} Execution */

const known = new Map();
/** The ordered partitions of so many participants, in order, whose first block has so many of them, or all. @returns {number[][]} */
export function blockWords(participants, firstBlock) {
  const key = participants + "/" + firstBlock;
  if (!known.has(key)) {
    let every = [[]];
    for (let at = 0; at < participants; at++) every = every.flatMap(it => Array.from({ length: participants }, (_, block) => [...it, block]));
    const least = Math.min(firstBlock, participants);
    known.set(key, every.filter(it => new Set(it).size === Math.max(...it) + 1 && it.filter(block => !block).length >= least));
  }
  return known.get(key);
}

/** How many executions of simplices with at most so many participants there are after some rounds. @param {Rules} rules */
export const manyExecutions = (rules, rounds, most = 4) => rules.simplices.filter(it => it.length <= most)
  .reduce((sum, it) => sum + blockWords(it.length, rules.firstBlock).length ** rounds, 0);

/** The complex of a task after some rounds, with its executions and points in the order of their numbers. A point is a view, or in a symmetric
 * task a class of views. */
export class Complex {
  /** @param {Rules} rules @param {number} rounds @param {number} most  participants of simplices whose executions are listed */
  constructor(rules, rounds, most = 4) {
    Object.assign(this, { rules, rounds, memo: new Map(), ids: new Map(), numbers: new Map() });
    /** @type {View[]} */ this.views = [];
    /** @type {Execution[]} */ this.executions = [];
    /** @type {number[]} */ this.points = [];
    this.classes = new Map();
    for (const simplex of rules.simplices.filter(it => it.length <= most)) {
      this.run(simplex, [], simplex.map(([p, v]) => this.number(p, [], [p, v])));
    }
    for (const it of this.executions) for (const view of it.ends) if (this.points[view] === undefined) {
      const key = rules.symmetric ? this.ranked(view, this.carrier(view).map(([p]) => p)) : view;
      if (!this.classes.has(key)) this.classes.set(key, this.classes.size);
      this.points[view] = this.classes.get(key);
    }
  }

  /** The number of a view, which is the next one if the view is new. */
  number(process, seen, start) {
    const key = start ? "s" + process + "=" + start[1] : process + "<" + seen.join();
    let found = this.numbers.get(key);
    if (found !== undefined) return found;
    found = this.views.length;
    this.numbers.set(key, found);
    const share = new Map(), whole = 2 * seen.length - 1;
    if (start) share.set(vertexKey(start), 1);
    for (const it of seen) {
      const part = (this.views[it].process === process ? 1 : 2) / whole;
      for (const [vertex, each] of this.views[it].share) share.set(vertex, (share.get(vertex) ?? 0) + part * each);
    }
    this.views.push({ process, seen, start, share });
    return found;
  }

  /** Adds the executions of a simplex that begin with these words and are at these views. */
  run(simplex, before, ends) {
    if (before.length === this.rounds) { this.executions.push({ simplex, words: before, ends }); return; }
    for (const word of blockWords(simplex.length, this.rules.firstBlock)) {
      const after = word.map((block, place) => this.number(simplex[place][0], ends.filter((_, other) => word[other] <= block), null));
      this.run(simplex, [...before, word], after);
    }
  }

  /** The input vertices that a view knows. @returns {[number, number][]} */
  carrier(view) {
    return [...this.views[view].share.keys()].map(it => /** @type {[number, number]} */ (it.split("=").map(Number))).sort(compareLists);
  }

  /** The number of a view in which processes are ranks. */
  ranked(view, order) {
    const key = view + "/" + order.join();
    if (!this.memo.has(key)) {
      const it = this.views[view], rank = order.indexOf(it.process);
      const text = it.start ? rank + "=" + it.start[1] : rank + "<" + it.seen.map(each => this.ranked(each, order)).join();
      if (!this.ids.has(text)) this.ids.set(text, this.ids.size);
      this.memo.set(key, this.ids.get(text));
    }
    return this.memo.get(key);
  }

  /** An execution in words, as `wfcheck explain` tells it. */
  executionText(number, inputName = String) {
    const it = this.executions[number], plain = it.simplex.map(([p], at) => this.rules.symmetric ? "#" + at : "p" + p);
    return (it.words.length ? it.words : [it.simplex.map(() => 0)]).map((word, round) => {
      const names = round ? plain : plain.map((name, at) => name + "=" + inputName(it.simplex[at][1]));
      return Array.from({ length: Math.max(...word) + 1 }, (_, block) => "{" + names.filter((_, at) => word[at] === block).join(" ") + "}").join("");
    }).join(" ; ");
  }

  /** A view in words, as `wfcheck points` tells it. */
  viewText(view, inputName = String) {
    const order = this.carrier(view).map(([p]) => p);
    const told = number => {
      const it = this.views[number], name = this.rules.symmetric ? "#" + order.indexOf(it.process) : "p" + it.process;
      return it.start ? `${name}=${inputName(it.start[1])}` : `${name} saw {${it.seen.map(told).join(", ")}}`;
    };
    return told(view);
  }

  /** The sign of an execution: 1 if participants times rounds less blocks is even, else -1. */
  sign(number) {
    const it = this.executions[number];
    return it.words.reduce((sum, word) => sum + it.simplex.length - new Set(word).size, 0) % 2 ? -1 : 1;
  }

  /** What an execution decides if the points have these values. */
  tupleOf(number, values) {
    return this.executions[number].ends.map(view => values[this.points[view]]);
  }

  simplexKey(number) {
    return keyOf(this.executions[number].simplex);
  }
}

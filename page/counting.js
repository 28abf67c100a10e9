// A balance as weights: which tuples carry which weight on which simplex, and the count of a choice of values; as
// python/wfcheck/drawing/counting.py.
import { kin } from "./obstructions.js";
import { keyOf } from "./tasks.js";

/** @typedef {import("./tasks.js").Rules} Rules */
/** @typedef {{modulus: number, sum: number, tuples: Map<string, number>, simplices: import("./tasks.js").Simplex[]}} Weights  each tuple at an
 *   input simplex has a weight, and the count is `sum` modulo `modulus`, whatever is decided */

/** The weights that the multipliers of a balance give to all tuples of the task at hand. @param {Rules} rules
 * @param {import("./obstructions.js").Node} node @returns {Weights} */
export function balanced(rules, node) {
  const first = new Map();
  for (const it of rules.simplices) if (!first.has(kin(rules, it))) first.set(kin(rules, it), it);
  const [modulus] = node.numbers, tuples = new Map(), simplices = new Map();
  const add = (simplex, values, factor) => {
    const at = keyOf(simplex) + ":" + values.join();
    simplices.set(at, simplex);
    tuples.set(at, (tuples.get(at) ?? 0) + factor);
  };
  let total = 0;
  for (const [factor, number, place, ...others] of node.lines) {
    const simplex = first.get(kin(rules, rules.simplices[number]));
    for (const value of rules.values) add(simplex, [...others.slice(0, place), value, ...others.slice(place)], factor);
    if (simplex.length > 1) add(first.get(kin(rules, simplex.filter((_, at) => at !== place))), others, -factor);
    else total += factor;
  }
  const rest = it => ((it % modulus) + modulus) % modulus;
  const kept = new Map([...tuples].map(([at, it]) => [at, rest(it)]).filter(([, it]) => it));
  const counted = new Map([...kept.keys()].map(at => [keyOf(simplices.get(at)), simplices.get(at)]));
  return { modulus, sum: rest(total), tuples: kept, simplices: [...counted.values()] };
}

/** The values from which each point draws: those that the task allows there to its process, or all if it allows none.
 * @param {import("./subdivision.js").Complex} made @returns {number[][]} */
export function choicesOf(made) {
  const found = Array.from({ length: made.classes.size }, () => made.rules.values);
  made.points.forEach((point, view) => {
    const simplex = made.carrier(view), place = simplex.findIndex(([p]) => p === made.views[view].process);
    const allowed = new Set((made.rules.allowed.get(keyOf(simplex)) ?? []).map(it => it[place])), some = found[point].filter(it => allowed.has(it));
    if (some.length) found[point] = some;
  });
  return found;
}

/** The executions that count if the points have these values: by number, with sign and weight. @returns {Map<number, number>} */
export function countOf(made, weights, values) {
  const counted = new Map();
  made.executions.forEach((_, number) => {
    const weight = weights.tuples.get(made.simplexKey(number) + ":" + made.tupleOf(number, values).join());
    if (weight) counted.set(number, made.sign(number) * weight);
  });
  return counted;
}

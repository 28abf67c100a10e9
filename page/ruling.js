// A decision map as few rules, of which the first that fits a view says what is decided: found greedily, as python/wfcheck/ruling/search.py,
// and compared with the map at each point. Sets of points are bits of 32-bit numbers.
import { factsOf, outcomes, tests } from "./grammar.js";
import { Complex } from "./subdivision.js";
import { rulesOf } from "./tasks.js";

/** @typedef {import("./grammar.js").Test} Test */
/** @typedef {import("./grammar.js").Outcome} Outcome */
/** @typedef {{tests: Test[], outcome: Outcome, points: number}} Rule */

const MOST_RULES = 40, MOST_TESTS = 3, MOST_CHOICES = 60000, MOST_BITS = 50000000;
/** By how much of a rule another test counts: each is tried, and the shortest list is taken. */
const WEIGHTS = [0.25, 0.5, 1];
const MOST_POINTS = 20000;

/** @param {boolean[]} truths */
function bitsOf(truths) {
  const found = new Uint32Array(Math.ceil(truths.length / 32));
  truths.forEach((it, at) => { if (it) found[at >> 5] |= 1 << (at & 31); });
  return found;
}
const both = (a, b) => a.map((it, at) => it & b[at]), isEmpty = bits => bits.every(it => !it), keyOfBits = bits => bits.join();
function manyIn(bits) {
  let sum = 0;
  for (let it of bits) {
    it -= it >>> 1 & 0x55555555;
    it = (it & 0x33333333) + (it >>> 2 & 0x33333333);
    sum += Math.imul(it + (it >>> 4) & 0x0f0f0f0f, 0x01010101) >>> 24;
  }
  return sum;
}

/** The sets of points that one, two or three tests leave, each with the first tests that do, the fewest first. @returns {[Uint32Array, Test[]][]} */
function choicesOf(points, listed) {
  const whole = bitsOf(points.map(() => true)), found = new Map([[keyOfBits(whole), [whole, []]]]);
  for (const test of listed) {
    const bits = bitsOf(points.map(test.fits)), key = keyOfBits(bits);
    if (!isEmpty(bits) && !found.has(key)) found.set(key, [bits, [test]]);
  }
  const ones = [...found.values()].filter(([, it]) => it.length), most = Math.min(MOST_CHOICES, MOST_BITS / points.length);
  const grow = (bits, chosen, from, size) => {
    for (let at = from; at < ones.length; at++) {
      const more = both(bits, ones[at][0]), tests = [...chosen, ones[at][1][0]];
      if (tests.length < size) { if (!grow(more, tests, at + 1, size)) return false; continue; }
      const key = keyOfBits(more);
      if (!isEmpty(more) && !found.has(key)) found.set(key, [more, tests]);
      if (found.size > most) return false;
    }
    return true;
  };
  for (let size = 2; size <= MOST_TESTS; size++) if (!grow(whole, [], 0, size)) break;
  return [...found.values()];
}

/** A list of rules, each the best about the points that are left; or null if it gets too long. @returns {Rule[] | null} */
function listed(size, choices, wrong, weight) {
  let left = bitsOf(Array.from({ length: size }, () => true));
  const found = [];
  while (!isEmpty(left) && found.length < MOST_RULES) {
    const chosen = best(left, choices, wrong, weight);
    if (!chosen) return null;
    found.push(chosen.rule);
    left = left.map((it, at) => it & ~chosen.bits[at]);
  }
  return isEmpty(left) ? found : null;
}

/** The rule that decides most of the points that are left, for its length. */
function best(left, choices, wrong, weight) {
  let most = 0, chosen = null;
  const seen = new Set();
  for (const [bits, several] of choices) {
    const here = both(bits, left);
    if (isEmpty(here)) continue;
    const key = keyOfBits(here);
    if (seen.has(key)) continue;
    seen.add(key);
    const points = manyIn(here), cost = 1 + weight * Math.max(several.length - 1, 0);
    if (points / cost <= most) continue;
    for (const [faults, outcome] of wrong) {
      const worth = points / (cost + outcome.cost);
      if (worth > most && here.every((it, at) => !(it & faults[at]))) { most = worth; chosen = { bits, rule: { tests: several, outcome, points } }; }
    }
  }
  return chosen;
}

/** The rules of a map in words, each with how many points it decides, or null if there would be too many.
 * @param {string} text @param {number} rounds @param {number[]} values @param {import("./names.js").Names} names */
export function rulesOfMap(text, rounds, values, names) {
  if (values.length > MOST_POINTS) return null;
  const made = new Complex(rulesOf(text), rounds), points = factsOf(made);
  const about = { symmetric: made.rules.symmetric, processes: 1 + Math.max(...points.map(it => it.process)), rounds,
    inputs: [...new Set(points.flatMap(it => [...it.inputs.values()]))].sort((a, b) => a - b), values: [...new Set(values)].sort((a, b) => a - b), names };
  const choices = choicesOf(points, tests(about)), wrong = new Map();
  for (const it of outcomes(about)) {
    const bits = bitsOf(points.map((each, at) => it.value(each) !== values[at]));
    if (!wrong.has(keyOfBits(bits))) wrong.set(keyOfBits(bits), [bits, it]);
  }
  const cost = rules => rules.reduce((sum, it) => sum + it.tests.length + it.outcome.cost, 0);
  const found = WEIGHTS.map(weight => listed(points.length, choices, [...wrong.values()], weight)).filter(Boolean)
    .sort((a, b) => a.length - b.length || cost(a) - cost(b))[0];
  if (!found) return null;
  points.forEach((it, at) => {
    const decided = found.find(rule => rule.tests.every(test => test.fits(it))).outcome.value(it);
    if (decided !== values[at]) throw new Error(`the rules decide ${decided} where the map decides ${values[at]}`);
  });
  return found.map((it, at) => ({ words: at + 1 < found.length ? it.tests.map(test => test.words).join(", ") : at ? "else" : "always",
    outcome: it.outcome.words, points: it.points }));
}

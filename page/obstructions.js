// The tree that an obstruction is, and the task at hand at each of its nodes: by docs/FORMAT.md, as oracle/obstructions.py.
import { compareLists, keyOf } from "./tasks.js";

/** @typedef {import("./tasks.js").Rules} Rules */
/** @typedef {{name: "case" | "split" | "cover" | "balance", numbers: number[], lines: number[][]}} Node */
/** @typedef {{node: Node, rules: Rules, depth: number, part: number | null, names: Map<number, string>}} Hand   the task at hand above a node:
 *   `part` says which case it is, and `names` what new values stand for */

/** The nodes of an obstruction in their order. @param {string} text @returns {Node[]} */
export function nodesOf(text) {
  const nodes = [];
  for (const line of text.split("\n").slice(3)) {
    const [word, ...rest] = line.split(" "), numbers = rest.map(Number);
    if (["case", "split", "cover", "balance"].includes(word)) nodes.push({ name: word, numbers, lines: [] });
    else if (nodes.length && (word === "m" || word === "p")) nodes[nodes.length - 1].lines.push(numbers);
  }
  return nodes;
}

/** "1 split, 1 balance modulo 2", as the last line of `ask` has it. @param {Node[]} nodes */
export function nodesInWords(nodes) {
  const told = ["split", "cover", "case", "balance"].map(kind => [nodes.filter(it => it.name === kind).length, kind]).filter(([many]) => many)
    .map(([many, kind]) => `${many.toLocaleString("en")} ${kind}${many > 1 ? "s" : ""}`).join(", ");
  const moduli = [...new Set(nodes.filter(it => it.name === "balance").map(it => it.numbers[0]))].sort((a, b) => a - b);
  return moduli.length ? `${told} modulo ${moduli.join(", ")}` : told;
}

/** The task at hand at each node, in preorder. The program has to accept the obstruction. @param {Rules} rules @param {Node[]} nodes @returns {Hand[]} */
export function handsOf(rules, nodes) {
  const found = [];
  let next = 0;
  const enter = (hand, depth, part, names) => {
    const node = nodes[next++];
    found.push({ node, rules: hand, depth, part, names });
    if (node.name === "case") casesOf(hand, node).forEach((each, at) => enter(each, depth + 1, at, names));
    else if (node.name !== "balance") {
      const made = node.name === "split" ? splitOf(hand, node) : coverOf(hand, node);
      enter(made.rules, depth + 1, null, new Map([...names, ...made.names]));
    }
  };
  enter(rules, 0, null, new Map());
  return found;
}

const without = (it, place) => it.filter((_, at) => at !== place);
const tuplesOf = (rules, simplex) => rules.allowed.get(keyOf(simplex)) ?? [];
/** The first name above all values of a task at hand. */
const newName = rules => 1 + Math.max(0, ...[...rules.allowed.values()].flat(2));
const unique = tuples => [...new Map(tuples.map(it => [it.join(), it])).values()].sort(compareLists);
/** What simplices have in common on which executions decide alike. */
export const kin = (rules, simplex) => rules.symmetric ? simplex.map(([, v]) => v).join() : keyOf(simplex);

/** Parts of ascending tuples, by their first ones: steps join them, and a step changes the value at one of the free places. */
export function partsOf(tuples, free) {
  const near = new Map(), done = new Set(), found = [];
  const keyAt = (it, place) => place + ":" + without(it, place).join();
  for (const it of tuples) for (const place of free) {
    const key = keyAt(it, place);
    near.set(key, [...(near.get(key) ?? []), it]);
  }
  for (const first of tuples) {
    if (done.has(first.join())) continue;
    const part = [], waiting = [first];
    done.add(first.join());
    while (waiting.length) {
      const it = waiting.pop();
      part.push(it);
      for (const place of free) for (const other of near.get(keyAt(it, place)) ?? []) {
        if (!done.has(other.join())) { done.add(other.join()); waiting.push(other); }
      }
    }
    found.push(part.sort(compareLists));
  }
  return found;
}

/** The values that a task at hand allows somewhere. */
const valued = (rules, allowed) => ({ ...rules, allowed, values: [...new Set([...allowed.values()].flat(2))].sort((a, b) => a - b) });

/** A task for each part of what is allowed at a simplex. @returns {Rules[]} */
function casesOf(rules, { numbers: [number] }) {
  const simplex = rules.simplices[number], free = simplex.length > 1 ? simplex.map((_, at) => at) : [];
  return partsOf(tuplesOf(rules, simplex), free).map(part => {
    const inPart = new Set(part.map(it => it.join()));
    return valued(rules, new Map(rules.simplices.map(it => [keyOf(it),
      kin(rules, it) === kin(rules, simplex) ? tuplesOf(rules, it).filter(each => inPart.has(each.join())) : tuplesOf(rules, it)])));
  });
}

/** The task with a name of its own for each part of the tuples that have a value at a place. */
function splitOf(rules, { numbers: [number] }) {
  const simplex = rules.simplices[number], tuples = tuplesOf(rules, simplex), lifts = new Map(tuples.map(it => [it.join(), [...it]]));
  const first = newName(rules), names = new Map(), choices = new Map();
  simplex.forEach(([process], place) => {
    const taken = new Set();
    let next = first;
    for (const part of partsOf(tuples, simplex.map((_, at) => at).filter(it => it !== place))) {
      const value = part[0][place], name = taken.has(value) ? next++ : value;
      taken.add(value);
      if (name !== value) names.set(name, `${value}′`);
      for (const it of part) lifts.get(it.join())[place] = name;
      const key = process + "=" + value;
      choices.set(key, new Set([...(choices.get(key) ?? [value]), name]));
    }
  });
  const lifted = tuples.map(it => [it, [lifts.get(it.join())]]);
  return { rules: stepped(rules, simplex, lifted, (p, v) => [...(choices.get(p + "=" + v) ?? [v])]), names };
}

/** The task with the values of a simplex on sheets. */
function coverOf(rules, node) {
  const [number, sheets, corner] = node.numbers, simplex = rules.simplices[number], add = newName(rules), names = new Map();
  const moves = new Map(node.lines.map(it => [it.slice(0, 4).join(), it.slice(4)])), every = Array.from({ length: sheets }, (_, at) => at);
  const moved = (it, i, j) => {
    const go = moves.get([i, it[i], j, it[j]].join());
    if (go || i === j) return go ?? every;
    const back = moves.get([j, it[j], i, it[i]].join()) ?? every;
    return every.map(sheet => back.indexOf(sheet));
  };
  const lifted = tuplesOf(rules, simplex).map(it => [it, every.map(sheet => it.map((value, place) => value + add * moved(it, corner, place)[sheet]))]);
  for (const value of rules.values) for (const sheet of every.slice(1)) names.set(value + add * sheet, `${value} on sheet ${sheet}`);
  const inside = new Set(simplex.map(([p]) => p));
  const choices = (p, v) => inside.has(p) ? every.map(sheet => v + add * sheet) : [v];
  return { rules: stepped(rules, simplex, lifted, choices, keyOf([simplex[corner]])), names };
}

/** The task after a split or a cover: a face of its simplex keeps what it keeps of the tuples that are put in place of one, if it allows what
 * it keeps of that; on other simplices each process has its choices. A corner stays as it is. */
function stepped(rules, simplex, lifted, choices, corner = null) {
  const keys = simplex.map(it => keyOf([it])), allowed = new Map();
  for (const face of rules.simplices) {
    const tuples = tuplesOf(rules, face), places = face.map(it => keys.indexOf(keyOf([it])));
    if (keyOf(face) === corner) allowed.set(keyOf(face), tuples);
    else if (places.every(it => it >= 0)) {
      const known = new Set(tuples.map(it => it.join())), kept = it => places.map(at => it[at]);
      allowed.set(keyOf(face), unique(lifted.filter(([it]) => known.has(kept(it).join())).flatMap(([, them]) => them.map(kept))));
    } else {
      allowed.set(keyOf(face), unique(tuples.flatMap(it => it.reduce(
        (rows, value, at) => rows.flatMap(row => choices(face[at][0], value).map(each => [...row, each])), [[]]))));
    }
  }
  return valued(rules, allowed);
}

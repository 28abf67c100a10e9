// What rules may ask of a view, and what they may say is decided; as python/wfcheck/ruling/grammar.py and facts.py.

/**
 * @typedef {object} Facts        what a view knows; rounds are numbered from 0 on
 * @property {number} process     or its rank
 * @property {Map<number, number>} inputs   of each process that it knows, ascending
 * @property {Map<string, Set<number>>} saw   by process and round, whom it saw
 * @property {Map<string, Set<number>>} knew  by process and round, which inputs it knew then
 */
/** @typedef {{words: string, fits: (it: Facts) => boolean}} Test */
/** @typedef {{words: string, value: (it: Facts) => number, cost: number}} Outcome */
/** @typedef {{symmetric: boolean, processes: number, rounds: number, inputs: number[], values: number[], names: import("./names.js").Names}} About */

const NUMBERS = ["none", "one", "two", "three", "four"];
/** How much harder than a value an outcome is to read: by what the view has, with a number, and less than a number. */
const PLAIN = 0, BY_VIEW = 0.3, BY_NUMBER = 0.6, BY_OTHERS = 1;

/** What the view of each point knows. In a symmetric task processes are ranks among those that the view knows.
 * @param {import("./subdivision.js").Complex} made @returns {Facts[]} */
export function factsOf(made) {
  const memo = new Map();
  const facts = (view, order) => {
    const key = view + "/" + order.join();
    if (memo.has(key)) return memo.get(key);
    const it = made.views[view], process = made.rules.symmetric ? order.indexOf(it.process) : it.process;
    let found;
    if (it.start) found = { process, inputs: new Map([[process, it.start[1]]]), saw: new Map(), knew: new Map() };
    else {
      const every = it.seen.map(each => facts(each, order));
      const saw = new Map(every.flatMap(each => [...each.saw])), knew = new Map(every.flatMap(each => [...each.knew]));
      const inputs = new Map(every.flatMap(each => [...each.inputs]).sort(([a], [b]) => a - b));
      const last = 1 + Math.max(-1, ...[...saw.keys()].map(each => Number(each.split("@")[1])));
      saw.set(process + "@" + last, new Set(every.map(each => each.process)));
      knew.set(process + "@" + last, new Set(inputs.values()));
      found = { process, inputs, saw, knew };
    }
    memo.set(key, found);
    return found;
  };
  const found = [];
  made.points.forEach((point, view) => { found[point] ??= facts(view, made.carrier(view).map(([p]) => p)); });
  return found;
}

const knownTo = it => [...it.inputs.keys()], valuesOf = it => [...it.inputs.values()], placeOf = it => knownTo(it).indexOf(it.process);
const seen = (it, at) => it.saw.get(it.process + "@" + at);
const placeIn = (it, at) => [...seen(it, at)].sort((a, b) => a - b).indexOf(it.process);
const othersAt = (listed, it, at) => [...listed].filter(([key]) => {
  const [p, when] = key.split("@").map(Number);
  return when === at && p !== it.process;
}).map(([, each]) => each);
const others = (it, at) => othersAt(it.saw, it, at), othersKnew = (it, at) => othersAt(it.knew, it, at);
const isOnly = (set, value) => set.size === 1 && set.has(value);
const range = (from, to) => Array.from({ length: Math.max(0, to - from) }, (_, at) => from + at);

/** All questions, in the order in which they stand in a rule. @param {About} about @returns {Test[]} */
export function tests(about) {
  const found = [], add = (words, fits) => found.push({ words, fits });
  const name = p => (about.symmetric ? "#" : "p") + p, when = at => about.rounds > 1 ? ` in round ${at + 1}` : "", { processes, rounds } = about;
  const many = n => n === 1 ? "alone" : `saw ${NUMBERS[n]}`;
  for (const p of range(0, processes)) add(name(p), it => it.process === p);
  add("the lowest it knows", it => placeOf(it) === 0);
  add("the highest it knows", it => placeOf(it) === it.inputs.size - 1);
  for (const p of range(0, about.symmetric ? 0 : processes)) {
    add(`knows p${p}`, it => it.inputs.has(p));
    add(`doesn't know p${p}`, it => !it.inputs.has(p));
  }
  for (const n of range(1, rounds > 1 ? processes + 1 : 1)) add(n === 1 ? "knows only itself" : `knows ${NUMBERS[n]}`, it => it.inputs.size === n);
  for (const at of range(0, rounds)) {
    for (const n of range(1, processes + 1)) add(many(n) + when(at), it => seen(it, at).size === n);
    for (const p of range(0, processes)) add(`saw ${name(p)}${when(at)}`, it => seen(it, at).has(p));
    add(`not alone${when(at)}`, it => seen(it, at).size > 1);
    if (rounds > 1) {
      add(`the lowest it saw${when(at)}`, it => placeIn(it, at) === 0);
      add(`the highest it saw${when(at)}`, it => placeIn(it, at) === seen(it, at).size - 1);
    }
  }
  for (const at of range(0, rounds - 1)) {
    for (const n of range(1, processes + 1)) {
      const told = (n === 1 ? "was alone" : `saw ${NUMBERS[n]}`) + when(at);
      add(`another ${told}`, it => others(it, at).some(each => each.size === n));
      add(`no other ${told}`, it => !others(it, at).some(each => each.size === n));
      for (const p of range(0, processes)) add(`${name(p)} ${told}`, it => (it.saw.get(p + "@" + at)?.size ?? 0) === n);
    }
    add(`another saw it${when(at)}`, it => others(it, at).some(each => each.has(it.process)));
    add(`another saw more${when(at)}`, it => others(it, at).some(each => each.size > seen(it, at).size));
    add(`another saw less${when(at)}`, it => others(it, at).some(each => each.size < seen(it, at).size));
  }
  ofInputs(about, add);
  return found;
}

/** Questions about the inputs that a view knows, and that it and others knew after earlier rounds. @param {About} about */
function ofInputs(about, add) {
  const several = about.inputs.length > 1, input = v => about.names.inputs[v] ?? String(v);
  for (const v of several ? about.inputs : []) {
    add(`its input is ${input(v)}`, it => it.inputs.get(it.process) === v);
    add(`knows only the input ${input(v)}`, it => valuesOf(it).every(each => each === v));
    add(`knows the input ${input(v)}`, it => valuesOf(it).includes(v));
    add(`doesn't know the input ${input(v)}`, it => !valuesOf(it).includes(v));
    add(`most inputs it knows are ${input(v)}`, it => 2 * valuesOf(it).filter(each => each === v).length > it.inputs.size);
  }
  add("all inputs that it knows are the same", it => new Set(valuesOf(it)).size === 1);
  add("knows several inputs", it => new Set(valuesOf(it)).size > 1);
  for (const at of range(0, several ? about.rounds - 1 : 0)) {
    for (const v of about.inputs) {
      const told = `knew only the input ${input(v)} after round ${at + 1}`;
      add(told, it => isOnly(it.knew.get(it.process + "@" + at), v));
      add(`another ${told}`, it => othersKnew(it, at).some(each => isOnly(each, v)));
      add(`no other ${told}`, it => !othersKnew(it, at).some(each => isOnly(each, v)));
    }
    const told = `knew one input after round ${at + 1}`;
    add(`each ${told}`, it => [it.knew.get(it.process + "@" + at), ...othersKnew(it, at)].every(each => each.size === 1));
    add(told, it => it.knew.get(it.process + "@" + at).size === 1);
    add(`another ${told}`, it => othersKnew(it, at).some(each => each.size === 1));
    add(`no other ${told}`, it => othersKnew(it, at).every(each => each.size > 1));
  }
}

/** All that may be said to be decided, the simple first: with names of values none but these. @param {About} about @returns {Outcome[]} */
export function outcomes(about) {
  const found = about.values.map(v => ({ words: about.names.values[v] ?? String(v), value: () => v, cost: PLAIN }));
  if (Object.keys(about.names.values).length) return found;
  const most = Math.max(0, ...about.values), mores = range(-most, most + 1), isPlain = (factor, more) => factor === 1 && more === 0;
  const inputs = about.inputs.length < 2 ? [] : [
    { words: "its input", value: it => it.inputs.get(it.process), cost: BY_VIEW },
    { words: "the least input it knows", value: it => Math.min(...valuesOf(it)), cost: BY_VIEW },
    { words: "the largest input it knows", value: it => Math.max(...valuesOf(it)), cost: BY_VIEW }];
  const ranks = [about.symmetric ? { words: "its rank", value: placeOf, cost: BY_VIEW } : { words: "its number", value: it => it.process, cost: BY_VIEW },
    ...range(0, about.rounds > 1 ? about.rounds : 0).map(at => ({ words: `its rank in round ${at + 1}`, value: it => placeIn(it, at), cost: BY_VIEW }))];
  const scaledAll = (listed, factors) => listed.flatMap(it => factors.flatMap(
    factor => mores.filter(more => !isPlain(factor, more)).map(more => scaled(it, factor, more))));
  return [...found, ...inputs, ...ranks, ...scaledAll(inputs, range(1, most + 1)), ...scaledAll(ranks, [1, -1])];
}

/** A multiple of an outcome and a number, or a number less an outcome. @returns {Outcome} */
function scaled(base, factor, more) {
  let words = factor < 0 ? `${more} - ${base.words}` : factor === 1 ? base.words : `${factor} × ${base.words}`;
  if (factor > 0 && more) words += ` ${more > 0 ? "+" : "-"} ${Math.abs(more)}`;
  return { words, value: it => factor * base.value(it) + more, cost: factor < 0 ? BY_OTHERS : BY_NUMBER };
}

// Where a task file is refused, in words with the place: as python/wfcheck/task_file.py. The program says the same number.
import { bySize, compareLists, faces, keyOf, LARGEST, LARGEST_PLAIN, LONGEST, MOST, simplicesOf } from "./tasks.js";

/** The line that the program answers after its name, and the same in words. */
export class Refused extends Error {
  constructor(line, words) {
    super(words);
    this.line = line;
    this.words = words;
  }
}

const LARGEST_OF = { 1: LARGEST_PLAIN, 2: LARGEST }, DEEPEST = 127, SHOWN = 60;
const isWhole = it => typeof it === "number" && Number.isInteger(it) && it >= 0;
const isList = (it, isItem) => Array.isArray(it) && it.every(isItem);
const isSimplex = it => isList(it, pair => isList(pair, isWhole) && pair.length === 2) && it.length > 0;
const isObject = it => typeof it === "object" && it !== null && !Array.isArray(it);
const isEntry = it => isObject(it) && Object.keys(it).sort().join() === "in,out" && isSimplex(it.in) && isList(it.out, each => isList(each, isWhole));
const SHAPES = {
  version: ["a whole number", isWhole], first_block: ["a whole number", isWhole], processes: ["a whole number", isWhole],
  symmetric: ["true or false", it => typeof it === "boolean"],
  inputs: ["a simplex, a non-empty list of pairs [process, value]", isSimplex],
  outputs: ["a simplex, a non-empty list of pairs [process, value]", isSimplex],
  delta: ['{"in": simplex, "out": [[value, ..], ..]}', isEntry],
};
const LISTS = ["inputs", "outputs", "delta"];

/** A value as it stands in the file, as far as there is room. */
function shown(it) {
  const text = JSON.stringify(it).replaceAll(/([,:])/g, "$1 ");
  return text.length <= SHOWN ? text : text.slice(0, SHOWN - 3) + "..";
}

/** The JSON value of a text. @param {string} text */
function valueOf(text) {
  if (new TextEncoder().encode(text).length > LONGEST) throw new Refused("1 TooLong", `the file has more than ${LONGEST} bytes`);
  if (!text.trim()) throw new Refused("2 NotJson", "the file is empty");
  if (text.startsWith("wfcheck ")) throw new Refused("2 NotJson", "the file is a text that wfcheck wrote, as a report, and no task");
  let depth = 0, most = 0;
  for (const [c] of text.replace(/"(?:[^"\\]|\\.)*"/gs, "").matchAll(/[[\]{}]/g)) most = Math.max(most, depth += c === "[" || c === "{" ? 1 : -1);
  if (most > DEEPEST) throw new Refused("2 NotJson", `it is nested deeper than ${DEEPEST}`);
  try {
    return JSON.parse(text);
  } catch (error) {
    throw new Refused("2 NotJson", error.message);
  }
}

/** Refuses what has not the keys and kinds of values of a task file. */
function judgeShape(value) {
  if (!isObject(value)) throw new Refused("3 Shape whole 0", "the file is not one object { .. }");
  const keys = Object.keys(SHAPES).filter(key => key !== "first_block" || value.version === 2);
  for (const key of keys) {
    const [shape, hasShape] = SHAPES[key], it = value[key];
    if (!Object.hasOwn(value, key)) throw new Refused(`3 Shape ${key} 0`, `the key "${key}" is missing`);
    if (!LISTS.includes(key)) {
      if (!hasShape(it)) throw new Refused(`3 Shape ${key} 0`, `"${key}" is not ${shape}: ${shown(it)}`);
    } else if (!Array.isArray(it)) throw new Refused(`3 Shape ${key} 0`, `"${key}" is not a list: ${shown(it)}`);
    else {
      const place = it.findIndex(each => !hasShape(each));
      if (place >= 0) throw new Refused(`3 Shape ${key} ${place}`, `in "${key}", item ${place} is not ${shape}: ${shown(it[place])}`);
    }
  }
  const other = Object.keys(value).filter(it => !keys.includes(it)).sort()[0];
  if (other !== undefined) throw new Refused("3 Shape other 0", `there is no key ${shown(other)} in version ${value.version}`);
}

/** Each simplex that is listed, and each value list, with where it stands. */
function* places(value) {
  for (const key of ["inputs", "outputs"]) for (const [place, it] of value[key].entries()) yield [`in "${key}", item ${place}`, it, it.map(([, v]) => v)];
  for (const [place, entry] of value.delta.entries()) {
    yield [`in "delta", the "in" of item ${place}`, entry.in, entry.in.map(([, v]) => v)];
    for (const [at, values] of entry.out.entries()) yield [`in "delta", item ${place}, value list ${at} of "out"`, null, values];
  }
}

/** Refuses numbers beyond those that are read, and processes out of order. */
function judgeNumbers(value) {
  const { version, processes } = value, largest = LARGEST_OF[version];
  if (largest === undefined) throw new Refused("4 Version", `"version" is ${version}, and 1 and 2 are read`);
  if (processes < 1 || processes > 4) throw new Refused("5 Processes", `"processes" is ${processes}, and 1 to 4 are read`);
  for (const [where, , values] of places(value)) {
    const beyond = values.find(v => v > largest), more = version === 1 ? '; version 2 with "first_block": 1 reads up to 255' : "";
    if (beyond !== undefined) throw new Refused("6 Value", `${where}: the value ${beyond} is above ${largest}, the largest of version ${version}${more}`);
  }
  for (const [where, simplex] of places(value)) {
    const listed = (simplex ?? []).map(([p]) => p), isAscending = listed.every((p, at) => !at || listed[at - 1] < p);
    if (isAscending && listed.every(p => p < processes)) continue;
    const why = isAscending ? `is not below ${processes}` : "comes after one that isn't smaller";
    throw new Refused("7 Colours", `${where}: ${shown(simplex)} has a process that ${why}`);
  }
}

/** Refuses a task that is too large. */
function judgeSizes(value, inputs) {
  const tuples = value.delta.reduce((sum, it) => sum + it.out.length, 0);
  const found = { vertices: inputs.filter(it => it.length === 1).length, simplices: inputs.length, outputs: value.outputs.length, tuples };
  const what = { vertices: "input vertices", simplices: "input simplices, with their faces", outputs: "listed outputs", tuples: "value lists" };
  for (const [word, many] of Object.entries(found)) {
    if (many > MOST[what[word]]) throw new Refused(`8 TooMany ${word}`, `there are ${many} ${what[word]}, and at most ${MOST[what[word]]} are read`);
  }
}

/** Refuses rules that are missing, written twice or about something else. */
function judgeDelta(value, inputs) {
  const entries = new Map(), numbered = at => `input simplex ${at} is ${shown(inputs[at])}`;
  value.delta.forEach((it, place) => entries.set(keyOf(it.in), [...(entries.get(keyOf(it.in)) ?? []), place]));
  inputs.forEach((it, at) => { if (!entries.has(keyOf(it))) throw new Refused(`9 DeltaMissing ${at}`, `${numbered(at)}: "delta" has no entry for it`); });
  inputs.forEach((it, at) => {
    const several = entries.get(keyOf(it));
    if (several.length > 1) throw new Refused(`10 DeltaTwice ${at}`, `${numbered(at)}: items ${several.join(", ")} of "delta" are for it`);
  });
  const known = new Set(inputs.map(keyOf));
  value.delta.forEach((it, place) => {
    if (known.has(keyOf(it.in))) return;
    throw new Refused(`11 DeltaStray ${place}`, `item ${place} of "delta" is for ${shown(it.in)}, which is no input, nor a face of one`);
  });
  const outputs = new Set(value.outputs.flatMap(faces).map(keyOf)), listsAt = it => value.delta[entries.get(keyOf(it))[0]].out;
  const told = (at, place, values) => `at input simplex ${at}, ${shown(inputs[at])}, value list ${place} is ${shown(values)}`;
  inputs.forEach((it, at) => listsAt(it).forEach((values, place) => {
    if (values.length === it.length) return;
    throw new Refused(`12 OutLength ${at} ${place}`, `${told(at, place, values)}: ${values.length} values for ${it.length} processes`);
  }));
  inputs.forEach((it, at) => listsAt(it).forEach((values, place) => {
    const decided = it.map(([p], one) => [p, values[one]]);
    if (outputs.has(keyOf(decided))) return;
    throw new Refused(`13 OutStray ${at} ${place}`, `${told(at, place, values)}: ${shown(decided)} is no output, nor a face of one`);
  }));
  if (!inputs.length) throw new Refused("14 NoInput", '"inputs" is empty');
  const block = value.first_block ?? 1;
  if (block < 1 || block > 4) throw new Refused("18 FirstBlock", `"first_block" is ${block}, and 1 to 4 are read`);
}

/** Judges the text of a task file. Throws Refused. @param {string} text */
export function judgeFile(text) {
  const value = valueOf(text);
  judgeShape(value);
  judgeNumbers(value);
  const inputs = simplicesOf(value.inputs).sort((a, b) => bySize(a, b) || compareLists(a, b));
  judgeSizes(value, inputs);
  judgeDelta(value, inputs);
}

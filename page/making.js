// A task from a predicate, as `task` of python/wfcheck/tasks.py makes it; and what the fields of the page say of inputs, values and names.
import { LARGEST, LARGEST_PLAIN, LONGEST, Mistake, MOST, simplicesOf, textOf } from "./tasks.js";

/** @typedef {import("./tasks.js").Simplex} Simplex */
/**
 * @typedef {object} Asked              what a task is made from, beside its predicate
 * @property {number} processes
 * @property {Simplex[]} inputs
 * @property {number[]} values
 * @property {boolean} symmetric
 * @property {number | null} firstBlock
 */

function judgeNumber(what, many) {
  if (many > MOST[what]) throw new Mistake(`There are ${many} ${what}, and at most ${MOST[what]} are read.`);
}

/** "0, 2-4" as the numbers that it lists. @param {string} text @param {string} what @returns {number[]} */
export function numbersIn(text, what) {
  const found = new Set();
  for (const word of text.split(/[\s,;]+/).filter(Boolean)) {
    const range = /^(\d{1,6})(?:(?:-|\.\.|–)(\d{1,6}))?$/.exec(word);
    if (!range) throw new Mistake(`${what}: “${word}” is no number and no range such as 0-3.`);
    const low = Number(range[1]), high = Number(range[2] ?? range[1]);
    if (high - low > 1000) throw new Mistake(`${what}: ${word} has too many numbers.`);
    for (let it = low; it <= high; it++) found.add(it);
  }
  return [...found].sort((a, b) => a - b);
}

/** Lines of inputs: a value for each process, `-` for one that takes no part, `0|1` for a choice. @returns {Simplex[]} */
export function inputsIn(text, processes) {
  const found = [];
  for (const line of text.split(/[\n;]+/).map(it => it.trim()).filter(Boolean)) {
    const words = line.split(/[\s,]+/).filter(Boolean);
    if (words.length !== processes) {
      throw new Mistake(`Inputs: “${line}” has ${words.length} of ${processes} values. Write “-” for a process that takes no part.`);
    }
    const options = words.map(word => word === "-" ? [null] : word.split("|").flatMap(it => numbersIn(it, "Inputs")));
    let rows = [[]];
    for (const some of options) {
      rows = rows.flatMap(row => some.map(it => [...row, it]));
      if (rows.length > 4096) throw new Mistake("Inputs: too many choices in one line.");
    }
    for (const row of rows) found.push(row.map((v, p) => [p, v]).filter(([, v]) => v !== null));
  }
  if (!found.length || found.some(it => !it.length)) throw new Mistake("Inputs: there is none, or one in which nobody takes part.");
  return found;
}

/** "0=no, 1=yes" as names by number. @returns {Record<number, string>} */
export function namesIn(text, what) {
  const found = {};
  for (const part of text.split(/[,;\n]+/).map(it => it.trim()).filter(Boolean)) {
    const one = /^(\d{1,6})\s*[=:]\s*(\P{C}{1,60})$/u.exec(part);
    if (!one) throw new Mistake(`${what}: “${part}” is no name such as 0=no.`);
    found[Number(one[1])] = one[2].trim();
  }
  if (new Set(Object.values(found)).size < Object.keys(found).length) throw new Mistake(`${what}: two have one name.`);
  return found;
}

/** Refuses names of what a task has not. */
export function judgeNames(names, asked) {
  const begun = new Set(asked.inputs.flat().map(([, v]) => v));
  for (const [what, listed, there] of [["value", names.values, new Set(asked.values)], ["input", names.inputs, begun]]) {
    const stranger = Object.keys(listed).find(it => !there.has(Number(it)));
    if (stranger !== undefined) throw new Mistake(`${stranger} has a name, and is no ${what} of the task.`);
  }
}

/**
 * The text of a task from a predicate, which is asked for each part of each input and for every choice of values.
 * @param {Asked} asked
 * @param {(start: object, end: object) => unknown} legal
 * @param {(asked: number, whole: number) => void} progress
 */
export function taskFrom({ processes, inputs, values, symmetric, firstBlock }, legal, progress = () => {}) {
  const largest = firstBlock === null ? LARGEST_PLAIN : LARGEST;
  if (!values.length) throw new Mistake("Values: there is none that may be decided.");
  const beyond = [...values, ...inputs.flat().map(([, v]) => v)].find(it => it > largest);
  if (beyond !== undefined) {
    throw new Mistake(`The value ${beyond} is above ${largest}` + (largest === LARGEST ? "." : ": up to 255 with a first block of 1."));
  }
  const starts = simplicesOf(inputs);
  judgeNumber("input vertices", starts.filter(it => it.length === 1).length);
  judgeNumber("input simplices, with their faces", starts.length);
  let left = MOST["value lists"], many = 0;
  const whole = starts.reduce((sum, it) => sum + values.length ** it.length, 0);
  const rules = starts.map(start => {
    const found = [];
    const longer = begun => {
      if (begun.length < start.length) { for (const value of values) longer([...begun, value]); return; }
      if (++many % 4096 === 0) progress(many, whole);
      if (!isLegal(legal, start, begun)) return;
      found.push(begun);
      if (found.length > left) throw new Mistake(`There are more than ${MOST["value lists"]} value lists, and no more are read.`);
    };
    longer([]);
    left -= found.length;
    return [start, found];
  });
  if (!rules.some(([, it]) => it.length)) throw ofPredicate("The predicate allows nothing, whatever the processes begin with.");
  const text = textOf({ processes, symmetric, firstBlock }, rules);
  judgeNumber("listed outputs", JSON.parse(text).outputs.length);
  if (text.length > LONGEST) throw new Mistake(`The file has more than ${LONGEST} bytes.`);
  return text;
}

/** A mistake of the predicate itself. */
const ofPredicate = (words, cause = undefined) => Object.assign(new Mistake(words, { cause }), { isOfPredicate: true });

/** What a predicate says of a choice. Throws a Mistake, whose cause is what the predicate threw. */
export function isLegal(legal, start, values) {
  const who = start.map(([p]) => p), told = it => "{" + it.map(([p, v]) => `${p}: ${v}`).join(", ") + "}";
  const end = who.map((p, at) => [p, values[at]]);
  const guarded = pairs => new Proxy(Object.fromEntries(pairs), {
    get(target, key) {
      if (typeof key === "string" && /^\d+$/.test(key) && !(key in target)) {
        throw ofPredicate(`The predicate looks up process ${key} where only ${who.join(" and ")} ${who.length > 1 ? "take" : "takes"} part. `
          + "It is asked for each part of each input, since some may run alone.");
      }
      return target[key];
    },
  });
  let answer;
  try {
    answer = legal(guarded(start), guarded(end));
  } catch (error) {
    if (error instanceof Mistake) throw error;
    throw ofPredicate(`The predicate fails where start is ${told(start)} and end is ${told(end)}: ${error}`, error);
  }
  if (typeof answer !== "boolean") {
    const what = answer === undefined || answer === null ? "nothing" : `${typeof answer === "object" ? "an object" : `the ${typeof answer} ${String(answer)}`}`;
    throw ofPredicate(`The predicate answers ${what} where start is ${told(start)} and end is ${told(end)}. It has to answer true or false`
      + (what === "nothing" ? ": is a return missing?" : "."));
  }
  return answer;
}

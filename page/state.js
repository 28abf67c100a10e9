// The question at hand, what has been found out about it, and what is shown. Parts of the page hear when one of these changes.
import { find, plural, tell } from "./dom.js";
import { judgeFile, Refused } from "./linting.js";
import { NO_NAMES, named } from "./names.js";
import { nodesInWords } from "./obstructions.js";
import { rulesOf } from "./tasks.js";

/**
 * @typedef {object} Task
 * @property {string} name
 * @property {string} text
 * @property {import("./names.js").Names} names
 * @property {{kind: "known" | "small" | "own" | "file", [key: string]: any}} source
 * @property {import("./tasks.js").Rules} rules
 * @property {{answer: string, where: string} | null} known    what the gallery or the atlas says of it
 */
/** @typedef {{rounds: number, answer: "map" | "none", text: string, words: string, verdict: string, solved: number,
 *   argument: import("./argument.js").Argument | null, values: number[] | null}} Round */
/** @typedef {{never: any, open: string[], rounds: Map<number, Round>, refused: string | null, stopped: boolean}} Evidence */
/** @typedef {number | "never" | "open" | "outputs"} Key   what is shown: a number of rounds, the answer for all of them, or what may be decided */

/** @returns {Evidence} */
const nothing = () => ({ never: null, open: [], rounds: new Map(), refused: null, stopped: false });

/** @type {{task: Task | null, evidence: Evidence, shown: Key | null, facets: any, busy: boolean}} */
export const state = { task: null, evidence: nothing(), shown: null, facets: null, busy: false };

const listeners = {};
/** @param {"task" | "evidence" | "busy" | "show" | "ask" | "stop"} what @param {(given?: any) => void} hear */
export function on(what, hear) { (listeners[what] ??= []).push(hear); }
export function changed(what, given = undefined) {
  if (what === "show") state.shown = given;
  for (const hear of listeners[what] ?? []) hear(given);
}

export const roundsAsked = () => Math.max(0, Math.min(8, Math.floor(Number(find("rounds").value)) || 0));
export const inputName = v => state.task.names.inputs[v] ?? String(v);
export const valueName = v => state.task.names.values[v] ?? String(v);
/** A text of the program with the names of inputs and values. */
export const called = text => named(text, state.task.names);
export const inRounds = r => r === 0 ? "without any round" : `after ${plural(r, "round")}`;

/** Forgets what was found out. */
export function forget() {
  state.evidence = nothing();
  state.facets = null;
}

/** Takes another task. Returns what is wrong with its text, or null. @param {Omit<Task, "rules" | "names" | "known"> & Partial<Task>} task */
export function setTask(task) {
  let rules;
  try {
    judgeFile(task.text);
    rules = rulesOf(task.text);
  } catch (error) {
    return error instanceof Refused ? `refused, ${error.line}: ${error.words}` : `This is no task file: ${error.message}`;
  }
  changed("stop");
  forget();
  state.task = { names: NO_NAMES, known: null, ...task, rules };
  tell("error-answer", "");
  changed("task");
  changed("show", Math.min(1, roundsAsked()));
  return null;
}

/** What the evidence comes to: the last line of `ask`, without the task's name. */
export function outcome() {
  const { never, rounds, refused } = state.evidence;
  if (never) return { kind: "never", text: `never, by ${nodesInWords(never.nodes)}` };
  const told = answer => [...rounds.values()].filter(it => it.answer === answer).map(it => it.rounds), maps = told("map"), nones = told("none");
  const map = maps.length ? Math.min(...maps) : null, none = nones.length ? Math.max(...nones) : null, behind = refused ? `; ${refused}` : "";
  if (map !== null && (map === 0 || none === map - 1)) return { kind: "from", at: map, text: `from ${map}` };
  if (map !== null && none !== null) return { kind: "between", at: map, none, text: `none up to ${none}, map at ${map}` };
  if (map !== null) return { kind: "map", at: map, text: `map at ${map}` };
  if (none !== null) return { kind: "none", at: none, text: `none up to ${none}${behind}` };
  return { kind: "open", text: refused ? `not decided${behind}` : "" };
}

// Names for what the numbers of a task mean, as python/wfcheck/names.py: they are put in the place of numbers of a text that the program wrote.

/** @typedef {{values: Record<number, string>, inputs: Record<number, string>}} Names */

export const NO_NAMES = { values: {}, inputs: {} };
const EVERY = "No decision map after any number of rounds";
const LISTED = String.raw`\d+(?: to \d+)?(?:(?:, | or )\d+(?: to \d+)?)*`;
const PART = new RegExp(String.raw`([p#]\d+=)(\d+)|(\bv\d+ is (?:not )?|\bCase v\d+ = | decides )(${LISTED})|\(\d+(?:, \d+)*\)`, "g");

/** A text of `wfcheck points` or `wfcheck explain` by names; an obstruction in words stays as it is. @param {string} text @param {Names} names */
export function named(text, names) {
  const { values, inputs } = names;
  if (!Object.keys(values).length && !Object.keys(inputs).length || text.startsWith(EVERY)) return text;
  const listed = it => it.replace(/\d+/g, v => values[v] ?? v);
  return text.replace(PART, (all, who, input, head, list) => who ? who + (inputs[input] ?? input) : head ? head + listed(list) : listed(all));
}

/** The text of the file of names that stands beside a task's, or null if there is none. @param {Names} names */
export const namesText = names => Object.keys(names.values).length || Object.keys(names.inputs).length
  ? JSON.stringify({ inputs: names.inputs, values: names.values }) + "\n" : null;

// The argument that `wfcheck explain` writes of a refutation, as steps: what each takes, where, and which steps it cites; as
// python/wfcheck/drawing/argument.py.

/** @typedef {{kind: "step", number: number, text: string, point: number, left: string | null, execution: number | null, points: number[],
 *   cites: number[], case: number}} Step */
/** @typedef {{kind: "line", text: string, case: number, empty: number | null}} Line */
/** @typedef {{outer: number, point: number | null, value: number | null, depth: number}} Case */
/** @typedef {{title: string, items: (Step | Line)[], cases: Case[], steps: Step[], total: string, emptied: Set<number>}} Argument */

const CASE = /^ *Case v(\d+) = (\d+)$/, EMPTY = /^ *v(\d+) has no value left\.$/, STEP = /^\s*(\d+)\. (.*)$/, LEFT = / So v\d+ is ([^.]*)\.$/;
const MOST_SHOWN = 5;

/** @param {string} text @returns {Argument | null} */
export function argumentOf(text) {
  const lines = text.split("\n"), from = lines.indexOf("Argument");
  if (from < 0) return null;
  const items = [], cases = [{ outer: -1, point: null, value: null, depth: 0 }];
  let inner = [0], total = "";
  for (const line of lines.slice(from + 1)) {
    if (line.startsWith("In all:")) { total = line; break; }
    const supposed = CASE.exec(line), empty = EMPTY.exec(line), step = STEP.exec(line);
    if (supposed) {
      inner = about(inner, cases, items, Number(supposed[1]));
      cases.push({ outer: inner[inner.length - 1], point: Number(supposed[1]), value: Number(supposed[2]), depth: inner.length });
      inner = [...inner, cases.length - 1];
    }
    const at = inner[inner.length - 1];
    if (supposed || empty) items.push({ kind: "line", text: line.trim(), case: at, empty: empty ? Number(empty[1]) : null });
    else if (step) items.push(stepOf(Number(step[1]), step[2], at));
  }
  const steps = items.filter(it => it.kind === "step");
  return { title: lines[0], items, cases, steps, total, emptied: new Set(items.filter(it => it.kind === "line" && it.empty !== null).map(it => it.empty)) };
}

/** The cases about a new one of a point: behind a step that branches it lies in the last case, else it follows the last case of its point. */
function about(inner, cases, items, point) {
  const last = items[items.length - 1];
  if (last && last.kind === "step" && last.execution === null) return inner;
  return inner.slice(0, inner.map((it, at) => cases[it].point === point ? at : -1).filter(it => it >= 0).pop());
}

/** @returns {Step} */
function stepOf(number, text, at) {
  const [head, ...more] = text.split(": in execution "), why = more.join(": in execution "), left = LEFT.exec(text);
  const all = it => [...it.matchAll(/\bv(\d+)\b/g)].map(found => Number(found[1]));
  return {
    kind: "step", number, text, point: all(head)[0], left: left ? left[1] : why ? null : head.split(" is ").slice(1).join(" is ").replace(/\.$/, ""),
    execution: why ? Number(/^\d+/.exec(why)[0]) : null, points: [...new Set(all(text))],
    cites: [...new Set([...why.matchAll(/\[(\d+)\]/g)].map(found => Number(found[1])))], case: at,
  };
}

/** What is left at each point of which the argument says so outside of all cases, at the last. @param {Argument} argument */
export const valuesLeft = argument => new Map(argument.steps.filter(it => it.case === 0 && it.left !== null).map(it => [it.point, it.left]));

/** What is known at the points once a step is taken, in its case and in those about it. @param {Argument} argument @returns {Map<number, string>} */
export function knownAt(argument, number) {
  const found = new Map(), inside = new Set(), entered = new Set(), { items, cases } = argument;
  const at = items.findIndex(it => it.kind === "step" && it.number === number);
  for (let it = items[at].case; it >= 0; it = cases[it].outer) inside.add(it);
  const enter = it => {
    if (it < 0 || entered.has(it)) return;
    entered.add(it);
    enter(cases[it].outer);
    if (cases[it].point !== null) found.set(cases[it].point, String(cases[it].value));
  };
  for (const it of items.slice(0, at + 1)) if (inside.has(it.case)) {
    enter(it.case);
    if (it.kind === "step" && it.left !== null) found.set(it.point, it.left);
  }
  return found;
}

/** What is left at a point as it fits into a spot: one value, two or three as 0/1, a range as 0–4, or nothing. @param {string} left */
export function shown(left) {
  const told = left.replaceAll(" to ", "–").replaceAll(" or ", "/").replaceAll(", ", "/");
  return told.length <= MOST_SHOWN && !told.includes(" ") ? told : "";
}

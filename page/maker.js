// The worker that asks a predicate. The predicate's own text stands above this one, from the first line on, and reaches nothing but this worker:
// the policy of the page forbids every request.
import { taskFrom } from "./making.js";
import { Mistake } from "./tasks.js";

/* global legal */
/** How often the page hears how far it is, in milliseconds. */
const EACH = 150;

// what predicates may use beside the language, unless they have their own
self.values ??= object => Object.values(object);
self.distinct ??= object => new Set(Object.values(object)).size;

/** The line of the predicate at which an error came, or null. @param {any} error @param {number} lines */
function lineOf(error, lines) {
  const found = [...String(error?.stack ?? "").matchAll(/blob:[^\s)]*?:(\d+):\d+/g)].map(it => Number(it[1]));
  return found.find(it => it <= lines) ?? null;
}

onmessage = ({ data }) => {
  try {
    if (typeof legal !== "function") throw new Mistake("There is no function legal(start, end).");
    let said = 0;
    const text = taskFrom(data, legal, (asked, whole) => {
      if (performance.now() - said <= EACH) return;
      said = performance.now();
      postMessage({ kind: "progress", asked, whole });
    });
    postMessage({ kind: "made", text });
  } catch (error) {
    const isMistake = error instanceof Mistake, line = lineOf(isMistake ? error.cause ?? error : error, data.lines);
    postMessage({ kind: "mistake", text: isMistake ? error.message : String(error), line, isOfPredicate: error.isOfPredicate === true });
  }
};

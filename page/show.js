// Shows a number of rounds, the answer for all of them, or what is allowed: which inputs are drawn, the picture, and the words beside it.
import { find, isNarrow, make, plural } from "./dom.js";
import { chosenFacets, isOnePicture } from "./embedding.js";
import { inputChooser, legend } from "./legend.js";
import { notDrawn, sceneOf } from "./scene.js";
import { send } from "./asks.js";
import { changed, inputName, on, state } from "./state.js";
import { blockWords, Complex, manyExecutions } from "./subdivision.js";
import { keyOf } from "./tasks.js";
import { paint, read, readComplex, showScene, view } from "./view.js";
import { wordsOfMap } from "./words-map.js";
import { wordsOfNever } from "./words-never.js";
import { wordsOfNone } from "./words-none.js";
import { wordsOfOutputs } from "./words-outputs.js";

const MOST_FACETS = 8, MOST_EXECUTIONS = 60000;
const made = { task: null, kept: new Map() };

/** The complex of the task at hand after some rounds. */
function complexAfter(rounds) {
  if (made.task !== state.task) Object.assign(made, { task: state.task, kept: new Map() });
  const { rules } = state.task, most = rules.processes > 3 ? 3 : 4;
  if (!made.kept.has(rounds)) made.kept.set(rounds, new Complex(rules, rounds, most));
  return made.kept.get(rounds);
}

/** The input simplices of the executions of an argument. */
function simplicesOfSteps(argument, rounds) {
  const { rules } = state.task, wanted = argument.steps.map(it => it.execution).filter(it => it !== null), found = [];
  let first = 0;
  for (const simplex of rules.simplices) {
    const many = blockWords(simplex.length, rules.firstBlock).length ** rounds;
    if (wanted.some(it => first <= it && it < first + many)) found.push(simplex);
    first += many;
  }
  return found;
}

/** The facet in which a map decides most values. */
function mostColourful(found, rounds) {
  const { rules } = state.task;
  if (manyExecutions(rules, rounds) > MOST_EXECUTIONS) return rules.facets[0];
  const complex = complexAfter(rounds), seen = new Map();
  for (const it of complex.executions) {
    const key = keyOf(it.simplex);
    if (!seen.has(key)) seen.set(key, new Set());
    for (const at of it.ends) seen.get(key).add(found.values[complex.points[at]]);
  }
  return rules.facets.reduce((best, it) => (seen.get(keyOf(it))?.size ?? 0) > (seen.get(keyOf(best))?.size ?? 0) ? it : best);
}

/** The facets that are drawn: all if they make one picture, those that the argument needs, or one. */
function facetsFor(found, rounds) {
  const { rules } = state.task, { facets } = rules;
  if (state.facets) return state.facets;
  if (facets.length <= 60 && isOnePicture(facets)) return facets;
  if (found?.answer === "none" && found.argument) {
    const needed = chosenFacets(facets, simplicesOfSteps(found.argument, rounds));
    if (needed.length) return needed.slice(0, MOST_FACETS);
  }
  if (found?.answer === "map") return [mostColourful(found, rounds)];
  const largest = facets[facets.length - 1].length;
  return [facets.find(it => it.length === largest && new Set(it.map(([, v]) => v)).size > 1) ?? facets[0]];
}

/** Draws the complex after some rounds, or says why not. */
function drawComplex(rounds, facets) {
  const { rules } = state.task;
  if (!notDrawn(rules, rounds, facets)) {
    const complex = complexAfter(rounds);
    showScene(sceneOf(complex, facets, { inputName, wide: isNarrow() ? 2 : facets.length > 4 ? 4 : 2, least: isNarrow() ? 380 : 700 }), rules.values);
    readComplex(complex, rounds);
    return;
  }
  showScene(null, [], `After ${plural(rounds, "round")} this complex has ${plural(manyExecutions(rules, rounds), "execution")}: too many to see anything. `
    + "The certificate has them all.");
}

/** What stands beside a complex about which nothing was asked. */
function wordsOfNothing(rounds) {
  const { rules } = state.task, four = rules.processes > 3;
  paint({});
  view.hint = "Point at a shape to read what its process knows, or at an execution to read who sees whom.";
  find("words").className = "";
  find("words").replaceChildren(make("h3", {}, rounds ? `What they may know after ${plural(rounds, "round")}` : "What they begin with"),
    make("p", {}, "A shape is a point: what a process knows after the last round. Its shape and shade say which process it is. "
      + "A triangle, an edge or a corner is an execution of three, two or one process."),
    four ? make("p", {}, "The boundary of a tetrahedron is drawn, unfolded: the fourth process stands at three corners, and edges with one letter are one. "
      + "Executions of all four are left out.") : "",
    make("p", {}, "A decision map gives each point a value, so that each execution decides an allowed tuple."),
    make("p", { class: "soft" }, `${plural(manyExecutions(rules, rounds), "execution")} after ${plural(rounds, "round")}.`),
    state.busy ? "" : make("button", { class: "plain", onclick: () => send({ kind: "round", rounds }) }, `Ask about ${plural(rounds, "round")} alone`));
}

/** What stands beside the complex of a refutation that is too long to be told. */
function wordsOfLong(found) {
  const lines = found.text.split("\n").length;
  paint({});
  view.hint = "Point at a shape to read what its process knows, or at an execution to read who sees whom.";
  find("words").className = "";
  find("words").replaceChildren(make("h3", {}, `No decision map after ${plural(found.rounds, "round")}`),
    make("p", {}, `The refutation has ${plural(lines, "line")}: too many to be read. The checker says: ${found.verdict}.`),
    make("p", { class: "soft" }, "The certificate has them all, and wfcheck explain writes them in words."));
}

/** What stands beside the complex if no obstruction was found. */
function wordsOfOpen() {
  paint({});
  find("words").className = "";
  find("words").replaceChildren(make("h3", {}, "No obstruction was found"), ...[...new Set(state.evidence.open)].map(it => make("p", {}, it + ".")),
    make("p", { class: "soft" }, "That says nothing by itself: whether a task of three processes is solvable in some number of rounds is undecidable."));
}

/** @param {import("./state.js").Key} key */
function show(key) {
  const { rules } = state.task, { evidence } = state;
  if (key === "outputs") wordsOfOutputs();
  else if (key === "never") wordsOfNever(evidence.never);
  else {
    const rounds = typeof key === "number" ? key : Math.min(1, evidence.rounds.size), found = typeof key === "number" ? evidence.rounds.get(key) : null;
    const facets = facetsFor(found, rounds);
    drawComplex(rounds, facets);
    const choose = chosen => { state.facets = chosen; changed("show", state.shown); };
    const chooser = facets === rules.facets && !state.facets ? null : inputChooser(rules.facets, facets, choose);
    if (found?.answer === "map") wordsOfMap(found, chooser);
    else if (found?.argument) wordsOfNone(found, chooser);
    else if (found) { wordsOfLong(found); legend([], "", chooser); } else {
      if (key === "open") wordsOfOpen(); else wordsOfNothing(rounds);
      legend([], "", chooser);
    }
  }
  const { drawing } = view, [wide, high] = drawing?.scene.size ?? [0, 0];
  find("stage").className = !drawing ? "one" : wide > 1.9 * high ? "wide" : "";
  view.zoom?.measure();
  read(null);
}

on("show", show);

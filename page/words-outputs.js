// The output complex: what may be decided, with the tuples lit that some inputs allow.
import { find, isNarrow, make, plural } from "./dom.js";
import { legend, simplexText } from "./legend.js";
import { allowedSimplices, pinched, sceneOfOutputs, simplexCells } from "./outputs.js";
import { state, valueName } from "./state.js";
import { paint, showScene, view } from "./view.js";
import { vertexKey } from "./tasks.js";

const MOST_OPTIONS = 300, MOST_NAMED = 40;
const shown = { task: null, at: 0 };
/** A name that fits into a shape. @param {string} name */
const inside = name => name.length <= 3 ? name : undefined;

/** Draws the outputs of a task, with those lit that a simplex allows, or says that they are too many. Returns what is drawn, or null.
 * @param {import("./tasks.js").Rules} rules @param {import("./tasks.js").Simplex} simplex @param {(value: number) => string} nameOf */
export function drawOutputs(rules, simplex, nameOf, what = "may be decided") {
  const drawn = sceneOfOutputs(rules, { least: isNarrow() ? 380 : 560 });
  showScene(drawn?.scene ?? null, rules.values, rules.processes > 3 ? "The outputs of four processes are not drawn." : "There are too many outputs to draw.");
  if (!drawn) { legend([], ""); return null; }
  Object.assign(view, { made: null, valueName: nameOf, tells: false });
  const lit = simplexCells(drawn, rules, simplex), pinches = new Set(drawn.alone ? [] : pinched(allowedSimplices(rules, simplex)));
  const names = it => it.map(([p, v]) => drawn.alone ? nameOf(v) : `p${p} decides ${nameOf(v)}`);
  const tuple = it => drawn.alone ? names(it).join(" and ") + (it.length > 1 ? " are decided together" : " is decided") : names(it).join(", ");
  view.spotWords = at => tuple([drawn.vertices[at]]);
  view.cellWords = at => `${tuple(drawn.listed[at])}: ${lit.has(at) ? `allowed for ${simplexText(simplex)}` : "not allowed here"}`;
  // a vertex that is lit has a ring if nothing larger about it is lit
  const covered = new Set([...lit].filter(at => drawn.listed[at].length > 1).flatMap(at => drawn.scene.cells[at].spots));
  const isShown = at => lit.has(at) && !(drawn.listed[at].length === 1 && covered.has(drawn.scene.cells[at].spots[0]));
  paint({
    cell: at => isShown(at) ? { marks: ["lit"] } : {},
    spot: at => {
      const vertex = drawn.vertices[at];
      return { value: vertex[1], text: inside(nameOf(vertex[1])), marks: pinches.has(vertexKey(vertex)) ? ["empty"] : [] };
    },
  });
  const long = new Map(drawn.vertices.map(([, v], at) => [at, nameOf(v)]).filter(([, name]) => inside(name) === undefined));
  if (long.size <= MOST_NAMED) view.drawing.nameSpots(long);
  legend(rules.values, what);
  return { ...drawn, pinches };
}

/** The outputs of the task at hand. */
export function wordsOfOutputs() {
  const { task } = state, { rules } = task, listed = [...rules.simplices].reverse();
  if (shown.task !== task) Object.assign(shown, { task, at: 0 });
  const simplex = listed[shown.at], tuples = rules.allowed.get(simplex.map(vertexKey).join()) ?? [], left = tuples.length - MOST_OPTIONS;
  const drawn = drawOutputs(rules, simplex, valueName);
  view.hint = "Lit: what may be decided with the chosen inputs. Point at a shape, an edge or a triangle to read it.";
  const chosen = event => {
    shown.at = Number(event.target.value);
    wordsOfOutputs();
    find("simplex").focus();
  };
  const choose = make("select", { id: "simplex", "aria-label": "Inputs", onchange: chosen },
    listed.slice(0, MOST_OPTIONS).map((it, at) => make("option", { value: at, selected: at === shown.at }, `{${simplexText(it)}}`)));
  const pinches = [...drawn?.pinches ?? []].map(it => { const [p, v] = it.split("=").map(Number); return `p${p} = ${valueName(v)}`; });
  find("words").className = "";
  find("words").replaceChildren(...[make("h3", {}, "What is allowed: Δ"), make("p", {}, "With ", choose, ` they may decide ${plural(tuples.length, "tuple")}.`),
    make("p", {}, drawn?.alone
      ? "Who decides what makes no difference here. So a circle is a value, and an edge or a triangle are values that may be decided together."
      : "A shape is a process that decides a value. An edge or a triangle is what two or three decide together."),
    pinches.length ? make("p", {}, `The lit triangles fall apart at ${pinches.join(" and ")}.`) : null,
    make("ul", { class: "tuples", "aria-label": "Allowed tuples" },
      tuples.slice(0, MOST_OPTIONS).map(it => make("li", {}, `(${it.map(valueName).join(", ")})`))),
    left > 0 ? make("p", { class: "soft" }, `and ${plural(left, "tuple")} more in the task's file`) : null].filter(Boolean));
}

// The picture that is shown: what its points and executions are in words, under the pointer, for the keyboard and for a screen reader.
import { find, make } from "./dom.js";
import { Drawing } from "./drawing.js";
import { called, inputName, on, state, valueName } from "./state.js";
import { command } from "./engine.js";
import { manyExecutions } from "./subdivision.js";
import { Zoom } from "./zoom.js";

const MOST_POINTS = 60000;
/**
 * What is shown: the drawing, the complex in it if it is one, and what a click does. `tells` if the value of a point is told behind its words.
 * @type {{drawing: Drawing | null, made: import("./subdivision.js").Complex | null, zoom: Zoom | null, hint: string, tells: boolean,
 *   spotWords: (point: number) => string, cellWords: (cell: number) => string, valueName: (value: number) => string,
 *   onSpot: ((point: number) => void) | null, onCell: ((cell: number) => void) | null}}
 */
export const view = {
  drawing: null, made: null, zoom: null, hint: "", tells: true, spotWords: () => "", cellWords: () => "", valueName, onSpot: null, onCell: null,
};
/** The points in words, by rounds, as the program tells them. */
const points = new Map();

/** Shows a scene, or words in place of one. @param {import("./scene.js").Scene | null} scene @param {number[]} palette @param {string} sentence */
export function showScene(scene, palette, sentence = "") {
  Object.assign(view, { drawing: scene ? new Drawing(scene, palette) : null, onSpot: null, onCell: null, zoom: null, valueName, hint: "", tells: true });
  find("zoom").hidden = !scene;
  find("reading").hidden = !scene;
  if (!scene) { find("picture").replaceChildren(make("p", { class: "sentence" }, sentence)); return; }
  find("picture").replaceChildren(view.drawing.root);
  view.zoom = new Zoom(view.drawing, find("picture"), find("zoom-reset"));
}

/** Paints the drawing, and names its points for screen readers. @param {import("./drawing.js").Look} look */
export function paint(look) {
  view.drawing?.paint(look);
  titles();
}

export function titles() {
  if (!view.drawing) return;
  for (const it of view.drawing.spots) it.element.setAttribute("aria-label", `${view.spotWords(it.point)}${decided(it.point)}`);
}
function decided(point) {
  const look = view.tells ? view.drawing.look.spot?.(point) ?? {} : {};
  if (look.value !== undefined) return ` decides ${view.valueName(look.value)}`;
  return look.text === "×" ? ": no value is left" : look.text ? `: ${look.text} is left` : "";
}

/** The line under the picture: what a point or an execution is. @param {{point?: number, cell?: number} | null} what */
export function read(what) {
  const box = find("reading");
  if (!view.drawing || !what) { box.replaceChildren(make("span", { class: "quiet" }, view.hint)); return; }
  if (what.point !== undefined) box.replaceChildren(...strong(view.spotWords(what.point) || `v${what.point}`), decided(what.point));
  else box.replaceChildren(...strong(view.cellWords(what.cell)));
}
/** A text with its first word in bold. */
function strong(text) {
  const [first, ...rest] = text.split(" ");
  return [make("b", {}, first), rest.length ? " " + rest.join(" ") : ""];
}

/** Has the words of points and executions be those of a complex. @param {import("./subdivision.js").Complex} made @param {number} rounds */
export function readComplex(made, rounds) {
  view.made = made;
  view.spotWords = point => { const told = points.get(rounds)?.[point]; return told === undefined ? `v${point}` : `v${point} ${called(told)}`; };
  view.cellWords = number => {
    const ends = made.executions[number].ends.map(at => made.points[at]), look = view.drawing.look.spot ?? (() => ({}));
    const values = ends.map(at => look(at).value);
    const told = values.every(v => v !== undefined) ? `, which decide (${values.map(view.valueName).join(", ")})` : "";
    return `execution ${number}: ${made.executionText(number, inputName)} ends at (${ends.map(v => "v" + v).join(", ")})${told}`;
  };
  loadPoints(rounds);
}

/** Asks the program for the points in words. */
function loadPoints(rounds) {
  const { task } = state;
  if (points.has(rounds) || state.busy || manyExecutions(task.rules, rounds) > MOST_POINTS) return;
  points.set(rounds, []);
  command({ kind: "points", rounds, task: task.text }, it => {
    if (state.task !== task) return true;
    if (it.kind !== "points") return it.kind === "end";
    if (it.status === 0) points.set(rounds, it.text.trim().split("\n").map(line => line.replace(/^\d+ /, "")));
    else {
      points.delete(rounds);
      find("ask").disabled = true;
      find("error-answer").hidden = false;
      find("error-answer").textContent = `The program refuses this task: ${it.refusal}`;
    }
    titles();
    return false;
  }).catch(() => points.delete(rounds));
}
on("task", () => points.clear());
// what was asked for while the worker was stopped or busy is asked again
on("busy", () => {
  if (state.busy) { for (const [rounds, told] of points) if (!told.length) points.delete(rounds); }
  else if (view.drawing && typeof state.shown === "number") loadPoints(state.shown);
});

// ---- pointer and keys ----
const picture = find("picture");
function under(event) {
  const spot = event.target.closest?.("[data-v]"), cell = event.target.closest?.("[data-e]");
  return spot ? { point: Number(spot.dataset.v) } : cell ? { cell: Number(cell.dataset.e) } : null;
}
picture.addEventListener("pointerover", event => read(under(event)));
picture.addEventListener("pointerleave", () => read(null));
picture.addEventListener("focusin", event => { const it = under(event); if (it) read(it); });
picture.addEventListener("click", event => {
  const it = under(event);
  if (!it || view.zoom?.wasMoved) return;
  if (it.point !== undefined) view.onSpot?.(it.point); else view.onCell?.(it.cell);
});
const ARROWS = { ArrowLeft: [-1, 0], ArrowRight: [1, 0], ArrowUp: [0, -1], ArrowDown: [0, 1] };
picture.addEventListener("keydown", event => {
  const { drawing } = view, at = drawing?.spots.findIndex(it => it.element === document.activeElement) ?? -1;
  if (at < 0 || event.ctrlKey || event.metaKey || event.altKey) return;
  if (ARROWS[event.key]) {
    event.preventDefault();
    const to = drawing.towards(at, ...ARROWS[event.key]);
    drawing.spots[at].element.setAttribute("tabindex", -1);
    drawing.spots[to].element.setAttribute("tabindex", 0);
    drawing.spots[to].element.focus({ preventScroll: true });
    view.zoom.reveal(drawing.spots[to].at);
  } else if (event.key === "Enter" || event.key === " ") {
    event.preventDefault();
    view.onSpot?.(drawing.spots[at].point);
  } else if (event.key === "+" || event.key === "=") view.zoom.by(1.5, drawing.spots[at].at);
  else if (event.key === "-") view.zoom.by(1 / 1.5, drawing.spots[at].at);
  else if (event.key === "0") view.zoom.reset();
});
find("zoom-in").addEventListener("click", () => view.zoom?.by(1.6));
find("zoom-out").addEventListener("click", () => view.zoom?.by(1 / 1.6));
find("zoom-reset").addEventListener("click", () => view.zoom?.reset());
// a picture that was too small to be read may be large enough now
addEventListener("resize", () => view.zoom?.measure());

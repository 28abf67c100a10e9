// A decision map beside its picture: as rules, and as a list of points.
import { make, plural, find } from "./dom.js";
import { workerOf } from "./engine.js";
import { legend } from "./legend.js";
import { called, inRounds, state } from "./state.js";
import { paint, read, view } from "./view.js";

const MOST_LINES = 500;
let ruler = null;

/** @param {import("./state.js").Round} found @param {any} chooser */
export function wordsOfMap(found, chooser) {
  const { values } = found, { rules } = state.task, made = view.drawing && view.made;
  const whole = {
    spot: point => ({ value: values[point] }),
    cell: number => { const decided = new Set(made.tupleOf(number, values)); return decided.size === 1 ? { value: [...decided][0] } : {}; },
  };
  paint(whole);
  view.hint = "Point at a shape to read what its process knows, or at an execution to read who sees whom.";
  const lines = found.words.trim().split("\n").filter(Boolean), listed = lines.slice(0, MOST_LINES).map((line, point) => entry(line, point, whole));
  const ruled = make("div", { id: "rules", "aria-live": "polite" }, make("p", { class: "soft" }, "looking for rules …"));
  find("words").className = "list";
  find("words").replaceChildren(make("h3", {}, `A decision map ${inRounds(found.rounds)}`),
    make("p", { class: "soft" }, `${plural(values.length, "point")}. Executions in which all decide one value have its colour. Solved in ${found.solved} ms. `
      + `The checker says: ${found.verdict}.`),
    make("h3", {}, "As rules"), ruled, make("h3", {}, "Point by point"),
    make("ul", { class: "scroll", "aria-label": "Points and their decisions" }, listed,
      lines.length > MOST_LINES ? make("li", {}, make("b", {}, `and ${(lines.length - MOST_LINES).toLocaleString("en")} more in the certificate`)) : null));
  rulesFor(found, ruled);
  legend(rules.values.filter(it => values.includes(it)), "decided", chooser);
}

/** A line of the list, which lights its point while it has the pointer or the focus. */
function entry(line, point, whole) {
  const light = () => {
    if (!view.drawing) return;
    view.drawing.paint({ ...whole, spot: it => it === point ? { ...whole.spot(it), marks: ["near"] } : whole.spot(it) });
    view.drawing.look = whole;
    read({ point });
  };
  const dark = () => { if (view.drawing) { view.drawing.paint(whole); read(null); } };
  const text = [make("b", {}, `v${/^\d+/.exec(line)[0]}`), called(line.replace(/^\d+/, ""))];
  return make("li", {}, make("button", { onpointerenter: light, onpointerleave: dark, onfocus: light, onblur: dark }, text));
}

/** Has a worker look for rules, and writes them. */
function rulesFor(found, box) {
  ruler?.terminate();
  const worker = ruler = workerOf("ruler-source");
  const close = () => { worker.terminate(); if (ruler === worker) ruler = null; };
  worker.onerror = event => { event.preventDefault(); close(); box.replaceChildren(); };
  worker.onmessage = ({ data: { rules } }) => {
    close();
    const say = text => make("p", { class: "soft" }, text);
    if (!rules) { box.replaceChildren(say(`More than 40 rules would be needed for ${plural(found.values.length, "point")}.`)); return; }
    const rule = it => make("li", {}, `${it.words}: `, make("b", {}, it.outcome), make("span", { class: "soft" }, ` ${plural(it.points, "point")}`));
    box.replaceChildren(say("The first that fits decides. They were compared with the map at each point; nothing of them is proved."),
      make("ol", { class: "rules" }, rules.map(rule)));
  };
  worker.postMessage({ text: state.task.text, rounds: found.rounds, values: found.values, names: state.task.names });
}

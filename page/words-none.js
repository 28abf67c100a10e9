// A refutation beside its picture: the argument in steps. A step lights its execution and points, and with dashes those that it cites.
import { knownAt, shown, valuesLeft } from "./argument.js";
import { find, make } from "./dom.js";
import { legend } from "./legend.js";
import { called, inRounds, state } from "./state.js";
import { paint, view } from "./view.js";

const MOST_ITEMS = 1500, MOST_NAMED = 40, DEEPEST = 12, INSET = 14;
const numbersText = list => list.length <= 3 ? list.join(", ") : `${list[0]} +${list.length - 1}`;

/** How a spot looks at which so much is left. */
function left(known, point) {
  const told = known.get(point);
  return told === undefined ? {} : /^\d+$/.test(told) ? { value: Number(told) } : { text: shown(told) };
}

/** @param {import("./state.js").Round} found @param {any} chooser */
export function wordsOfNone(found, chooser) {
  const { argument } = found, steps = new Map(), forced = valuesLeft(argument), used = new Set(argument.steps.flatMap(it => it.points));
  for (const it of argument.steps) if (it.execution !== null) steps.set(it.execution, [...(steps.get(it.execution) ?? []), it.number]);
  const whole = {
    cell: number => steps.has(number) ? { marks: ["lit"], label: numbersText(steps.get(number)) } : {},
    spot: point => argument.emptied.has(point) ? { marks: ["empty"], text: "×" }
      : forced.has(point) ? left(forced, point) : { marks: used.has(point) ? [] : ["dim"] },
  };
  paint(whole);
  view.hint = "The numbers are those of the steps. × has no value left. Point at a shape to read what its process knows.";
  if (view.drawing?.isReadable && used.size <= MOST_NAMED) view.drawing.nameSpots(new Map([...used].map(it => [it, "v" + it])));
  let chosen = null;
  const buttons = new Map(), byNumber = new Map(argument.steps.map(it => [it.number, it]));
  const light = step => {
    const cited = step ? step.cites.map(it => byNumber.get(it)).filter(Boolean) : [];
    for (const [number, it] of buttons) {
      it.classList.toggle("chosen", step?.number === number);
      it.classList.toggle("cites", Boolean(step?.cites.includes(number)));
      it.setAttribute("aria-pressed", String(chosen === number));
    }
    if (!step) { paint(whole); return; }
    const known = knownAt(argument, step.number), from = new Set(cited.map(it => it.execution)), about = new Set(cited.flatMap(it => it.points));
    paint({
      cell: number => step.execution === number ? { marks: ["lit"], label: String(step.number) }
        : from.has(number) ? { marks: ["cited"], label: numbersText(cited.filter(it => it.execution === number).map(it => it.number)) } : {},
      spot: point => ({ ...left(known, point),
        marks: [step.points.includes(point) ? "near" : about.has(point) ? "from" : "", used.has(point) ? "" : "dim"].filter(Boolean) }),
    });
  };
  const current = () => byNumber.get(chosen) ?? null;
  const choose = number => {
    chosen = chosen === number ? null : number;
    light(current());
    const step = current(), about = new Set(step ? [step.execution, ...step.cites.map(it => byNumber.get(it)?.execution)] : []);
    if (step) view.zoom?.fit(view.drawing.cells.filter(it => about.has(it.execution)).flatMap(it => it.places)); else view.zoom?.reset();
  };
  const entry = it => {
    const isStep = it.kind === "step", made = make("li", {}, isStep ? make("button", { "aria-pressed": "false", onclick: () => choose(it.number),
      onpointerenter: () => light(it), onpointerleave: () => light(current()), onfocus: () => light(it), onblur: () => light(current()) },
    make("b", {}, `${it.number}. `), called(it.text)) : make("div", { class: it.empty === null ? "case" : "end" }, called(it.text)));
    made.style.marginLeft = `${Math.min(DEEPEST, argument.cases[it.case].depth) * INSET}px`;
    if (isStep) buttons.set(it.number, made.firstElementChild);
    return made;
  };
  const list = make("ol", { class: "scroll", "aria-label": "Steps of the argument" }, argument.items.slice(0, MOST_ITEMS).map(entry));
  list.addEventListener("keydown", event => {
    const all = [...buttons.values()], at = all.indexOf(document.activeElement);
    const to = { ArrowDown: at + 1, ArrowUp: at - 1, Home: 0, End: all.length - 1 }[event.key];
    if (at >= 0 && to !== undefined && all[to]) { event.preventDefault(); all[to].focus(); }
    if (event.key === "Escape") { chosen = null; light(null); }
  });
  view.onCell = number => {
    const of = steps.get(number);
    if (!of) return;
    chosen = of[(of.indexOf(chosen) + 1) % of.length];
    light(current());
    buttons.get(chosen)?.scrollIntoView({ block: "nearest" });
  };
  find("words").className = "list";
  find("words").replaceChildren(make("h3", {}, `Why there is none ${inRounds(found.rounds)}`),
    make("p", { class: "soft" }, argument.total ? called(argument.total) : "",
      argument.items.length > MOST_ITEMS ? ` The first ${MOST_ITEMS.toLocaleString("en")} lines:` : ""), list);
  const told = [...forced].filter(([point, it]) => !argument.emptied.has(point) && /^\d+$/.test(it)).map(([, it]) => Number(it));
  const values = [...new Set(told)].sort((a, b) => a - b);
  legend(values.filter(it => state.task.rules.values.includes(it)), values.length === 1 ? "forced value" : "forced values", chooser);
}

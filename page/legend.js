// The legend under a picture: the processes, the values that have colours, and which inputs are drawn.
import { find, make, plural } from "./dom.js";
import { colour, element, outline } from "./palette.js";
import { inputName } from "./state.js";
import { view } from "./view.js";

const MOST_VALUES = 16, MOST_INPUTS = 200, MOST_ALL = 9;

/** @param {import("./tasks.js").Simplex} simplex */
export const simplexText = simplex => simplex.map(([p, v]) => `p${p}=${inputName(v)}`).join(", ");

/** @param {number[]} values  those that are told @param {string} what  what they are @param {any} chooser  a select, or null */
export function legend(values, what, chooser = null) {
  const box = find("legend"), parts = [];
  if (!view.drawing) { box.replaceChildren(); return; }
  for (const p of [...new Set(view.drawing.scene.spots.map(it => it.process))].sort()) {
    if (p < 0) continue;
    const icon = element("svg", { class: "wf", viewBox: "0 0 24 24", "aria-hidden": "true" }, outline(p, 12, p === 3 ? 13.5 : 12, 8.5, { class: "spot p" + p }));
    parts.push(make("span", {}, icon, `process ${p}`));
  }
  for (const value of values.slice(0, MOST_VALUES)) {
    const swatch = make("i", { class: "swatch" }), name = view.valueName(value);
    swatch.style.background = colour(value, view.drawing.palette);
    parts.push(make("span", {}, swatch, name === String(value) ? name : `${value} ${name}`));
  }
  if (values.length) parts.push(make("span", {}, values.length > MOST_VALUES ? `and ${values.length - MOST_VALUES} more ${what}` : what));
  if (chooser) parts.push(chooser);
  box.replaceChildren(...parts);
}

/** A select for the inputs that are drawn: `chosen` gets facets, or null for those that the page chooses.
 * @param {import("./tasks.js").Simplex[]} every @param {import("./tasks.js").Simplex[]} drawn */
export function inputChooser(every, drawn, chosen) {
  const many = every.length, some = drawn.length > 1, isAll = drawn.length === many;
  const select = make("select", { id: "inputs", "aria-label": "Which inputs are drawn", onchange: event => {
    const { value } = event.target;
    chosen(value === "all" ? every : value === "some" ? null : [every[Number(value)]]);
  } },
  some ? make("option", { value: "some", selected: true }, isAll ? `all ${many} inputs` : `${drawn.length} of ${many} inputs`) : null,
  many <= MOST_ALL && !isAll ? make("option", { value: "all" }, `all ${many} inputs`) : null,
  every.slice(0, MOST_INPUTS).map((it, at) => make("option", { value: at, selected: !some && it === drawn[0] }, simplexText(it))));
  return make("span", {}, "begin with", select, many > MOST_INPUTS ? plural(many - MOST_INPUTS, "more") : null);
}

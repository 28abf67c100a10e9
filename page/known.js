// The tasks of the gallery, searched as one types, with what is known of each.
import { find, make } from "./dom.js";
import { unpackedText } from "./packed.js";
import { changed, setTask } from "./state.js";
import { entered, openTab } from "./tabs.js";

/** @typedef {{group: string, name: string, answer: string, about: string, rounds: number}} Row */
/** @type {{rows: Row[], tasks: Record<string, string> | null, chosen: string}} */
const gallery = { rows: JSON.parse(find("rows").textContent), tasks: null, chosen: "set-agreement-3-2" };

export const isKnown = name => gallery.rows.some(it => it.name === name);

/** Makes a task of the gallery the question. @param {string} name */
export function chooseKnown(name) {
  const row = gallery.rows.find(it => it.name === name);
  if (!row || !gallery.tasks) return;
  gallery.chosen = name;
  setTask({ name, text: gallery.tasks[name], source: { kind: "known", name }, known: { answer: row.answer, where: "gallery" } });
  const input = document.querySelector(`#list input[value="${CSS.escape(name)}"]`);
  if (!input) return;
  /** @type {any} */ (input).checked = true;
  input.closest("label").scrollIntoView({ block: "nearest" });
}

/** Lists the tasks that have all words of the search. */
function listKnown() {
  const wanted = find("search").value.toLowerCase().split(/\s+/).filter(Boolean), parts = [];
  let group = null;
  for (const row of gallery.rows) {
    const all = `${row.group} ${row.name} ${row.about} ${row.answer}`.toLowerCase();
    if (!wanted.every(it => all.includes(it))) continue;
    if (row.group !== group) parts.push(make("h3", {}, group = row.group));
    parts.push(make("label", {}, make("input", { type: "radio", name: "known", value: row.name, checked: row.name === gallery.chosen,
      onchange: () => chooseKnown(row.name) }), make("b", {}, row.name), make("em", {}, row.answer), make("span", {}, row.about)));
  }
  find("list").replaceChildren(...(parts.length ? parts : [make("p", { class: "hint" }, "No known task has these words.")]));
}

/** Reads the tasks that the page carries. */
export async function loadKnown() {
  gallery.tasks = JSON.parse(await unpackedText("tasks"));
  find("search").placeholder = `Search ${gallery.rows.length} tasks: consensus, 1993, never …`;
  listKnown();
}

entered.known = () => chooseKnown(gallery.chosen);
find("search").addEventListener("input", listKnown);
find("search").addEventListener("keydown", event => {
  const first = /** @type {any} */ (document.querySelector("#list input"));
  if (!first || event.key !== "Enter" && event.key !== "ArrowDown") return;
  event.preventDefault();
  chooseKnown(first.value);
  first.focus();
});
find("list").addEventListener("dblclick", () => changed("ask"));
find("list").addEventListener("keydown", event => { if (event.key === "Enter") { event.preventDefault(); changed("ask"); } });
export const openKnown = name => { gallery.chosen = name; openTab("known"); };

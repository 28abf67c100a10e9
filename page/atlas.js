// The atlas as a table: all small tasks up to symmetry, which filters choose from. A click asks about a line again.
import { masksOf, tuplesOf } from "./codes.js";
import { find, later, make } from "./dom.js";
import { unpackedText } from "./packed.js";

/** @typedef {{code: string, answer: string, by: string, tuples: number}} Row   `by` says what an obstruction consists of, if it is never */

const STEP = 150, NEVER = "never";
/** @type {{rows: Row[], byCode: Map<string, Row>, found: Row[], shown: number, chosen: (code: string) => void}} */
const atlas = { rows: [], byCode: new Map(), found: [], shown: 0, chosen: () => {} };

/** @param {string} code */
export const atlasRow = code => atlas.byCode.get(code);
/** @param {(code: string) => void} chosen */
export function onRow(chosen) { atlas.chosen = chosen; }
/** The code of a task by chance, of those that the filters leave. */
export const randomCode = () => atlas.found[Math.floor(Math.random() * atlas.found.length)]?.code;

/** Reads the table that the page carries: lines of a code, and the numbers of its answer and of its obstruction. */
export async function loadAtlas() {
  const [answers, bys, ...lines] = (await unpackedText("atlas")).trim().split("\n");
  const told = [answers, bys].map(it => it.split("\t"));
  atlas.rows = lines.map(line => {
    const [code, answer, by] = line.split("\t");
    return { code, answer: told[0][Number(answer)], by: told[1][Number(by)], tuples: tuplesOf(masksOf(code)) };
  });
  atlas.byCode = new Map(atlas.rows.map(it => [it.code, it]));
  const options = (id, all, listed) => find(id).replaceChildren(make("option", { value: "" }, all), ...listed.map(it => make("option", { value: it }, it)));
  options("filter-answer", "any answer", ["solvable", NEVER]);
  options("filter-rounds", "any rounds", told[0].filter(it => it !== NEVER));
  options("filter-by", "any obstruction", told[1].filter(Boolean));
  filter();
}

/** Whether a line is what the filters ask for. */
function fits(row) {
  const answer = find("filter-answer").value, by = find("filter-by").value, code = find("filter-code").value.trim().toLowerCase();
  const rounds = find("filter-rounds").value, least = Number(find("filter-least").value || 0), most = Number(find("filter-most").value || 99);
  return (!answer || (row.answer === NEVER) === (answer === NEVER)) && (!rounds || row.answer === rounds) && (!by || row.by === by)
    && (!code || row.code.includes(code)) && least <= row.tuples && row.tuples <= most;
}

function filter() {
  atlas.found = atlas.rows.filter(fits);
  atlas.shown = 0;
  find("table-rows").replaceChildren();
  find("table-many").textContent = `${atlas.found.length.toLocaleString("en")} of ${atlas.rows.length.toLocaleString("en")} tasks`;
  more();
}

/** Appends lines: as many as one sees, and some more. */
function more() {
  const listed = atlas.found.slice(atlas.shown, atlas.shown + STEP);
  atlas.shown += listed.length;
  find("table-rows").append(...listed.map(it => make("tr", { "data-code": it.code },
    make("td", {}, make("button", { class: "code", title: `Ask about ${it.code}` }, it.code)),
    make("td", {}, it.answer), make("td", {}, it.by), make("td", {}, String(it.tuples)))));
}

find("table-rows").addEventListener("click", event => {
  const row = event.target.closest("tr");
  if (!row) return;
  find("table-rows").querySelector(".chosen")?.classList.remove("chosen");
  row.classList.add("chosen");
  atlas.chosen(row.dataset.code);
});
find("table-rows").addEventListener("keydown", event => {
  const row = event.target.closest("tr"), to = { ArrowDown: row?.nextElementSibling, ArrowUp: row?.previousElementSibling }[event.key];
  if (!to) return;
  event.preventDefault();
  to.querySelector("button").focus();
});
find("table").addEventListener("scroll", () => { const it = find("table"); if (it.scrollTop + it.clientHeight > it.scrollHeight - 300) more(); });
for (const it of ["answer", "by", "code", "least", "most", "rounds"]) find("filter-" + it).addEventListener("input", later(filter, 60));

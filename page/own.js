// A task of one's own: a predicate in an editor with line numbers, and what its processes begin with and may decide.
import { setBusy, stopWork } from "./asks.js";
import { find, make, tell } from "./dom.js";
import { workerOf } from "./engine.js";
import { EXAMPLES } from "./examples.js";
import { inputsIn, judgeNames, namesIn, numbersIn } from "./making.js";
import { changed, forget, on, setTask, state } from "./state.js";
import { entered } from "./tabs.js";
import { Mistake } from "./tasks.js";

/** @typedef {import("./examples.js").Own} Own */
const FIELDS = { code: "predicate", inputs: "inputs-own", values: "values", first: "first", names: "names-values", inputNames: "names-inputs", name: "name" };
const LONGEST = 200000;
/** @type {{worker: Worker, over: () => void} | null} */
let making = null;

/** Fills the fields; what is no text counts as none, since a link may have anything. @param {Partial<Own>} own */
export function setOwn(own) {
  for (const [key, id] of Object.entries(FIELDS)) find(id).value = typeof own[key] === "string" ? own[key].slice(0, LONGEST) : "";
  find("processes").value = [1, 2, 3, 4].includes(Number(own.processes)) ? String(own.processes) : "2";
  find("symmetric").checked = own.symmetric === true;
  find("predicate").rows = Math.max(6, Math.min(24, find("predicate").value.split("\n").length + 1));
  mark(null);
  tell("error-own", "");
}

/** What the fields have. @returns {Own} */
const getOwn = () => /** @type {any} */ ({ ...Object.fromEntries(Object.entries(FIELDS).map(([key, id]) => [key, find(id).value])),
  processes: Number(find("processes").value), symmetric: find("symmetric").checked, name: find("name").value.trim() });

/** Writes the line numbers, and marks a line. @param {number | null} line */
function mark(line) {
  const many = find("predicate").value.split("\n").length;
  find("gutter").replaceChildren(...Array.from({ length: many }, (_, at) => make("span", { class: at + 1 === line ? "bad" : "" }, String(at + 1))));
  find("gutter").scrollTop = find("predicate").scrollTop;
  find("predicate").setAttribute("aria-invalid", String(line !== null));
}

/** What the fields ask for. Throws Mistake. @param {Own} own */
function judged(own) {
  if (!/^[^/\\\0]{1,60}$/.test(own.name) || own.name === ".." || own.name === ".") throw new Mistake("Name: that of a file, without a folder.");
  const first = own.first === "" ? null : Number(own.first);
  const asked = { processes: own.processes, inputs: inputsIn(own.inputs, own.processes), values: numbersIn(own.values, "Values"),
    symmetric: own.symmetric, firstBlock: first };
  const names = { values: namesIn(own.names, "Names of values"), inputs: namesIn(own.inputNames, "Names of inputs") };
  judgeNames(names, asked);
  return { asked, names };
}

/** Tells a mistake, at its line if it has one. */
function mistaken(text, line = null) {
  mark(line);
  tell("error-own", line === null ? text : `Line ${line}: ${text}`);
  find("error-own").scrollIntoView({ block: "nearest" });
}

/** What stands above the worker's own script: the predicate, which keeps its line numbers. @param {string} code */
const aboveMaker = code => `"use strict";${code}\n;`;

/** The line at which `legal` begins. @param {string} code */
const lineOfLegal = code => { const at = code.split("\n").findIndex(it => /\blegal\b/.test(it)); return at < 0 ? null : at + 1; };

/** Makes the task in a worker of its own. Whether it could. @returns {Promise<boolean>} */
export function makeOwn() {
  const own = getOwn();
  making?.over();
  changed("stop");
  stopWork();
  tell("error-own", "");
  mark(null);
  return new Promise(done => {
    let ready;
    try { ready = judged(own); } catch (problem) { mistaken(problem.message); done(false); return; }
    const lines = own.code.split("\n").length, worker = workerOf("maker-source", aboveMaker(own.code));
    const over = () => { worker.terminate(); making = null; setBusy(false); };
    making = { worker, over: () => { over(); done(false); } };
    setBusy(true);
    find("doing").textContent = "asking the predicate";
    worker.onerror = event => {
      event.preventDefault();
      over();
      const isInside = event.lineno && event.lineno <= lines;
      mistaken(event.message.replace(/^Uncaught /, "") + (isInside ? "" : ". Is a bracket missing at the end?"), isInside ? event.lineno : lines);
      done(false);
    };
    worker.onmessage = ({ data: it }) => {
      if (it.kind === "progress") {
        find("doing").textContent = `asking the predicate: ${Number(it.asked).toLocaleString("en")} of ${Number(it.whole).toLocaleString("en")} choices`;
        return;
      }
      over();
      const problem = it.kind === "made" ? setTask({ name: own.name, text: String(it.text), names: ready.names, source: { kind: "own", own } }) : null;
      if (it.kind === "mistake") mistaken(String(it.text), typeof it.line === "number" ? it.line : it.isOfPredicate ? lineOfLegal(own.code) : null);
      else if (problem) mistaken(problem);
      done(it.kind === "made" && !problem);
    };
    worker.postMessage({ ...ready.asked, lines });
  });
}

/** A predicate that came with a link is shown, and runs when one asks. */
export function greet() {
  forget();
  state.task = null;
  find("headline").textContent = find("name").value;
  find("meaning").textContent = "This predicate came with a link. Read it, then press Ask: it runs in a worker that reaches no network.";
  for (const id of ["chips", "picture", "legend", "words", "reading"]) find(id).replaceChildren();
  for (const id of ["reading", "trust", "zoom"]) find(id).hidden = true;
  find("example").selectedIndex = -1;
}

on("stop", () => making?.over());
entered.own = () => {
  find("summary").replaceChildren(make("b", {}, find("name").value), " Ask makes the task, and asks about it.");
  find("ask").disabled = false;
};
find("panel-own").addEventListener("input", () => { if (state.task?.source.kind === "own") find("answer").classList.add("stale"); });
find("predicate").addEventListener("input", () => mark(null));
find("predicate").addEventListener("scroll", () => { find("gutter").scrollTop = find("predicate").scrollTop; });
find("predicate").addEventListener("keydown", event => {
  if (event.key !== "Enter" || !event.ctrlKey && !event.metaKey) return;
  event.preventDefault();
  changed("ask");
});
find("make").addEventListener("click", () => makeOwn());
for (const [key, it] of Object.entries(EXAMPLES)) find("example").append(make("option", { value: key }, it.title));
find("example").addEventListener("change", () => { setOwn(EXAMPLES[find("example").value]); entered.own(); });

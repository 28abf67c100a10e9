// The answer in words: the last line of `ask`, what it means, whom one trusts, and which rounds were asked.
import { find, make, plural } from "./dom.js";
import { changed, inRounds, on, outcome, roundsAsked, state } from "./state.js";

const delta = () => make("i", { class: "math" }, "δ : Chʳ(I) → O");

/** What an outcome means, and what it does not. */
function meaning(it) {
  const { rules } = state.task, { symmetric } = rules, among = symmetric ? "comparison-based protocol" : "wait-free protocol";
  const model = rules.firstBlock > 1 ? ` where at least ${rules.firstBlock} start together in each round` : "";
  return {
    never: () => ["No decision map ", delta(), ` carried by Δ exists, whatever the number r of rounds. So no ${among} solves this task${
      symmetric ? " in iterated immediate snapshots." : " in read-write memory."}`],
    from: () => it.at === 0 ? ["Each process may decide at once, by what it begins with alone: a decision map exists without any round."]
      : [`A decision map exists ${inRounds(it.at)} of immediate snapshot${symmetric ? ", by comparing names" : ""}${model}, and so after more. None exists ${
        inRounds(it.at - 1)}.`],
    between: () => [`None exists ${inRounds(it.none)} or fewer, and a map exists ${inRounds(it.at)}. The rounds between are open.`],
    map: () => [`A decision map exists ${inRounds(it.at)}, and so after more. Whether fewer are enough was not asked.`],
    none: () => [`No decision map exists ${inRounds(it.at)}${it.at ? " or fewer" : ""}${model}. More rounds may help: that stays open here.`],
    open: () => [state.evidence.stopped ? "Stopped before anything was accepted. That says nothing about the task."
      : state.busy ? "" : "Press Ask, or look first at what the processes may know after some rounds."],
  }[it.kind]();
}

const CHECKER = "You trust the proofs of the checker. You need not trust the search that wrote the certificate.";
const TRUST = {
  never: ["An accepted obstruction.", "You trust the proofs of the checker and of the counting argument. You need not trust the finder that wrote the obstruction."],
  from: ["An accepted map, and an accepted refutation.", `${CHECKER} You can check each triangle of the map by eye.`],
  between: ["Accepted certificates.", CHECKER],
  map: ["An accepted map.", `${CHECKER} You can check each triangle of the map by eye.`],
  none: ["An accepted refutation.", `${CHECKER} Every step can be read beside the picture.`],
};
const HERE = " In this page you also trust the compiler to WebAssembly, your browser, and this file, which drew the picture. Download the certificate: "
  + "the released programs wfcheck and wfverify and the Python scripts of oracle/ judge it without any of these.";

/** What the gallery or the atlas says of the same task. */
function compared(it) {
  const { known } = state.task;
  if (!known || !it.text || state.busy) return null;
  const same = known.answer === it.text || known.answer === "never" && it.kind === "never";
  return make("small", {}, same ? ` (as in the ${known.where})` : ` (the ${known.where}: ${known.answer})`);
}

function headline() {
  const it = outcome(), { name } = state.task, trust = TRUST[it.kind];
  find("headline").replaceChildren(it.text ? `${name}: ${it.text}` : name, ...[compared(it)].filter(Boolean));
  document.title = it.text ? `${name}: ${it.text}` : `${name} · wfcheck`;
  find("meaning").replaceChildren(...meaning(it));
  find("trust").hidden = !trust;
  if (!trust) return;
  find("trust").firstElementChild.textContent = `${trust[0]} Whom do you trust?`;
  find("trust").lastElementChild.textContent = trust[1] + HERE;
}

/** The buttons that choose what is shown. */
function chips() {
  const { evidence, shown } = state, listed = [];
  const most = Math.max(roundsAsked(), ...evidence.rounds.keys(), typeof shown === "number" ? shown : 0);
  if (state.task.rules.processes < 4) listed.push(["outputs", "Δ", "what is allowed"]);
  if (evidence.never) listed.push(["never", "every r", "none"]);
  else if (evidence.open.length) listed.push(["open", "every r", "no obstruction"]);
  for (let r = 0; r <= Math.min(8, most); r++) listed.push([r, `r = ${r}`, evidence.rounds.get(r)?.answer ?? "not asked"]);
  const held = find("chips").contains(document.activeElement);
  find("chips").replaceChildren(...listed.map(([key, name, what]) => make("button", { "aria-pressed": String(shown === key), "data-key": key,
    onclick: () => { state.facets = null; changed("show", key); } }, make("b", {}, name), " ", make("span", {}, what))));
  if (held) find("chips").querySelector("[aria-pressed=true]")?.focus();
}

/** What is at hand, in a line above the button. */
function summary() {
  const { rules, name } = state.task, sizes = rules.simplices.map(it => it.length), largest = Math.max(...sizes);
  const kind = ["", ["vertex", "vertices"], ["edge"], ["triangle"], ["tetrahedron", "tetrahedra"]][largest];
  const tuples = [...rules.allowed.values()].reduce((sum, it) => sum + it.length, 0);
  find("summary").replaceChildren(make("b", {}, name), ` ${plural(rules.processes, "process", "processes")}${rules.symmetric ? " that compare names" : ""}, ${
    plural(sizes.filter(it => it === largest).length, "input " + kind[0], kind[1] ? "input " + kind[1] : undefined)}, ${plural(rules.values.length, "value")}, ${
    plural(tuples, "allowed tuple")}${rules.firstBlock > 1 ? `, first blocks of ${rules.firstBlock}` : ""}`);
}

on("task", () => {
  summary();
  find("ask").disabled = false;
  find("answer").classList.remove("stale");
});
for (const what of ["task", "evidence", "busy", "show"]) {
  on(what, () => {
    if (!state.task) return;
    headline();
    chips();
  });
}

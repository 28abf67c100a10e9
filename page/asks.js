// Asks the worker, and keeps what it answers.
import { argumentOf } from "./argument.js";
import { find, isNarrow, tell } from "./dom.js";
import { command, restart } from "./engine.js";
import { handsOf, nodesOf } from "./obstructions.js";
import { changed, forget, on, roundsAsked, state } from "./state.js";

const LONG = 15, MOST_NODES = 400;
const REFUSALS = { 2: "the text is not JSON", 15: "the page has no more memory for it", 16: "more than 8 rounds are not asked",
  17: "the complex has more than 500,000 executions", 50: "an obstruction needs all executions, and a first block leaves some out" };

export function setBusy(busy) {
  state.busy = busy;
  find("busy").hidden = !busy;
  find("stop").hidden = !busy;
  find("ask").hidden = busy;
  find("answer").setAttribute("aria-busy", String(busy));
  changed("busy");
}

/** Ends what runs; what was accepted before stands. */
export function stopWork() {
  if (!state.busy) return;
  restart();
  setBusy(false);
}

/** A refusal of the program, with what it means. */
const refusalText = text => { const why = REFUSALS[/^\d+/.exec(text)?.[0]]; return why ? `${text}: ${why}` : text; };

/** What a message of the worker adds to the evidence; the key of what is to be shown then, or undefined. */
function heard(it, evidence) {
  if (it.kind === "never") {
    const nodes = nodesOf(it.text);
    evidence.never = { ...it, nodes, hands: nodes.length <= MOST_NODES ? handsOf(state.task.rules, nodes) : null };
    return "never";
  }
  if (it.kind === "open") evidence.open.push(it.text);
  if (it.kind === "round") {
    const values = it.answer === "map" ? [...it.text.matchAll(/^m (\d+)$/gm)].map(found => Number(found[1])) : null;
    evidence.rounds.set(it.rounds, { ...it, argument: it.answer === "none" ? argumentOf(it.words) : null, values });
    state.facets = null;
    return it.rounds;
  }
  if (it.kind === "refused") {
    evidence.refused = it.text;
    tell("error-answer", `${it.words}: ${refusalText(it.text)}`);
  }
  return undefined;
}

/** Sends a question about the task at hand, and returns when it is answered, stopped or replaced by another. */
export function send(message) {
  stopWork();
  tell("error-answer", "");
  setBusy(true);
  const from = performance.now(), { evidence } = state;
  let doing = "starting";
  const tick = () => {
    if (!state.busy || state.evidence !== evidence) return;
    const spent = (performance.now() - from) / 1000;
    const hint = spent > LONG ? ". The search may have no end. Stop keeps what was found, and tools/ask also asks a SAT solver." : "";
    find("doing").textContent = doing + (spent > 1 ? ` · ${spent.toFixed(0)} s` : "") + hint;
    setTimeout(tick, 250);
  };
  tick();
  return new Promise(done => command({ ...message, task: state.task.text }, it => {
    if (state.evidence !== evidence) return true;
    if (it.kind === "doing") doing = it.what;
    else if (it.kind === "progress") doing = doing.split(": ")[0] + ": " + it.line;
    else if (it.kind === "failed") tell("error-answer", it.text);
    const key = heard(it, evidence), ended = it.kind === "failed" || it.kind === "end";
    if (ended) setBusy(false);
    if (key !== undefined) changed("show", key); else changed("evidence");
    if (ended) done(null);
    return ended;
  }).catch(problem => { setBusy(false); tell("error-answer", problem.message); done(null); }));
}

/** Asks all of the question: no obstruction is looked for if a first block leaves executions out, since its argument needs them all. */
export async function askAll() {
  if (!state.task) return;
  forget();
  changed("show", Math.min(1, roundsAsked()));
  if (isNarrow()) find("answer").scrollIntoView();
  await send({ kind: "ask", rounds: roundsAsked(), seek: find("seek").checked && state.task.rules.firstBlock < 2 });
}

on("stop", stopWork);

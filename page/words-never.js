// An obstruction beside its picture: what a split, a case or a cover does to the outputs, and a balance to play with.
import { legend, simplexText } from "./legend.js";
import { find, make, plural } from "./dom.js";
import { play } from "./balance.js";
import { drawOutputs } from "./words-outputs.js";
import { changed, state, valueName } from "./state.js";
import { showScene, view } from "./view.js";

const MOST_LISTED = 200, MOST_OPEN = 3000, INSET = 14, DEEPEST = 12;
/** What is shown of an obstruction: which node, and of a balance whether its outputs are shown. */
const shown = { of: null, node: 0, outputs: false, game: null };

/** Shows a node. @param {number} node @param {boolean} outputs */
function choose(node, outputs) {
  Object.assign(shown, { node, outputs });
  changed("show", "never");
}
const button = (text, act) => make("p", {}, make("button", { class: "plain", onclick: act }, text));

/** @param {any} never  the obstruction that was found */
export function wordsOfNever(never) {
  const rounds = state.task.rules.processes === 2 ? 2 : 1;
  if (shown.of !== never) Object.assign(shown, { of: never, node: 0, outputs: false, game: { rounds, values: null, any: false } });
  const hand = never.hands?.[shown.node];
  find("words").className = "";
  if (!hand) {
    showScene(null, [], "This obstruction has too many nodes to draw. The words beside have the whole of it.");
    legend([], "");
    side(never, []);
  } else if (hand.node.name !== "balance") side(never, transform(never, hand));
  else if (shown.outputs) side(never, outputsAtHand(never, hand));
  else {
    const more = never.nodes.length > 1 && hand.rules.processes < 4 ? button("What is allowed here", () => choose(shown.node, true)) : null;
    side(never, [play(hand, shown.game, () => changed("show", "never")), more]);
  }
}

/** Writes what stands beside the picture: the steps of a tree, some words, and what the program writes of the whole. */
function side(never, words) {
  const sentences = never.words.split("\n").slice(2).join("\n").trim() || "It is too long to be read. The certificate has the whole.";
  const isOpen = never.nodes.length === 1 && sentences.length < MOST_OPEN;
  find("words").replaceChildren(make("h3", {}, "Why no number of rounds is enough"), ...[nodeList(never), words].flat(3).filter(Boolean),
    make("p", { class: "soft" }, `Found and accepted in ${never.ms} ms.`),
    make("details", { open: isOpen }, make("summary", {}, "The same as a sum of equations"), make("pre", {}, sentences)));
}

/** The nodes of a tree, to choose from. */
function nodeList(never) {
  if (never.nodes.length === 1 || !never.hands) return [];
  const { simplices } = state.task.rules;
  const told = ({ node, part }) => (part === null ? "" : `case ${part + 1}: `) + (node.name === "balance" ? `a balance modulo ${node.numbers[0]}`
    : `${{ split: "a split", cover: "a cover", case: "cases" }[node.name]} at ${simplexText(simplices[node.numbers[0]])}`);
  const entry = (it, at) => {
    const isShown = shown.node === at, made = make("li", {}, make("button", { "aria-pressed": String(isShown), class: isShown ? "chosen" : "",
      onclick: () => choose(at, false) }, make("b", {}, `${at + 1}. `), told(it)));
    made.style.marginLeft = `${Math.min(DEEPEST, it.depth) * INSET}px`;
    return made;
  };
  const left = never.hands.length - MOST_LISTED;
  return [make("h3", {}, "Steps of the obstruction"), make("ol", { class: "nodes", "aria-label": "Steps of the obstruction" },
    never.hands.slice(0, MOST_LISTED).map(entry)), left > 0 ? make("p", { class: "soft" }, `and ${plural(left, "step")} more in the certificate`) : null];
}

const ABOUT = {
  split: ["The lit triangles are what they may decide. At the ringed point they fall apart into pieces that have that point alone in common.",
    "A protocol's executions don't fall apart: at each point they are joined by steps of the other processes. So a map that decides this value stays "
    + "in one piece. The split gives the value another name in each piece: one point becomes several."],
  case: ["What they may decide falls into pieces that no step of one process joins. The executions are connected, so a map stays in one piece.",
    "There is one case for each piece, and each is refuted below."],
  cover: ["What they may decide has a hole. The subdivided triangle has none, so a map can be lifted to a complex that goes round the hole several "
    + "times before it closes: a cover.", "In the cover each value has a name for each sheet, and there a balance refutes the map."],
};

/** What a split, cases or a cover is about: the outputs of the task at hand, with those lit that its simplex allows. */
function transform(never, hand) {
  const { node, rules } = hand, simplex = rules.simplices[node.numbers[0]], next = never.hands[shown.node + 1];
  const drawn = drawOutputs(rules, simplex, v => hand.names.get(v) ?? valueName(v), "");
  if (drawn) view.hint = "Lit: what they may decide. Point at a shape, an edge or a triangle to read it.";
  const after = { split: "After the split", case: "The first case", cover: "In the cover" }[node.name];
  const sheets = node.name === "cover" ? ` This one has ${plural(node.numbers[1], "sheet")}.` : "", [first, second] = ABOUT[node.name];
  return [make("p", {}, `All begin with ${simplexText(simplex)}. ${first}${sheets}`), make("p", {}, second),
    button(after, () => choose(shown.node + 1, next.node.name === "balance"))];
}

/** What may be decided in the task that splits, cases and covers have made. */
function outputsAtHand(never, hand) {
  const { rules } = hand, simplex = rules.facets.find(it => it.length === rules.processes) ?? rules.facets[0];
  const drawn = drawOutputs(rules, simplex, v => hand.names.get(v) ?? valueName(v), "");
  if (drawn) view.hint = "Point at a shape, an edge or a triangle to read it.";
  const about = {
    split: "After the split: a piece that had a point in common with another now has a point of its own. Its value is written with a stroke.",
    case: "This case: of what was allowed, one piece is left.", cover: "In the cover each value is there once on each sheet.",
  }[never.hands.slice(0, shown.node).reverse().find(it => it.depth < hand.depth).node.name];
  return [make("p", {}, about), make("p", {}, "The task that is left has no map either, and one sum of equations shows it."),
    button("Play with the balance", () => choose(shown.node, false))];
}

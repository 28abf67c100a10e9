// A balance to play with: the points decide anything, and the count stays.
import { balanced, choicesOf, countOf } from "./counting.js";
import { isNarrow, make, plural } from "./dom.js";
import { chosenFacets, isOnePicture } from "./embedding.js";
import { inputChooser, legend } from "./legend.js";
import { notDrawn, sceneOf } from "./scene.js";
import { changed, inputName, state, valueName } from "./state.js";
import { Complex } from "./subdivision.js";
import { paint, read, readComplex, showScene, view } from "./view.js";

/** @typedef {{rounds: number, values: number[] | null, any: boolean}} Game   the rounds of the picture, the values of the points, and whether
 *   they may be any */

const MOST_FACETS = 8, MOST_IN_ONE = 60, MOST_ROUNDS = 4;

/** The facets that are drawn of a balance. */
function facetsFor(rules, weights) {
  if (state.facets) return state.facets;
  if (rules.facets.length <= MOST_IN_ONE && isOnePicture(rules.facets)) return rules.facets;
  const needed = chosenFacets(rules.facets, weights.simplices);
  return (needed.length ? needed : rules.facets.slice(0, 1)).slice(0, MOST_FACETS);
}

/** What is drawn by chance: one of several values. */
const drawn = from => from[Math.floor(Math.random() * from.length)];
const rest = (it, modulus) => ((it % modulus) + modulus) % modulus;
/** A count in words, as "5 − 2 = 3 ≡ 1 (mod 2)". */
function countText(counts, modulus) {
  const plus = counts.filter(it => it > 0).reduce((a, b) => a + b, 0), whole = counts.reduce((a, b) => a + b, 0);
  return `${plus} − ${plus - whole} = ${whole} ≡ ${rest(whole, modulus)} (mod ${modulus})`.replace("= -", "= −");
}
const sign = it => (it > 0 ? "+" : "−") + Math.abs(it);

/** Draws the balance of a task at hand, and returns what stands beside it. @param {import("./obstructions.js").Hand} hand @param {Game} game
 * @param {() => void} again  draws all anew */
export function play(hand, game, again) {
  const { rules } = hand, weights = balanced(rules, hand.node), facets = facetsFor(rules, weights);
  if (rules.processes > 3) return four();
  while (game.rounds && notDrawn(rules, game.rounds, facets)) game.rounds--;
  const made = new Complex(rules, game.rounds), choices = choicesOf(made);
  showScene(sceneOf(made, facets, { inputName, wide: facets.length > 4 ? 4 : 2, least: isNarrow() ? 380 : 700 }), rules.values);
  readComplex(made, game.rounds);
  view.valueName = v => hand.names.get(v) ?? valueName(v);
  view.hint = "Click a shape, and its process decides something else there: the count stays.";
  view.drawing.root.classList.add("live");
  const draw = () => choices.map(it => drawn(game.any ? rules.values : it));
  if (game.values?.length !== made.classes.size) game.values = draw();
  const sum = make("p", { class: "sum", "aria-live": "polite" }), note = make("p", { class: "soft" });
  const count = () => {
    const counted = countOf(made, weights, game.values), hidden = [...counted.keys()].filter(it => !view.drawing.drawn.has(it)).length;
    paint({
      spot: point => ({ value: game.values[point], text: hand.names.get(game.values[point])?.slice(0, 3) }),
      cell: number => {
        const it = counted.get(number);
        return it ? { marks: ["lit", it > 0 ? "plus" : "minus"], label: sign(it) } : {};
      },
    });
    sum.textContent = countText([...counted.values()], weights.modulus);
    note.textContent = hidden ? `${plural(hidden, "execution")} of the count ${hidden === 1 ? "is" : "are"} not drawn.` : "";
  };
  view.onSpot = point => {
    const from = game.any ? rules.values : choices[point];
    game.values[point] = from[(from.indexOf(game.values[point]) + 1) % from.length];
    count();
    read({ point });
  };
  count();
  const onePicture = isOnePicture(rules.facets);
  legend(rules.values, "decided", onePicture ? null : inputChooser(rules.facets, facets, chosen => { state.facets = chosen; changed("show", "never"); }));
  const redraw = () => { game.values = draw(); count(); };
  return [make("p", {}, "Let the points decide anything. The lit executions count, with sign and weight, and their sum is "
    + `${weights.sum} modulo ${weights.modulus}, whatever is decided. A decision map would have 0.`), sum, note,
  make("p", { class: "tools" }, make("button", { class: "plain", onclick: redraw }, "Other values"), " after ", roundsChooser(rules, facets, game, again)),
  make("p", {}, make("label", {}, make("input", { type: "checkbox", checked: game.any, onchange: event => { game.any = event.target.checked; redraw(); } }),
    " also values that the inputs forbid"))];
}

/** A select for the rounds of the picture. */
function roundsChooser(rules, facets, game, again) {
  const options = Array.from({ length: MOST_ROUNDS + 1 }, (_, r) => r).filter(r => !notDrawn(rules, r, facets));
  const chosen = event => { Object.assign(game, { rounds: Number(event.target.value), values: null }); again(); };
  return make("select", { "aria-label": "Rounds of the picture", onchange: chosen },
    options.map(r => make("option", { value: r, selected: r === game.rounds }, plural(r, "round"))));
}

/** What is said where no picture can be. */
function four() {
  showScene(null, [], "This balance counts executions of four processes, which are tetrahedra. The words beside say all that a picture would.");
  legend([], "");
  return [];
}

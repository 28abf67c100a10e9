// A small task: a part of the octahedron, drawn by clicks or from its code, or taken from the table of the atlas.
import { atlasRow, loadAtlas, onRow, randomCode } from "./atlas.js";
import { classOf, codeOf, masksOf, OCTA_EDGES, taskOfMasks } from "./codes.js";
import { find, make, tell } from "./dom.js";
import { element, FEW, outline, short } from "./palette.js";
import { changed, setTask } from "./state.js";
import { currentTab, entered, openTab } from "./tabs.js";

let masks = masksOf("b-7e-9.b.b-1.1.3");
const CENTRE = [165, 172], OUTER = 146, INNER = 40, SPOT = 12;
/** The place of a process that decides a value: 1 at the outer triangle, 0 at the inner one. */
function placeOf(p, v) {
  const angle = Math.PI / 180 * ([210, 330, 90][p] + (v ? 0 : 180)), radius = v ? OUTER : INNER;
  return [CENTRE[0] + radius * Math.cos(angle), CENTRE[1] - radius * Math.sin(angle)];
}
/** Where the name of a triangle stands, as parts of its corners. */
function partsOf(bits) {
  const ones = bits.reduce((sum, it) => sum + it, 0);
  return ones === 2 ? bits.map(v => v ? 0.3 : 0.4) : ones === 1 ? bits.map(v => v ? 0.4 : 0.3) : [1 / 3, 1 / 3, 1 / 3];
}

/** A part of the drawing that is on or off. */
function toggle(node, key, isOn, name, flip) {
  for (const [attribute, value] of Object.entries({ role: "checkbox", tabindex: 0, "data-octa": key, "aria-checked": isOn, "aria-label": name })) {
    node.setAttribute(attribute, String(value));
  }
  const change = () => { flip(); useMasks(); };
  node.addEventListener("click", change);
  node.addEventListener("keydown", event => { if (event.key === " " || event.key === "Enter") { event.preventDefault(); change(); } });
  return node;
}

/** What all three decide: a triangle, and the outermost one is the whole. */
function triangle(k) {
  const bits = [0, 1, 2].map(p => k >> p & 1), places = bits.map((v, p) => placeOf(p, v)), isOn = Boolean(masks.t >> k & 1);
  const far = ([x, y]) => [CENTRE[0] + 1.2 * (x - CENTRE[0]), CENTRE[1] + 1.2 * (y - CENTRE[1])];
  const path = corners => "M" + corners.map(it => it.map(short).join(" ")).join("L") + "z";
  const face = element("path", { class: "face" + (isOn ? " on" : ""), "fill-rule": "evenodd", d: (k === 7 ? path(places.map(far)) : "") + path(places) });
  const parts = partsOf(bits), middle = [0, 1].map(axis => places.reduce((sum, it, p) => sum + parts[p] * it[axis], 0));
  const [x, y] = k === 7 ? [CENTRE[0], CENTRE[1] + OUTER / 2 + 14] : middle;
  return [toggle(face, "t" + k, isOn, `all three decide ${bits.join(", ")}`, () => { masks.t ^= 1 << k; }),
    element("text", { class: isOn ? "on" : "", x: short(x), y: short(y + 5) }, bits.join(""))];
}

/** What two decide that run alone. */
function edge(at, k) {
  const isOn = Boolean(masks.e[at] >> k & 1), [[ax, ay], [bx, by]] = OCTA_EDGES[at].map((p, place) => placeOf(p, k >> place & 1));
  const line = { x1: short(ax), y1: short(ay), x2: short(bx), y2: short(by) };
  const made = element("g", { class: "edge" + (isOn ? " on" : "") }, element("line", { class: "hit", ...line }), element("line", { class: "shown", ...line }));
  return toggle(made, `e${at}${k}`, isOn, `processes ${OCTA_EDGES[at].join(" and ")} alone decide ${k & 1}, ${k >> 1}`, () => { masks.e[at] ^= 1 << k; });
}

/** What one decides that runs alone. */
function vertex(p, v) {
  const [x, y] = placeOf(p, v), isOn = Boolean(masks.v[p] >> v & 1);
  const made = element("g", { class: "vertex" + (isOn ? " on" : "") }, outline(p, x, y, SPOT, { class: "spot p" + p }),
    outline(p, x, y, SPOT * 0.74, { class: "value", fill: isOn ? FEW[v] : "none" }), element("text", { x: short(x), y: short(y + 4.8) }, String(v)));
  return [outline(p, x, y, SPOT, { class: "under" }), toggle(made, `v${p}${v}`, isOn, `process ${p} alone decides ${v}`, () => { masks.v[p] ^= 1 << v; })];
}

function drawOcta() {
  const held = /** @type {any} */ (document.activeElement)?.dataset?.octa;
  find("octa").replaceChildren(...[7, 0, 1, 2, 3, 4, 5, 6].flatMap(triangle), ...OCTA_EDGES.flatMap((_, at) => [0, 1, 2, 3].map(k => edge(at, k))),
    ...[0, 1, 2].flatMap(p => [...vertex(p, 0), ...vertex(p, 1)]));
  if (held) find("octa").querySelector(`[data-octa="${CSS.escape(held)}"]`)?.focus();
}

/** Draws the masks, says what is known of them, and makes them the question if the tab is open. */
function useMasks() {
  drawOcta();
  const code = codeOf(masks), least = classOf(masks), isEmpty = [masks.t, ...masks.e, ...masks.v].some(it => !it), row = least && atlasRow(least);
  find("code").value = code;
  find("class").replaceChildren(...(isEmpty ? ["Where nothing is allowed, nothing can be decided."]
    : least === null ? ["No map can use all that is allowed here: somebody is left with nothing to decide."]
      : least === code ? ["The atlas has it under this code."] : ["In the atlas as ", make("code", {}, least), "."]));
  if (currentTab() !== "small") return;
  const answer = row ? row.answer : "never", isNothing = !masks.t && masks.e.every(it => !it) && masks.v.every(it => !it);
  const problem = isNothing ? "Nothing is allowed anywhere."
    : setTask({ name: code, text: taskOfMasks(masks), source: { kind: "small", code }, known: { answer, where: "atlas" } });
  tell("error-small", problem ?? "");
  if (problem) find("ask").disabled = true;
}

/** Makes the task of a code the question. Whether it is one. @param {string} code */
export function openSmall(code) {
  const found = masksOf(code);
  if (found) { masks = found; openTab("small"); }
  return Boolean(found);
}

export async function loadSmall() {
  await loadAtlas();
  drawOcta();
}

entered.small = useMasks;
find("code").addEventListener("change", () => {
  const found = masksOf(find("code").value);
  tell("error-small", found ? "" : "This is no code of a small task. b-7e-9.b.b-1.1.3 is one.");
  if (found) { masks = found; useMasks(); }
});
find("random").addEventListener("click", () => { const code = randomCode(); if (code) { masks = masksOf(code); useMasks(); } });
onRow(code => { masks = masksOf(code); useMasks(); changed("ask"); });

// What one takes away: the task's file, the certificate, the picture, and the commands that ask and check the same in a shell.
import { find, make, plural } from "./dom.js";
import { namesText } from "./names.js";
import { colour, element, outline, short } from "./palette.js";
import { on, roundsAsked, state } from "./state.js";
import { view } from "./view.js";

const LIGHT = { paper: "#ffffff", ink: "#1b1f24", soft: "#57606a", lit: "#6d2a86", glow: "#efe0f5", faint: "#f8f1fb", cite: "#9a6bb0", cell: "#f4f6f8",
  thin: "#7b848f", edge: "#3d444d", rim: "#1b1f24" };

export function say(text) {
  find("said").textContent = text;
  setTimeout(() => { if (find("said").textContent === text) find("said").textContent = ""; }, 3500);
}

function save(name, text, type) {
  const url = URL.createObjectURL(new Blob([text], { type }));
  make("a", { href: url, download: name }).click();
  setTimeout(() => URL.revokeObjectURL(url), 10000);
}

/** Copies a text; where the page may not, a field does it. */
export async function copy(text, what) {
  try {
    await navigator.clipboard.writeText(text);
  } catch {
    const box = make("textarea", {}, text), held = /** @type {any} */ (document.activeElement);
    document.body.append(box);
    box.select();
    document.execCommand("copy");
    box.remove();
    held?.focus();
  }
  say(`${what} copied`);
}

/** The certificate of what is shown, or of what there is. */
function certificate() {
  const { evidence, shown, task } = state, never = evidence.never && { name: `${task.name}.obstruction`, text: evidence.never.text };
  if (shown === "never" && never) return never;
  const it = typeof shown === "number" && evidence.rounds.get(shown) || [...evidence.rounds.values()].pop();
  return it ? { name: `${task.name}-r${it.rounds}.${it.answer}.txt`, text: it.text } : never;
}

/** The picture as a file of SVG, in the light colours, with words at each point for whoever reads or hears it. */
export function pictureText() {
  const { drawing } = view, inner = drawing.root.cloneNode(true), [width, height] = drawing.scene.size, top = 62, wide = Math.max(width, 430);
  const label = (x, y, text, kind = "line") => element("text", { x, y, class: kind }, text);
  for (const it of inner.querySelectorAll("[tabindex]")) {
    it.prepend(element("title", {}, it.getAttribute("aria-label") ?? ""));
    for (const name of ["tabindex", "role", "aria-label"]) it.removeAttribute(name);
  }
  const place = { x: (wide - width) / 2, y: top, width, height, viewBox: `0 0 ${width} ${height}` };
  for (const [key, value] of Object.entries(place)) inner.setAttribute(key, value);
  const keys = [], y = top + height + 16, values = new Set(drawing.spots.map(it => drawing.look.spot?.(it.point)?.value).filter(it => it !== undefined));
  let x = 24;
  for (const p of [...new Set(drawing.scene.spots.map(it => it.process))].sort()) {
    keys.push(outline(p, x + 8, y - 5, 8, { class: "spot p" + p }), label(x + 22, y, `process ${p}`));
    x += 100;
  }
  x = 24;
  for (const value of [...values].sort((a, b) => a - b)) {
    const box = { x, y: y + 10, width: 14, height: 14, rx: 2, fill: colour(value, drawing.palette), stroke: "#1b1f24" };
    keys.push(element("rect", box), label(x + 20, y + 22, view.valueName(value)));
    x += 36 + 7 * view.valueName(value).length;
  }
  const style = find("picture-style").textContent.replace(/var\(--(\w+)\)/g, (all, name) => LIGHT[name] ?? all);
  const size = { viewBox: `0 0 ${short(wide)} ${short(y + 38)}`, width: short(wide), height: short(y + 38) };
  const whole = element("svg", { class: "wf", ...size }, element("style", {}, style), element("rect", { width: "100%", height: "100%", fill: "#ffffff" }),
    label(24, 32, `${state.task.name}: ${whatIsShown()}`, "heading"), inner, ...keys);
  return new XMLSerializer().serializeToString(whole) + "\n";
}
function whatIsShown() {
  const { shown, evidence } = state;
  if (typeof shown !== "number") return { outputs: "what may be decided", open: "the complex" }[shown] ?? "no decision map after any number of rounds";
  return `${{ map: "a decision map", none: "no decision map" }[evidence.rounds.get(shown)?.answer] ?? "the complex"} after ${plural(shown, "round")}`;
}

/** The commands that ask and check the same in a shell. */
export function commandsText() {
  const { evidence, task } = state, quote = it => /^[\w.-]+$/.test(it) ? it : `'${it.replaceAll("'", "'\\''")}'`, file = quote(`${task.name}.json`);
  const first = { known: `cp gallery/tasks/${file} .`, small: `tools/atlas --task ${task.source.code} > ${file}` }[task.source.kind];
  const lines = [first ?? `# ${file}: the button “task” saves it`];
  if (evidence.never) {
    lines.push(`wfcheck obstruction${evidence.never.covers ? " --covers 1" : ""} < ${file} > never.txt`, `wfverify --task ${file} < never.txt`,
      `wfcheck explain --task ${file} < never.txt`);
  }
  for (const it of [...evidence.rounds.values()].sort((a, b) => a.rounds - b.rounds)) {
    const out = `${it.answer}-${it.rounds}.txt`;
    lines.push(`wfcheck solve --rounds ${it.rounds} --workers 1 < ${file} > ${out}`, `wfverify --task ${file} --rounds ${it.rounds} < ${out}`);
    if (it.answer === "none") lines.push(`wfcheck explain --task ${file} < ${out}`);
  }
  if (!evidence.never && !evidence.rounds.size) lines.push(`tools/ask ${file} 0..${roundsAsked()}`);
  return lines.join("\n");
}

/** Has a button do something about the task at hand, if there is one. */
function button(id, act) {
  find(id).addEventListener("click", () => { if (state.task) act(state.task); else say("there is no task yet"); });
}
button("get-task", task => {
  save(`${task.name}.json`, task.text, "application/json");
  const names = namesText(task.names);
  if (names) save(`${task.name}.names.json`, names, "application/json");
});
button("get-certificate", () => { const it = certificate(); if (it) save(it.name, it.text, "text/plain"); else say("nothing was answered yet"); });
button("get-svg", task => {
  if (view.drawing) save(`${task.name}${typeof state.shown === "number" ? "-r" + state.shown : "-" + state.shown}.svg`, pictureText(), "image/svg+xml");
  else say("there is no picture");
});
button("show-commands", () => {
  const box = find("commands"), text = commandsText();
  box.hidden = !box.hidden;
  box.textContent = text;
  find("show-commands").setAttribute("aria-expanded", String(!box.hidden));
  if (box.hidden) return;
  copy(text, "commands");
  box.scrollIntoView({ block: "nearest" });
});
// commands that are shown follow the answer
on("evidence", () => { if (!find("commands").hidden) find("commands").textContent = commandsText(); });
on("task", () => { if (!find("commands").hidden) find("commands").textContent = commandsText(); });

// A task's file: dropped, pasted or chosen.
import { find, tell } from "./dom.js";
import { command } from "./engine.js";
import { setTask } from "./state.js";
import { openTab } from "./tabs.js";
import { LONGEST } from "./tasks.js";

const MOST_SHOWN = 200000, TOO_LONG = "refused, 1 TooLong: the file has more than 16,777,216 bytes";

/** A name as a file may have it. @param {string} name */
const fileName = name => name.replace(/\.json$/, "").replace(/[/\\\0]/g, "-").slice(0, 60) || "task";

/** Makes a text the question. Where the page can't read it, the program is asked for its refusal. @param {string} text @param {string} name */
export function takeText(text, name) {
  const problem = text.length > LONGEST ? TOO_LONG : setTask({ name: fileName(name), text, source: { kind: "file" } });
  tell("error-file", problem ?? "");
  if (!problem || text.length > LONGEST) return;
  command({ kind: "points", rounds: 0, task: text }, it => {
    if (it.kind !== "points") return it.kind === "end";
    const [line, ...words] = problem.replace(/^refused, /, "").split(": ");
    tell("error-file", it.status === 0 ? problem : `The program refuses this text: ${it.refusal}\n${it.refusal.startsWith(line) ? words.join(": ") : problem}`);
    return false;
  }).catch(() => {});
}

/** @param {File | undefined} file */
async function takeFile(file) {
  if (!file) return;
  openTab("file", false);
  if (file.size > LONGEST) { tell("error-file", TOO_LONG); return; }
  const text = await file.text();
  find("paste").value = text.length < MOST_SHOWN ? text : "";
  takeText(text, file.name);
}

find("choose").addEventListener("click", () => find("file").click());
find("file").addEventListener("change", () => { takeFile(find("file").files[0]); find("file").value = ""; });
find("take").addEventListener("click", () => takeText(find("paste").value, "pasted"));
find("paste").addEventListener("paste", () => setTimeout(() => takeText(find("paste").value, "pasted")));
for (const kind of ["dragover", "dragleave", "drop"]) {
  document.addEventListener(kind, event => {
    event.preventDefault();
    find("drop").classList.toggle("over", kind === "dragover");
    if (kind === "drop") takeFile(/** @type {DragEvent} */ (event).dataTransfer.files[0]);
  });
}

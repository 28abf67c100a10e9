// The question in the address, behind the #: a colleague opens the same question, and nothing is sent anywhere.
import { askAll } from "./asks.js";
import { find, tell } from "./dom.js";
import { EXAMPLES } from "./examples.js";
import { takeText } from "./files.js";
import { isKnown, openKnown } from "./known.js";
import { greet, setOwn } from "./own.js";
import { spread, squeezed } from "./packed.js";
import { copy, say } from "./saving.js";
import { openSmall } from "./small.js";
import { roundsAsked, state } from "./state.js";
import { openTab } from "./tabs.js";

const LONGEST = 30000;

/** The fragment of the question at hand, or null if its task is too large for a link. */
async function fragment() {
  const { source, name, text } = state.task, rest = `&rounds=${roundsAsked()}${find("seek").checked ? "" : "&seek=0"}`;
  if (source.kind === "known") return `#known=${encodeURIComponent(source.name)}${rest}`;
  if (source.kind === "small") return `#small=${source.code}${rest}`;
  const whole = source.kind === "own" ? `#own=${await squeezed(JSON.stringify(source.own))}${rest}`
    : `#file=${await squeezed(text)}&name=${encodeURIComponent(name)}${rest}`;
  return whole.length < LONGEST ? whole : null;
}

/** Puts the question into the address of the page. */
export async function remember() {
  const it = await fragment();
  try { history.replaceState(null, "", it ?? " "); } catch { /* some browsers forbid it for files */ }
}

find("copy-link").addEventListener("click", async () => {
  if (!state.task) { say("there is no task yet"); return; }
  const it = await fragment();
  if (it) copy(location.href.split("#")[0] + it, "link"); else say("this task is too large for a link: send its file");
});

/** Opens the question of the address. Whether it has one. */
export async function fromFragment() {
  const words = new URLSearchParams(location.hash.slice(1).replaceAll("+", "%2B"));
  if (words.has("rounds")) find("rounds").value = Math.max(0, Math.min(8, Math.floor(Number(words.get("rounds"))) || 0));
  if (words.has("rounds")) find("seek").checked = words.get("seek") !== "0";
  try {
    if (words.has("known") && isKnown(words.get("known"))) { openKnown(words.get("known")); await askAll(); return true; }
    if (words.has("small") && openSmall(words.get("small"))) { await askAll(); return true; }
    if (words.has("own")) {
      // somebody else's predicate is shown, and runs only when one asks
      const own = JSON.parse(await spread(words.get("own")));
      setOwn({ ...EXAMPLES.consensus, ...(typeof own === "object" ? own : {}) });
      openTab("own");
      greet();
      return true;
    }
    if (words.has("file")) {
      const text = await spread(words.get("file"));
      openTab("file", false);
      find("paste").value = text;
      takeText(text, words.get("name") ?? "task");
      if (state.task) await askAll();
      return true;
    }
  } catch (problem) {
    openTab("known");
    tell("error-answer", `This link can't be read: ${problem.message}`);
    return true;
  }
  return false;
}

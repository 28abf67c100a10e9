// The page begins: what it carries is unpacked, the program is started, and the question of the address is opened.
import "./answer.js";
import "./show.js";
import { askAll, stopWork } from "./asks.js";
import { find, tell } from "./dom.js";
import { boot } from "./engine.js";
import { EXAMPLES } from "./examples.js";
import { loadKnown } from "./known.js";
import { fromFragment, remember } from "./links.js";
import { makeOwn, setOwn } from "./own.js";
import { loadSmall } from "./small.js";
import { changed, on, state } from "./state.js";
import { currentTab, openTab } from "./tabs.js";

/** Asks about what the tab in front has. */
async function ask() {
  if (currentTab() === "own" && !(await makeOwn())) return;
  if (!state.task) return;
  remember();
  await askAll();
}

find("ask").addEventListener("click", ask);
on("ask", ask);
find("stop").addEventListener("click", () => {
  state.evidence.stopped = true;
  stopWork();
  changed("stop");
  changed("evidence");
  if (state.task) tell("error-answer", "Stopped. What was accepted before stands.");
});
find("rounds").addEventListener("input", () => changed("evidence"));
addEventListener("hashchange", () => fromFragment());

find("ask").disabled = true;
setOwn(EXAMPLES.consensus);
boot().catch(() => {});
Promise.all([loadKnown(), loadSmall()]).then(async () => { if (!(await fromFragment())) openTab("known"); },
  problem => tell("error-answer", `The page is damaged: ${problem.message}`));

// The four ways to a question.
import { find } from "./dom.js";

/** @typedef {"known" | "small" | "own" | "file"} Tab */
/** @type {Tab[]} */
export const TABS = ["known", "small", "own", "file"];
/** What happens when one opens a tab. @type {Partial<Record<Tab, () => void>>} */
export const entered = {};

export const currentTab = () => TABS.find(it => find("tab-" + it).getAttribute("aria-selected") === "true");

/** @param {Tab} name @param {boolean} enter  whether what the tab has becomes the question */
export function openTab(name, enter = true) {
  for (const it of TABS) {
    find("tab-" + it).setAttribute("aria-selected", String(it === name));
    find("tab-" + it).tabIndex = it === name ? 0 : -1;
    find("panel-" + it).hidden = it !== name;
  }
  if (enter) entered[name]?.();
}

TABS.forEach((name, at) => {
  find("tab-" + name).addEventListener("click", () => openTab(name));
  find("tab-" + name).addEventListener("keydown", event => {
    const to = { ArrowRight: at + 1, ArrowLeft: at - 1, Home: 0, End: TABS.length - 1 }[event.key];
    if (to === undefined) return;
    event.preventDefault();
    const other = TABS[(to + TABS.length) % TABS.length];
    openTab(other);
    find("tab-" + other).focus();
  });
});

// Elements of the page. Texts of tasks, files and links become text nodes and attributes, and never markup.

/** @param {string} id @returns {any} */
export const find = id => document.getElementById(id);

/** An element with attributes and children; `onclick` and the like are listeners. @param {string} tag @param {Record<string, any>} attributes
 * @param {any[]} children @returns {any} */
export function make(tag, attributes = {}, ...children) {
  const made = document.createElement(tag);
  for (const [key, value] of Object.entries(attributes)) {
    if (key.startsWith("on")) made.addEventListener(key.slice(2), value);
    else if (value !== false && value !== null && value !== undefined) made.setAttribute(key, value === true ? "" : value);
  }
  made.append(...children.flat(2).filter(it => it !== null && it !== undefined));
  return made;
}

/** A number with a noun. @param {number} many @param {string} noun */
export const plural = (many, noun, more = noun + "s") => `${many.toLocaleString("en")} ${many === 1 ? noun : more}`;

/** Shows a text in an element, or hides the element. @param {string} id @param {string} text */
export function tell(id, text) {
  find(id).hidden = !text;
  find(id).textContent = text;
}

export const isNarrow = () => matchMedia("(max-width:899px)").matches;

/** A moment later, once of many calls. @param {() => void} what @param {number} milliseconds */
export function later(what, milliseconds) {
  let waits = 0;
  return () => { clearTimeout(waits); waits = setTimeout(what, milliseconds); };
}

// Colours of values, which colour-blind readers can tell apart, and how processes look: by shape and shade; as python/wfcheck/drawing/palette.py.

const SVG = "http://www.w3.org/2000/svg";
/** Of Okabe and Ito's eight, in an order in which neighbours differ in lightness too; and for many values from dark blue to yellow. */
export const FEW = ["#56b4e9", "#e69f00", "#009e73", "#f0e442", "#0072b2", "#d55e00", "#cc79a7", "#8c8c8c"];
const MANY = [[0, 34, 78], [53, 69, 108], [102, 105, 112], [148, 142, 119], [200, 184, 102], [254, 232, 56]];
const SHAPES = ["circle", "square", "diamond", "triangle"], DARKEST = 0.42;

/** The colour of a value among these. @param {number} value @param {number[]} values */
export function colour(value, values) {
  const place = values.indexOf(value);
  if (values.length <= FEW.length) return FEW[place] ?? FEW[FEW.length - 1];
  const at = Math.max(place, 0) / (values.length - 1) * (MANY.length - 1), low = Math.min(Math.floor(at), MANY.length - 2);
  return "#" + MANY[low].map((a, k) => Math.round(a + (MANY[low + 1][k] - a) * (at - low)).toString(16).padStart(2, "0")).join("");
}

/** The colour of a text on a colour. @param {string} fill */
export function ink(fill) {
  const [r, g, b] = [1, 3, 5].map(at => ((parseInt(fill.slice(at, at + 2), 16) / 255 + 0.055) / 1.055) ** 2.4);
  return 0.2126 * r + 0.7152 * g + 0.0722 * b < DARKEST * 0.5 ? "#ffffff" : "#1b1f24";
}

/** A number with at most one digit behind the point. @param {number} number */
export const short = number => String(Math.round(number * 10) / 10);

/** An element of SVG. @param {string} name @param {Record<string, any>} attributes @param {(Node | string)[]} children */
export function element(name, attributes = {}, ...children) {
  const made = document.createElementNS(SVG, name);
  for (const [key, value] of Object.entries(attributes)) made.setAttribute(key, value);
  made.append(...children);
  return made;
}

/** The shape of a process about a place, or of a value that any may decide: all shapes are about as large. */
export function outline(process, x, y, radius, attributes = {}) {
  const shape = SHAPES[process] ?? "circle";
  if (shape === "circle") return element("circle", { cx: short(x), cy: short(y), r: short(radius), ...attributes });
  if (shape === "square") {
    const half = radius * 0.9;
    return element("rect", { x: short(x - half), y: short(y - half), width: short(2 * half), height: short(2 * half), ...attributes });
  }
  const far = radius * (shape === "diamond" ? 1.25 : 1.4);
  const corners = shape === "diamond" ? [[x, y - far], [x + far, y], [x, y + far], [x - far, y]]
    : [[x, y - far], [x + far * 0.87, y + far / 2], [x - far * 0.87, y + far / 2]];
  return element("path", { d: "M" + corners.map(it => it.map(short).join(" ")).join("L") + "z", ...attributes });
}

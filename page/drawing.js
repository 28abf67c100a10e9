// A scene as SVG elements: built once, then painted with values, marks and labels.
import { labelPlace, READABLE } from "./labels.js";
import { colour, element, ink, outline, short } from "./palette.js";

/** @typedef {{value?: number, text?: string, marks?: string[]}} SpotLook */
/** @typedef {{value?: number, label?: string, marks?: string[]}} CellLook */
/** @typedef {{spot?: (point: number) => SpotLook, cell?: (execution: number) => CellLook}} Look */

const MANY_MARKS = 60, CROSS = "×";

export class Drawing {
  /** @param {import("./scene.js").Scene} scene @param {number[]} palette  the values that have colours */
  constructor(scene, palette) {
    this.scene = scene;
    this.palette = palette;
    /** @type {Look} */ this.look = {};
    this.zoom = 1;
    this.root = element("svg", { class: "wf", viewBox: `0 0 ${scene.size.map(short).join(" ")}`, role: "group", "aria-label": "the picture" });
    /** @type {Record<string, Element>} */ this.layers = {};
    for (const name of ["cells", "edges", "spots", "rings", "badges", "notes", "names"]) {
      this.root.append(this.layers[name] = element("g", { class: name }));
    }
    const thin = scene.radius > 9 ? 1.1 : scene.radius > 5 ? 0.9 : 0.45;
    for (const name of ["cells", "edges"]) this.layers[name].setAttribute("stroke-width", String(thin));
    this.cells = scene.cells.map(it => this.cell(it));
    this.spots = scene.spots.map(it => this.spot(it));
    this.spots[0]?.element.setAttribute("tabindex", "0");
    for (const it of scene.notes) this.layers.notes.append(element("text", { class: it.kind, x: short(it.at[0]), y: short(it.at[1] + 4.5) }, it.text));
    this.drawn = new Set(scene.cells.map(it => it.execution));
  }

  /** Whether spots are large enough for a label, as they are shown now. */
  get isReadable() { return this.scene.radius * this.zoom >= READABLE; }

  /** The element of an execution. */
  cell(it) {
    const places = it.spots.map(spot => this.scene.spots[spot].at), data = { "data-e": it.execution };
    if (places.length === 1) {
      const made = element("circle", { class: "ring", ...data, cx: short(places[0][0]), cy: short(places[0][1]), r: short(this.scene.radius * 1.6) });
      this.layers.rings.append(made);
      return { ...it, places, kind: "ring", element: made };
    }
    if (places.length === 2) {
      const [[ax, ay], [bx, by]] = places, ends = { x1: short(ax), y1: short(ay), x2: short(bx), y2: short(by) };
      const made = element("line", { class: "cell", ...data, ...ends });
      this.layers.edges.append(made);
      return { ...it, places, kind: "cell", element: made };
    }
    const made = element("path", { class: "cell", ...data, d: "M" + places.map(xy => xy.map(short).join(" ")).join("L") + "z" });
    this.layers.cells.append(made);
    return { ...it, places, kind: "cell", element: made };
  }

  /** The elements of a point: its shape, in it the colour of its value, and a text. */
  spot(it) {
    const [x, y] = it.at, radius = this.scene.radius * 1.1;
    const value = outline(it.process, x, y, radius * 0.74, { class: "value" }), text = element("text", { class: "inside", x: short(x) });
    const shape = outline(it.process, x, y, radius, { class: it.process < 0 ? "spot any" : "spot p" + it.process });
    const made = element("g", { class: "at", "data-v": it.point, tabindex: -1, role: "img" }, outline(it.process, x, y, radius + 4, { class: "halo" }),
      shape, value, text);
    this.layers.spots.append(made);
    return { ...it, value, text, element: made };
  }

  /** Paints: `cell` and `spot` of a look tell how executions and points look. @param {Look} look */
  paint(look) {
    this.look = look;
    const { cell = () => ({}), spot = () => ({}) } = look;
    this.layers.badges.replaceChildren();
    const looks = this.cells.map(it => cell(it.execution));
    const lit = looks.filter(it => it.marks?.includes("lit")).length;
    this.root.classList.toggle("fine", this.scene.radius < READABLE && lit > MANY_MARKS);
    this.cells.forEach((it, at) => this.paintCell(it, looks[at]));
    for (const it of this.spots) this.paintSpot(it, spot(it.point));
  }

  paintCell(it, look) {
    const marks = look.marks ?? [], isMono = look.value !== undefined && it.kind === "cell";
    it.element.setAttribute("class", [it.kind, ...marks, isMono ? "mono" : ""].join(" ").trim());
    const fill = isMono ? colour(look.value, this.palette) : "";
    it.element.style.fill = it.places.length === 3 ? fill : "";
    it.element.style.stroke = it.places.length === 2 ? fill : "";
    if (marks.includes("lit") && it.kind === "cell") it.element.parentNode.append(it.element);
    if (look.label && !(it.isCopy && it.places.length === 1)) this.badge(it, look.label, marks);
  }

  paintSpot(it, look) {
    const marks = look.marks ?? [], fill = look.value !== undefined ? colour(look.value, this.palette) : null;
    it.element.setAttribute("class", ["at", ...marks].join(" "));
    it.value.style.display = fill ? "" : "none";
    it.value.style.fill = fill ?? "";
    const text = look.text ?? (look.value !== undefined ? String(look.value) : "");
    it.text.textContent = this.isReadable || text === CROSS ? text : "";
    const size = this.scene.radius * 1.1 * (text === CROSS ? 1.7 : [1, 1.15, 1, 0.84][text.length] ?? 0.62);
    it.text.setAttribute("font-size", short(size));
    it.text.setAttribute("y", short(it.at[1] + size * 0.36));
    it.text.style.fill = fill ? ink(fill) : it.process === 0 && !marks.includes("dim") ? "#ffffff" : "#1b1f24";
  }

  /** The label of an execution. */
  badge(it, text, marks) {
    const [x, y, size] = labelPlace(it.places, it.middle, this.scene.radius), sign = marks.includes("plus") ? " plus" : "";
    const wide = Math.max(size * 1.55, size * (0.62 * text.length + 0.7)), high = size * 1.56;
    const box = { x: short(x - wide / 2), y: short(y - high / 2), width: short(wide), height: short(high), rx: short(high / 2) };
    this.layers.badges.append(element("g", { class: "mark", "data-e": it.execution }, element("rect", { class: "badge" + sign, ...box }),
      element("text", { class: "number" + sign, x: short(x), y: short(y + size * 0.36), "font-size": short(size) }, text)));
  }

  /** Writes a name beside some points. @param {Map<number, string>} names */
  nameSpots(names) {
    this.layers.names.replaceChildren(...this.spots.filter(it => names.has(it.point)).map(it => element("text", { class: "vname",
      x: short(it.at[0] + this.scene.radius * 1.1 + 3.5), y: short(it.at[1] + this.scene.radius * 0.95 + 5) }, names.get(it.point))));
  }

  /** The next spot in a direction, for arrow keys. */
  towards(from, dx, dy) {
    const [x, y] = this.spots[from].at;
    let best = from, least = Infinity;
    this.spots.forEach((it, at) => {
      const ax = it.at[0] - x, ay = it.at[1] - y, along = ax * dx + ay * dy, across = Math.abs(ax * dy - ay * dx);
      if (at !== from && along > 0.5 && across <= along * 1.5 && along + 2 * across < least) { least = along + 2 * across; best = at; }
    });
    return best;
  }
}

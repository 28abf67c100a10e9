// Zoom and pan of a picture: by the wheel, by two fingers, by dragging, by buttons and by keys. Labels show where they are large enough.
import { short } from "./palette.js";

const MOST = 24, MOVED = 5, MOST_GROWN = 3;

export class Zoom {
  /** @param {import("./drawing.js").Drawing} drawing @param {HTMLElement} frame @param {HTMLElement} button  shows the whole again */
  constructor(drawing, frame, button) {
    Object.assign(this, { drawing, button, scale: 1, wasMoved: false, fingers: new Map() });
    this.whole = drawing.scene.size;
    this.left = this.top = 0;
    const root = this.root = drawing.root;
    root.addEventListener("wheel", event => this.wheel(event), { passive: false });
    root.addEventListener("pointerdown", event => this.down(event));
    root.addEventListener("pointermove", event => this.move(event));
    for (const kind of ["pointerup", "pointercancel", "pointerleave"]) root.addEventListener(kind, event => this.fingers.delete(event.pointerId));
    root.addEventListener("dblclick", event => { if (!event.target.closest("[data-v]")) this.by(2, this.placeOf(event)); });
    this.frame = frame;
    this.measure();
  }

  /** How many pixels of the screen a pixel of the picture has. */
  get unit() {
    const box = this.root.getBoundingClientRect();
    return Math.min(box.width / this.whole[0], box.height / this.whole[1]) * this.scale || 1;
  }

  /** Where an event is in the picture. @returns {[number, number]} */
  placeOf(event) {
    const at = new DOMPoint(event.clientX, event.clientY).matrixTransform(this.root.getScreenCTM().inverse());
    return [at.x, at.y];
  }

  /** Zooms by a factor, so that a place stays where it is. @param {number} factor @param {[number, number]} place */
  by(factor, place = [this.left + this.whole[0] / this.scale / 2, this.top + this.whole[1] / this.scale / 2]) {
    const to = Math.max(1, Math.min(MOST, this.scale * factor)), part = 1 - this.scale / to;
    this.left += (place[0] - this.left) * part;
    this.top += (place[1] - this.top) * part;
    this.scale = to;
    this.apply();
  }

  /** Shows what lies about some places, if the labels can't be read as it is. @param {[number, number][]} places */
  fit(places) {
    if (!places.length || this.drawing.isReadable && this.scale === 1) return;
    const [left, right, top, bottom] = [0, 1].flatMap(axis => [Math.min(...places.map(it => it[axis])), Math.max(...places.map(it => it[axis]))]);
    const part = Math.max((right - left) / this.whole[0], (bottom - top) / this.whole[1], 1 / MOST) * 2.2;
    this.scale = Math.max(1, Math.min(MOST, 1 / part));
    this.left = (left + right) / 2 - this.whole[0] / this.scale / 2;
    this.top = (top + bottom) / 2 - this.whole[1] / this.scale / 2;
    this.apply();
  }

  reset() {
    this.scale = 1;
    this.left = this.top = 0;
    this.apply();
  }

  /** Moves the picture so that a place is within it. @param {[number, number]} place */
  reveal(place) {
    const [wide, high] = this.whole.map(it => it / this.scale), x = wide / 8, y = high / 8;
    this.left = Math.min(Math.max(this.left, place[0] + x - wide), place[0] - x);
    this.top = Math.min(Math.max(this.top, place[1] + y - high), place[1] - y);
    this.apply();
  }

  apply() {
    const [wide, high] = this.whole.map(it => it / this.scale);
    this.left = Math.max(0, Math.min(this.whole[0] - wide, this.left));
    this.top = Math.max(0, Math.min(this.whole[1] - high, this.top));
    this.root.setAttribute("viewBox", [this.left, this.top, wide, high].map(short).join(" "));
    this.root.classList.toggle("zoomed", this.scale > 1);
    this.measure();
  }

  /** Tells the drawing how large it is shown, and has it painted again if its labels can be read now or no longer. */
  measure() {
    const before = this.drawing.isReadable;
    this.drawing.zoom = this.unit;
    // the names of corners are as large as other text, however small the whole is shown
    this.root.style.setProperty("--grow", String(Math.max(1, Math.min(MOST_GROWN, 14 / 15 * this.scale / this.unit))));
    this.button.disabled = this.scale === 1;
    if (this.drawing.isReadable !== before) this.drawing.paint(this.drawing.look);
  }

  /** With Ctrl, or once the picture is larger than the whole, the wheel zooms; else it scrolls the page. */
  wheel(event) {
    if (!event.ctrlKey && this.scale === 1 && !event.altKey) return;
    event.preventDefault();
    this.by(Math.exp(-event.deltaY * (event.ctrlKey ? 0.01 : 0.002)), this.placeOf(event));
  }

  down(event) {
    this.wasMoved = false;
    this.fingers.set(event.pointerId, [event.clientX, event.clientY]);
  }

  move(event) {
    const before = this.fingers.get(event.pointerId);
    if (!before) return;
    const now = [event.clientX, event.clientY], others = [...this.fingers].filter(([id]) => id !== event.pointerId).map(([, it]) => it);
    if (others.length === 1) {
      const far = ([x, y]) => Math.hypot(x - others[0][0], y - others[0][1]);
      this.by(far(now) / Math.max(far(before), 1), this.placeOf({ clientX: (now[0] + others[0][0]) / 2, clientY: (now[1] + others[0][1]) / 2 }));
      this.wasMoved = true;
    } else if (this.scale > 1 && !others.length) {
      if (!this.wasMoved && Math.hypot(now[0] - before[0], now[1] - before[1]) < MOVED) return;
      const unit = this.unit;
      this.left -= (now[0] - before[0]) / unit;
      this.top -= (now[1] - before[1]) / unit;
      this.wasMoved = true;
      this.apply();
    }
    this.fingers.set(event.pointerId, now);
  }
}

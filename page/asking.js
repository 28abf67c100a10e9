// Which commands a question asks, in which order, as `ask` of the Python module: an obstruction, one with a cover, and then `solve` for 0, 1,
// .. rounds. Each answer is judged by `verify` in another instance before it is told.
import { run } from "./instance.js";

/** @typedef {(message: Record<string, any>) => void} Tell */

const decoder = new TextDecoder();
/** How long a certificate may be, in characters, that is also told in words. */
const MOST_TOLD = 400000;
/** How often a command's progress is handed on, in milliseconds; how many bytes a command may take. */
const EVERY = 100;
const GAVE_UP = /: (60 GaveUp|50 FirstBlock)/;

/** The last line of standard error that is no note, without the program's name. @param {string} text */
export const refusalIn = text => (text.trim().split("\n").filter(it => !it.startsWith("  ")).pop() ?? "").replace(/^wfcheck: /, "");

/** A run of commands over one task: each is told to whoever listens. */
export class Asking {
  /** @param {WebAssembly.Module} module @param {string} task @param {Tell} tell @param {number} limit */
  constructor(module, task, tell, limit) {
    Object.assign(this, { module, task, tell, limit, peak: 0, start: performance.now() });
  }

  /** Runs a command over a text; `verify` and others read the task from a file. @returns {{status: number, out: string, err: string}} */
  command(words, stdin, files = {}, heard = undefined) {
    const ended = run(this.module, words, stdin, files, { heard, limit: this.limit });
    this.peak = Math.max(this.peak, ended.peak);
    const err = decoder.decode(ended.err) + (ended.trap ? `wfcheck: the module stopped: ${ended.trap}\n` : "");
    return { status: ended.status, out: decoder.decode(ended.out), err };
  }

  /** A command that may take long: what it says on the way is handed on. */
  search(what, words) {
    this.tell({ kind: "doing", what });
    let said = 0;
    return this.command(words, this.task, {}, line => {
      if (performance.now() - said < EVERY) return;
      said = performance.now();
      this.tell({ kind: "progress", line: line.trim().split("\n").pop() });
    });
  }

  /** Whether `verify` accepts a text: its words, or null, and then the refusal was told. */
  verdict(text) {
    this.tell({ kind: "doing", what: "verify, in another instance" });
    const judged = this.command(["verify", "--task", "task.json"], text, { "task.json": this.task });
    if (judged.status === 0) return judged.out.trim();
    this.tell({ kind: "refused", text: refusalIn(judged.err), words: "verify" });
    return null;
  }

  /** A certificate in words, or nothing if it is too long for anybody to read. @param {string} text */
  explained(text) {
    if (text.length > MOST_TOLD) return "";
    return this.command(["explain", "--task", "task.json"], text, { "task.json": this.task }).out;
  }

  /** An obstruction: "yes", "no" or "refused". @param {boolean} covers */
  never(covers) {
    const from = performance.now(), words = ["obstruction", ...(covers ? ["--covers", "1"] : []), "--progress"];
    const found = this.search(covers ? "obstruction, with a cover" : "obstruction", words);
    if (found.status === 1 || GAVE_UP.test(found.err)) {
      this.tell({ kind: "open", text: refusalIn(found.err), covers });
      return found.status === 1 ? "no" : "gave up";
    }
    if (found.status !== 0) { this.tell({ kind: "refused", text: refusalIn(found.err), words: "obstruction" }); return "refused"; }
    const verdict = this.verdict(found.out);
    if (verdict === null) return "refused";
    this.tell({ kind: "never", text: found.out, words: this.explained(found.out), verdict, covers, ms: Math.round(performance.now() - from) });
    return "yes";
  }

  /** One number of rounds: "map", "none" or "refused". @param {number} rounds */
  round(rounds) {
    const from = performance.now(), words = ["solve", "--rounds", String(rounds), "--workers", "1", "--progress"];
    const found = this.search(`solve after ${rounds} round${rounds === 1 ? "" : "s"}`, words);
    if (found.status > 1) {
      this.tell({ kind: "refused", text: refusalIn(found.err), words: `solve --rounds ${rounds}`, rounds });
      return "refused";
    }
    const solved = Math.round(performance.now() - from), verdict = this.verdict(found.out);
    if (verdict === null) return "refused";
    const answer = found.status === 0 ? "map" : "none", argument = this.explained(found.out);
    this.tell({ kind: "round", rounds, answer, text: found.out, words: argument, verdict, solved });
    return answer;
  }

  /** All of a question. @param {number} rounds @param {boolean} seek  whether an obstruction is looked for first */
  ask(rounds, seek) {
    if (seek) {
      const first = this.never(false);
      if (first === "yes" || first === "refused") return;
      if (first === "no" && ["yes", "refused"].includes(this.never(true))) return;
    }
    for (let at = 0; at <= rounds; at++) if (this.round(at) !== "none") return;
  }
}

// The program: compiled once, and handed to each worker that runs it.
import { find, make, tell } from "./dom.js";
import { unpacked } from "./packed.js";

const NEEDED = "Chrome or Edge 133, or Firefox 134, or later";
/** A module that has nothing but a memory with 64-bit addresses. */
const SMALLEST = new Uint8Array([0, 97, 115, 109, 1, 0, 0, 0, 5, 3, 1, 4, 1]);

/** @type {{worker: Worker | null, module: Promise<WebAssembly.Module> | null, ready: Promise<Worker> | null, version: string, next: number,
 *   hears: Map<number, (message: any) => boolean | void>}} */
export const engine = { worker: null, module: null, ready: null, version: "", next: 1, hears: new Map() };

/** A worker whose script is in an element of the page. @param {string} id @param {string} before  what stands above the script */
export function workerOf(id, before = "") {
  const url = URL.createObjectURL(new Blob([before + find(id).textContent], { type: "text/javascript" })), worker = new Worker(url);
  // the script is read when the worker starts
  setTimeout(() => URL.revokeObjectURL(url), 30000);
  return worker;
}

async function started() {
  engine.module ??= unpacked("module").then(bytes => WebAssembly.compile(bytes));
  const module = await engine.module, worker = engine.worker = workerOf("runner-source");
  return new Promise((done, failed) => {
    worker.onmessage = ({ data: it }) => {
      if (it.kind === "ready") { engine.version = it.version; done(worker); return; }
      if (it.kind === "failed" && it.id === undefined) { failed(new Error(it.text)); return; }
      const hear = engine.hears.get(it.id);
      if (hear?.(it)) engine.hears.delete(it.id);
    };
    worker.onerror = event => {
      event.preventDefault();
      failed(new Error(event.message));
      // a worker that ended in the middle of a question answers nothing more
      const hears = [...engine.hears.values()];
      if (engine.worker === worker) restart();
      for (const hear of hears) hear({ kind: "failed", text: `The program stopped: ${event.message || "the browser gave it no more memory"}.` });
    };
    worker.postMessage({ kind: "module", module });
  });
}

/** Starts the program, or a new worker for it. */
export function boot() {
  if (typeof WebAssembly !== "object" || !WebAssembly.validate(SMALLEST)) {
    engine.ready = Promise.reject(new Error(`This browser has no WebAssembly with 64-bit memories, which the program needs: ${NEEDED}.`));
  } else engine.ready = started();
  engine.ready.then(
    () => {
      find("engine").replaceChildren(`${engine.version.split(" (")[0]}, proved`, make("span", {}, " · nothing leaves this page"));
      find("engine").title = engine.version;
    },
    error => {
      find("engine").textContent = "the program can't run here";
      tell("error-engine", error.message.startsWith("This browser") ? error.message : `The program can't run: ${error.message}`);
    });
  return engine.ready;
}

/** Sends a question to the worker; `hear` gets what it says, until it returns true. @param {any} message @param {(it: any) => boolean | void} hear */
export async function command(message, hear) {
  const worker = await (engine.ready ?? boot()), id = engine.next++;
  engine.hears.set(id, hear);
  worker.postMessage({ ...message, id });
}

/** Ends whatever runs, and starts a new worker. */
export function restart() {
  engine.worker?.terminate();
  engine.hears.clear();
  boot();
}

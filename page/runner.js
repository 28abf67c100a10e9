// The worker that runs the program. It is given the compiled module, and then questions, each with a number under which it answers.
import { Asking, refusalIn } from "./asking.js";
import { run } from "./instance.js";

/** Memory that a command may take, in bytes: then the program says `15 OutOfMemory`. */
const LIMIT = 2 ** 31;
/** @type {WebAssembly.Module} */
let module;

onmessage = ({ data }) => {
  const { id } = data, tell = message => postMessage({ id, ...message });
  try {
    if (data.kind === "module") {
      module = data.module;
      const about = run(module, ["--version"], "");
      tell({ kind: "ready", version: new TextDecoder().decode(about.out).trim() });
      return;
    }
    const asking = new Asking(module, data.task, tell, data.limit ?? LIMIT);
    if (data.kind === "ask") asking.ask(data.rounds, data.seek);
    else if (data.kind === "round") asking.round(data.rounds);
    else if (data.kind === "points") {
      const found = asking.command(["points", "--rounds", String(data.rounds)], data.task);
      tell({ kind: "points", status: found.status, text: found.out, refusal: refusalIn(found.err) });
    }
    tell({ kind: "end", peak: asking.peak });
  } catch (error) {
    tell({ kind: "failed", text: String(error) });
  }
};

// Runs one command of the program in a fresh instance of the module: files and texts are in memory, and nothing else can be reached.
// The functions here are those that page/host.c imports; a negative answer is the number of an error.

const ENOENT = 2, EBADF = 9, EISDIR = 21;
const encoder = new TextEncoder(), decoder = new TextDecoder();
const bytesOfText = it => typeof it === "string" ? encoder.encode(it) : it;

class Exit {
  constructor(status) { this.status = status; }
}

/**
 * @typedef {object} Ended
 * @property {number} status
 * @property {Uint8Array} out
 * @property {Uint8Array} err
 * @property {number} peak      bytes of memory that the instance had at the end
 * @property {string} [trap]    how the module ended, if it did not end by itself
 */

/**
 * @param {WebAssembly.Module} module
 * @param {(string | Uint8Array)[]} words       the command's words, without the program's name
 * @param {string | Uint8Array} stdin
 * @param {Record<string, string | Uint8Array | null>} files   by name; null is a folder
 * @param {{heard?: (line: string) => void, limit?: number, main?: string, name?: string}} how   `heard` gets standard error as it comes; `limit` is in bytes;
 *   `main` names another function to call, and `name` another program, for tests
 * @returns {Ended}
 */
export function run(module, words, stdin, files = {}, { heard, limit, main = "main", name = "wfcheck" } = {}) {
  const args = [name, ...words].map(bytesOfText), written = { 1: [], 2: [] };
  const open = new Map([[0, { bytes: bytesOfText(stdin), at: 0 }]]);
  let instance, next = 3;
  const bytes = (place, many) => new Uint8Array(instance.exports.memory.buffer, Number(place), Number(many));
  const host = {
    read(file, place, many) {
      const it = open.get(file);
      if (!it) return BigInt(-EBADF);
      if (it.bytes === null) return BigInt(-EISDIR);
      const piece = it.bytes.subarray(it.at, it.at + Number(many));
      bytes(place, piece.length).set(piece);
      it.at += piece.length;
      return BigInt(piece.length);
    },
    write(file, place, many) {
      if (!written[file]) return BigInt(-EBADF);
      const piece = bytes(place, many).slice();
      written[file].push(piece);
      if (file === 2 && heard) heard(decoder.decode(piece));
      return many;
    },
    open(place) {
      const from = bytes(place, instance.exports.memory.buffer.byteLength - Number(place));
      const name = decoder.decode(from.slice(0, from.indexOf(0)));
      if (!Object.hasOwn(files, name)) return -ENOENT;
      open.set(next, { bytes: files[name] === null ? null : bytesOfText(files[name]), at: 0 });
      return next++;
    },
    close: file => open.delete(file) ? 0 : -EBADF,
    exit(status) { throw new Exit(status); },
    arg(index, place, room) {
      const word = args[Number(index)];
      if (!word) return -1n;
      if (word.length > Number(room)) return -2n;
      bytes(place, word.length).set(word);
      return BigInt(word.length);
    },
  };
  instance = new WebAssembly.Instance(module, { host });
  if (limit !== undefined) instance.exports.set_limit(BigInt(limit));
  let status = 0, trap;
  try {
    status = instance.exports[main](0, 0n);
  } catch (end) {
    if (end instanceof Exit) status = end.status; else { status = 3; trap = String(end); }
  }
  return { status, out: joined(written[1]), err: joined(written[2]), peak: instance.exports.memory.buffer.byteLength, trap };
}

/** @param {Uint8Array[]} pieces */
function joined(pieces) {
  const whole = new Uint8Array(pieces.reduce((sum, it) => sum + it.length, 0));
  let at = 0;
  for (const it of pieces) { whole.set(it, at); at += it.length; }
  return whole;
}

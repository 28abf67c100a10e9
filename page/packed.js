// What the page carries: texts that are pressed by gzip and written as base64, and what a link has in its fragment.
import { find } from "./dom.js";

/** @param {string} text */
export const bytesOf = text => Uint8Array.from(atob(text.trim()), it => it.charCodeAt(0));
const through = (bytes, stream) => new Response(new Blob([bytes]).stream().pipeThrough(stream)).arrayBuffer();
/** The bytes that an element of the page has. @param {string} id @returns {Promise<ArrayBuffer>} */
export const unpacked = id => through(bytesOf(find(id).textContent), new DecompressionStream("gzip"));
export const unpackedText = async id => new TextDecoder().decode(await unpacked(id));

const LONGEST_LINK = 2 ** 24;
/** A text as it stands in a link. @param {string} text */
export async function squeezed(text) {
  const bytes = new Uint8Array(await through(new TextEncoder().encode(text), new CompressionStream("deflate-raw")));
  return btoa(Array.from(bytes, it => String.fromCharCode(it)).join("")).replaceAll("+", "-").replaceAll("/", "_").replace(/=+$/, "");
}

/** The text that a link has. Reads no more than a task file may have, whatever the link unpacks to. @param {string} text */
export async function spread(text) {
  const stream = new Blob([bytesOf(text.replaceAll("-", "+").replaceAll("_", "/"))]).stream().pipeThrough(new DecompressionStream("deflate-raw"));
  const reader = stream.getReader(), decoder = new TextDecoder();
  let found = "";
  for (;;) {
    const { done, value } = await reader.read();
    if (done) return found + decoder.decode();
    found += decoder.decode(value, { stream: true });
    if (found.length > LONGEST_LINK) throw new Error("it is longer than a task may be");
  }
}

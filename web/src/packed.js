// The module in a page: base64 of its gzip file (RFC 4648, RFC 1952).

import { fromBase64 } from "./bytes.js";

/** The bytes that a text packs. @param {string} text @returns {Promise<ArrayBuffer>} */
export async function unpacked(text) {
  const packed = new Blob([/** @type {Uint8Array} */ (fromBase64(text.trim()))]);
  const unpacking = new /** @type {any} */ (globalThis).DecompressionStream("gzip");
  return new Response(packed.stream().pipeThrough(unpacking)).arrayBuffer();
}

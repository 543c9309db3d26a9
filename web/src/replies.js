// The parts of a reply that a client has accepted, to be drawn and compared (docs/FORMATS.md, "Replies to clients").

import { replyParts } from "./layout.js";

/** @typedef {import("./lines.js").Lookup} Lookup */

const HASH = 32;

/** @param {Uint8Array} bytes @param {number} at */
const shortIn = (bytes, at) => new DataView(bytes.buffer, bytes.byteOffset).getUint16(at);
/** @param {Uint8Array} bytes @param {number} at */
const hashIn = (bytes, at) => bytes.slice(at, at + HASH);

/**
 * The entry, the VRF proof, and the parts of the proof.
 * @param {Uint8Array} reply
 * @returns {{entry: Uint8Array, vrf: Uint8Array} & Pick<Lookup, "siblings" | "end">}
 */
export function partsOf(reply) {
  const { entry, vrf, proof } = replyParts(reply);
  const [kind, count] = [reply[proof], shortIn(reply, proof + 1)];
  const siblings = Array.from({ length: count }, (_, k) => hashIn(reply, proof + 3 + HASH * k));
  const end = endOf(kind, reply.slice(proof + 3 + HASH * count));
  return { entry, vrf, siblings, end };
}

/** @param {number} kind @param {Uint8Array} bytes @returns {Lookup["end"]} */
function endOf(kind, bytes) {
  if (kind === 0) return { kind: "empty" };
  if (kind === 1) return { kind: "other", index: hashIn(bytes, 0), commitment: hashIn(bytes, HASH) };
  const name = HASH + 2 + shortIn(bytes, HASH);
  return { kind: "here", opening: hashIn(bytes, 0), name: new TextDecoder().decode(bytes.slice(HASH + 2, name)), key: bytes.slice(name + 4) };
}

// Takes entries and bodies apart (docs/FORMATS.md, "Entries"). No other module has the place of a part, and nothing is verified.

import { BODY, PLACES, REPLY_FRONT } from "./formats.js";

/** @param {Uint8Array} bytes @param {number} at @returns {bigint} */
const longIn = (bytes, at) => new DataView(bytes.buffer, bytes.byteOffset).getBigUint64(at);

/** The epoch of an entry. @param {Uint8Array} entry @returns {bigint} */
export const epochOf = (entry) => longIn(entry, PLACES.epoch[0]);

/** The epoch of the entry before, 0 for the first. @param {Uint8Array} entry @returns {bigint} */
export const epochBefore = (entry) => longIn(entry, PLACES.previousEpoch[0]);

/** @param {Uint8Array} entry @returns {Uint8Array} */
export const rootOf = (entry) => entry.slice(...PLACES.root);

/** The digest of the directory's policy. @param {Uint8Array} entry @returns {Uint8Array} */
export const policyOf = (entry) => entry.slice(...PLACES.policy);

/** What is signed. @param {Uint8Array} entry @returns {Uint8Array} */
export const bodyOf = (entry) => entry.slice(0, BODY);

/** @param {Uint8Array} entry @returns {Uint8Array} */
export const signatureOf = (entry) => entry.slice(...PLACES.signature);

/** The entry of a reply, and the place of its proof's bytes. @param {Uint8Array} reply @returns {{entry: Uint8Array, vrf: Uint8Array, proof: number}} */
export function replyParts(reply) {
  const [start, end] = [REPLY_FRONT - 2 - PLACES.signature[1], REPLY_FRONT - 2];
  const proof = REPLY_FRONT + new DataView(reply.buffer, reply.byteOffset).getUint16(end);
  return { entry: reply.slice(start, end), vrf: reply.slice(REPLY_FRONT, proof), proof };
}

// The demonstration seal and index, by the key of a directory: SHA-256 of a tag, the key, and a body or a name. Who can verify
// such a seal can also forge it.

import { joined } from "./bytes.js";
import { sha256 } from "./sha256.js";

const LOW_TAG = 0x41;
const HIGH_TAG = 0x42;
const INDEX_TAG = 0x56;

/**
 * Whether a signature is the seal of a body under a key.
 * @param {Uint8Array} key @param {Uint8Array} body @param {Uint8Array} signature
 * @returns {boolean}
 */
export function isSealed(key, body, signature) {
  const seal = joined(...[LOW_TAG, HIGH_TAG].map((tag) => sha256(joined(Uint8Array.of(tag), key, body))));
  return seal.length === signature.length && seal.every((it, i) => it === signature[i]);
}

/**
 * The index of a name's bytes under a key.
 * @param {Uint8Array} key @param {Uint8Array} name
 * @returns {Uint8Array}
 */
export function indexOf(key, name) {
  return sha256(joined(Uint8Array.of(INDEX_TAG), key, name));
}

/** Verifies seals under a key, in place of signatures. */
export class Seal {
  /** @param {Uint8Array} key */
  constructor(key) {
    this.key = key;
  }

  /** @param {Uint8Array} body @param {Uint8Array} signature @returns {boolean} */
  verify(body, signature) {
    return isSealed(this.key, body, signature);
  }
}

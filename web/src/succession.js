// The succession of a directory: a text that ends the chain of one policy, and names the directory that goes on (docs/FORMATS.md, "A
// succession"). Nothing of it is verified here: a client does that.

import { fromHex } from "./bytes.js";
import { bytes } from "./values.js";

const [NUMBER, HASH] = ["([1-9][0-9]{0,19})", "([0-9a-f]{64})"];
const TEXT = new RegExp(
  `^(succession coniks-1\npolicy ${HASH}\nlast-epoch ${NUMBER}\nlast-link ${HASH}\n` +
    `next-policy ${HASH}\nfirst-epoch ${NUMBER}\nfirst-link ${HASH}\n)signature ([0-9a-f]{128})\n$`,
);
const LONGEST = 1024;

/** @param {string} digits @returns {Uint8Array} */
const octets = (digits) => /** @type {Uint8Array} */ (fromHex(digits));

/** What a succession says. Made by `readSuccession`. */
export class Succession {
  #lines;
  #hashes;
  #epochs;

  /** @param {Uint8Array} lines @param {string[]} parts */
  constructor(lines, [, , policy, lastEpoch, lastLink, nextPolicy, firstEpoch, firstLink, signature]) {
    this.#lines = lines;
    this.#hashes = { policy, lastLink, nextPolicy, firstLink, signature };
    this.#epochs = { last: BigInt(lastEpoch), first: BigInt(firstEpoch) };
    Object.freeze(this);
  }

  /** The lines that the signature is over. */
  get lines() {
    return this.#lines.slice();
  }

  get signature() {
    return octets(this.#hashes.signature);
  }

  get policy() {
    return octets(this.#hashes.policy);
  }

  get nextPolicy() {
    return octets(this.#hashes.nextPolicy);
  }

  /** The last head of the chain that ends. */
  get last() {
    return { epoch: this.#epochs.last, link: octets(this.#hashes.lastLink) };
  }

  /** The first head of the next chain that counts. */
  get first() {
    return { epoch: this.#epochs.first, link: octets(this.#hashes.firstLink) };
  }
}

/**
 * What a text says. Throws a RangeError for any other bytes.
 * @param {any} text
 * @returns {Succession}
 */
export function readSuccession(text) {
  const given = bytes(text, "the succession");
  const parts = given.length > LONGEST ? null : TEXT.exec(Array.from(given, (it) => String.fromCharCode(it)).join(""));
  const isOne = parts !== null && parts[2] !== parts[5] && [parts[3], parts[6]].every((it) => BigInt(it) < 2n ** 64n);
  if (!isOne) throw new RangeError("this is no succession of docs/FORMATS.md: take the bytes that its directory publishes");
  return new Succession(given.slice(0, parts[1].length), parts);
}

// The policy of a directory: a document whose SHA-256 is the policy digest of each body (docs/FORMATS.md, "The policy document").

import { fromHex } from "./bytes.js";
import { sha256 } from "./sha256.js";
import { bytes } from "./values.js";

const NUMBER = "(0|[1-9][0-9]{0,19})";
const KEY = "([0-9a-f]{64})";
const DOCUMENT = new RegExp(
  `^policy coniks-1\norigin ([!-~]{1,255})\nsignature Ed25519\nsigning-key ${KEY}\n` +
    `vrf (?:none|ECVRF-EDWARDS25519-SHA512-TAI\nvrf-key ${KEY})\n(?:epoch-start ${NUMBER}\nepoch-period ${NUMBER}\n)?` +
    `evidence one-chain\n(records vouched\n)?(?:successor-key (none|[0-9a-f]{64})\n)?proofs-kept (?:forever|${NUMBER})\n$`,
);

/** @param {string | undefined} digits @returns {bigint | null} */
const numberIn = (digits) => (digits === undefined ? null : BigInt(digits));

/** What a directory promises for its life. Made by `readPolicy`. Times are Unix seconds. */
export class Policy {
  #document;
  #keys;

  /** @param {Uint8Array} document @param {string[]} parts */
  constructor(document, [, origin, signingKey, vrfKey, start, period, records, successor, saved]) {
    this.#document = document;
    this.#keys = { signing: signingKey, vrf: vrfKey, successor };
    this.origin = origin;
    this.epochStart = numberIn(start);
    this.epochPeriod = numberIn(period);
    this.proofsKept = numberIn(saved);
    this.recordsVouched = records !== undefined;
    Object.freeze(this);
  }

  get document() {
    return this.#document.slice();
  }

  get digest() {
    return sha256(this.#document);
  }

  get signingKey() {
    return /** @type {Uint8Array} */ (fromHex(this.#keys.signing));
  }

  get vrfKey() {
    return this.#keys.vrf === undefined ? null : fromHex(this.#keys.vrf);
  }

  get successorKey() {
    return [undefined, "none"].includes(this.#keys.successor) ? null : fromHex(this.#keys.successor);
  }
}

/**
 * The policy of a document. Throws a RangeError for any other bytes, so that a policy has one document.
 * @param {any} document
 * @returns {Policy}
 */
export function readPolicy(document) {
  const given = bytes(document, "the policy document");
  const parts = DOCUMENT.exec(Array.from(given.subarray(0, 2048), (it) => String.fromCharCode(it)).join(""));
  const numbers = parts === null ? [] : [parts[4], parts[5], parts[8]].map(numberIn);
  const isWrong = numbers.some((it) => it !== null && it >= 2n ** 64n) || numbers[1] === 0n || parts?.[7] === parts?.[2];
  if (parts === null || given.length > 2048 || isWrong) {
    throw new RangeError("this is no policy document of docs/FORMATS.md: take the bytes that its directory publishes");
  }
  return new Policy(given, parts);
}

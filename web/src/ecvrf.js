// Verifies proofs of ECVRF-EDWARDS25519-SHA512-TAI (RFC 9381, section 5.5), with SHA-512 of WebCrypto.

import { joined } from "./bytes.js";
import { BASE, ORDER, combined, decoded, encoded, hasPrimeOrder, isIdentity, negated, numberOf, timesCofactor } from "./curve.js";

/** @typedef {import("./curve.js").Point} Point */

const SUITE = 3;
const PROOF_BYTES = 80;

/**
 * The point of a public key, null if its bytes are not those of a point of prime order.
 * @type {(bytes: Uint8Array) => Point | null}
 */
export function keyPoint(bytes) {
  const point = decoded(bytes);
  return point !== null && hasPrimeOrder(point) ? point : null;
}

export class VrfKey {
  /**
   * @param {Uint8Array} bytes
   * @param {Point} point  of these bytes, which `keyPoint` returned
   * @param {SubtleCrypto} subtle
   */
  constructor(bytes, point, subtle) {
    this.bytes = bytes;
    this.minus = negated(point);
    this.subtle = subtle;
  }

  /**
   * SHA-512 of the suite, a tag, some parts and a zero (sections 5.2, 5.4.1.1 and 5.4.3).
   * @param {number} tag @param {...Uint8Array} parts
   */
  async hashed(tag, ...parts) {
    return new Uint8Array(await this.subtle.digest("SHA-512", joined(Uint8Array.of(SUITE, tag), ...parts, Uint8Array.of(0))));
  }

  /**
   * The point that an input is hashed to by try and increment (section 5.4.1.1).
   * @param {Uint8Array} input
   * @returns {Promise<Point | null>}
   */
  async pointOf(input) {
    for (let counter = 0; counter < 256; counter++) {
      const point = decoded((await this.hashed(1, this.bytes, input, Uint8Array.of(counter))).subarray(0, 32));
      if (point !== null && !isIdentity(timesCofactor(point))) return timesCofactor(point);
    }
    return null;
  }

  /**
   * The output for an input, 64 bytes, null if the proof is not valid (section 5.3). Gamma must be a point of prime order too.
   * @param {Uint8Array} input @param {Uint8Array} proof
   * @returns {Promise<Uint8Array | null>}
   */
  async output(input, proof) {
    if (proof.length !== PROOF_BYTES) return null;
    const [gammaBytes, c, s] = [proof.subarray(0, 32), proof.subarray(32, 48), numberOf(proof.subarray(48))];
    const gamma = s < ORDER ? keyPoint(gammaBytes) : null;
    const point = gamma && (await this.pointOf(input));
    if (!gamma || !point) return null;
    const u = combined(s, BASE, numberOf(c), this.minus);
    const v = combined(s, point, numberOf(c), negated(gamma));
    const [pointBytes, uBytes, vBytes, output] = encoded(point, u, v, timesCofactor(gamma));
    const challenge = await this.hashed(2, this.bytes, pointBytes, gammaBytes, uBytes, vBytes);
    return c.every((it, i) => it === challenge[i]) ? this.hashed(3, output) : null;
  }
}

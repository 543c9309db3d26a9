// The verdicts on signatures and VRF proofs, which a client passes to the core. Each of them is made here, and nowhere else. The core
// proves nothing about signatures: an entry or an index that is wrongly taken for valid here is accepted.

import { ENTRY } from "./formats.js";
import { bodyOf, signatureOf } from "./layout.js";
import { indicesOf, signaturesOf } from "./schemes.js";

/** Verifies the signatures of one key, and the proofs of one VRF. */
export class Verifier {
  #isSigned;
  #indexOf;

  /** Call `of`. @param {import("./schemes.js").IsSigned} isSigned @param {import("./schemes.js").IndexOf} indexOf */
  constructor(isSigned, indexOf) {
    [this.#isSigned, this.#indexOf] = [isSigned, indexOf];
  }

  /** @param {any} signingKey @param {any} vrfKey @returns {Promise<Verifier>} */
  static async of(signingKey, vrfKey) {
    return new Verifier(await signaturesOf(signingKey), indicesOf(vrfKey));
  }

  /** Whether an entry has its length, and a valid signature. @param {Uint8Array} entry @returns {Promise<boolean>} */
  async ofEntry(entry) {
    return entry.length === ENTRY && this.#isSigned(bodyOf(entry), signatureOf(entry));
  }

  /** Whether each entry of a state is signed. @param {Uint8Array[]} entries @returns {Promise<boolean[]>} */
  async ofState(entries) {
    const verdicts = [];
    for (const entry of entries) verdicts.push(await this.ofEntry(entry));
    return verdicts;
  }

  /** The index of a name by a VRF proof, null if that is not one of it. @param {Uint8Array} name @param {Uint8Array} proof @returns {Promise<Uint8Array | null>} */
  async ofProof(name, proof) {
    return this.#indexOf(name, proof);
  }
}

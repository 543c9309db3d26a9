// What verifies signatures and finds indices: Ed25519 (RFC 8032) of WebCrypto with the rules of docs/FORMATS.md, "Keys and signatures",
// ECVRF (RFC 9381), or objects for other schemes.

import { ORDER, numberOf } from "./curve.js";
import { VrfKey, keyPoint } from "./ecvrf.js";
import { Refusal } from "./messages.js";
import { bytes } from "./values.js";

/**
 * @typedef {(body: Uint8Array, signature: Uint8Array) => Promise<boolean>} IsSigned
 * @typedef {(name: Uint8Array, proof: Uint8Array) => Promise<Uint8Array | null>} IndexOf
 */

/** The platform lacks what a key needs: `lacks` is "WebCrypto" or "Ed25519". */
export class Unsupported extends Error {
  /** @param {string} lacks @param {string} calls @param {unknown} cause */
  constructor(lacks, calls, cause = undefined) {
    const where = lacks === "WebCrypto" ? " here (a page needs https, localhost or a file)" : "";
    super(`this platform has no ${lacks}${where}: pass an object with ${calls} in place of the key`, { cause });
    this.name = "Unsupported";
    this.lacks = lacks;
  }
}

/** @param {string} calls  those of the object that can be passed instead @returns {SubtleCrypto} */
function subtleFor(calls) {
  const subtle = globalThis.crypto?.subtle;
  if (subtle === undefined) throw new Unsupported("WebCrypto", calls);
  return subtle;
}

/** @param {any} key @param {string[]} calls */
function checkCalls(key, calls) {
  const isThere = calls.every((it) => typeof key?.[it] === "function");
  if (!isThere) throw new TypeError(`a key is a Uint8Array, or an object with ${calls.join(" and ")}`);
}

/**
 * A signature of 64 bytes whose R is not the identity, and whose S is reduced. Not each platform checks that.
 * @param {Uint8Array} signature
 * @returns {boolean}
 */
function isStrict(signature) {
  const isIdentity = signature[0] === 1 && signature.subarray(1, 32).every((it) => it === 0);
  return signature.length === 64 && !isIdentity && numberOf(signature.subarray(32)) < ORDER;
}

/** What verifies the signatures of a key, or of the object in place of one. @param {any} key @returns {Promise<IsSigned>} */
export async function signaturesOf(key) {
  if (!(key instanceof Uint8Array)) {
    checkCalls(key, ["verify"]);
    return async (body, signature) => (await key.verify(body.slice(), signature.slice())) === true;
  }
  const copy = bytes(key, "the signing key");
  if (keyPoint(copy) === null) throw new Refusal("SigningKey");
  const subtle = subtleFor("verify");
  const imported = await subtle.importKey("raw", copy, "Ed25519", false, ["verify"]).catch((error) => {
    throw new Unsupported("Ed25519", "verify", error);
  });
  return async (body, signature) => isStrict(signature) && (await subtle.verify("Ed25519", imported, signature, body)) === true;
}

/** What finds the index of a name by a proof, null if the proof is not one of this name. @param {any} key @returns {IndexOf} */
export function indicesOf(key) {
  if (key === null) return async () => null;
  if (!(key instanceof Uint8Array)) {
    checkCalls(key, ["verify", "index"]);
    return async (name, proof) => {
      const isValid = (await key.verify(name.slice(), proof.slice())) === true;
      return isValid ? bytes(await key.index(name.slice(), proof.slice()), "an index", 32) : null;
    };
  }
  const copy = bytes(key, "the VRF's key");
  const point = keyPoint(copy);
  if (point === null) throw new Refusal("VrfKey");
  const vrf = new VrfKey(copy, point, subtleFor("verify and index"));
  return async (name, proof) => (await vrf.output(name, proof))?.slice(0, 32) ?? null;
}

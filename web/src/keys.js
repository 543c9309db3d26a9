// The keys that lines are read under, as they are given in the page's fields.

import { bigEndian, fromHex, joined, toHex } from "./bytes.js";
import { indicesOf, signaturesOf } from "./schemes.js";
import { Seal } from "./seal.js";
import { counting } from "./words.js";

/**
 * No keys, the demonstration's, or a provider's. `key` is the demonstration's. Without `signatures` no signature is verified.
 * Without `indices` no VRF proof is. With `isExample` the signing key is the example's, so that anyone can forge what it verifies.
 * @typedef {{kind: "none" | "demonstration" | "provider", key: Uint8Array | null, signatures: any, indices: any, isExample: boolean}} Keys
 * @typedef {"signing" | "vrf" | "key"} Field
 */

/** What a message begins with that is about the browser. */
export const NOT_VERIFIED = "not verified: ";

/** @type {Field[]} */
export const FIELDS = ["signing", "vrf", "key"];

/** The keys of the example's provider. Their secrets are in the example. @type {Record<Field, string>} */
export const EXAMPLE = {
  signing: "7070989e5213af62484d0e6ae00fb96e2a518e43464c94b94047d44c7a231c9e",
  vrf: "8f41ef74c6990c41a4e736c037b686f2c12b0b78229b1915d3b79923b95b5587",
  key: "",
};

/** @type {Keys} */
const NONE = { kind: "none", key: null, signatures: null, indices: null, isExample: false };

/** Why nothing is verified, by what the browser lacks. @type {Record<string, string>} */
const LACKS = {
  WebCrypto: `${NOT_VERIFIED}the browser has no WebCrypto for a page from plain http. Open the page from a file, from localhost or over https.`,
  Ed25519: `${NOT_VERIFIED}this browser's WebCrypto has no Ed25519. Chrome, Edge and Chromium have it from version 137 on, Firefox from 129 on, Safari from 17 on.`,
};

/** Signatures that were verified once, by the links of their entries. */
class Remembered {
  /** @param {any} coniks @param {import("./schemes.js").IsSigned} isSigned */
  constructor(coniks, isSigned) {
    this.coniks = coniks;
    this.isSigned = isSigned;
    /** @type {Map<string, boolean>} */
    this.known = new Map();
  }

  /** @param {Uint8Array} body @param {Uint8Array} signature @returns {Promise<boolean>} */
  async verify(body, signature) {
    const link = this.coniks.link(joined(body, signature));
    const isGood = this.known.get(link) ?? (await this.isSigned(body, signature));
    this.known.set(link, isGood);
    return isGood;
  }
}

/** Indices whose VRF proofs were verified once, by names and proofs. */
class RememberedIndices {
  /** @param {import("./schemes.js").IndexOf} indexOf */
  constructor(indexOf) {
    this.indexOf = indexOf;
    /** @type {Map<string, Uint8Array | null>} */
    this.known = new Map();
  }

  /** @param {Uint8Array} name @param {Uint8Array} proof @returns {Promise<boolean>} */
  async verify(name, proof) {
    const both = bothOf(name, proof);
    if (!this.known.has(both)) this.known.set(both, await this.indexOf(name, proof));
    return this.known.get(both) !== null;
  }

  /** @param {Uint8Array} name @param {Uint8Array} proof @returns {Uint8Array | null | undefined} */
  index(name, proof) {
    return this.known.get(bothOf(name, proof));
  }
}

/** @param {Uint8Array} name @param {Uint8Array} proof @returns {string} */
function bothOf(name, proof) {
  return toHex(joined(bigEndian(name.length, 4), name, proof));
}

/** @param {string} text @returns {Uint8Array | null} the key that a field has, null if there is none */
function keyOf(text) {
  const bytes = fromHex(text);
  return bytes !== null && bytes.length === 32 ? bytes : null;
}

/** @param {string} text @returns {string} what is wrong with a text that isn't a key */
function wrongWords(text) {
  if (text === "" || keyOf(text) !== null) return "";
  const what = /^[0-9a-fA-F]*$/.test(text) ? `this text has ${counting(text.length, "digit")}` : "this text has other characters";
  return `not a key: a key has 64 hexadecimal digits, and ${what}`;
}

/**
 * What verifies for the key in a field, null if there is none, and what is wrong.
 * @template T
 * @param {string} text @param {(key: Uint8Array) => T | Promise<T>} make
 * @returns {Promise<{scheme: T | null, wrong: string}>}
 */
async function schemeOf(text, make) {
  const bytes = keyOf(text);
  if (bytes === null) return { scheme: null, wrong: wrongWords(text) };
  try {
    return { scheme: await make(bytes), wrong: "" };
  } catch (error) {
    const { name, message, lacks } = /** @type {any} */ (error);
    return { scheme: null, wrong: name === "Refusal" ? `not a key: ${message}` : LACKS[lacks] ?? NOT_VERIFIED + message };
  }
}

/**
 * The keys in the fields of a kind, and what is wrong with each.
 * @param {any} coniks @param {string} kind @param {Record<Field, string>} texts
 * @returns {Promise<{keys: Keys, wrong: Record<Field, string>}>}
 */
export async function keysOf(coniks, kind, texts) {
  const wrong = { signing: "", vrf: "", key: "" };
  if (kind === "demonstration") {
    const key = keyOf(texts.key);
    wrong.key = wrongWords(texts.key);
    return { keys: key === null ? NONE : { ...NONE, kind, key, signatures: new Seal(key) }, wrong };
  }
  if (kind !== "provider") return { keys: NONE, wrong };
  const [signing, vrf] = [await schemeOf(texts.signing, signaturesOf), await schemeOf(texts.vrf, indicesOf)];
  wrong.vrf = vrf.wrong;
  wrong.signing = signing.wrong || (signing.scheme === null && vrf.scheme !== null ? "missing: without the signing key nothing is verified but paths" : "");
  if (signing.scheme === null) return { keys: NONE, wrong };
  const indices = vrf.scheme && new RememberedIndices(vrf.scheme);
  const isExample = texts.signing.toLowerCase() === EXAMPLE.signing;
  return { keys: { kind, key: null, signatures: new Remembered(coniks, signing.scheme), indices, isExample }, wrong };
}

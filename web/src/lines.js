// What `keydir run` printed, read into bytes. A line is refused here only where it is no line of this kind; docs/LINES.md
// has the members and the order in which they are read.

import { bigEndian, fromBase64, fromHex, joined } from "./bytes.js";
import { ENTRY } from "./formats.js";

/**
 * @typedef {{index: Uint8Array, name: string, nonce: Uint8Array, root: Uint8Array, end: End, siblings: Uint8Array[]}} Lookup
 * @typedef {{kind: "empty"} | {kind: "other", index: Uint8Array, commitment: Uint8Array} | {kind: "here", name: string, key: Uint8Array, opening: Uint8Array}} End
 * @typedef {{fault: "Json"} | {fault: "Member", member: string}} Refused
 */

/** How deep a line may be nested. */
const DEEPEST = 127;

/** More siblings, or a longer name, change nothing of the fault that they are. */
const SIBLINGS = 257;
const NAME = 256;

const utf8 = new TextEncoder();

/**
 * A line, or why it is not read, and the place of the next one.
 * @typedef {{text: string, end: number} | {fault: "Json" | "Long", end: number}} Line
 */

/** No line of a directory is longer: a key has at most 16,384 bytes, and a path 256 siblings. */
export const LONGEST = 262_144;

/** The lines of texts and of files' bytes, one after another. @param {(string | Uint8Array)[]} parts @returns {Generator<Line>} */
export function* linesOf(parts) {
  let before = 0;
  for (const part of parts) {
    for (const line of typeof part === "string" ? linesOfText(part) : linesOfBytes(part)) yield { ...line, end: before + line.end };
    before += part.length;
  }
}

/** The lines of a text. Bytes after the last newline are a line if there is one at least. @param {string} text @returns {Generator<Line>} */
export function* linesOfText(text) {
  for (let at = 0; at < text.length; ) {
    const found = text.indexOf("\n", at);
    const end = found < 0 ? text.length : found;
    const next = end + 1;
    yield end - at > LONGEST ? { fault: "Long", end: next } : { text: text.slice(at, end), end: next };
    at = next;
  }
}

/** The lines of a file's bytes. @param {Uint8Array} bytes @returns {Generator<Line>} */
export function* linesOfBytes(bytes) {
  const decoder = new TextDecoder("utf-8", { fatal: true, ignoreBOM: true });
  for (let at = 0; at < bytes.length; ) {
    const found = bytes.indexOf(10, at);
    const end = found < 0 ? bytes.length : found;
    const next = end + 1;
    yield end - at > LONGEST ? { fault: "Long", end: next } : decoded(decoder, bytes.subarray(at, end), next);
    at = next;
  }
}

/** @param {TextDecoder} decoder @param {Uint8Array} bytes @param {number} end @returns {Line} */
function decoded(decoder, bytes, end) {
  try {
    return { text: decoder.decode(bytes), end };
  } catch {
    return { fault: "Json", end };
  }
}

/** The strings, numbers and brackets of a text that is JSON. */
const TOKENS = /"[^"\\]*(?:\\.[^"\\]*)*"|-?\d+(?:\.\d+)?(?:[eE][-+]?\d+)?|[[\]{}]/g;

/**
 * Whether a text that is JSON is also a line's: it isn't nested too deep, and has no number beyond a double's range and no
 * half of a surrogate pair (RFC 8259, sections 6 and 8.2), also in a member that a later one of its name takes the place of.
 * @param {string} text
 * @returns {boolean}
 */
function isSound(text) {
  if (/\p{Cs}/u.test(text)) return false;
  let depth = 0;
  for (const [token] of text.matchAll(TOKENS)) {
    if (token === "{" || token === "[") depth++;
    else if (token === "}" || token === "]") depth--;
    else if (token[0] === '"' ? isHalf(token) : !Number.isFinite(Number(token))) return false;
    if (depth > DEEPEST) return false;
  }
  return true;
}

/** Whether a string has half of a surrogate pair. @param {string} token @returns {boolean} */
function isHalf(token) {
  return token.includes("\\u") && /\p{Cs}/u.test(JSON.parse(token));
}

/**
 * Returns a line's object, or null if it is none.
 * @param {string} line
 * @returns {Record<string, any> | null}
 */
export function objectOf(line) {
  try {
    const value = JSON.parse(line);
    const isObject = value !== null && typeof value === "object" && !Array.isArray(value);
    return isObject && isSound(line) ? value : null;
  } catch {
    return null;
  }
}

/**
 * The number of a member as its line has it, since a double has no room for all of them; null if there is none.
 * @param {string} line @param {Record<string, any>} object @param {string} name
 * @returns {bigint | null}
 */
export function numberOf(line, object, name) {
  const value = member(object, name);
  if (typeof value !== "number" || value < 0 || Object.is(value, -0)) return null;
  const isPlain = Number.isSafeInteger(value) && [",", "}"].some((it) => line.includes(`"${name}":${value}${it}`));
  return isPlain ? BigInt(value) : writtenNumber(line, name);
}

/** @param {string} line @param {string} name @returns {bigint | null} */
function writtenNumber(line, name) {
  /** The texts of the members of this name, by the objects that they are in. @type {Map<any, string>} */
  const texts = new Map();
  /** @type {(this: any, key: string, value: any, context?: {source?: string}) => any} */
  const keep = function (key, value, context) {
    if (key === name && typeof value === "number") texts.set(this, context?.source ?? String(value));
    return value;
  };
  const text = texts.get(JSON.parse(line, keep)) ?? "";
  return /^\d+$/.test(text) ? BigInt(text) : null;
}

/** @param {any} value @returns {Uint8Array | null} */
function digest(value) {
  const bytes = typeof value === "string" ? fromHex(value) : null;
  return bytes !== null && bytes.length === 32 ? bytes : null;
}

/** @param {any} object @param {string} name */
function member(object, name) {
  return Object.hasOwn(object, name) ? object[name] : undefined;
}

/** @param {any} value @returns {End | null} */
function endOf(value) {
  if (value === null || typeof value !== "object" || Array.isArray(value)) return null;
  const kind = member(value, "kind");
  if (kind === "empty") return { kind };
  if (kind === "other") {
    const [index, commitment] = [digest(member(value, "index")), digest(member(value, "commitment"))];
    return index && commitment && { kind, index, commitment };
  }
  if (kind !== "here") return null;
  const [name, key] = [member(value, "name"), member(value, "key")];
  const opening = digest(member(value, "opening"));
  if (typeof name !== "string" || typeof key !== "string" || opening === null) return null;
  const bytes = fromBase64(key);
  return bytes && { kind, name, key: bytes, opening };
}

/** @param {any} value @returns {{end: End, siblings: Uint8Array[]} | null} */
function proofOf(value) {
  if (value === null || typeof value !== "object" || Array.isArray(value)) return null;
  const [end, listed] = [endOf(member(value, "end")), member(value, "siblings")];
  if (end === null || !Array.isArray(listed)) return null;
  const siblings = listed.map(digest);
  return siblings.every((it) => it !== null) ? { end, siblings: /** @type {Uint8Array[]} */ (siblings) } : null;
}

/**
 * The lookup that a line holds.
 * @param {string} line
 * @returns {Lookup | Refused}
 */
export function lookupOf(line) {
  const object = objectOf(line);
  return object === null ? { fault: "Json" } : lookupIn(object);
}

/**
 * The lookup that a line's object holds, its members read in their order.
 * @param {Record<string, any>} object
 * @returns {Lookup | Refused}
 */
export function lookupIn(object) {
  const index = digest(member(object, "index"));
  if (index === null) return { fault: "Member", member: "index" };
  const name = member(object, "name");
  if (typeof name !== "string") return { fault: "Member", member: "name" };
  const nonce = digest(member(object, "nonce"));
  if (nonce === null) return { fault: "Member", member: "nonce" };
  const root = digest(member(object, "root"));
  if (root === null) return { fault: "Member", member: "root" };
  const proof = proofOf(member(object, "proof"));
  return proof === null ? { fault: "Member", member: "proof" } : { index, name, nonce, root, ...proof };
}

/**
 * Returns an entry's bytes, if a line has one.
 * @param {Record<string, any>} object
 * @returns {Uint8Array | null}
 */
export function entryOf(object) {
  const bytes = typeof object.entry === "string" ? fromHex(object.entry) : null;
  return bytes !== null && bytes.length === ENTRY ? bytes : null;
}

/**
 * The VRF proof that a line has beside its lookup, in bytes: none if there is no such member, and null if it is malformed.
 * @param {Record<string, any>} object
 * @returns {Uint8Array | null | undefined}
 */
export function vrfOf(object) {
  const value = member(object, "vrf");
  return value === undefined ? undefined : typeof value === "string" ? fromHex(value) : null;
}

/**
 * The bytes of a proof.
 * @param {Lookup} lookup
 * @returns {Uint8Array}
 */
export function proofBytes(lookup) {
  const siblings = lookup.siblings.slice(0, SIBLINGS);
  const kind = Uint8Array.of(["empty", "other", "here"].indexOf(lookup.end.kind));
  const front = joined(kind, bigEndian(siblings.length, 2), ...siblings);
  if (lookup.end.kind === "empty") return front;
  if (lookup.end.kind === "other") return joined(front, lookup.end.index, lookup.end.commitment);
  const name = utf8.encode(lookup.end.name).slice(0, NAME);
  const key = lookup.end.key;
  return joined(front, lookup.end.opening, bigEndian(name.length, 2), name, bigEndian(key.length, 4), key);
}

/** A name's bytes. @param {string} name @returns {Uint8Array} */
export function nameBytes(name) {
  return utf8.encode(name);
}

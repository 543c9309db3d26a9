// The texts for a status, a key and a name.

import { toHex } from "./bytes.js";
import { sha256 } from "./sha256.js";

/** The names of faults, as the program prints them. @type {Record<number, string>} */
export const FAULTS = {
  2: "TooDeep",
  3: "NameLength",
  4: "KeyLength",
  5: "WrongName",
  6: "OtherIsSame",
  7: "OtherOffPath",
  8: "RootMismatch",
  33: "Version",
  34: "VersionBack",
  35: "FirstEpoch",
  36: "NotLater",
  37: "PreviousEpoch",
  38: "PreviousLink",
  39: "NonceChanged",
  40: "Verdict",
};

/**
 * Of a refused proof, the part that the first fault is about.
 * @type {Record<number, "depth" | "asked" | "key" | "name" | "other" | "root">}
 */
export const MARKED = { 2: "depth", 3: "asked", 4: "key", 5: "name", 6: "other", 7: "other", 8: "root" };

/**
 * A key as text in quotation marks if it is printable, else as 0x and hexadecimal digits, so that no two keys look the same.
 * A long key is cut, and followed by its length and its SHA-256.
 * @param {Uint8Array} key @param {number} most
 * @returns {string}
 */
export function keyText(key, most) {
  const part = key.slice(0, most);
  const isPlain = key.every((it) => it >= 0x20 && it < 0x7f);
  const text = isPlain ? JSON.stringify(new TextDecoder().decode(part)) : `0x${toHex(part)}`;
  return key.length > most ? `${text}… (${key.length} bytes, SHA-256 ${toHex(sha256(key))})` : text;
}

/** A longer name, which no directory registers, is cut. */
const NAME = 255;

/** What isn't seen in a name, or changes its neighbours: all but letters, marks, digits and signs that are seen, and the space of ASCII. */
const ODD = /^(?:[\p{C}\p{Zl}\p{Zp}\p{DI}\p{Me}\u2800\u{1d159}\u{16fe4}]|(?! )\p{Zs})$/u;

/** More marks on a letter would cover its neighbours. */
const MARKS = 2;

/** Scripts with letters that look like those of another one, or are often mixed. */
const SCRIPTS = ["Arabic", "Armenian", "Cherokee", "Coptic", "Cyrillic", "Greek", "Han", "Hangul", "Hebrew", "Hiragana", "Katakana", "Latin", "Lisu"];

/**
 * A name in parts: what is seen, and what is written out in its place as \u{...}. Both have the escapes of JSON, so that no two
 * names have the same parts.
 * @typedef {{text: string, isOdd: boolean}} NamePart
 */

/** @param {string} name @returns {NamePart[]} */
export function nameParts(name) {
  const parts = /** @type {NamePart[]} */ ([]);
  // A mark at the start would go onto the quotation mark.
  let marks = MARKS;
  for (const it of name.slice(0, NAME)) {
    marks = /\p{M}/u.test(it) ? marks + 1 : 0;
    const isOdd = ODD.test(it) || marks > MARKS;
    const text = isOdd ? `\\u{${point(it)}}` : JSON.stringify(it).slice(1, -1);
    const last = parts[parts.length - 1];
    if (last && !last.isOdd && !isOdd) last.text += text;
    else parts.push({ text, isOdd });
  }
  return parts;
}

/** @param {string} character @returns {string} its number in hexadecimal digits */
function point(character) {
  return /** @type {number} */ (character.codePointAt(0)).toString(16);
}

/** A name in quotation marks, as a text. A cut name ends with its length. @param {string} name @returns {string} */
export function nameText(name) {
  return `"${nameParts(name).map((it) => it.text).join("")}"${nameEnd(name)}`;
}

/** What follows a name that is cut. @param {string} name @returns {string} */
export function nameEnd(name) {
  return name.length > NAME ? `… (${name.length} characters)` : "";
}

/**
 * What a reader has to know of a name beyond ASCII, since it may look like another one: some of its characters, and its scripts if
 * they are mixed. Empty for a name of ASCII characters.
 * @param {string} name
 * @returns {string}
 */
export function nameNote(name) {
  const beyond = [...new Set(name.slice(0, NAME).replace(/[ -~]/g, ""))];
  if (beyond.length === 0) return "";
  const points = beyond.slice(0, 3).map((it) => `U+${point(it).toUpperCase().padStart(4, "0")}`);
  const more = beyond.length > 3 ? ` and ${beyond.length - 3} more` : "";
  const scripts = scriptsOf(name);
  return `not ASCII: ${points.join(", ")}${more}${scripts.length > 1 ? `; mixed scripts: ${scripts.join(", ")}` : ""}`;
}

/** @param {string} name @returns {string[]} the scripts of its letters */
function scriptsOf(name) {
  const letters = [...name.slice(0, NAME)].filter((it) => /(?!\p{Script=Common}|\p{Script=Inherited})\p{L}/u.test(it));
  const of = (/** @type {string} */ it) => SCRIPTS.find((script) => new RegExp(`\\p{Script=${script}}`, "u").test(it)) ?? "another";
  return [...new Set(letters.map(of))].sort();
}

/** A number of things, with the word for one or for several. @param {number} count @param {string} one @param {string} many */
export function counting(count, one, many = `${one}s`) {
  return `${count} ${count === 1 ? one : many}`;
}

/** A text that begins a sentence. @param {string} text @returns {string} */
export function capital(text) {
  return text.slice(0, 1).toUpperCase() + text.slice(1);
}

/** The first and last digits of a hash. @param {string} digits @returns {string} */
export function short(digits) {
  return digits.length > 14 ? `${digits.slice(0, 8)}…${digits.slice(-4)}` : digits;
}

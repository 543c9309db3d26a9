// What contradicts itself in the lines: it is said above everything else, with the lines that show it.

import { toHex } from "./bytes.js";
import { element, nameBox, sentence } from "./elements.js";
import { evidenceWords } from "./evidence.js";
import { epochWords } from "./rows.js";
import { capital, keyText } from "./words.js";

/**
 * @typedef {import("./reading.js").LookupRow} LookupRow
 * @typedef {import("./evidence.js").Evidence} Evidence
 */

/** A link that saves lines as a file. @param {string} name @param {string[]} lines @returns {HTMLElement} */
function download(name, lines) {
  const link = /** @type {HTMLAnchorElement} */ (element("a", "button", `Download ${name}`));
  link.download = name;
  link.href = URL.createObjectURL(new Blob(lines.map((it) => `${it}\n`), { type: "application/jsonl" }));
  return link;
}

/** @param {string} title @param {(string | HTMLElement)[]} words @param {string[]} lines @param {string} name */
function contradiction(title, words, lines, name) {
  return element("section", "bad contradiction", element("h2", "", title), element("p", "", sentence("", words)), element("p", "", download(name, lines)), element("pre", "", lines.join("\n")));
}

/** Two signed entries that one chain can't have. @param {Evidence} found @returns {HTMLElement} */
export function equivocation(found) {
  const lines = [...new Set([found.a, found.b])].map((it) => JSON.stringify({ entry: toHex(it.entry) }));
  return contradiction("The provider equivocated", [`${capital(evidenceWords(found))}. The signatures are valid under this key, so the entries convict its owner: keep and publish them.`], lines, "evidence.jsonl");
}

/** @param {LookupRow} row @returns {string} */
function answer(row) {
  return "key" in row.verdict ? `bound to the key ${keyText(row.verdict.key, 64)}` : "not registered";
}

/** Two lookups of one name and epoch with different answers. @param {LookupRow} a @param {LookupRow} b @returns {HTMLElement} */
export function twoAnswers(a, b) {
  const why = a.link === b.link ? "Both are of one entry at two indices: one of them isn't the name's" : "They are of two entries of this epoch: one chain has only one of them";
  const words = [nameBox(a.name ?? ""), `${epochWords(a)} is ${answer(a)} in line ${a.number}, and ${answer(b)} in line ${b.number}. ${why}.`];
  return contradiction("Two lines contradict each other", words, [a.text, b.text], "contradiction.jsonl");
}

// Draws an authentication path: the root at the top, a step down for each bit of the index, the siblings beside it, and the
// end. Everything from a line goes in as text.

import { bitAt, toHex } from "./bytes.js";
import { element, hashButton, nameBox } from "./elements.js";
import { lookupOf } from "./lines.js";
import { MARKED, keyText } from "./words.js";

/**
 * @typedef {import("./reading.js").LookupRow} LookupRow
 * @typedef {import("./lines.js").Lookup} Lookup
 * @typedef {Pick<LookupRow, "index" | "indexIs" | "verdict">} Shown
 */

/** The part of a refused proof that the first error is about. @param {Shown} row */
function marked(row) {
  return "status" in row.verdict && row.verdict.status !== undefined ? MARKED[row.verdict.status] : undefined;
}

/** @param {boolean} isMarked @param {HTMLElement} made */
function mark(isMarked, made) {
  if (isMarked) {
    made.classList.add("wrong");
    made.append(element("strong", "flag", "does not fit"));
  }
  return made;
}

/** A level: the bit that leads there, and the sibling on the other side. @param {Uint8Array} index @param {Lookup} lookup @param {number} level */
function levelOf(index, lookup, level) {
  const bit = bitAt(index, level);
  const sibling = element("span", "sibling", hashButton(toHex(lookup.siblings[level]), `sibling at level ${level + 1}`));
  const step = element("span", "bit", String(bit));
  step.title = bit ? "the index goes right here" : "the index goes left here";
  const none = element("span", "none");
  const made = element("li", `level ${bit ? "right" : "left"}`, ...(bit ? [sibling, step, none] : [none, step, sibling]));
  made.setAttribute("aria-label", `level ${level + 1}: the index goes ${bit ? "right" : "left"}, the sibling is on the ${bit ? "left" : "right"}`);
  return made;
}

/** @param {string} word @param {string | Node} what @param {boolean} isMarked */
function fact(word, what, isMarked = false) {
  const made = element("div", "fact", element("span", "word", word), what);
  return mark(isMarked, made);
}

/** Returns the end of the path. @param {Shown} row @param {Lookup} lookup */
function endOf(row, lookup) {
  const [end, wrong] = [lookup.end, marked(row)];
  if (end.kind === "empty") return element("div", "end empty", element("h3", "", "An empty node"), "No index in the tree begins with these bits.");
  if (end.kind === "other") {
    const index = fact("its index", hashButton(toHex(end.index), "the other index"), wrong === "other");
    return element("div", "end other", element("h3", "", "The leaf of another index"), index, fact("its commitment", hashButton(toHex(end.commitment), "the commitment")));
  }
  const key = element("code", "", keyText(end.key, 400));
  return element("div", "end here", element("h3", "", "The leaf of this index"),
    fact("name", nameBox(end.name), wrong === "name"),
    fact("key", key, wrong === "key"),
    fact("opening", hashButton(toHex(end.opening), "the opening")));
}

/** What the drawing means, in the field's terms. */
const TERMS = [
  ["Epoch", "A numbered version of the directory. The provider signs one root for each."],
  ["Root", "The hash at the top of the tree. It commits to every name and key of the epoch."],
  ["Index", "The place of a name in the tree, 256 bits. The provider computes it with a secret key, so that nobody else can list the names."],
  ["VRF proof", "Shows that an index is the name's, by the provider's VRF key. Without it, a line can show the place of another name."],
  ["0 and 1", "The bits of the index: 0 leads to the left half of the tree, 1 to the right half."],
  ["Sibling", "The hash of the half that the path leaves out. What is at the end, hashed upwards with the siblings, must give the root."],
  ["Nonce", "Random bytes of the directory that go into each hash."],
];

/** How the index of a drawing is known. */
const INDICES = { verified: "verified by its VRF proof", computed: "computed with the demonstration's key", unverified: "which nobody has verified" };

/** @param {Shown} row @param {Lookup} lookup @param {Uint8Array} index @param {boolean} isMarked */
function captionOf(row, lookup, index, isMarked) {
  const known = toHex(index) === toHex(lookup.index) ? "" : "; the line has another one, which is not used";
  const requested = element("p", "asked", "Asked for ", nameBox(lookup.name), " at the index ", hashButton(toHex(index), "the index"), `, ${INDICES[row.indexIs]}${known}, under the nonce `, hashButton(toHex(lookup.nonce), "the nonce"));
  const terms = TERMS.flatMap(([term, meaning]) => [element("dt", "", term), element("dd", "", meaning)]);
  return element("figcaption", "", mark(isMarked, requested), element("dl", "", ...terms));
}

/** The drawing of the path in a line. @param {LookupRow} row @returns {HTMLElement} */
export function pathOf(row) {
  const lookup = lookupOf(row.text);
  return "fault" in lookup ? element("p", "unpathed", "The line has no whole proof, so no path is drawn.") : drawingOf(row, lookup);
}

/** The drawing of a lookup's path. @param {Shown} row @param {Lookup} lookup @returns {HTMLElement} */
export function drawingOf(row, lookup) {
  const [wrong, index] = [marked(row), row.index ?? lookup.index];
  const top = element("div", "root", element("h3", "", "Root"), hashButton(toHex(lookup.root), "the root"));
  const levels = element("ol", "levels");
  levels.setAttribute("aria-label", "the authentication path from the root down");
  for (let level = 0; level < Math.min(lookup.siblings.length, 256); level++) levels.append(levelOf(index, lookup, level));
  const drawn = element("div", "drawn", mark(wrong === "root", top), levels);
  if (lookup.siblings.length > 256) drawn.append(mark(true, element("div", "deep", `${lookup.siblings.length} siblings; a path has at most 256`)));
  drawn.append(endOf(row, lookup));
  return element("figure", "path", drawn, captionOf(row, lookup, index, wrong === "asked"));
}

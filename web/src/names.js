// The form of names, which a service and its clients share (coniks.names): Unicode NFC, without case.

import { FOLDED } from "./folding.js";
import { MAX_NAME } from "./formats.js";


/** What no name has: control characters, lone surrogates, and code points that a later version of Unicode may give another form. */
const REFUSED = /[\p{Cc}\p{Cs}\p{Cn}]/u;

/** A character without case, as Unicode folds it. @param {string} it @returns {string} */
function folded(it) {
  const code = /** @type {number} */ (it.codePointAt(0));
  const row = FOLDED.find(([first, last]) => first.charCodeAt(0) <= code && code <= last.charCodeAt(0));
  if (row === undefined) return it.toUpperCase().toLowerCase();
  const [first, , to] = row;
  return to.slice(0, -1) + String.fromCharCode(to.charCodeAt(to.length - 1) + code - first.charCodeAt(0));
}

/**
 * The one form of a name. Throws a RangeError for a text that is no name.
 * @param {string} text
 * @returns {string}
 */
export function canonical(text) {
  if (REFUSED.test(text)) throw new RangeError("a name is Unicode without control characters, unassigned code points and lone surrogates");
  // Canonical caseless matching (Unicode, D145), and then NFC.
  const name = Array.from(text.normalize("NFD"), folded).join("").normalize("NFC");
  const size = new TextEncoder().encode(name).length;
  if (size < 1 || size > MAX_NAME) throw new RangeError(`a name has 1 to ${MAX_NAME} bytes in its form NFC without case`);
  return name;
}

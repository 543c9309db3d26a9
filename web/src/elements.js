// Parts of the page. What a line says goes in as text, and a name in a box of its own.

import { nameEnd, nameNote, nameParts, short } from "./words.js";

/**
 * Returns an element with its text and its parts.
 * @param {string} tag @param {string} kind @param {...(string | Node)} parts
 * @returns {HTMLElement}
 */
export function element(tag, kind, ...parts) {
  const made = document.createElement(tag);
  if (kind) made.className = kind;
  made.append(...parts);
  return made;
}

/** Returns a hash, cut; a press shows the whole, also to a screen reader. @param {string} digits @param {string} what @returns {HTMLElement} */
export function hashButton(digits, what) {
  const made = element("button", "hash", short(digits));
  made.setAttribute("type", "button");
  const set = (/** @type {boolean} */ isWhole) => {
    made.setAttribute("aria-expanded", String(isWhole));
    made.setAttribute("aria-label", isWhole ? `${what} ${digits}` : `${what} ${short(digits)}: show all digits`);
    made.textContent = isWhole ? digits : short(digits);
  };
  made.addEventListener("click", () => set(made.getAttribute("aria-expanded") !== "true"));
  set(false);
  return made;
}

/** A name in quotation marks. It can't turn what is around it, and what isn't seen in it is written out. @param {string} name @returns {HTMLElement} */
export function nameBox(name) {
  const shown = element("bdi", "name", ...nameParts(name).map((it) => (it.isOdd ? element("span", "odd", it.text) : it.text)));
  shown.dir = "auto";
  const note = nameNote(name);
  return element("span", "named", '"', shown, `"${nameEnd(name)}`, ...(note ? [element("small", "marks", ` (${note})`)] : []));
}

/** A sentence, which is read from left to right. @param {string} kind @param {(string | HTMLElement)[]} words @returns {HTMLElement} */
export function sentence(kind, words) {
  const made = element("span", kind, ...words);
  made.dir = "ltr";
  return made;
}

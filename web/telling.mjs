// What the tests in `tests` share: results are compared, bytes as digits.

import assert from "node:assert/strict";
import { readFileSync } from "node:fs";

/** @param {string} file  in the repository */
export const read = (file) => readFileSync(new URL(`../${file}`, import.meta.url), "utf-8");
export const data = (/** @type {string} */ digits) => Uint8Array.from(Buffer.from(digits, "hex"));
export const hex = (/** @type {Uint8Array} */ bytes) => Buffer.from(bytes).toString("hex");
export const textBytes = (/** @type {string} */ text) => new TextEncoder().encode(text);

/** A value as text, with bytes as digits and bigints as numbers. @param {any} value */
function plain(value) {
  return JSON.stringify(value, (_, it) => (typeof it === "bigint" ? Number(it) : it instanceof Uint8Array ? hex(it) : it));
}

/** @param {string} what @param {any} found @param {any} wanted */
export function same(what, found, wanted) {
  assert.equal(plain(found), plain(wanted), what);
}

/** What a call throws or rejects with: the name of a refusal, or else that of the class; null if it returns. @param {() => any} call */
export async function thrown(call) {
  try {
    await call();
    return null;
  } catch (error) {
    return error.why ?? error.constructor.name;
  }
}

/** @param {string} what @param {() => any} call @param {string | null} wanted */
export async function throwing(what, call, wanted) {
  same(what, await thrown(call), wanted);
}

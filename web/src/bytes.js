// Bytes, and their texts in hexadecimal digits and base64 (RFC 4648).

/** The digits of each byte. */
const DIGITS = Array.from({ length: 256 }, (_, byte) => byte.toString(16).padStart(2, "0"));

/**
 * The bytes of hexadecimal digits of either case; null of any other text.
 * @param {string} text
 * @returns {Uint8Array | null}
 */
export function fromHex(text) {
  if (text.length % 2 !== 0 || !/^[0-9a-fA-F]*$/.test(text)) return null;
  const bytes = new Uint8Array(text.length / 2);
  for (let i = 0; i < bytes.length; i++) bytes[i] = 16 * valueAt(text, 2 * i) + valueAt(text, 2 * i + 1);
  return bytes;
}

/** The value of a hexadecimal digit. @param {string} text @param {number} at @returns {number} */
function valueAt(text, at) {
  const code = text.charCodeAt(at);
  return code <= 57 ? code - 48 : (code | 32) - 87;
}

/**
 * @param {Uint8Array} bytes
 * @returns {string}
 */
export function toHex(bytes) {
  let text = "";
  for (const it of bytes) text += DIGITS[it];
  return text;
}

/**
 * The bytes of base64 with its padding, in the one text that they have; null of any other text.
 * @param {string} text
 * @returns {Uint8Array | null}
 */
export function fromBase64(text) {
  if (text.length % 4 !== 0 || !/^[A-Za-z0-9+/]*={0,2}$/.test(text)) return null;
  const chars = atob(text);
  return btoa(chars) === text ? bytesOf(chars) : null;
}

/** The bytes of a text of characters up to U+00FF. @param {string} chars @returns {Uint8Array} */
export function bytesOf(chars) {
  const bytes = new Uint8Array(chars.length);
  for (let i = 0; i < chars.length; i++) bytes[i] = chars.charCodeAt(i);
  return bytes;
}

/**
 * @param {Uint8Array} bytes
 * @returns {string}
 */
export function toBase64(bytes) {
  return btoa(Array.from(bytes, (it) => String.fromCharCode(it)).join(""));
}

/**
 * A number as a given number of bytes, big-endian.
 * @param {number} number
 * @param {number} size
 * @returns {Uint8Array}
 */
export function bigEndian(number, size) {
  const bytes = new Uint8Array(size);
  for (let i = size - 1, rest = number; i >= 0; i--, rest = Math.floor(rest / 256)) bytes[i] = rest % 256;
  return bytes;
}

/**
 * @param {...Uint8Array} parts
 * @returns {Uint8Array}
 */
export function joined(...parts) {
  const bytes = new Uint8Array(parts.reduce((size, it) => size + it.length, 0));
  let at = 0;
  for (const part of parts) {
    bytes.set(part, at);
    at += part.length;
  }
  return bytes;
}

/**
 * Bit k of an index, bit 0 being the most significant one of the first byte.
 * @param {Uint8Array} index
 * @param {number} k
 * @returns {number}
 */
export function bitAt(index, k) {
  return (index[k >> 3] >> (7 - (k & 7))) & 1;
}

/** @param {Uint8Array} a @param {Uint8Array} b @returns {boolean} */
export function isSame(a, b) {
  return a.length === b.length && a.every((it, i) => it === b[i]);
}

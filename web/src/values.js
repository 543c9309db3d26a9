// What callers pass: bytes, names and numbers, of the right type and size. All bytes are copied, since a caller may change them later.

/**
 * A copy of bytes. Node's Buffer is a Uint8Array whose slice is no copy.
 * @param {any} value @param {string} what @param {number | null} size
 * @returns {Uint8Array}
 */
export function bytes(value, what, size = null) {
  if (!(value instanceof Uint8Array)) throw new TypeError(`${what} is no Uint8Array`);
  const copy = new Uint8Array(value);
  if (size !== null && copy.length !== size) throw new RangeError(`${what} has ${size} bytes, not ${copy.length}`);
  return copy;
}

/** The bytes of a name: those of a text in UTF-8, which has none for half of a surrogate pair. @param {any} name @returns {Uint8Array} */
export function nameBytes(name) {
  if (typeof name !== "string") return bytes(name, "the name");
  if (/\p{Surrogate}/u.test(name)) throw new RangeError("the name has half of a surrogate pair");
  return new TextEncoder().encode(name);
}

/**
 * A number of so many bits, from a bigint or a safe integer.
 * @param {any} value @param {number} bits @param {string} what
 * @returns {bigint}
 */
export function unsigned(value, bits, what) {
  if (typeof value !== "bigint" && !Number.isSafeInteger(value)) throw new TypeError(`${what} is neither a bigint nor a safe integer`);
  const number = BigInt(value);
  if (BigInt.asUintN(bits, number) !== number) throw new RangeError(`${what} is from 0 to 2^${bits} - 1`);
  return number;
}

/** A number of seconds, with or without a fraction. @param {any} value @param {string} what @returns {number | bigint} */
export function seconds(value, what) {
  if (typeof value !== "bigint" && typeof value !== "number") throw new TypeError(`${what} is no number of seconds`);
  if (!(value >= 0 && value < 2 ** 64)) throw new RangeError(`${what} is at least 0 seconds and less than 2^64`);
  return value;
}

/** Seconds without their fraction. @param {number | bigint} value @returns {bigint} */
export function whole(value) {
  return BigInt(typeof value === "bigint" ? value : Math.floor(value));
}

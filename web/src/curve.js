// Points of edwards25519 (RFC 8032, section 5.1). For public data only, such as keys and proofs: nothing here runs in constant time.

const P = 2n ** 255n - 19n;
const LOW = 2n ** 255n - 1n;
const D = 0x52036cee2b6ffe738cc740797779e89800700a4d4141d8ab75eb4dca135978a3n;
const ROOT_OF_MINUS_1 = 0x2b8324804fc1df0b2b4d00993dfbd7a72f431806ad2fe478c4ee1b274a0ea0b0n;

/** The order of the base point. */
export const ORDER = 2n ** 252n + 27742317777372353535851937790883648493n;

/**
 * Extended coordinates (section 5.1.4): x = X / Z, y = Y / Z and x * y = T / Z. Each is taken modulo P and has at most 257 bits.
 * @typedef {[x: bigint, y: bigint, z: bigint, t: bigint]} Point
 */

/** @type {Point} */
const IDENTITY = [0n, 1n, 1n, 0n];

/** A number of at most 256 bits that is x modulo P, for x of at most 520 bits. @param {bigint} x @returns {bigint} */
function folded(x) {
  const once = (x & LOW) + 19n * (x >> 255n);
  return (once & LOW) + 19n * (once >> 255n);
}

/** @param {bigint} x @returns {bigint} */
function reduced(x) {
  const rest = x % P;
  return rest < 0n ? rest + P : rest;
}

/** @param {bigint} x @param {number} count @returns {bigint} x to the power of 2^count */
function squared(x, count) {
  for (let i = 0; i < count; i++) x = folded(x * x);
  return x;
}

/** @param {bigint} x @param {number} n @returns {bigint} x to the power of 2^n - 1 */
function powerOfOnes(x, n) {
  if (n === 1) return x;
  if (n % 2 === 1) return folded(squared(powerOfOnes(x, n - 1), 1) * x);
  const half = powerOfOnes(x, n / 2);
  return folded(squared(half, n / 2) * half);
}

/** @param {bigint} x @returns {bigint} x to the power of P - 2 = (2^250 - 1) * 2^5 + 11 */
function inverted(x) {
  return folded(folded(squared(powerOfOnes(x, 250), 5) * squared(x, 3)) * folded(squared(x, 1) * x));
}

/** A number of at least one byte, the least significant one first. @param {Uint8Array} bytes @returns {bigint} */
export function numberOf(bytes) {
  return BigInt(`0x${Array.from(bytes, (it) => it.toString(16).padStart(2, "0")).reverse().join("")}`);
}

/** @param {bigint} number @returns {Uint8Array} 32 bytes, the least significant one first */
function bytesOf(number) {
  const digits = number.toString(16).padStart(64, "0");
  return Uint8Array.from({ length: 32 }, (_, i) => parseInt(digits.slice(62 - 2 * i, 64 - 2 * i), 16));
}

/**
 * x of the point with a number as y, of either sign; null if there is none (section 5.1.3, steps 2 and 3).
 * @param {bigint} y
 * @returns {bigint | null}
 */
function xOf(y) {
  const square = folded(y * y);
  const [u, v] = [reduced(square - 1n), folded(D * square + 1n)];
  const v3 = folded(squared(v, 1) * v);
  const uv7 = folded(u * folded(squared(v3, 1) * v));
  // (P - 5) / 8 = (2^250 - 1) * 4 + 1
  const power = folded(squared(powerOfOnes(uv7, 250), 2) * uv7);
  const x = folded(folded(u * v3) * power);
  const found = reduced(v * squared(x, 1));
  if (found === u) return reduced(x);
  return found === reduced(-u) ? reduced(x * ROOT_OF_MINUS_1) : null;
}

/**
 * The point that 32 bytes encode, null if they encode none (section 5.1.3).
 * @type {(bytes: Uint8Array) => Point | null}
 */
export function decoded(bytes) {
  if (bytes.length !== 32) return null;
  const number = numberOf(bytes);
  const [sign, y] = [number >> 255n, number & LOW];
  const x = y < P ? xOf(y) : null;
  if (x === null || (x === 0n && sign === 1n)) return null;
  const signed = (x & 1n) === sign ? x : P - x;
  return [signed, y, 1n, folded(signed * y)];
}

/**
 * The encodings of points (section 5.1.2), 32 bytes each, with one inversion.
 * @type {(...points: Point[]) => Uint8Array[]}
 */
export function encoded(...points) {
  /** The products of the denominators before each point. @type {bigint[]} */
  const before = [];
  let product = 1n;
  for (const [, , z] of points) {
    before.push(product);
    product = folded(product * z);
  }
  let inverse = inverted(product);
  const made = new Array(points.length);
  for (let i = points.length - 1; i >= 0; i--) {
    const [x, y, z] = points[i];
    const own = folded(inverse * before[i]);
    inverse = folded(inverse * z);
    made[i] = bytesOf(reduced(y * own) | ((reduced(x * own) & 1n) << 255n));
  }
  return made;
}

/**
 * The sum of two points (section 5.1.4).
 * @type {(p: Point, q: Point) => Point}
 */
function sum([x1, y1, z1, t1], [x2, y2, z2, t2]) {
  const [a, b] = [folded((y1 - x1) * (y2 - x2)), folded((y1 + x1) * (y2 + x2))];
  const [c, d] = [folded(folded(2n * D * t1) * t2), folded(2n * z1 * z2)];
  const [e, f, g, h] = [b - a, d - c, d + c, b + a];
  return [folded(e * f), folded(g * h), folded(f * g), folded(e * h)];
}

/**
 * Twice a point.
 * @type {(p: Point) => Point}
 */
function twice([x, y, z]) {
  const [a, b, both] = [folded(x * x), folded(y * y), x + y];
  const [h, g] = [a + b, a - b];
  const [e, f] = [h - folded(both * both), folded(2n * z * z) + g];
  return [folded(e * f), folded(g * h), folded(f * g), folded(e * h)];
}

/**
 * The cofactor, 8, times a point.
 * @type {(p: Point) => Point}
 */
export function timesCofactor(p) {
  return twice(twice(twice(p)));
}

/** @type {(p: Point) => Point} */
export function negated([x, y, z, t]) {
  return [-x, y, z, -t];
}

/** @type {(p: Point) => boolean} */
export function isIdentity([x, y, z]) {
  return reduced(x) === 0n && reduced(y - z) === 0n;
}

/**
 * The odd multiples of a point up to 15 times it.
 * @type {(p: Point) => Point[]}
 */
function oddMultiples(p) {
  const [two, multiples] = [twice(p), [p]];
  for (let i = 1; i < 8; i++) multiples.push(sum(multiples[i - 1], two));
  return multiples;
}

/** A number as the sum of digit i times 2^i. A digit is 0, or odd and between -16 and 16. @param {bigint} number @returns {number[]} */
function digitsOf(number) {
  const digits = [];
  for (let rest = number; rest !== 0n; rest >>= 1n) {
    const digit = rest & 1n ? BigInt.asIntN(5, rest) : 0n;
    digits.push(Number(digit));
    rest -= digit;
  }
  return digits;
}

/**
 * a * p + b * q, for a and b from 0 on.
 * @type {(a: bigint, p: Point, b: bigint, q: Point) => Point}
 */
export function combined(a, p, b, q) {
  /** @type {[number[], Point[]][]} */
  const terms = [[digitsOf(a), oddMultiples(p)], [digitsOf(b), oddMultiples(q)]];
  let total = IDENTITY;
  for (let i = Math.max(...terms.map(([digits]) => digits.length)) - 1; i >= 0; i--) {
    total = twice(total);
    for (const [digits, multiples] of terms) {
      const digit = digits[i] ?? 0;
      if (digit !== 0) total = sum(total, digit > 0 ? multiples[digit >> 1] : negated(multiples[-digit >> 1]));
    }
  }
  return total;
}

/**
 * Whether a point has prime order.
 * @type {(p: Point) => boolean}
 */
export function hasPrimeOrder(p) {
  return !isIdentity(p) && isIdentity(combined(ORDER, p, 0n, IDENTITY));
}

/** The base point: y = 4/5, x is even. */
export const BASE = /** @type {Point} */ (decoded(bytesOf(reduced(4n * inverted(5n)))));

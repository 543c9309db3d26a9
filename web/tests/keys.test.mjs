// Tests of points, signatures and VRF proofs: `node --test web/tests/keys.test.mjs`.

import { createHash, createPublicKey, verify as verifiedByNode } from "node:crypto";
import { test } from "node:test";

import { BASE, ORDER, combined, decoded, encoded, hasPrimeOrder, numberOf } from "../src/curve.js";
import { VrfKey, keyPoint } from "../src/ecvrf.js";
import { signaturesOf } from "../src/schemes.js";
import { data, hex, read, same, textBytes } from "../telling.mjs";

// RFC 8032, section 7.1, TEST 1 to 3.
const SIGNED = [
  ["d75a980182b10ab7d54bfed3c964073a0ee172f3daa62325af021a68f707511a", "", "e5564300c360ac729086e2cc806e828a84877f1eb8e5d974d873e065224901555fb8821590a33bacc61e39701cf9b46bd25bf5f0595bbe24655141438e7a100b"],
  ["3d4017c3e843895a92b70aa74d1b7ebc9c982ccf2ec4968cc0cd55f12af4660c", "72", "92a009a9f0d4cab8720e820b5f642540a2b27b5416503f8fb3762223ebdb69da085ac1e43e15996e458f3613d0f11d8c387b2eaeb4302aeeb00d291612bb0c00"],
  ["fc51cd8e6218a1a38da47ed00230f0580816ed13ba3303ac5deb911548908025", "af82", "6291d657deec24024827e69c3abe01a30ce548a284743a445e3680d7db5ac3ac18ff9b538d16f290ae67f760984dc6594a7c15e9716ed28dc027beceea1ec40a"],
];
const littleEndian = (number) => data(number.toString(16).padStart(64, "0")).reverse();

test("signatures of RFC 8032", async () => {
  for (const [key, message, signature] of SIGNED) {
    const isSigned = await signaturesOf(data(key));
    same(`the signature of ${message}`, await isSigned(data(message), data(signature)), true);
    same(`the signature of ${message} under another message`, await isSigned(data(`${message}00`), data(signature)), false);
    for (const at of [0, 31, 32, 63]) {
      const changed = data(signature);
      changed[at] ^= 1;
      same(`byte ${at} of the signature of ${message} changed`, await isSigned(data(message), changed), false);
    }
    for (const length of [0, 31, 32, 33, 63, 65]) {
      const other = new Uint8Array(length);
      other.set(data(signature).subarray(0, length));
      same(`${length} bytes of the signature of ${message}`, await isSigned(data(message), other), false);
    }
    const greater = data(signature);
    greater.set(littleEndian(numberOf(greater.subarray(32)) + ORDER), 32);
    same("S and the order", await isSigned(data(message), greater), false);
  }
});

/** The secret number of RFC 8032, TEST 1. */
const secret = (() => {
  const half = createHash("sha512").update(data("9d61b19deffd5a60ba844af492ec2cc44449c5697b326919703bac031cae7f60")).digest().subarray(0, 32);
  return (numberOf(half) & (2n ** 254n - 8n)) | 2n ** 254n;
})();

test("the identity as R", async () => {
  // The signer's own signature with the identity as R: Node accepts it.
  const [key, message] = [data(SIGNED[0][0]), textBytes("message")];
  const r = littleEndian(1n);
  const k = numberOf(createHash("sha512").update(r).update(key).update(message).digest()) % ORDER;
  const signature = Buffer.concat([r, littleEndian((k * secret) % ORDER)]);
  const imported = createPublicKey({ key: Buffer.concat([data("302a300506032b6570032100"), key]), format: "der", type: "spki" });
  same("Node accepts the identity as R", verifiedByNode(null, message, imported, signature), true);
  same("the identity as R", await (await signaturesOf(key))(message, signature), false);
});

test("S on a platform that accepts each signature", async () => {
  // What this code refuses by itself, on a platform that accepts each signature.
  const real = Object.getOwnPropertyDescriptor(globalThis, "crypto");
  const subtle = { importKey: async () => null, verify: async () => true };
  Object.defineProperty(globalThis, "crypto", { value: { subtle }, configurable: true });
  const isSigned = await signaturesOf(data(SIGNED[0][0]));
  const withS = (/** @type {bigint} */ s) => isSigned(new Uint8Array(0), Buffer.concat([data(SIGNED[0][0]), littleEndian(s)]));
  same("S up to the order", [await withS(0n), await withS(ORDER - 1n)], [true, true]);
  same("S from the order on", [await withS(ORDER), await withS(2n ** 255n), await withS(2n ** 256n - 1n)], [false, false, false]);
  Object.defineProperty(globalThis, "crypto", real);
});

test("points", () => {
  // Points.
  same("the base point", hex(encoded(BASE)[0]), `58${"66".repeat(31)}`);
  same("RFC 8032's key by its secret number", hex(encoded(combined(secret % ORDER, BASE, 0n, BASE))[0]), SIGNED[0][0]);
  same("the order of the base point", hasPrimeOrder(BASE), true);
  const lowOrder = [
    `01${"00".repeat(31)}`, `ec${"ff".repeat(30)}7f`, "00".repeat(32), `${"00".repeat(31)}80`,
    "26e8958fc2b227b045c3f489f2ef98f0d5dfac05d3c63339b13802886d53fc05", "26e8958fc2b227b045c3f489f2ef98f0d5dfac05d3c63339b13802886d53fc85",
    "c7176a703d4dd84fba3c0b760d10670f2a2053fa2c39ccc64ec7fd7792ac037a", "c7176a703d4dd84fba3c0b760d10670f2a2053fa2c39ccc64ec7fd7792ac03fa",
  ];
  for (const it of lowOrder) {
    const point = decoded(data(it));
    same(`${it} is a point of small order`, [point !== null, keyPoint(data(it))], [true, null]);
    const [mixed] = encoded(combined(1n, BASE, 1n, /** @type {any} */ (point)));
    // The sum with the identity is the base point itself.
    same(`the base point and ${it}`, keyPoint(mixed) !== null, it === lowOrder[0]);
  }
  // y = P and P + 1, the identity with a sign, order 2 with a sign, no point, and other lengths.
  const noPoints = ["", `ed${"ff".repeat(30)}7f`, `ee${"ff".repeat(30)}7f`, `01${"00".repeat(30)}80`, `ec${"ff".repeat(31)}`, `02${"00".repeat(31)}`, "ff".repeat(32), "58".repeat(31), `58${"66".repeat(32)}`];
  for (const it of noPoints) same(`${it} is no point and no key`, [decoded(data(it)), keyPoint(data(it))], [null, null]);
  // Some y from 0 to 18 are those of points, and no y + P is, with or without a sign.
  const pointsAt = (/** @type {bigint} */ first) =>
    Array.from({ length: 19 }, (_, y) => [0n, 2n ** 255n].map((sign) => decoded(littleEndian(first + BigInt(y) + sign)))).flat();
  same("points whose y is small", pointsAt(0n).filter((it) => it !== null).length > 10, true);
  same("numbers that are not reduced", pointsAt(2n ** 255n - 19n), Array(38).fill(null));
});

test("VRF proofs of RFC 9381", async () => {
  // RFC 9381, appendix B.3, examples 16 to 18.
  for (const it of JSON.parse(read("examples/provider/vectors.json")).vrf) {
    const [key, alpha, pi] = [it.public, it.input, it.proof].map(data);
    const vrf = new VrfKey(key, keyPoint(key), crypto.subtle);
    same(`the output of ${it.of}`, await vrf.output(alpha, pi), it.output);
    same("another input", await vrf.output(data(`${it.input}00`), pi), null);
    for (const at of [0, 31, 32, 47, 48, 79]) {
      const changed = pi.slice();
      changed[at] ^= 1;
      same(`byte ${at} of the proof of ${it.of} changed`, await vrf.output(alpha, changed), null);
    }
    const greater = pi.slice();
    greater.set(littleEndian(numberOf(pi.subarray(48)) + ORDER), 48);
    for (const other of [greater, pi.subarray(1), new Uint8Array([...pi, 0]), new Uint8Array(0)]) same("another proof", await vrf.output(alpha, other), null);
  }
});

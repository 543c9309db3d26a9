// Tests of the page's modules that need no browser: `node --test web/tests/page.test.mjs`.

import { createHash } from "node:crypto";
import { readFileSync } from "node:fs";
import { test } from "node:test";

import { bigEndian, bitAt, fromBase64, fromHex, joined, toBase64, toHex } from "../src/bytes.js";
import { Coniks } from "../src/coniks.js";
import { SignedEntries, evidenceWords } from "../src/evidence.js";
import { keysOf } from "../src/keys.js";
import { LONGEST, entryOf, linesOf, lookupOf, numberOf, objectOf, proofBytes, vrfOf } from "../src/lines.js";
import { signaturesOf } from "../src/schemes.js";
import { sha256 } from "../src/sha256.js";
import { counting, keyText, nameNote, nameParts, nameText, short } from "../src/words.js";
import { same } from "../telling.mjs";

test("SHA-256", () => {
  // FIPS 180-4, the examples of NIST for SHA-256.
  for (const [message, digest] of [
    ["abc", "ba7816bf8f01cfea414140de5dae2223b00361a396177a9cb410ff61f20015ad"],
    ["abcdbcdecdefdefgefghfghighijhijkijkljklmklmnlmnomnopnopq", "248d6a61d20638b8e5c026930c3e6039a33ce45964ff2167f6ecedd419db06c1"],
  ]) same(`the hash of ${message}`, toHex(sha256(new TextEncoder().encode(message))), digest);
  // Each length over three blocks, beside Node's own.
  for (let length = 0; length < 200; length++) {
    const message = Uint8Array.from({ length }, (_, i) => (i * 37 + length) % 256);
    same(`the hash of ${length} bytes`, toHex(sha256(message)), createHash("sha256").update(message).digest("hex"));
  }
});

const listed = (/** @type {Uint8Array | null} */ bytes) => bytes && [...bytes];

test("digits, base64 and numbers", () => {
  same("hex", listed(fromHex("00fFa0")), [0, 255, 160]);
  for (const wrong of ["0", "0g", " 00", "0x"]) same(`hex ${wrong}`, fromHex(wrong), null);
  same("to hex", toHex(Uint8Array.of(0, 255, 16)), "00ff10");
  // RFC 4648, section 10
  for (const [plain, text] of [["", ""], ["f", "Zg=="], ["fo", "Zm8="], ["foo", "Zm9v"], ["foob", "Zm9vYg=="], ["fooba", "Zm9vYmE="], ["foobar", "Zm9vYmFy"]]) {
    same(`base64 of ${plain}`, toBase64(new TextEncoder().encode(plain)), text);
    same(`base64 ${text}`, new TextDecoder().decode(fromBase64(text) ?? undefined), plain);
  }
  // A rest of bits that isn't zero, a missing padding, a space, the letters of another alphabet.
  for (const wrong of ["Zh==", "Zg=", "Zg", "Zm 9", "Zm9-", "=Zg=", "Z==="]) same(`base64 ${wrong}`, fromBase64(wrong), null);
  same("a number in two bytes", listed(bigEndian(258, 2)), [1, 2]);
  same("a number in four bytes", listed(bigEndian(16384, 4)), [0, 0, 64, 0]);
  same("joined", listed(joined(Uint8Array.of(1), Uint8Array.of(), Uint8Array.of(2, 3))), [1, 2, 3]);
});

const index = new Uint8Array(32);
index[0] = 0x81;
index[31] = 1;
test("bits", () => {
  same("bits", [0, 1, 7, 8, 254, 255].map((it) => bitAt(index, it)), [1, 0, 1, 0, 0, 1]);
});

test("objects in lines", () => {
  for (const wrong of ["", "[]", "3", "null", '"a"', "{", '{"a":1e999}', '{"a":"\\ud800"}', '{"\\udc00":1}', "\ufeff{}", "[".repeat(200)]) same(`no object: ${wrong.slice(0, 20)}`, objectOf(wrong), null);
  same("the last of two members", objectOf('{"a":1,"a":2}'), { a: 2 });
  for (const [open, close] of [["[", "]"], ['{"a":', "}"]]) {
    const nested = (/** @type {number} */ deep) => `{"x":${open.repeat(deep - 1)}0${close.repeat(deep - 1)}}`;
    same("127 deep", objectOf(nested(127)) !== null, true);
    same("128 deep", objectOf(nested(128)), null);
  }
  for (const hidden of ["1e999", '"\\ud800"', "-1e999", "9".repeat(400), `${"[".repeat(200)}${"]".repeat(200)}`]) same(`hidden by a second one: ${hidden.slice(0, 9)}`, objectOf(`{"x":${hidden},"x":1}`), null);
  same("brackets and digits in a text", objectOf(`{"x":"${"[".repeat(200)} 1e999 \\" {"}`) !== null, true);
});

test("lines of files", () => {
  const linesIn = (/** @type {(string | Uint8Array)[]} */ ...parts) => [...linesOf(parts)].map((it) => ("fault" in it ? { fault: it.fault } : it.text));
  same("lines", linesIn("a\n\nb\n"), ["a", "", "b"]);
  same("a last line without its newline", linesIn("a\n\nb"), ["a", "", "b"]);
  same("no lines", [linesIn(), linesIn(""), linesIn(new Uint8Array(0))], [[], [], []]);
  same("lines of bytes", linesIn(Uint8Array.of(0xef, 0xbb, 0xbf, 97, 10, 0xff, 10, 10, 98)), ["\ufeffa", { fault: "Json" }, "", "b"]);
  same("lines of several files", linesIn("a", Uint8Array.of(98, 10, 99), "d\n"), ["a", "b", "c", "d"]);
  same("where lines end", [...linesOf(["a\nb\n", Uint8Array.of(99, 10)])].map((it) => it.end), [2, 4, 6]);
  for (const [size, is] of [[LONGEST, "aaa"], [LONGEST + 1, { fault: "Long" }]]) {
    const line = "a".repeat(Number(size));
    const found = [linesIn(line), linesIn(new TextEncoder().encode(line))].flat().map((it) => (typeof it === "string" ? it.slice(0, 3) : it));
    same(`a line of ${size} bytes`, found, [is, is]);
  }
});

test("members of lines", () => {
  const epochOf = (/** @type {string} */ line) => String(numberOf(line, /** @type {Record<string, any>} */ (objectOf(line)), "epoch"));
  same("a member's number", epochOf('{"a":{"epoch":1},"epoch":7,"b":[{"epoch":2}]}'), "7");
  same("the last of two numbers", [epochOf('{"epoch":1,"epoch": 7}'), epochOf('{"epoch":7,"epoch":1}')], ["7", "1"]);
  for (const none of ['{"a":{"epoch":1}}', '{"epoch":"7"}', '{"epoch":-1}', '{"epoch":-0}', '{"epoch":1.5}', "{}"]) same(`no number: ${none}`, epochOf(none), "null");
  same("a VRF proof in a line", [{}, { vrf: "00ff" }, { vrf: "0" }, { vrf: 7 }].map((it) => { const proof = vrfOf(it); return proof && [...proof]; }), [undefined, [0, 255], null, null]);
  for (const half of ['{"a":"\ud800"}', '{"\udc00":1}']) same("half of a surrogate pair that isn't escaped", objectOf(half), null);
  same("a pair of surrogates", objectOf('{"a":"\\ud83d\\ude00"}'), { a: "😀" });
});

const [zeros, ones] = ["00".repeat(32), "11".repeat(32)];
const good = { index: zeros, name: "a", nonce: ones, root: ones, proof: { siblings: [ones], end: { kind: "here", name: "a", key: "a2s=", opening: zeros } } };
test("proofs", () => {
  const lookup = lookupOf(JSON.stringify(good));
  same("the bytes of a presence", "fault" in lookup ? null : toHex(proofBytes(lookup)), `020001${ones}${zeros}000161000000026b6b`);
  const bytesOf = (/** @type {object} */ end) => {
    const it = lookupOf(JSON.stringify({ ...good, proof: { siblings: [], end } }));
    return "fault" in it ? it : toHex(proofBytes(it));
  };
  same("the bytes of an empty end", bytesOf({ kind: "empty", index: 7 }), "000000");
  same("the bytes of another leaf", bytesOf({ kind: "other", index: ones, commitment: zeros }), `010000${ones}${zeros}`);
  for (const end of [{ kind: "here" }, { kind: "none" }, {}, [], null, { kind: "other", index: ones }, { kind: "here", name: "a", key: "a", opening: zeros }]) same("an end that is none", bytesOf(/** @type {any} */ (end)), { fault: "Member", member: "proof" });
});

test("the order of reading", () => {
  // The order of reading: index, name, nonce, root, proof.
  const order = ["index", "name", "nonce", "root", "proof"];
  for (let from = 0; from < order.length; from++) {
    const lacking = Object.fromEntries(Object.entries(good).filter(([it]) => order.indexOf(it) < from));
    same(`lacking ${order[from]}`, lookupOf(JSON.stringify(lacking)), { fault: "Member", member: order[from] });
  }
});

test("entries", () => {
  same("no object is no lookup", lookupOf("{"), { fault: "Json" });
  same("an entry", entryOf({ entry: "ab".repeat(209) })?.length, 209);
  for (const entry of ["ab".repeat(208), "ab".repeat(210), "zz".repeat(209), 7, undefined]) same("no entry", entryOf({ entry }), null);
});

test("keys and names as text", () => {
  same("a printable key", keyText(new TextEncoder().encode("alice-1"), 80), '"alice-1"');
  same("another key", keyText(Uint8Array.of(0, 200), 80), "0x00c8");
  same("the digits of another key, as text", keyText(new TextEncoder().encode("0x00c8"), 80), '"0x00c8"');
  same("a key of no bytes", keyText(new Uint8Array(0), 80), '""');
  const hashed = (/** @type {Uint8Array} */ bytes) => createHash("sha256").update(bytes).digest("hex");
  const long = new TextEncoder().encode("a".repeat(100));
  same("a long key", keyText(long, 3), `"aaa"… (100 bytes, SHA-256 ${hashed(long)})`);
  const ended = joined(long, Uint8Array.of(0));
  same("a long key that ends otherwise", keyText(ended, 3), `0x616161… (101 bytes, SHA-256 ${hashed(ended)})`);
  same("a name", nameText('a"b ö 😀'), '"a\\"b ö 😀"');
  same("a name that turns what follows", nameText("gro.live\u202e\u2066\u200b\u2028\u0007"), '"gro.live\\u{202e}\\u{2066}\\u{200b}\\u{2028}\\u{7}"');
  same("a name in parts", nameParts('a"\u00ad\\b'), [{ text: 'a\\"', isOdd: false }, { text: "\\u{ad}", isOdd: true }, { text: "\\\\b", isOdd: false }]);
  same("at most two marks follow a letter", nameText("a\u0301\u0302\u0303"), '"a\u0301\u0302\\u{303}"');
  same("a mark at the start", nameText("\u0301"), '"\\u{301}"');
  same("notes", ["alice", "~ {}", "alic\u00e9", "\u0430lice", "\u4e2d\u56fd\u4eba\u6c11"].map(nameNote), ["", "", "not ASCII: U+00E9", "not ASCII: U+0430; mixed scripts: Cyrillic, Latin", "not ASCII: U+4E2D, U+56FD, U+4EBA and 1 more"]);
  same("a name that no directory registers", nameText("a".repeat(256)), `"${"a".repeat(255)}"… (256 characters)`);
  same("one and several", [counting(1, "line"), counting(0, "line"), counting(2, "entry", "entries")], ["1 line", "0 lines", "2 entries"]);
  same("a short hash", short(ones), "11111111…1111");
});

// A provider's entries, under its key and under another one.
const stored = (/** @type {string} */ name) => readFileSync(new URL(`../../examples/provider/${name}`, import.meta.url), "utf-8");
const provided = /** @type {RegExpMatchArray} */ (stored("transcript.txt").match(/Ed25519 +([0-9a-f]{64})/))[1];
const entries = stored("lines.jsonl").trim().split("\n").map((it) => /** @type {Uint8Array} */ (entryOf(JSON.parse(it))));
const keyOf = (/** @type {string} */ digits) => signaturesOf(/** @type {Uint8Array} */ (fromHex(digits)));
const parts = (/** @type {Uint8Array} */ entry) => /** @type {[Uint8Array, Uint8Array]} */ ([entry.slice(0, 145), entry.slice(145)]);
test("a provider's entries, under its key and another one", async () => {
  const [own, another] = [await keyOf(provided), await keyOf("d75a980182b10ab7d54bfed3c964073a0ee172f3daa62325af021a68f707511a")];
  for (const [i, entry] of entries.entries()) {
    same(`entry ${i} under the provider's key`, await own(...parts(entry)), true);
    same(`entry ${i} under another key`, await another(...parts(entry)), false);
  }
  for (let at = 0; at < 209; at++) {
    const changed = entries[0].slice();
    changed[at] ^= 1 << at % 8;
    same(`byte ${at} of an entry changed`, await own(...parts(changed)), false);
  }
});

test("the keys in the page's fields", async () => {
  // The keys in the page's fields.
  const texts = { signing: provided, vrf: "8f41ef74c6990c41a4e736c037b686f2c12b0b78229b1915d3b79923b95b5587", key: zeros };
  const noCalls = /** @type {any} */ ({ link: toHex });
  const kinds = await Promise.all(["none", "provider", "demonstration"].map((it) => keysOf(noCalls, it, texts)));
  same("the kinds of keys", kinds.map(({ keys }) => [keys.kind, keys.signatures !== null, keys.indices !== null]), [["none", false, false], ["provider", true, true], ["demonstration", true, false]]);
  for (const digits of ["", "00", zeros, "g".repeat(64)]) {
    const { keys, wrong } = await keysOf(noCalls, "provider", { ...texts, signing: digits });
    same(`the signing key ${digits.slice(0, 8)}`, [keys.kind, keys.indices, wrong.signing.length > 20], ["none", null, true]);
  }
  const half = await keysOf(noCalls, "provider", { ...texts, vrf: "" });
  same("a signing key alone", [half.keys.kind, half.keys.indices, half.wrong], ["provider", null, { signing: "", vrf: "", key: "" }]);
});

// Evidence is found in sorted entries exactly if two of them are evidence, by docs/FORMATS.md.
const numberAt = (/** @type {Uint8Array} */ entry, /** @type {number} */ place) => Number(new DataView(entry.buffer).getBigUint64(place));
const bodyOf = (/** @type {Uint8Array} */ entry) => toHex(entry.slice(0, 145));
const isMalformed = (/** @type {Uint8Array} */ it) => ![1, 2].includes(it[0]) || numberAt(it, 1) <= numberAt(it, 9) || (numberAt(it, 9) === 0 && it[49] !== 0);

/** @param {Uint8Array} a @param {Uint8Array} b @returns {number} the kind of evidence, 0 for none */
function kindOf(a, b) {
  const [from, to] = [Math.max(numberAt(a, 9), numberAt(b, 9)), Math.min(numberAt(a, 1), numberAt(b, 1))];
  if (from < to && bodyOf(a) !== bodyOf(b)) return 1;
  if (a[113] !== b[113]) return 2;
  return isMalformed(a) || isMalformed(b) ? 3 : 0;
}

/** @param {number[]} fields  version, epoch, epoch before, and the first bytes of root, link, policy and signature @returns {Uint8Array} */
function entryWith([version, epoch, before, root, link, policy, signature]) {
  const entry = new Uint8Array(209);
  [entry[0], entry[17], entry[49], entry[113], entry[145]] = [version, root, link, policy, signature];
  new DataView(entry.buffer).setBigUint64(1, BigInt(epoch));
  new DataView(entry.buffer).setBigUint64(9, BigInt(before));
  return entry;
}

const library = { convicts: (/** @type {Uint8Array} */ a, /** @type {Uint8Array} */ b) => ({ status: kindOf(a, b) ? 0 : 50, kind: kindOf(a, b) }) };

test("evidence is found exactly if two entries are", () => {
  let seed = 30;
  const below = (/** @type {number} */ most) => (seed = (seed * 1103515245 + 12345) % 2 ** 31) % most;
  let [wrong, convicted] = [0, 0];
  for (let turn = 0; turn < 3000; turn++) {
    const entries = Array.from({ length: 1 + below(6) }, () => {
      const before = below(6);
      return entryWith([below(20) ? 1 : 3, before + (below(12) ? 1 + below(3) : 0), before, below(2), below(15) ? 0 : 7, below(15) ? 0 : 1, below(3)]);
    });
    const signed = new SignedEntries(/** @type {any} */ (library));
    entries.forEach((it) => signed.add(toHex(it), it));
    const found = [...signed.evidence()].find((it) => it !== null);
    const isThere = entries.some((a) => entries.some((b) => kindOf(a, b)));
    if (Boolean(found) !== isThere || (found && kindOf(found.a.entry, found.b.entry) !== found.kind)) wrong++;
    if (found) convicted++;
  }
  same("evidence is found exactly if it is there", wrong, 0);
  same("there is evidence in some sets, and none in others", convicted > 300 && convicted < 2700, true);
});

test("evidence in words", () => {
  const two = [{ before: 2n, epoch: 3n, entry: Uint8Array.of(1) }, { before: 2n, epoch: 4n, entry: Uint8Array.of(2) }];
  same("evidence of two epochs", evidenceWords({ kind: 1, a: two[0], b: two[1] }), "the entries of epochs 3 and 4 both cover epoch 3, and their contents differ");
  same("evidence of one entry", evidenceWords({ kind: 3, a: two[0], b: two[0] }), "no chain has the entry of epoch 3");
});

test("a memory of 32 bits", () => {
  // A memory of 32 bits grows by a number, and its pointers are bigints.
  const grow = (/** @type {number} */ pages) => {
    if (typeof pages !== "number") throw new TypeError("a number is expected");
    if (pages > 9) throw new RangeError("no more pages");
    memory.buffer = new ArrayBuffer(memory.buffer.byteLength + 65536 * pages);
  };
  const memory = { buffer: new ArrayBuffer(65536), grow };
  const taken = (/** @type {bigint[]} */ ...words) => Number(words[6]);
  const exports = { memory, __heap_base: { value: 1000n }, coniks_check: taken };
  const coniks = new Coniks(/** @type {any} */ (null), /** @type {any} */ ({ exports }));
  const checked = (/** @type {number} */ size) => coniks.check(index, index, index, index, new Uint8Array(size)).status;
  same("proofs that need more of a memory", [10, 70_000, 300_000].map(checked), [10, 70_000, 300_000]);
  same("a memory of whole pages that grew", memory.buffer.byteLength, 5 * 65536);
  const failing = (/** @type {() => unknown} */ call) => {
    try {
      return call();
    } catch (error) {
      return String(error);
    }
  };
  same("a memory that grows no more", failing(() => checked(10_000_000)), "RangeError: no more pages");
  same("a proof after it", checked(300_000), 300_000);
  same("more than 4 GiB", failing(() => coniks.desk.room(2 ** 32)), "RangeError: the arguments of a call have less than 4 GiB together");
  same("a proof after that", checked(10), 10);
});

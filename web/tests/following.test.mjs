// Tests of the parts of the page that follows a service, without a browser: `node --test web/tests/following.test.mjs`.

import { readFileSync } from "node:fs";
import { test } from "node:test";

import { Coniks } from "../src/coniks.js";
import { canonical } from "../src/names.js";
import { headOf, readAuditor, readNote, timesOf } from "../src/notes.js";
import { readPolicy } from "../src/policy.js";
import { partsOf } from "../src/replies.js";
import { trustOf } from "../src/trust.js";
import { isSigned, judged, readRecord } from "../src/vouching.js";
import { data, read, same, textBytes, throwing } from "../telling.mjs";

const formats = read("docs/FORMATS.md");
const coniks = await Coniks.of(readFileSync(new URL("../out/coniks.wasm", import.meta.url)));

/** The indented lines of a section that begin with a text, up to a line that is not indented. @param {string} section @param {string} start */
function example(section, start) {
  const lines = formats.slice(formats.indexOf(`\n## ${section}\n`)).split("\n");
  const at = lines.findIndex((it) => it.startsWith(`    ${start}`));
  const end = lines.findIndex((it, i) => i > at && it !== "" && !it.startsWith("    "));
  return `${lines.slice(at, end).map((it) => it.slice(4)).join("\n").trim()}\n`;
}

const policy = readPolicy(textBytes(example("The policy document", "policy coniks-1")));
const document = example("Heads of auditors", "keys.example.com");
const KEY = /** @type {string[]} */ (/Its verifier key is `(.*)`/.exec(formats))[1];

test("the form of names", async () => {
  // Unicode: NFC, and case folding that changes the length, the final sigma, the dotless i, and letters whose folded form is upper.
  const forms = [["Alice", "alice"], ["e\u0301", "\u00e9"], ["Stra\u00dfe", "strasse"], ["\u0391\u03a3", "\u03b1\u03c3"], ["\u03c2", "\u03c3"], ["\u0131", "\u0131"]];
  for (const [given, wanted] of [...forms, ["\u0130", "i\u0307"], ["\u1e9e", "ss"], ["\uab70", "\u13a0"], ["\u13f8", "\u13f0"], ["\u01c5", "\u01c6"], ["a b+%", "a b+%"]]) {
    same(`the form of ${given}`, canonical(given), wanted);
    same(`the form of ${wanted}`, canonical(wanted), wanted);
  }
  for (const wrong of ["", "a\n", "a\0", "\ud800", "\u0378", "a".repeat(256), "\u00e9".repeat(128)]) {
    await throwing(`no name: ${JSON.stringify(wrong.slice(0, 9))}`, () => canonical(wrong), "RangeError");
  }
});

test("the example of a note", async () => {
  const [note, auditor] = [readNote(textBytes(document)), await readAuditor(KEY)];
  same("its head", headOf(note, policy), { epoch: 2, link: "f72cc5a2363af0cbc2aa09c4805f075c51d4490f0d94dd910aefdbcce1b61589" });
  same("when it was cosigned", await timesOf(note, auditor), [1767230000]);
  same("by another name", await timesOf(note, { ...auditor, name: "audit.example.net" }), []);
  same("by another key", await timesOf(note, { ...auditor, id: auditor.id.map((it) => it ^ 1) }), []);
  same("with a line of nobody", await timesOf({ ...note, lines: ["\u2014 audit.example.org AAAA", ...note.lines] }, auditor), [1767230000]);
});

test("notes that were changed", async () => {
  const auditor = await readAuditor(KEY);
  const whole = textBytes(document);
  for (let at = 0; at < whole.length; at++) {
    const changed = whole.map((it, i) => (i === at ? it ^ 1 : it));
    const time = await Promise.resolve(changed).then(readNote).then((it) => timesOf(it, auditor)).catch(() => []);
    same(`byte ${at} is another one`, time, []);
  }
  const note = readNote(whole);
  for (const [from, to] of [["\n2\n", "\n02\n"], ["\n2\n", "\n18446744073709551616\n"], ["keys.example.com", "keys.example.net"], ["FYk=", "FYl="], ["FYk=\n", "FYk=\nmore\n"]]) {
    await throwing(`a head with ${to}`, () => headOf({ ...note, text: note.text.replace(from, to) }, policy), "BadNote");
  }
  const broken = ["", "\n", "text\n", "text\n\n", "text\n\n\u2014 a b", "text\n\n- a b\n", "text\n\n\u2014 a b\nc\n", "\n\n\u2014 a b\n"];
  for (const wrong of broken) await throwing(`no note: ${JSON.stringify(wrong)}`, () => readNote(textBytes(wrong)), "BadNote");
  await throwing("no UTF-8", () => readNote(Uint8Array.of(255)), "BadNote");
});

const [record, next, notice, reset] = formats
  .slice(formats.indexOf("\n## Keys that their owners vouch for\n"))
  .split("\n\n")
  .filter((it) => it.startsWith("    766f7563") || it.startsWith("    6e6f7469"))
  .map((it) => data(it.replace(/\s/g, "")));
const vouched = readPolicy(textBytes(`policy coniks-1\n${formats.split("\n    policy coniks-1\n")[2].split("\n\n")[0].replaceAll("    ", "")}\n`));
const place = { policies: [vouched.digest], name: "alice", hasClock: true };

/** A copy with another byte at a place. @param {Uint8Array} bytes @param {number} at @param {number} value */
const changed = (bytes, at, value) => bytes.map((it, i) => (i === at ? value : it));

test("records of owners", async () => {
  const read = [record, next, notice, reset].map(readRecord);
  const parts = read.map((it) => it && { number: it.number, key: it.key, notice: it.notice, effect: it.effect, asked: it.asked && it.asked.effect });
  same("the examples", parts, [
    { number: 1, key: "6b", notice: 168, effect: 0, asked: null },
    { number: 2, key: "6c", notice: 168, effect: 0, asked: null },
    { number: 2, key: "6c", notice: 168, effect: 0, asked: 200 },
    { number: 3, key: "6d", notice: 168, effect: 200, asked: null },
  ]);
  for (const it of read) same("their signatures", it && (await isSigned(it, place)), true);
  for (const other of [{ ...place, name: "bob" }, { ...place, policies: [new Uint8Array(32)] }]) same("elsewhere", read[0] && (await isSigned(read[0], other)), false);
  same("a policy of the line", read[0] && (await isSigned(read[0], { ...place, policies: [vouched.digest, new Uint8Array(32)] })), true);
  for (const at of [15, 50, 85, 90, 106, 160]) {
    const altered = readRecord(changed(record, at, record[at] ^ 1));
    same(`byte ${at} is another one`, altered && (await isSigned(altered, place)), false);
  }
  const others = [record.slice(0, 159), changed(record, 7, 0), record.map((it, i) => (i >= 16 && i < 48 ? 0 : it)), notice.map((it, i) => (i >= 8 && i < 40 ? 0 : it)), notice.slice(0, 47), textBytes("vouched1"), new Uint8Array(0), null];
  same("no records", others.map(readRecord), others.map(() => null));
});

test("what bytes are to those before", async () => {
  // The table that the second implementation has written, whose steps of services this module has not.
  const rows = read("cases/records.jsonl").trimEnd().split("\n").map((it) => JSON.parse(it));
  const results = new Set();
  for (const { name, policies, of, clock, earlier, later, epochs, result } of rows.filter((it) => "result" in it)) {
    const given = { policies: policies.map(data), name: of, hasClock: clock };
    const [a, b, c] = epochs === null ? [] : epochs.map(BigInt);
    const found = await judged(given, data(earlier), later === null ? null : data(later), epochs === null ? null : { earlier: a, before: b, later: c });
    same(name, found, result);
    results.add(result);
  }
  same("all results", [...results].sort(), ["reset", "same", "unknown", "unvouched", "vouched"]);
});

test("the parts of a reply", () => {
  // Proofs with their bytes, as the program printed them and the library for Python wrote them.
  const proofs = JSON.parse(read("web/tests/proofs.json"));
  const kinds = new Set();
  for (const { proof, bytes } of proofs) {
    const { end, siblings } = JSON.parse(proof);
    const { kind, ...parts } = end;
    if (parts.key !== undefined) parts.key = Buffer.from(parts.key, "base64").toString("hex");
    const reply = Buffer.concat([Uint8Array.of(1), new Uint8Array(209).fill(2), Uint8Array.of(0, 3, 7, 8, 9), data(bytes)]);
    const found = partsOf(Uint8Array.from(reply));
    same("entry and VRF proof", [found.entry, found.vrf, found.siblings], [new Uint8Array(209).fill(2), Uint8Array.of(7, 8, 9), siblings]);
    same(`the end of kind ${kind}`, Object.fromEntries(Object.entries(found.end).sort()), Object.fromEntries(Object.entries({ kind, ...parts }).sort()));
    kinds.add(kind);
  }
  same("all kinds", [...kinds].sort(), ["empty", "here", "other"]);
});

test("the example of a trust document", async () => {
  const lines = example("Heads of auditors", "trust coniks-1").split("\n");
  const keys = lines.filter((it) => it.startsWith("auditor ")).map((it) => it.slice(8));
  const wanted = /** @type {string[]} */ (/Its fingerprint is `(.*)`/.exec(formats))[1].replaceAll(" ", "");
  for (const order of [keys, [...keys].reverse()]) {
    const { auditors, least, ofClient } = await trustOf(coniks, policy.digest, order, 0);
    same("its auditors, in its order", [auditors.map((it) => it.name), least], [["audit.example.com", "audit.example.org"], 2]);
    same("its digest", ofClient, { digest: wanted, auditors: 2, faulty: 0 });
  }
  same("no auditors", await trustOf(coniks, policy.digest, [], 0), { auditors: [], least: 0, ofClient: null });
  for (const [what, given] of [["one auditor", keys.slice(1)], ["an auditor twice", [...keys, keys[0]]]]) await throwing(what, () => trustOf(coniks, policy.digest, given, 0), "BadNote");
  for (const faulty of [1, 2, 2 ** 53]) await throwing(`${faulty} of two may lie`, () => trustOf(coniks, policy.digest, keys, faulty), "RangeError");
});

test("keys of auditors", async () => {
  // The verifier key in the documentation of golang.org/x/mod/sumdb/note signs texts, and cosigns nothing.
  const others = ["PeterNeumann+c74f20a3+ARpc2QcUPDhMQegwxbzhKqiBfsVkmqq/LDE4izWy10TW", "", "a+b", KEY.toUpperCase(), KEY.replace("8ba082b9", "8ba082b8"), ` ${KEY}`];
  for (const wrong of [...others, KEY.replace("audit", "au dit"), `${KEY}AAAA`]) await throwing(`no key: ${wrong}`, () => readAuditor(wrong), "BadNote");
  // The least k with 2k > n + f: two groups of k of n share more than f.
  for (const [count, faulty, least] of [[2, 0, 2], [3, 0, 2], [4, 0, 3], [4, 1, 3], [5, 1, 4], [7, 1, 5], [7, 2, 5]]) same(`a quorum of ${count}`, coniks.quorum(count, faulty), least);
  for (const [count, faulty] of [[0, 0], [2, 1], [3, 1], [6, 2]]) same(`no quorum of ${count}, ${faulty}`, coniks.quorum(count, faulty), 0);
});

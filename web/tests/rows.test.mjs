// Each verdict of the page that checks lines, with its colour and its text: `node --test web/tests/rows.test.mjs`.

import { readFileSync } from "node:fs";
import { test } from "node:test";

import { Coniks } from "../src/coniks.js";
import { Reading } from "../src/reading.js";
import { CLASSES, Teller, counted, kindOf } from "../src/rows.js";
import { signaturesOf } from "../src/schemes.js";
import { data, read, same, textBytes } from "../telling.mjs";

/** An element, as far as a text needs it. */
class Part {
  parts = [];
  append(.../** @type {any[]} */ parts) {
    this.parts.push(...parts);
  }
  get text() {
    return this.parts.map((/** @type {any} */ it) => it.text ?? it).join("");
  }
}
globalThis.document = /** @type {any} */ ({ createElement: () => new Part() });

const library = await Coniks.of(readFileSync(new URL("../out/coniks.wasm", import.meta.url)));
const coniks = { text: (/** @type {number} */ status) => `status ${status}` };
const keysOf = (/** @type {string} */ kind, isExample = false) => ({ kind, isExample, key: null, signatures: kind === "none" ? null : {}, indices: kind === "provider" ? {} : null });
const textOf = (/** @type {any[]} */ words) => words.map((it) => it.text ?? it).join("");

/** A reading whose chain has the entry with the link `there`, up to epoch 9. @param {any} keys */
function reading(keys) {
  const made = new Reading(/** @type {any} */ (null), keys);
  made.chain.set("there", 5n);
  made.latest = 9n;
  return made;
}

const ROW = { what: "lookup", number: 1, text: "", name: "alice", epoch: 5n, stated: 5n, link: "there", index: null };
/** All that a lookup's row can be, but for the texts of errors. Only one whose index was verified is accepted. */
function* lookups() {
  const verdicts = [{ answer: "key", key: textBytes("k") }, { answer: "absent" }, { fault: "VrfProof" }, { fault: "Member", member: "proof" }, { fault: "RootMismatch", status: 8 }];
  for (const verdict of verdicts) for (const entry of ["own", "other", "unsigned", "broken", "none"]) for (const link of entry === "own" ? ["there", "elsewhere"] : ["there"]) {
    for (const indexIs of ["verified", "computed", "unverified"]) for (const isAccepted of indexIs === "verified" ? [false, true] : [false]) for (const stated of [5n, 6n]) yield { ...ROW, verdict, entry, link, indexIs, isAccepted, stated };
  }
}

/** The verdict of a lookup, by README.md of the pages: each condition that it lacks makes it less. @param {any} row */
function wanted({ verdict, entry, link, indexIs, isAccepted, stated }) {
  if (!("answer" in verdict) || entry === "other" || entry === "unsigned") return "refused";
  const isInChain = entry === "own" && link === "there" && stated === 5n;
  if (isInChain && indexIs === "computed") return "forgeable";
  return isInChain && isAccepted ? "authentic" : "consistent";
}

const GREEN = [];
const STARTS = { authentic: "authentic", forgeable: "valid under the demonstration's key, which anyone can forge", consistent: "consistent, not authenticated: ", refused: "refused" };

test("each lookup", () => {
  const seen = new Set();
  for (const keys of [keysOf("none"), keysOf("demonstration"), keysOf("provider"), keysOf("provider", true)]) {
    const [made, teller] = [reading(keys), new Teller(coniks, reading(keys))];
    for (const row of lookups()) {
      const [kind, verdict, standing] = [kindOf(/** @type {any} */ (row), made), textOf(teller.verdict(/** @type {any} */ (row))), teller.standing(/** @type {any} */ (row))];
      const what = `${verdict} | ${standing}`;
      same(what, [kind, CLASSES[kind]], [wanted(row), `lookup ${wanted(row)}`]);
      same(`${what}: begins so`, [standing.startsWith(STARTS[kind]), verdict.startsWith("refused: ")], [true, kind === "refused"]);
      same(`${what}: a key that is no example's`, standing.includes("under the example's keys"), kind === "authentic" && keys.isExample);
      same(`${what}: later epochs`, standing.includes("later epochs follow, up to 9"), kind !== "refused");
      if (kind === "consistent" && row.indexIs === "unverified") same(`${what}: its condition is in front`, /^(Under .*, and a|A)t the index in this line, which nobody has verified/.test(verdict), true);
      if (kind === "authentic") GREEN.push(verdict);
      seen.add(kind);
    }
  }
  same("all verdicts", [...seen].sort(), ["authentic", "consistent", "forgeable", "refused"]);
  same("what is green", [...new Set(GREEN)].sort(), ['"alice" is bound to this key at epoch 5', '"alice" is not registered at epoch 5']);
});

test("each other row", () => {
  const entry = { what: "entry", number: 1, epoch: 5n, stated: 6n, isAgain: false, isSigned: true, refusal: null };
  const other = "; the line calls it epoch 6, which its entry does not";
  const refusals = { Signature: "the signature of its entry isn't valid under this key", OtherPolicy: "its entry has another policy digest than the chain", Malformed: "no chain has an entry of this form", Equivocation: "its entry and one of the chain can't both be of one chain" };
  const rows = [
    ["followed", "plain", entry, `epoch 5 follows in the chain; its signature is verified${other}`],
    ["followed", "plain", { ...entry, isAgain: true }, `epoch 5 is signed again; its signature is verified${other}`],
    ...Object.entries(refusals).map(([why, text]) => ["unfollowed", "plain refused", { ...entry, refusal: { why, status: null } }, `refused: the entry of epoch 5: ${text}${other}`]),
    ["unfollowed", "plain refused", { ...entry, refusal: { why: "NotLater", status: 36 } }, `refused: the entry of epoch 5: status 36${other}`],
    ["broken", "plain refused", { what: "broken" }, "refused: the entry isn't 418 hexadecimal digits"],
    ["unproved", "plain refused", { what: "unproved", name: "alice", stated: 5n }, 'refused: "alice" at an epoch that the line calls 5: the answer has no proof'],
    ["unproved", "plain refused", { what: "unproved", name: null, stated: null }, "refused: a lookup: the answer has no proof"],
    ["refusal", "plain", { what: "refusal", fault: "Closed" }, 'the directory refused a request: "Closed"'],
    ["Json", "plain refused", { what: "unread", fault: "Json" }, "refused: the line isn't a JSON object"],
    ["Long", "plain refused", { what: "unread", fault: "Long" }, "refused: the line is longer than 262144 bytes"],
    ["other", "plain", { what: "other" }, "neither a lookup nor an entry"],
  ];
  const made = reading(keysOf("provider"));
  for (const [kind, colour, row, text] of /** @type {any[]} */ (rows)) {
    same(text, [kindOf(row, made), CLASSES[kindOf(row, made)], textOf(new Teller(coniks, made).plain(row))], [kind, colour, text]);
  }
  same("all kinds", [...new Set([...rows.map(([kind]) => kind), "authentic", "forgeable", "consistent", "refused"])].sort(), Object.keys(CLASSES).sort());
});

test("an entry that is signed again", async () => {
  // Epoch 1 has one signature, then another one, which the link of epoch 2 is of.
  const given = read("cases/client/alarms.jsonl").split("\n").find((it) => it.includes('"signed again: the first entry"'));
  const { steps, signing_key: key } = JSON.parse(/** @type {string} */ (given));
  const entries = steps.filter((/** @type {any} */ it) => it.do === "feed").map((/** @type {any} */ it) => it.entries[0]);
  const verify = await signaturesOf(data(key));
  const made = new Reading(library, /** @type {any} */ ({ ...keysOf("provider"), indices: null, signatures: { verify } }));
  for (const entry of entries) await made.read({ text: JSON.stringify({ entry }), end: 0 });
  const rows = /** @type {any[]} */ (made.rows);
  same("it takes the place of the latest one", rows.map((it) => [it.epoch, it.isAgain, it.refusal]), [[1, false, null], [1, true, null], [2, false, null]]);
  same("both are in the chain", [made.chain.size, made.latest], [3, 2]);
  const seen = [1n, 2n].map((epoch, i) => ({ ...ROW, epoch, stated: epoch, entry: "own", link: [...made.chain.keys()][i + 1], verdict: { answer: "absent" }, indexIs: "verified", isAccepted: true }));
  made.byName.set("alice", /** @type {any} */ (seen));
  same("no epoch of a name is missing", [...made.watched("alice")].map((it) => it.seen), ["unregistered", "unregistered"]);
});

test("what they are counted as", () => {
  const counts = { authentic: 1, forgeable: 2, consistent: 3, refused: 4, followed: 1, unfollowed: 1, broken: 1, unproved: 1, refusal: 2, Json: 1, Long: 1, other: 1 };
  const rest = "1 answer without a proof. 2 requests that the directory refused. 1 line that isn't a JSON object. 1 line that is too long. 1 other line.";
  const sums = [
    ["none", false, "1 authentic", "its signature is not verified"],
    ["demonstration", false, "2 valid under the demonstration's key", "its seal is valid, which anyone can forge"],
    ["provider", false, "1 authentic", "its signature is verified"],
    ["provider", true, "1 authentic under the example's keys", "its signature is verified (the example's key)"],
  ];
  for (const [kind, isExample, best, signed] of /** @type {any[]} */ (sums)) {
    same(best, counted(counts, /** @type {any} */ (keysOf(kind, isExample))), `10 lookups: ${best}, 3 consistent but not authenticated, 4 refused. 3 entries: 1 follows in the chain, ${signed}; 2 refused, 1 of them malformed. ${rest}`);
  }
});

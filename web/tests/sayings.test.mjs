// Each verdict of the page that follows a service, with its colour and its text: `node --test web/tests/sayings.test.mjs`.

import { test } from "node:test";

import { verdictOf } from "../src/following.js";
import { alarmSaying, foundSaying, opinionSaying, sumSaying } from "../src/sayings.js";
import { data, read, same, textBytes } from "../telling.mjs";

/** A saying as one text: its colour, a colon, and the words with names in quotation marks. @param {any} saying */
function textOf({ colour, words }) {
  const texts = words.map((it) => (typeof it === "string" ? it : it.key ?? JSON.stringify(it.name ?? it.auditor)));
  return `${colour || "plain"}: ${texts.join("")}`;
}

/** The records of docs/FORMATS.md, of the keys `k` and `l`, the notice of a reset, and the record of that, of the key `m`. */
const formats = read("docs/FORMATS.md");
const [RECORD, NEXT, NOTICE, RESET] = formats
  .slice(formats.indexOf("\n## Keys that their owners vouch for\n"))
  .split("\n\n")
  .filter((it) => it.startsWith("    766f7563") || it.startsWith("    6e6f7469"))
  .map((it) => data(it.replace(/\s/g, "")));

/** A record without a key, whose signature nothing here verifies. */
const CLOSED = NEXT.slice(0, 160);

const agreement = (/** @type {string} */ verdict, /** @type {string[]} */ ...says) => ({
  verdict,
  epoch: verdict === "confirmed" ? 7n : null,
  least: says.length === 0 ? 0 : 2,
  opinions: says.map((it, i) => ({ name: `auditor ${i + 1}`, says: it, epoch: it === "nothing" ? null : 9n, note: "" })),
});

test("what each auditor says", () => {
  const wanted = {
    agrees: 'good: "auditor 1" agrees with this chain up to epoch 9',
    differs: 'bad: "auditor 1" signed another chain at epoch 9: the directory or this auditor lies. Rely on nothing new, and ask the auditor for its entries',
    ahead: 'bad: "auditor 1" has seen epoch 9, which the service does not show here',
    later: 'bad: "auditor 1" has cosigned epoch 9 for a time that is to come, which does not count: its clock is wrong, or yours',
    late: 'bad: "auditor 1" has cosigned nothing lately, and epoch 9 at last',
    nothing: 'bad: "auditor 1" is in no note that the service has: rely on its word only if you ask it yourself',
  };
  // The verdicts are those of the type, which are in the order of their weight in src/confirming.js.
  const listed = /WEIGHTS = \[(.*?)\]/.exec(read("web/src/confirming.js"))[1];
  same("each opinion is here", Object.keys(wanted).sort(), listed.split(", ").map((it) => it.slice(1, -1)).sort());
  for (const [says, text] of Object.entries(wanted)) {
    const [opinion] = agreement("confirmed", says).opinions;
    same(says, textOf(opinionSaying(/** @type {any} */ (opinion), false)), text);
    same(`${says}, once something was found`, textOf(opinionSaying(/** @type {any} */ (opinion), true)), text.replace(/^good/, "plain"));
  }
});

test("what they say together", () => {
  const rows = [
    [agreement("unnamed"), "bad: No auditor is named, so nobody notices if others are shown another chain."],
    [agreement("unconfirmed", "agrees", "late", "differs"), "bad: 1 of your 3 auditors agree with this chain, and 2 must: rely on nothing new."],
    [agreement("confirmed", "agrees", "agrees", "nothing"), "good: 2 of your 3 auditors agree with this chain, and a quorum confirms it up to epoch 7."],
  ];
  for (const [given, text] of rows) {
    same(text, textOf(sumSaying(/** @type {any} */ (given), false)), text);
    same(`${text} Once something was found`, textOf(sumSaying(/** @type {any} */ (given), true)), String(text).replace(/^good/, "bad"));
  }
});

test("what the user must see", () => {
  same("a head", textOf(alarmSaying({ kind: "head", who: "one" })), 'bad: The auditor "one" cosigned another chain: the directory or this auditor lies. This convicts nobody alone. Rely on nothing new, and ask the auditor for its entries:');
  same("a change", textOf(alarmSaying({ kind: "unvouched", who: "alice" })), 'bad: Two replies for "alice" convict this directory: the owner of the key in the first did not sign what the second shows, and no notice of a reset allows it. Keep them, and publish them:');
  for (const kind of ["overlap", "other policy", "malformed"]) same(kind, textOf(alarmSaying({ kind, who: "" })), "bad: Two entries that this directory signed convict it. Keep them, and publish them:");
});

/** All that a found name can be: its key, what that is to the key before, and what the auditors confirm. */
function* allFound() {
  const values = [[null, null, null], [null, RECORD, "unvouched"], [RECORD, null, null], [RECORD, RECORD, "same"], [NEXT, RECORD, "vouched"], [NEXT, RECORD, "unvouched"], [NOTICE, NEXT, "same"], [RESET, NOTICE, "reset"], [CLOSED, NEXT, "vouched"], [textBytes("plain"), null, null], [textBytes("plain"), textBytes("old"), "unknown"]];
  for (const [key, before, change] of values) {
    for (const isRecord of [RECORD, NEXT, NOTICE, RESET, CLOSED].includes(key) ? [true, false] : [false]) {
      for (const auditors of ["unnamed", "unconfirmed", "confirmed"]) for (const isAlarmed of [false, true]) yield { key, before, change, isRecord, auditors, isAlarmed };
    }
  }
}

test("what is found of a name", () => {
  const greens = [];
  let count = 0;
  for (const { auditors, ...it } of allFound()) {
    const isConfirmed = auditors === "confirmed";
    const verdict = verdictOf(/** @type {any} */ (it.key), /** @type {any} */ ({ ...it, isConfirmed }));
    const given = { ...it, name: "alice", epoch: 3n, isConfirmed, verdict, agreement: agreement(auditors, ...(auditors === "unnamed" ? [] : ["agrees", "late"])) };
    const text = textOf(foundSaying(/** @type {any} */ (given)));
    // Only a confirmed epoch without an alarm, of no key or of the owner's record, is green. Only an unvouched change and a reset are red.
    const isRed = it.change === "unvouched" || it.change === "reset";
    const isGood = isConfirmed && !it.isAlarmed && !isRed && (it.key === null || it.isRecord);
    same(text, text.split(":")[0], isGood ? "good" : isRed ? "bad" : "plain");
    same(`${text}: resets`, [text.includes("is announced for epoch 200"), text.includes("was reset")], [it.key === NOTICE, it.change === "reset"]);
    same(`${text}: verified`, text.includes("Verified and stored"), isGood);
    same(`${text}: auditors`, [text.includes("which no auditor confirms"), text.includes("which too few of your auditors confirm")], [auditors === "unnamed", auditors === "unconfirmed"]);
    same(`${text}: alarms`, text.includes("rely on nothing new"), it.isAlarmed);
    same(`${text}: owners`, [text.includes("don't use it"), text.includes("No owner vouches"), text.includes("not signed as one")], [
      it.key !== null && it.change === "unvouched",
      it.key !== null && !isRed && !it.isRecord && it.key.length < 9,
      it.key !== null && !isRed && !it.isRecord && it.key.length > 9,
    ]);
    if (isGood) greens.push(text);
    count += 1;
  }
  same("all of them", count, 108);
  same("what is green", greens, [
    'good: Verified and stored: "alice" has no key at epoch 3.',
    'good: Verified and stored: "alice" has the key "k" in record 1 of its owner at epoch 3.',
    'good: Verified and stored: "alice" has the key "k" in record 1 of its owner at epoch 3.',
    'good: Verified and stored: "alice" has the key "l" in record 2 of its owner in place of "k", and its owner signed the change at epoch 3.',
    'good: Verified and stored: "alice" has the key "l" in record 2 of its owner at epoch 3. A reset of this name is announced for epoch 200: ask its owner.',
    'good: Verified and stored: "alice" has no key: record 2 of its owner closes it at epoch 3.',
  ]);
});

test("colours", () => {
  // The page takes its colours from these tables alone.
  const text = read("web/src/follow.js").replace(/^.*"p", "bad", `Not verified: .*$/m, "");
  same("no colour elsewhere", text.match(/"[^"]*\b(good|bad)\b[^"]*"/g), null);
});

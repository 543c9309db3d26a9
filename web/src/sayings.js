// What the page that follows a service says: for each verdict a colour and a text. It says nothing else of what was verified.

import { readRecord } from "./vouching.js";
import { counting, keyText } from "./words.js";

/**
 * Green, red or neither, and a text with names and keys in it.
 * @typedef {{colour: "good" | "bad" | "", words: Word[]}} Saying
 * @typedef {string | {name: string} | {auditor: string} | {key: string}} Word
 * @typedef {import("./confirming.js").Agreement} Agreement
 * @typedef {import("./confirming.js").Opinion} Opinion
 * @typedef {import("./following.js").Judgement} Judgement
 */

/**
 * Of a found key, what the user may think of it.
 * @type {Record<Judgement["verdict"], {colour: Saying["colour"], start: string}>}
 */
const FOUND = {
  verified: { colour: "good", start: "Verified and stored: " },
  unvouched: { colour: "bad", start: "The directory shows: " },
  reset: { colour: "bad", start: "The directory shows: " },
  shown: { colour: "", start: "The directory shows: " },
};

/** Why a found key is not verified. */
const DOUBTS = {
  unvouched: "The owner of the key before did not sign the change: don't use it.",
  reset: "The name was reset for who has lost its secret key: verify this key with its owner by another channel.",
  unrecorded: "No owner vouches for this key.",
  unsigned: "These bytes look like a record of an owner, and are not signed as one.",
  alarmed: "Something was found that you must see, above: rely on nothing new.",
};

/**
 * What an auditor says of the chain.
 * @type {Record<Opinion["says"], {colour: Saying["colour"], text: (epoch: bigint | null) => string}>}
 */
const OPINIONS = {
  agrees: { colour: "good", text: (epoch) => `agrees with this chain up to epoch ${epoch}` },
  differs: { colour: "bad", text: (epoch) => `signed another chain at epoch ${epoch}: the directory or this auditor lies. Rely on nothing new, and ask the auditor for its entries` },
  ahead: { colour: "bad", text: (epoch) => `has seen epoch ${epoch}, which the service does not show here` },
  later: { colour: "bad", text: (epoch) => `has cosigned epoch ${epoch} for a time that is to come, which does not count: its clock is wrong, or yours` },
  late: { colour: "bad", text: (epoch) => `has cosigned nothing lately, and epoch ${epoch} at last` },
  nothing: { colour: "bad", text: () => "is in no note that the service has: rely on its word only if you ask it yourself" },
};

/**
 * What the auditors say together.
 * @type {Record<Agreement["verdict"], {colour: Saying["colour"], text: (it: Agreement, agreeing: string) => string}>}
 */
const SUMS = {
  unnamed: { colour: "bad", text: () => "No auditor is named, so nobody notices if others are shown another chain." },
  unconfirmed: { colour: "bad", text: ({ least }, agreeing) => `${agreeing}, and ${least} must: rely on nothing new.` },
  confirmed: { colour: "good", text: ({ epoch }, agreeing) => `${agreeing}, and a quorum confirms it up to epoch ${epoch}.` },
};

/**
 * What the user must see.
 * @type {Record<string, (who: string) => Word[]>}
 */
const ALARMS = {
  head: (who) => ["The auditor ", { auditor: who }, " cosigned another chain: the directory or this auditor lies. This convicts nobody alone. Rely on nothing new, and ask the auditor for its entries:"],
  unvouched: (who) => ["Two replies for ", { name: who }, " convict this directory: the owner of the key in the first did not sign what the second shows, and no notice of a reset allows it. Keep them, and publish them:"],
  evidence: () => ["Two entries that this directory signed convict it. Keep them, and publish them:"],
};

/** @param {{kind: string, who: string}} alarm  of another kind than these: evidence of that kind @returns {Saying} */
export function alarmSaying({ kind, who }) {
  return { colour: "bad", words: (ALARMS[kind] ?? ALARMS.evidence)(who) };
}

/** Of one auditor. @param {Opinion} opinion @param {boolean} isAlarmed  nothing is green then @returns {Saying} */
export function opinionSaying({ name, says, epoch }, isAlarmed) {
  const { colour, text } = OPINIONS[says];
  const words = [{ auditor: name }, ` ${text(epoch)}`];
  return colour === "good" && isAlarmed ? { colour: "", words } : { colour, words };
}

/** Of all auditors. @param {Agreement} agreement @param {boolean} isAlarmed @returns {Saying} */
export function sumSaying(agreement, isAlarmed) {
  const { verdict, opinions } = agreement;
  const count = opinions.filter((it) => it.says === "agrees").length;
  const { colour, text } = SUMS[verdict];
  const words = [text(agreement, `${count} of your ${counting(opinions.length, "auditor")} agree with this chain`)];
  return { colour: isAlarmed ? "bad" : colour, words };
}

/**
 * Of a name at an epoch: its key, and the one that was accepted before.
 * @param {{name: string, key: Uint8Array | null, before: Uint8Array | null, epoch: bigint, agreement: Agreement} & Judgement} found
 * @returns {Saying}
 */
export function foundSaying(found) {
  const { name, epoch, verdict } = found;
  const { colour, start } = FOUND[verdict];
  const end = [verdict === "verified" ? "." : unconfirmed(found), ...doubts(found), ...announced(found)].join(" ");
  return { colour, words: [start, { name }, " has ", ...keyWords(found), ` at epoch ${epoch}${end}`] };
}

/** What a name has: its key, which may be in a record of its owner. @param {Parameters<typeof foundSaying>[0]} found @returns {Word[]} */
function keyWords({ key, isRecord, change, before }) {
  if (key === null) return [before === null ? "no key" : "no key any more, and no directory removes a name"];
  const record = isRecord ? readRecord(key) : null;
  if (record !== null && record.key.length === 0) return [`no key: record ${record.number} of its owner closes it`];
  // Another voucher than before is nobody's word that the owner is the same.
  const whose = record !== null && change !== "unvouched" ? [` in record ${record.number} of its owner`] : [];
  const words = ["the key ", { key: keyText(record?.key ?? key, 400) }, ...whose];
  const old = before === null ? null : readRecord(before);
  if (old === null || change === "same") return words;
  return [...words, " in place of ", { key: keyText(old.key, 400) }, ...(change === "vouched" ? [", and its owner signed the change"] : [])];
}

/** The end of a sentence about an epoch. @param {Parameters<typeof foundSaying>[0]} found @returns {string} */
function unconfirmed({ agreement, isConfirmed }) {
  if (isConfirmed) return ".";
  return agreement.verdict === "unnamed" ? ", which no auditor confirms." : ", which too few of your auditors confirm.";
}

/** What is said of a reset that is announced. @param {Parameters<typeof foundSaying>[0]} found @returns {string[]} */
function announced({ key }) {
  const asked = readRecord(key)?.asked;
  return asked ? [`A reset of this name is announced for epoch ${asked.effect}: ask its owner.`] : [];
}

/** @param {Parameters<typeof foundSaying>[0]} found @returns {string[]} */
function doubts({ key, isRecord, change, isAlarmed }) {
  const why = [];
  if (key !== null && change === "unvouched") why.push(DOUBTS.unvouched);
  else if (change === "reset") why.push(DOUBTS.reset);
  else if (key !== null && !isRecord) why.push(readRecord(key) === null ? DOUBTS.unrecorded : DOUBTS.unsigned);
  return isAlarmed ? [...why, DOUBTS.alarmed] : why;
}

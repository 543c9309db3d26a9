// The words of a line's result. What a line says goes in as text, and a name in a box of its own.

import { nameBox } from "./elements.js";
import { LONGEST } from "./lines.js";
import { isOtherEpoch } from "./reading.js";
import { capital, counting, keyText } from "./words.js";

/**
 * @typedef {import("./reading.js").Row} Row
 * @typedef {import("./reading.js").LookupRow} LookupRow
 * @typedef {import("./reading.js").EntryRow} EntryRow
 * @typedef {import("./reading.js").Reading} Reading
 * @typedef {import("./reading.js").Seen} Seen
 * @typedef {import("./keys.js").Keys} Keys
 * @typedef {(string | HTMLElement)[]} Words
 */

/** The epoch of a line's entry, or of a line without one. @param {{epoch?: bigint | null, stated: bigint | null}} row @returns {string} */
export function epochWords(row) {
  if (typeof row.epoch === "bigint") return ` at epoch ${row.epoch}`;
  return row.stated === null ? "" : ` at an epoch that the line calls ${row.stated}`;
}

/** @param {LookupRow | EntryRow} row @returns {string} the epoch of the line, if it is not the entry's */
function otherEpoch(row) {
  return isOtherEpoch(row) ? `; the line calls it epoch ${row.stated}, which its entry does not` : "";
}

/** Why a lookup or an entry is refused, if it is by more than a proof's status. @type {Record<string, string>} */
const REFUSED = {
  Signature: "the signature of its entry isn't valid under this key",
  OtherPolicy: "its entry has another policy digest than the chain",
  Malformed: "no chain has an entry of this form",
  Equivocation: "its entry and one of the chain can't both be of one chain",
  UnknownEpoch: "its entry isn't in the pasted chain",
  OtherEpoch: "its entry isn't that of the chain at this epoch",
  VrfProof: "the VRF proof isn't one of this name under this VRF key",
};

const STANDINGS = {
  chain: "its entry is in the pasted chain",
  missing: "its entry isn't in the pasted chain",
  other: "the root or the nonce isn't that of its entry",
  unsigned: REFUSED.Signature,
  broken: "its entry isn't 418 hexadecimal digits",
  none: "the line has no entry",
};

/** What a result depends on, if its entry isn't in the chain. @type {Record<string, string>} */
const CONDITIONS = {
  missing: "under an entry that isn't in the pasted chain",
  broken: "under the root in this line, whose entry is malformed",
  none: "under the root in this line, which has no entry",
};

/** What follows a word that the example's keys alone stand for. */
const EXAMPLE = " under the example's keys";

export class Teller {
  /** @param {any} coniks @param {Reading} reading */
  constructor(coniks, reading) {
    this.coniks = coniks;
    this.reading = reading;
  }

  /** Why a lookup is refused. @param {LookupRow} row @returns {string} */
  refusal(row) {
    const [verdict, standing] = [row.verdict, this.reading.standing(row)];
    if ("answer" in verdict || standing === "unsigned") return STANDINGS[standing];
    if (verdict.fault === "Member") return `the member ${JSON.stringify(verdict.member)} is missing or malformed`;
    return REFUSED[verdict.fault] ?? this.coniks.text(verdict.status ?? 0);
  }

  /** The name and the epoch of a refused lookup. @param {{name: string | null, epoch?: bigint | null, stated: bigint | null}} row @returns {Words} */
  requested(row) {
    return [row.name === null ? "a lookup" : nameBox(row.name), epochWords(row)];
  }

  /** The result of a lookup, with its conditions in front. @param {LookupRow} row @returns {Words} */
  verdict(row) {
    if (this.reading.stateOf(row) === "refused") return ["refused: ", ...this.requested(row), `: ${this.refusal(row)}`];
    const [name, at] = [nameBox(row.name ?? ""), epochWords(row)];
    const isBound = "answer" in row.verdict && row.verdict.answer === "key";
    const under = CONDITIONS[this.reading.standing(row)];
    if (row.indexIs === "unverified") {
      const start = capital(`${under ? `${under}, and ` : ""}at the index in this line, which nobody has verified as that of `);
      return [start, name, `, ${isBound ? "this key" : "no key"} is registered${at}`];
    }
    return [under ? `${capital(under)}, ` : "", name, ` is ${isBound ? "bound to this key" : "not registered"}${at}`];
  }

  /** What is known of later epochs. @param {LookupRow} row @returns {string} */
  later({ epoch }) {
    const { latest } = this.reading;
    if (epoch !== null && epoch < latest) return `; later epochs follow, up to ${latest}`;
    return `${epoch === null ? "" : `; this is of epoch ${epoch}`}; later epochs may exist`;
  }

  /** What was verified of a lookup, and what not. @param {LookupRow} row @returns {string} */
  standing(row) {
    const [state, keys, later] = [this.reading.stateOf(row), this.reading.keys, this.later(row)];
    if (state === "refused") return `refused${otherEpoch(row)}`;
    if (state === "authentic") return `authentic${keys.isExample ? `${EXAMPLE}, which prove nothing about any directory since their secrets are public` : ""}: signature, chain, VRF proof and path are verified${later}`;
    if (state === "forgeable") return `valid under the demonstration's key, which anyone can forge${later}`;
    const lacks = [STANDINGS[this.reading.standing(row)]];
    if (keys.signatures === null) lacks.push("no signature is verified");
    else if (row.indexIs === "unverified") lacks.push(keys.indices === null ? "no VRF key is given" : "the line has no VRF proof");
    return `consistent, not authenticated: ${lacks.join("; ")}${otherEpoch(row)}${later}`;
  }

  /** @param {EntryRow} row @returns {string} */
  entry(row) {
    const signature = `${OF_ONE[this.reading.keys.kind]} ${signedWords(this.reading.keys)}`;
    if (row.refusal === null) return `epoch ${row.epoch} ${row.isAgain ? "is signed again" : "follows in the chain"}; ${signature}${otherEpoch(row)}`;
    const { why, status } = row.refusal;
    return `refused: the entry of epoch ${row.epoch}: ${status === null ? REFUSED[why] ?? why : this.coniks.text(status)}${otherEpoch(row)}`;
  }

  /** @param {Exclude<Row, LookupRow>} row @returns {Words} */
  plain(row) {
    if (row.what === "entry") return [this.entry(row)];
    if (row.what === "unproved") return ["refused: ", ...this.requested(row), ": the answer has no proof"];
    if (row.what === "refusal") return ["the directory refused a request: ", nameBox(row.fault)];
    if (row.what === "broken") return ["refused: the entry isn't 418 hexadecimal digits"];
    if (row.what === "other") return ["neither a lookup nor an entry"];
    return [row.fault === "Json" ? "refused: the line isn't a JSON object" : `refused: the line is longer than ${LONGEST} bytes`];
  }
}

/** What is in front of what is seen, if the lookup is not authentic. @type {Record<string, string>} */
const UNSURE = { forgeable: "forgeable: ", consistent: "not authenticated: " };

/** What is seen of a name at an epoch. @param {{state: string} & Seen} it @param {Keys} keys @returns {string} */
export function seenWords(it, keys) {
  return (it.state === "authentic" && keys.isExample ? `authentic${EXAMPLE}: ` : UNSURE[it.state] ?? "") + seenText(it);
}

/** @param {Seen} it @returns {string} */
function seenText(it) {
  if (it.seen === "first") return `first key ${keyText(it.key, 64)}`;
  if (it.seen === "registered") return `registered with the key ${keyText(it.key, 64)}`;
  if (it.seen === "same") return `same key ${keyText(it.key, 64)}`;
  if (it.seen === "changed") return `changed from ${keyText(it.from, 64)} to ${keyText(it.key, 64)}`;
  if (it.seen === "absent") return `absent, after the key ${keyText(it.from, 64)}`;
  return it.seen === "unregistered" ? "not registered" : "missing: no line shows the name";
}

/**
 * How many rows there are of each kind.
 * @typedef {Record<string, number>} Counts
 */

/** What a row counts as, and the class in which it is drawn: its colour. @type {Record<string, string>} */
export const CLASSES = {
  authentic: "lookup authentic",
  forgeable: "lookup forgeable",
  consistent: "lookup consistent",
  refused: "lookup refused",
  followed: "plain",
  unfollowed: "plain refused",
  broken: "plain refused",
  unproved: "plain refused",
  refusal: "plain",
  Json: "plain refused",
  Long: "plain refused",
  other: "plain",
};

/** What a row counts as. @param {Row} row @param {Reading} reading @returns {string} */
export function kindOf(row, reading) {
  if (row.what === "lookup") return reading.stateOf(row);
  if (row.what === "entry") return row.refusal === null ? "followed" : "unfollowed";
  return row.what === "unread" ? row.fault : row.what;
}

/** What signs one entry, and several. */
const OF_ONE = { none: "its signature is", demonstration: "its seal is", provider: "its signature is" };
const OF_SEVERAL = { none: "their signatures are", demonstration: "their seals are", provider: "their signatures are" };
const SIGNED = { none: "not verified", demonstration: "valid, which anyone can forge", provider: "verified" };

/** What is stated about signatures. @param {Keys} keys @returns {string} */
function signedWords({ kind, isExample }) {
  return SIGNED[kind] + (isExample ? " (the example's key)" : "");
}

/** @param {Counts} counts @param {Keys} keys @returns {string} */
function entriesWords(counts, keys) {
  const [followed, refused] = [counts.followed ?? 0, (counts.unfollowed ?? 0) + (counts.broken ?? 0)];
  const broken = counts.broken ? `, ${counts.broken} of them malformed` : "";
  const what = followed === 1 ? `follows in the chain, ${OF_ONE[keys.kind]}` : `follow in the chain, ${OF_SEVERAL[keys.kind]}`;
  const chain = followed ? `: ${followed} ${what} ${signedWords(keys)}` : "";
  return `${counting(followed + refused, "entry", "entries")}${chain}${refused ? `; ${refused} refused${broken}` : ""}.`;
}

/** All rows in numbers. @param {Counts} counts @param {Keys} keys @returns {string} */
export function counted(counts, keys) {
  const [authentic, forgeable, consistent, refused] = [counts.authentic ?? 0, counts.forgeable ?? 0, counts.consistent ?? 0, counts.refused ?? 0];
  const best = keys.kind === "demonstration" ? `${forgeable} valid under the demonstration's key` : `${authentic} authentic${keys.isExample ? EXAMPLE : ""}`;
  const lookups = `${counting(authentic + forgeable + consistent + refused, "lookup")}: ${best}, ${consistent} consistent but not authenticated, ${refused} refused.`;
  const rest = [
    [counts.unproved, "answer without a proof", "answers without a proof"],
    [counts.refusal, "request that the directory refused", "requests that the directory refused"],
    [counts.Json, "line that isn't a JSON object", "lines that aren't JSON objects"],
    [counts.Long, "line that is too long", "lines that are too long"],
    [counts.other, "other line", "other lines"],
  ];
  const others = rest.flatMap(([many, one, more]) => (many ? [`${counting(/** @type {number} */ (many), String(one), String(more))}.`] : []));
  return [lookups, entriesWords(counts, keys), ...others].join(" ");
}

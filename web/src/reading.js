// Reads what was pasted, line by line. Entries are fed to a client, which keeps those that continue its chain. Lookups are judged
// when all lines are read, since an entry may come after its lookups.

import { bigEndian, isSame, joined, toHex } from "./bytes.js";
import { Chain } from "./chain.js";
import { Coniks } from "./coniks.js";
import { SignedEntries } from "./evidence.js";
import { bodyOf, policyOf, signatureOf } from "./layout.js";
import { entryOf, lookupIn, nameBytes, numberOf, objectOf, proofBytes, vrfOf } from "./lines.js";
import { indexOf } from "./seal.js";
import { Verifier } from "./verdicts.js";
import { FAULTS } from "./words.js";

/**
 * A lookup's entry is in the chain (chain) or not (missing), has another root or nonce (other), isn't signed by the key (unsigned),
 * isn't 209 bytes (broken), or isn't in the line (none).
 * @typedef {"chain" | "missing" | "other" | "unsigned" | "broken" | "none"} Standing
 *
 * A lookup is accepted by the client under a provider's keys (authentic), valid under the demonstration's key (forgeable), has a
 * path that fits but lacks a condition (consistent), or is refused.
 * @typedef {"authentic" | "forgeable" | "consistent" | "refused"} State
 *
 * The index of a lookup was verified by a VRF proof, computed with the demonstration's key, or nobody has verified it.
 * @typedef {"verified" | "computed" | "unverified"} IndexKind
 *
 * @typedef {import("./keys.js").Keys} Keys
 * @typedef {import("./lines.js").Lookup} Lookup
 * @typedef {{fault: string, member?: string, status?: number} | {answer: "absent"} | {answer: "key", key: Uint8Array}} Verdict
 * @typedef {{what: "lookup", number: number, text: string, name: string | null, epoch: bigint | null, stated: bigint | null, entry: Standing | "own", link: string, verdict: Verdict, index: Uint8Array | null, indexIs: IndexKind, isAccepted: boolean}} LookupRow
 * @typedef {{what: "entry", number: number, epoch: bigint | null, stated: bigint | null, isAgain: boolean, refusal: {why: string, status: number | null} | null, isSigned: boolean | null}} EntryRow
 * @typedef {{what: "unproved", name: string | null, stated: bigint | null}} UnprovedRow
 * @typedef {{what: "refusal", fault: string}} RefusalRow
 * @typedef {{what: "broken"} | {what: "other"} | {what: "unread", fault: "Json" | "Long"}} PlainRow
 * @typedef {LookupRow | EntryRow | UnprovedRow | RefusalRow | PlainRow} Row
 *
 * What is seen of a name: its first key, a key after none, the same one, another one, none any more, none yet, or nothing at the
 * epochs up to `last`, of which no line shows it.
 * @typedef {{seen: "first", key: Uint8Array}
 *   | {seen: "registered", key: Uint8Array}
 *   | {seen: "same", key: Uint8Array}
 *   | {seen: "changed", from: Uint8Array, key: Uint8Array}
 *   | {seen: "absent", from: Uint8Array}
 *   | {seen: "unregistered"}
 *   | {seen: "missing", last: bigint}} Seen
 */

/**
 * Rows without content of their lines.
 * @type {Record<string, PlainRow>}
 */
const PLAIN = { broken: { what: "broken" }, other: { what: "other" }, Json: { what: "unread", fault: "Json" }, Long: { what: "unread", fault: "Long" } };

const VERSION = 1;

/** Most bytes of a VRF proof in a reply. */
const LONGEST_PROOF = 65_535;

export class Reading {
  /** @param {Coniks} coniks @param {Keys} keys */
  constructor(coniks, keys) {
    this.coniks = coniks;
    this.keys = keys;
    this.signed = new SignedEntries(coniks);
    /** Made with the policy digest of the first entry that it accepts. @type {Chain | null} */
    this.client = null;
    /** The epochs of the chain, by the links of their entries: an entry that is signed again has another link. @type {Map<string, bigint>} */
    this.chain = new Map();
    /** The latest epoch of the chain, 0 before the first. */
    this.latest = 0n;
    /** One for each line. @type {Row[]} */
    this.rows = [];
    /** @type {LookupRow[]} */
    this.lookups = [];
    /** The lookups with entries, by their names. @type {Map<string, LookupRow[]>} */
    this.byName = new Map();
  }

  /** Reads a line, after the one before. @param {import("./lines.js").Line} line */
  async read(line) {
    const row = "fault" in line ? PLAIN[line.fault] : await this.rowOf(line.text);
    this.rows.push(row);
    if (row.what === "lookup") this.keep(row);
  }

  /** @param {string} line @returns {Promise<Row>} */
  async rowOf(line) {
    const object = objectOf(line);
    if (object === null) return PLAIN.Json;
    const entry = entryOf(object);
    const isSigned = entry && (await this.isSigned(entry));
    if ("proof" in object) return this.lookupRow(line, object, entry, isSigned);
    if (object.ok === "lookup" || "index" in object) return { what: "unproved", name: textOf(object.name), stated: numberOf(line, object, "epoch") };
    if ("entry" in object) return entry === null ? PLAIN.broken : this.fed(entry, isSigned, numberOf(line, object, "epoch"));
    return typeof object.fault === "string" ? { what: "refusal", fault: object.fault } : PLAIN.other;
  }

  /** Whether an entry's signature is valid, null if none is verified. @param {Uint8Array} entry @returns {Promise<boolean | null>} */
  async isSigned(entry) {
    if (this.keys.signatures === null) return null;
    const isGood = (await this.keys.signatures.verify(bodyOf(entry), signatureOf(entry))) === true;
    // Anyone can make an entry of the demonstration or of the example, so it is no evidence.
    if (isGood && this.keys.kind === "provider" && !this.keys.isExample) this.signed.add(this.coniks.link(entry), entry);
    return isGood;
  }

  /** @param {Uint8Array} entry @param {boolean | null} isSigned @param {bigint | null} stated @returns {Promise<EntryRow>} */
  async fed(entry, isSigned, stated) {
    /** @type {EntryRow} */
    const row = { what: "entry", number: this.rows.length + 1, epoch: this.epochOf(entry), stated, isAgain: false, refusal: null, isSigned };
    try {
      if (this.client === null && isSigned !== false) this.client = await this.begun(entry);
      if (this.client === null) return { ...row, refusal: { why: "Signature", status: SIGNATURE } };
      await this.client.feed(entry);
      const [before, epoch] = [this.latest, /** @type {bigint} */ (row.epoch)];
      this.latest = epoch;
      this.chain.set(this.coniks.link(entry), epoch);
      return { ...row, isAgain: epoch === before };
    } catch (error) {
      if (this.chain.size === 0) this.client = null;
      return { ...row, refusal: refusalOf(error) };
    }
  }

  /** A client that has the policy digest of an entry. @param {Uint8Array} entry @returns {Promise<Chain>} */
  async begun(entry) {
    const verifier = await Verifier.of(this.keys.signatures ?? UNVERIFIED, this.keys.indices);
    return Chain.ofDigest(this.coniks, policyOf(entry), verifier);
  }

  /** @param {string} line @param {Record<string, any>} object @param {Uint8Array | null} entry @param {boolean | null} isSigned @returns {LookupRow} */
  lookupRow(line, object, entry, isSigned) {
    const lookup = lookupIn(object);
    const tie = entry === null ? ("entry" in object ? "broken" : "none") : this.tie(entry, isSigned, lookup);
    /** @type {LookupRow} */
    const row = {
      what: "lookup",
      number: this.rows.length + 1,
      text: line,
      name: textOf(object.name),
      epoch: entry && this.epochOf(entry),
      stated: numberOf(line, object, "epoch"),
      entry: tie,
      link: entry === null ? "" : this.coniks.link(entry),
      verdict: UNJUDGED,
      index: null,
      indexIs: "unverified",
      isAccepted: false,
    };
    if ("fault" in lookup) row.verdict = lookup;
    else if (this.keys.indices === null || vrfOf(object) === undefined) this.checkAt(row, lookup, ...this.ownIndex(lookup));
    return row;
  }

  /** The index that is computed with the demonstration's key, else that of the line. @param {Lookup} lookup @returns {[Uint8Array, IndexKind]} */
  ownIndex(lookup) {
    return this.keys.key === null ? [lookup.index, "unverified"] : [indexOf(this.keys.key, nameBytes(lookup.name)), "computed"];
  }

  /** Checks a lookup's path under the root and the nonce of its line. @param {LookupRow} row @param {Lookup} lookup @param {Uint8Array} index @param {IndexKind} kind */
  checkAt(row, lookup, index, kind) {
    row.index = index;
    row.indexIs = kind;
    row.verdict = verdictOf(this.coniks.check(lookup.nonce, lookup.root, index, nameBytes(lookup.name), proofBytes(lookup)));
  }

  /** Whether an entry is a lookup's own. @param {Uint8Array} entry @param {boolean | null} isSigned @param {Lookup | {fault: string}} lookup @returns {"own" | "other" | "unsigned"} */
  tie(entry, isSigned, lookup) {
    const body = this.coniks.body(entry);
    const isOwn = "fault" in lookup || (body !== null && body.root === toHex(lookup.root) && body.nonce === toHex(lookup.nonce));
    if (!isOwn) return "other";
    return isSigned === false ? "unsigned" : "own";
  }

  /** @param {LookupRow} row */
  keep(row) {
    this.lookups.push(row);
    if (row.name === null || row.epoch === null || "member" in row.verdict) return;
    const rows = this.byName.get(row.name);
    if (rows) rows.push(row);
    else this.byName.set(row.name, [row]);
  }

  /** Judges a lookup with a VRF proof, after all lines are read: by the client if the chain has its entry. @param {LookupRow} row */
  async judge(row) {
    if (row.verdict !== UNJUDGED || row.entry === "unsigned") return;
    const object = /** @type {Record<string, any>} */ (objectOf(row.text));
    const [lookup, proof] = [/** @type {Lookup} */ (lookupIn(object)), vrfOf(object)];
    const { indices } = this.keys;
    row.verdict = NO_INDEX;
    if (!proof || proof.length > LONGEST_PROOF || indices === null) return;
    try {
      if (this.standing(row) === "chain") await this.accept(row, lookup, proof, /** @type {Uint8Array} */ (entryOf(object)));
      else if ((await indices.verify(nameBytes(lookup.name), proof)) === true) this.checkAt(row, lookup, await this.indexBy(lookup, proof), "verified");
    } catch (error) {
      const { why, status } = refusalOf(error);
      row.verdict = { fault: why, ...(status === null ? {} : { status }) };
    }
  }

  /** Has the client accept a lookup as a reply. @param {LookupRow} row @param {Lookup} lookup @param {Uint8Array} proof @param {Uint8Array} entry */
  async accept(row, lookup, proof, entry) {
    const reply = joined(Uint8Array.of(VERSION), entry, bigEndian(proof.length, 2), proof, proofBytes(lookup));
    const found = await /** @type {Chain} */ (this.client).lookup(nameBytes(lookup.name), reply, row.epoch);
    row.isAccepted = true;
    row.index = await this.indexBy(lookup, proof);
    row.indexIs = "verified";
    row.verdict = found.key === null ? { answer: "absent" } : { answer: "key", key: found.key };
  }

  /** @param {Lookup} lookup @param {Uint8Array} proof @returns {Promise<Uint8Array>} the index of a name whose VRF proof was verified */
  async indexBy(lookup, proof) {
    return this.keys.indices.index(nameBytes(lookup.name), proof);
  }

  /** Returns where a lookup's entry is, after all lines are read. @param {LookupRow} row @returns {Standing} */
  standing(row) {
    if (row.entry !== "own") return row.entry;
    return this.chain.has(row.link) ? "chain" : "missing";
  }

  /** @param {LookupRow} row @returns {State} */
  stateOf(row) {
    const standing = this.standing(row);
    if (!("answer" in row.verdict) || standing === "other" || standing === "unsigned") return "refused";
    if (standing !== "chain" || isOtherEpoch(row)) return "consistent";
    if (row.indexIs === "computed") return "forgeable";
    return row.isAccepted ? "authentic" : "consistent";
  }

  /** Returns the names of lookups with entries, in their order. @returns {string[]} */
  names() {
    return [...this.byName.keys()];
  }

  /** The lookups of a name that are not refused, in the order of their epochs. @param {string} name @returns {LookupRow[]} */
  accepted(name) {
    const rows = (this.byName.get(name) ?? []).filter((it) => this.stateOf(it) !== "refused");
    return rows.sort((a, b) => (/** @type {bigint} */ (a.epoch) < /** @type {bigint} */ (b.epoch) ? -1 : Number(a.epoch !== b.epoch)));
  }

  /**
   * Looks for two lookups of one name and epoch with different answers, name by name.
   * @returns {Generator<[LookupRow, LookupRow] | null>} null for each name that has none
   */
  *contradictions() {
    for (const name of this.byName.keys()) {
      const rows = this.accepted(name);
      const at = rows.findIndex((it, i) => i > 0 && it.epoch === rows[i - 1].epoch && !isSameAnswer(it.verdict, rows[i - 1].verdict));
      yield at < 0 ? null : [rows[at - 1], rows[at]];
    }
  }

  /**
   * What is seen of a name at each epoch of the chain. The first key that is shown is taken as right.
   * @param {string} name
   * @returns {Generator<{epoch: bigint, state: State} & Seen>}
   */
  *watched(name) {
    const rows = this.accepted(name).filter((it) => this.standing(it) === "chain");
    const epochs = [...new Set(this.chain.values())];
    let [at, expected, isFirst] = [0, /** @type {Uint8Array | null} */ (null), true];
    for (const row of rows) {
      const epoch = /** @type {bigint} */ (row.epoch);
      const from = at;
      while (epochs[at] < epoch) at++;
      if (at > from) yield { seen: "missing", state: "refused", epoch: epochs[from], last: epochs[at - 1] };
      const key = "key" in row.verdict ? row.verdict.key : null;
      yield { epoch, state: this.stateOf(row), ...seenOf(expected, key, isFirst) };
      expected ??= key;
      isFirst = false;
      if (epochs[at] === epoch) at++;
    }
    if (rows.length && at < epochs.length) yield { seen: "missing", state: "refused", epoch: epochs[at], last: epochs[epochs.length - 1] };
  }

  /** @param {Uint8Array} entry @returns {bigint | null} */
  epochOf(entry) {
    return this.coniks.body(entry)?.epoch ?? null;
  }
}

/** @type {Verdict} */
const UNJUDGED = { fault: "Unjudged" };
/** @type {Verdict} */
const NO_INDEX = { fault: "VrfProof" };
const SIGNATURE = 40;

/** In place of a key, if there is none: what it accepts is never shown as verified. */
const UNVERIFIED = { verify: () => true };

/** What the client says of what it refuses. @param {any} error @returns {{why: string, status: number | null}} */
function refusalOf(error) {
  if (error.name !== "Refusal") throw error;
  return { why: error.why, status: error.status };
}

/** @param {Uint8Array | null} expected @param {Uint8Array | null} key @param {boolean} isFirst @returns {Seen} */
function seenOf(expected, key, isFirst) {
  if (key === null) return expected === null ? { seen: "unregistered" } : { seen: "absent", from: expected };
  if (expected === null) return { seen: isFirst ? "first" : "registered", key };
  return isSame(key, expected) ? { seen: "same", key } : { seen: "changed", from: expected, key };
}

/** Whether two accepted lookups have the same answer. @param {Verdict} a @param {Verdict} b @returns {boolean} */
function isSameAnswer(a, b) {
  return "key" in a && "key" in b ? isSame(a.key, b.key) : "key" in a === "key" in b;
}

/** Returns whether a line has another epoch than its entry. @param {{epoch: bigint | null, stated: bigint | null}} row */
export function isOtherEpoch(row) {
  return row.epoch !== null && row.stated !== null && row.stated !== row.epoch;
}

/** @param {any} value @returns {string | null} */
function textOf(value) {
  return typeof value === "string" ? value : null;
}

/** @param {import("./coniks.js").Checked} checked @returns {Verdict} */
function verdictOf(checked) {
  if (checked.status === 0) return { answer: "key", key: /** @type {Uint8Array} */ (checked.key) };
  if (checked.status === 1) return { answer: "absent" };
  return { fault: FAULTS[checked.status] ?? "Bytes", status: checked.status };
}

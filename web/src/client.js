// A client that can't forget a step: signatures, the chain, VRF proofs, paths and the requested epoch (docs/FORMATS.md, "A client's chain").
// The library's proved core decides all of it (core.js), by the verdicts on signatures and VRF proofs (verdicts.js, chain.js).
//
// Calls may be under way at once. Each does what it waits for first, and then checks and keeps in one step without waiting. So it sees
// what other calls have kept until then. All that is given is copied at once, and all that is returned is a copy or frozen.

import { isSame } from "./bytes.js";
import { Chain, NO_TRUST, SEEN } from "./chain.js";
import { Coniks } from "./coniks.js";
import { NOWHERE } from "./core.js";
import { ENTRY, GOOD, MISUSED } from "./formats.js";
import { Refusal } from "./messages.js";
import { Policy } from "./policy.js";
import { goOn, ofSuccession } from "./succeeding.js";
import { Succession } from "./succession.js";
import { bytes, nameBytes, seconds, unsigned, whole } from "./values.js";
import { Verifier } from "./verdicts.js";

/**
 * @typedef {{readonly epoch: bigint, readonly link: Uint8Array}} Head
 * @typedef {"equal" | "unknown" | "differs"} Comparison
 * @typedef {import("./chain.js").Fed} Fed
 * @typedef {import("./chain.js").Found} Found
 * @typedef {import("./messages.js").Evidence} Evidence
 */

const LONGEST = 2n ** 64n - 1n;
// Numbers of coniks_core.h, and what its others are here.
const MISSING = 5;
/** @type {Comparison[]} */
const COMPARED = ["equal", "unknown", "differs"];
const REPORTED = ["changed", "missing", "lost", "unwatched", "unconfirmed", "good"];
// What a digest says in place of a document.
const NO_DOCUMENT = { epochStart: null, epochPeriod: null, proofsKept: null };

/** What a client has for its life, of what its caller gives. @param {any} policy @param {any} options @returns {import("./chain.js").Settings} */
function settingsOf(policy, { maxAge = null, skew = 300, clock = () => Date.now() / 1000, trust = null, ...others }) {
  const unknown = Object.keys(others);
  if (unknown.length > 0) throw new TypeError(`a client has no option ${unknown[0]}`);
  if (typeof clock !== "function") throw new TypeError("the clock is no function");
  const isPolicy = policy instanceof Policy;
  if (!isPolicy && policy?.length !== 32) throw new TypeError("a policy is a Policy, or its digest of 32 bytes: readPolicy reads a document");
  const { epochStart: start, epochPeriod: period, proofsKept } = isPolicy ? policy : NO_DOCUMENT;
  const twice = 2n * (period ?? 0n);
  const oldest = maxAge === null ? (twice > LONGEST ? LONGEST : twice) : whole(seconds(maxAge, "maxAge"));
  const limits = [start === null ? 0n : 1n, start ?? 0n, period ?? 0n, oldest, whole(seconds(skew, "skew"))];
  const promise = [proofsKept === null ? 0n : 1n, proofsKept ?? 0n];
  const digest = isPolicy ? policy.digest : bytes(policy, "the policy digest");
  return { clock, policy: digest, limits, promise, trust: trust === null ? NO_TRUST : trustOf(trust) };
}

/** @param {any} trust */
function trustOf({ digest, auditors, faulty }) {
  const [count, most] = [auditors, faulty].map((it) => unsigned(it, 32, "a number of auditors"));
  return { digest: bytes(digest, "the digest of a trust document", 32), auditors: count, faulty: most };
}

/**
 * Refuses keys that are not those of a policy document. An object in place of a key is its caller's choice.
 * @param {any} policy @param {any[]} keys
 */
function checkKeys(policy, keys) {
  if (!(policy instanceof Policy)) return;
  const isOther = (/** @type {Uint8Array | null} */ wanted, /** @type {any} */ given) =>
    given === null ? wanted !== null : given instanceof Uint8Array && (wanted === null || !isSame(given, wanted));
  if ([policy.signingKey, policy.vrfKey].some((it, i) => isOther(it, keys[i]))) throw new Refusal("PolicyKeys");
}

/** @param {any} head @returns {Head} */
function headOf(head) {
  return { epoch: unsigned(head?.epoch, 64, "the head's epoch"), link: bytes(head.link, "the head's link", 32) };
}

/** @param {any} heads @returns {Head[]} */
function headsOf(heads) {
  if (!(heads instanceof Map)) throw new TypeError("the heads are a Map, from the name of each auditor");
  return [...heads.values()].map(headOf);
}

/** A key that a caller expects, of no byte if it expects none. No accepted proof shows an empty one. @param {any} key @returns {Uint8Array} */
export function expectedKey(key) {
  if (key === null) return new Uint8Array(0);
  const given = bytes(key, "the expected key");
  if (given.length === 0) throw new RangeError("an expected key has at least one byte; null expects none");
  return given;
}

export class Client {
  #coniks;
  #chain;
  #core;
  #hasTrust;
  #policy;

  /** Call `of` or `vouched`. @param {Coniks} coniks @param {Chain} chain @param {boolean} hasTrust @param {any} policy */
  constructor(coniks, chain, hasTrust, policy) {
    [this.#coniks, this.#chain, this.#core, this.#hasTrust, this.#policy] = [coniks, chain, chain.core, hasTrust, policy];
  }

  /**
   * A client of one directory, or one that goes on from a state.
   * @param {Coniks} coniks @param {any} signingKey @param {any} vrfKey @param {any} policy @param {any} options
   * @returns {Promise<Client>}
   */
  static async of(coniks, signingKey, vrfKey, policy, { state = null, ...options } = {}) {
    const [settings, resumed] = [settingsOf(policy, options), state === null ? null : bytes(state, "the state")];
    const keys = [signingKey, vrfKey].map((it) => (it instanceof Uint8Array ? bytes(it, "a key") : it));
    const verifier = await Verifier.of(keys[0], keys[1]);
    checkKeys(policy, keys);
    const [chain, hasTrust] = [await Chain.of(coniks, settings, verifier), settings.trust !== NO_TRUST];
    if (hasTrust && chain.core.quorum === 0n) throw new RangeError("more than three auditors are needed for each one that may lie");
    if (resumed !== null) await chain.resume(resumed);
    return new Client(coniks, chain, hasTrust, policy);
  }

  /**
   * A client whose chain begins with an entry that at least so many auditors have.
   * @param {Coniks} coniks @param {any} signingKey @param {any} vrfKey @param {any} policy
   * @param {any} entry @param {any} heads @param {any} least @param {any} options
   * @returns {Promise<Client>}
   */
  static async vouched(coniks, signingKey, vrfKey, policy, entry, heads, least, options = {}) {
    const [first, given, count] = [bytes(entry, "an entry"), headsOf(heads), unsigned(least, 32, "how many auditors vouch")];
    if (options.state !== undefined) throw new TypeError("a client that auditors vouch for has no state");
    const client = await Client.of(coniks, signingKey, vrfKey, policy, options);
    await client.#chain.start(first, given, count);
    return client;
  }

  // The chain.

  /**
   * Accepts entries that continue the chain, and keeps those before the first one that does not.
   * @param {any} entries
   * @returns {Promise<Fed[]>}
   */
  async feed(entries) {
    const fed = [];
    for (const entry of this.#entriesOf(entries)) fed.push(await this.#chain.feed(entry));
    return fed;
  }

  /** @param {any} entries  a catch-up, or entries @returns {Uint8Array[]} */
  #entriesOf(entries) {
    if (entries instanceof Uint8Array) {
      const catchUp = bytes(entries, "a catch-up");
      const { status, count } = this.#core.catchUp(catchUp);
      this.#chain.check(status);
      return Array.from({ length: count }, (_, k) => catchUp.subarray(ENTRY * k, ENTRY * (k + 1)));
    }
    const isList = typeof entries === "object" && typeof entries?.[Symbol.iterator] === "function";
    if (!isList) throw new TypeError("entries are the Uint8Array of a catch-up, or a list");
    return Array.from(entries, (it) => bytes(it, "an entry"));
  }

  /** The places of the entries that are stored, from 0 on. */
  #places() {
    return Array.from({ length: this.#core.count }, (_, k) => k);
  }

  /** The entries that are stored, in the order of the chain. */
  get entries() {
    return this.#places().map((k) => this.#core.entry(k));
  }

  /** The head of the latest entry, null before the first. @returns {Head | null} */
  head() {
    const latest = this.#core.count - 1;
    if (latest < 0) return null;
    const link = /** @type {Uint8Array} */ (this.#coniks.linkBytes(this.#core.entry(latest)));
    return Object.freeze({ epoch: this.#core.epoch(latest), link });
  }

  /** Whether a head is one of the chain, as far as its entries are kept. @param {any} head @returns {Comparison} */
  compare(head) {
    return COMPARED[this.#core.compare(headOf(head)) - 1];
  }

  /**
   * Drops the entries before that of an auditor's head, if it is one of this chain. Epochs that are missing stay, with what follows them,
   * unless they are lost: of these an alarm stays. A client that names its auditors only compares: it calls `mark` and `drop`.
   * @param {any} head
   */
  cover(head) {
    const given = headOf(head);
    const found = this.compare(given);
    if (found === "equal" && !this.#hasTrust) this.#drop(given.epoch);
    return found;
  }

  /** Drops what a head at an epoch confirms, or a quorum of the auditors. @param {bigint | null} epoch @returns {number} how many epochs */
  #drop(epoch) {
    const { status, epochs } = this.#core.cover(this.#chain.second(), epoch);
    this.#chain.check(status);
    return epochs;
  }

  /** What convicts the provider together with another one's entry. @param {any} entry @returns {Promise<Evidence | null>} */
  async evidence(entry) {
    return this.#chain.evidence(bytes(entry, "an entry"));
  }

  // The auditors.

  /**
   * Compares a head that an auditor cosigned, and keeps its epoch as the auditor's mark if they are equal.
   * @param {any} auditor  its place in the trust document, from 0 on @param {any} head
   * @returns {Comparison}
   */
  mark(auditor, head) {
    const found = this.#core.mark(unsigned(auditor, 32, "the place of an auditor"), headOf(head));
    if (COMPARED[found - 1] === undefined) this.#chain.check(found);
    return COMPARED[found - 1];
  }

  /** The latest epoch that a quorum of the auditors confirms, null if there is none. @returns {bigint | null} */
  get confirmed() {
    const { status, epoch } = this.#core.confirmed();
    return status === GOOD ? epoch : null;
  }

  /** Whether a quorum of the auditors confirms the epoch of what was found. @param {any} found @returns {boolean} */
  isRelied(found) {
    const status = this.#core.relied(this.#place(unsigned(found?.epoch, 64, "the epoch of what was found")));
    if (status !== MISUSED.NotConfirmed) this.#chain.check(status);
    return status === GOOD;
  }

  /** The place of an epoch among those that are kept. @param {bigint} epoch @returns {bigint} */
  #place(epoch) {
    const place = this.#epochs().indexOf(epoch);
    return place < 0 ? NOWHERE : BigInt(place);
  }

  /** Drops the epochs before the confirmed one, and before the first missing one that is not lost. @returns {bigint[]} them */
  drop() {
    const epochs = this.#epochs();
    return epochs.slice(0, this.#drop(null));
  }

  #epochs() {
    return this.#places().map((k) => this.#core.epoch(k));
  }

  // The succession.

  /**
   * A client of the directory that a succession names, and the entries of this one that are void. `policy` is the next policy, and `entry`
   * the first one of its chain that counts. This client stays as it is.
   * @param {any} succession @param {any} policy @param {any} entry @param {any} options
   * @returns {Promise<{readonly client: Client, readonly void: Uint8Array[]}>}
   */
  async succeed(succession, policy, entry, options = {}) {
    const first = bytes(entry, "an entry");
    const isGiven = succession instanceof Succession && policy instanceof Policy;
    if (!isGiven) throw new TypeError("a succession is a Succession, and its next policy a Policy: readSuccession and readPolicy read them");
    if (options.state !== undefined) throw new TypeError("a client that goes on in another directory has no state");
    const client = await Client.of(this.#coniks, policy.signingKey, policy.vrfKey, policy, options);
    const key = this.#policy instanceof Policy ? this.#policy.successorKey : null;
    const place = await goOn(client.#chain, this.#chain, { succession, isSigned: await ofSuccession(succession, key) }, first);
    return Object.freeze({ client, void: this.entries.slice(place + 1) });
  }

  // Lookups.

  /**
   * What a reply shows of a name, at the epoch that was requested, or at the latest one.
   * @param {any} name @param {any} reply @param {any} epoch
   * @returns {Promise<Found>}
   */
  async lookup(name, reply, epoch = null) {
    return this.#chain.lookup(nameBytes(name), bytes(reply, "a reply"), epoch === null ? null : unsigned(epoch, 64, "the epoch"));
  }

  /**
   * What a history shows of a name, one for each of its epochs, or nothing of it.
   * @param {any} name @param {any} history
   * @returns {Promise<Found[]>}
   */
  async history(name, history) {
    return this.#chain.history(nameBytes(name), bytes(history, "a history"));
  }

  // The watched name.

  /**
   * Watches the client's own name: each epoch from `since` on, by default the latest, must show the key, or none for null.
   * @param {any} name @param {any} key @param {any} since
   */
  watch(name, key, since = null) {
    const [named, expected] = [nameBytes(name), expectedKey(key)];
    const status = this.#core.watch(named, expected, since === null ? null : unsigned(since, 64, "the first epoch"));
    this.#chain.check(status, { length: named.length });
  }

  /**
   * Expects the owner's own change of the key: later epochs may show the new key, and from epoch `by` on they must.
   * @param {any} key @param {any} by
   */
  expect(key, by) {
    const [expected, core] = [expectedKey(key), this.#core];
    const status = core.expect(expected, unsigned(by, 64, "the epoch"));
    this.#chain.check(status, { latest: core.count === 0 ? 0n : core.epoch(core.count - 1), last: core.lastChange });
  }

  /** The places of the missing epochs. */
  #missing() {
    return this.#places().filter((k) => this.#core.seen(k) === MISSING);
  }

  /** The epochs that must show the watched name, and of which no reply was accepted. */
  get missing() {
    return this.#missing().map((k) => this.#core.epoch(k));
  }

  /** The missing epochs of which the policy promises no proof any more. */
  get lost() {
    const now = this.#chain.second();
    const lost = this.#missing().filter((k) => this.#core.isLost(k, now));
    return lost.map((k) => this.#core.epoch(k));
  }

  /** The alarms of dropped epochs, until their owner takes note of them. */
  get alarms() {
    return this.#core.alarms.map(({ epoch, seen }) => Object.freeze({ epoch, seen: /** @type {string} */ (SEEN[seen]) }));
  }

  /** Drops the alarms up to an epoch, which the owner has seen. @param {any} epoch */
  note(epoch) {
    this.#chain.check(this.#core.note(unsigned(epoch, 64, "the epoch")));
  }

  /** What to report to the owner of the watched name. */
  report() {
    const { status, what, first, last } = this.#core.report(this.#chain.second());
    this.#chain.check(status);
    return Object.freeze({ what: REPORTED[what - 1], first, last });
  }

  // The state.

  /** All that the client keeps. */
  get state() {
    const { status, state } = this.#core.state();
    this.#chain.check(status);
    return state;
  }
}

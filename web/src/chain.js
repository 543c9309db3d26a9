// The calls of a client that pass a verdict. Each verifies first, and then calls the core in one step, so it sees what other calls have
// kept until then. Its arguments are the caller's copies.

import { Coniks } from "./coniks.js";
import { Core, NOWHERE } from "./core.js";
import { GOOD, KINDS, NO_EVIDENCE } from "./formats.js";
import { Refusal, misuse } from "./messages.js";
import { seconds, whole } from "./values.js";

/**
 * @typedef {{readonly epoch: bigint, readonly seen: string | null}} Fed
 * @typedef {Fed & {readonly key: Uint8Array | null, readonly age: number | null, readonly firstSeen: bigint}} Found
 * @typedef {import("./core.js").Settings & {clock: () => any}} Settings
 * @typedef {import("./messages.js").Evidence} Evidence
 * @typedef {import("./verdicts.js").Verifier} Verifier
 */

// Numbers of coniks.h and coniks_core.h.
const [MISUSE, SHOWS_KEY] = [128, 1];
/** What was seen at an epoch, by its number there. @type {(string | null)[]} */
export const SEEN = [null, "same", null, "changed", "absent", "missing"];
/** Of a client without a trust document. */
export const NO_TRUST = { digest: new Uint8Array(32), auditors: 0n, faulty: 0n };

export class Chain {
  #coniks;
  #verifier;
  #settings;

  /** Call `of`. @param {Coniks} coniks @param {Core} core @param {Settings} settings @param {Verifier} verifier */
  constructor(coniks, core, settings, verifier) {
    [this.#coniks, this.#settings, this.#verifier] = [coniks, settings, verifier];
    this.core = core;
  }

  /** A chain without an entry. @param {Coniks} coniks @param {Settings} settings @param {Verifier} verifier @returns {Promise<Chain>} */
  static async of(coniks, settings, verifier) {
    return new Chain(coniks, new Core(await coniks.another(), settings), settings, verifier);
  }

  /** A chain without an entry, of a policy that has no clock. @param {Coniks} coniks @param {Uint8Array} policy @param {Verifier} verifier */
  static ofDigest(coniks, policy, verifier) {
    return Chain.of(coniks, { policy, limits: Array(5).fill(0n), promise: [0n, 0n], trust: NO_TRUST, clock: () => 0 }, verifier);
  }

  // What a status says.

  /** Throws what a status of the core says, if it is an error. @param {number} status @param {Record<string, any>} more */
  check(status, more = {}) {
    if (status >= MISUSE) throw new RangeError(misuse(status, more));
    if (status !== GOOD) throw new Refusal(status, { text: this.#coniks.text(status), ...more });
  }

  /** Throws what a status says of an entry. @param {{status: number, why: import("./core.js").Why}} judged @param {Uint8Array} entry */
  #checkEntry({ status, why }, entry) {
    this.check(status, { status: why.status || null, evidence: this.#evidence(why, entry) });
  }

  /** What convicts the provider together with an entry, null if nothing does. @param {import("./core.js").Why} why @param {Uint8Array} entry @returns {Evidence | null} */
  #evidence({ kind, mine }, entry) {
    const named = KINDS.get(kind);
    return named === undefined ? null : evidenceOf(named, mine === NOWHERE ? entry : this.core.entry(Number(mine)), entry);
  }

  // Entries.

  /** Accepts an entry that continues the chain. @param {Uint8Array} entry @returns {Promise<Fed>} */
  async feed(entry) {
    const isSigned = await this.#verifier.ofEntry(entry);
    this.#checkEntry(this.core.feed(entry, isSigned, this.second()), entry);
    const latest = this.core.count - 1;
    return Object.freeze({ epoch: this.core.epoch(latest), seen: SEEN[this.core.seen(latest)] });
  }

  /** Accepts the first entry. @param {Uint8Array} entry @param {import("./core.js").Head[]} heads @param {bigint} least */
  async start(entry, heads, least) {
    const isSigned = await this.#verifier.ofEntry(entry);
    this.#checkEntry(this.core.start(heads, least, entry, isSigned, this.second()), entry);
  }

  /** Whether an entry has a valid signature. @param {Uint8Array} entry @returns {Promise<boolean>} */
  isSigned(entry) {
    return this.#verifier.ofEntry(entry);
  }

  /** What an entry convicts the provider of by itself, null if a chain can have it. @param {Uint8Array} entry @returns {Evidence | null} */
  alone(entry) {
    const { status, kind } = this.#coniks.convicts(entry, entry);
    return status === GOOD ? evidenceOf(/** @type {string} */ (KINDS.get(kind)), entry, entry) : null;
  }

  /** What convicts the provider together with another one's entry. @param {Uint8Array} entry @returns {Promise<Evidence | null>} */
  async evidence(entry) {
    const isSigned = await this.#verifier.ofEntry(entry);
    const { status, why } = this.core.evidence(entry, isSigned);
    if (status !== NO_EVIDENCE) {
      this.check(status);
      return this.#evidence(why, entry);
    }
    return this.alone(entry);
  }

  /** Reads a state. @param {Uint8Array} state */
  async resume(state) {
    const { status, run, entries } = this.core.stateNeeds(state);
    this.check(status);
    const verdicts = await this.#verifier.ofState(entries);
    this.check(this.core.read(run, verdicts));
  }

  // Names.

  /** @param {Uint8Array} name @param {Uint8Array} reply @param {bigint | null} epoch @returns {Promise<Found>} */
  async lookup(name, reply, epoch) {
    const { status, entry, vrf } = this.core.replyNeeds(reply);
    this.check(status);
    const index = await this.#verifier.ofProof(name, vrf);
    // An entry that is stored now is so in the next step: only a wait lets another call drop it.
    const isSigned = this.core.replyNeeds(reply).needsSignature ? await this.#verifier.ofEntry(entry) : false;
    const now = this.#now();
    const judged = this.core.lookup({ name, reply, epoch }, { isSigned, index }, whole(now));
    this.#checkEntry(judged, entry);
    return this.#found(judged.found, now);
  }

  /** @param {Uint8Array} name @param {Uint8Array} history @returns {Promise<Found[]>} */
  async history(name, history) {
    const needs = this.core.historyNeeds(history);
    this.check(needs.status);
    const index = await this.#verifier.ofProof(name, needs.vrf);
    const now = this.#now();
    const { status, found } = this.core.history(name, history, index);
    this.check(status);
    return found.map((it) => this.#found(it, now));
  }

  /** @param {import("./core.js").Shown} shown @param {number | bigint} now @returns {Found} */
  #found({ place, shows, seen, key }, now) {
    const epoch = this.core.epoch(place);
    const found = { epoch, key: shows === SHOWS_KEY ? key : null, seen: SEEN[seen], age: this.#age(epoch, now) };
    return Object.freeze({ ...found, firstSeen: this.core.firstSeen(place) });
  }

  // The clock.

  #now() {
    return seconds(this.#settings.clock(), "the time of the clock");
  }

  /** The time in whole seconds. */
  second() {
    return whole(this.#now());
  }

  /**
   * How many seconds ago an epoch began by the policy's clock, null without one.
   * @param {bigint} epoch @param {number | bigint} now
   * @returns {number | null}
   */
  #age(epoch, now) {
    const [hasClock, start, period] = this.#settings.limits;
    if (hasClock === 0n) return null;
    const passed = Number(whole(now) - (start + (epoch - 1n) * period));
    return typeof now === "number" ? passed + (now % 1) : passed;
  }
}

/** @param {string} kind @param {Uint8Array} mine @param {Uint8Array} other @returns {Evidence} */
function evidenceOf(kind, mine, other) {
  return Object.freeze({ mine: mine.slice(), other: other.slice(), kind });
}

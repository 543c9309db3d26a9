// Follows a service (examples/service): takes its entries, compares its chain with the heads of auditors, and looks names up.
//
// A call verifies, stores what it has verified, and only then returns it. If another tab has stored something meanwhile, the call is
// made again over that.

import { fromHex, isSame, joined, toHex } from "./bytes.js";
import { Client } from "./client.js";
import { agreed } from "./confirming.js";
import { ENTRY } from "./formats.js";
import { epochBefore, epochOf, policyOf } from "./layout.js";
import { Refusal } from "./messages.js";
import { canonical } from "./names.js";
import { readPolicy } from "./policy.js";
import { partsOf } from "./replies.js";
import { Unsupported, indicesOf } from "./schemes.js";
import { sha256 } from "./sha256.js";
import { trustOf } from "./trust.js";
import { nameBytes } from "./values.js";
import { isSigned, judged, readRecord } from "./vouching.js";

/**
 * Something that the user must see: entries or replies that convict the directory, or the note of an auditor that signed another
 * chain. `who` is the name or the auditor, and empty for entries.
 * @typedef {{kind: string, who: string, parts: string[]}} Alarm
 *
 * What is kept: the policy document, the auditors' verifier keys and how many of these may lie, which the user gave; the client's state
 * in hexadecimal digits; when the first visit was, in Unix seconds; what the user must see; and of each name the reply, in hexadecimal
 * digits, that showed the record which was accepted last.
 * @typedef {{policy: string, auditors: string[], faulty: number, state: string, begun: number, found: Alarm[], seen: [string, string][]}} Saved
 *
 * What is made of what is kept.
 * @typedef {{saved: Saved, policy: import("./policy.js").Policy, trust: import("./trust.js").Trust, client: Client}} Made
 *
 * The same beside the bytes that are stored. A call adds to it.
 * @typedef {Made & {sealed: Uint8Array}} Open
 *
 * What is reported of a name: whether its key is in a record of its owner; what that is to the one that was accepted last, null if
 * there is none; whether a quorum confirms the epoch; and whether something is there that the user must see. The key is verified if all of
 * this is good; or it is an unvouched change; or a reset; or it is what the directory shows.
 * @typedef {{isRecord: boolean, change: import("./vouching.js").Change | null, isConfirmed: boolean, isAlarmed: boolean}} Findings
 * @typedef {Findings & {verdict: "verified" | "unvouched" | "reset" | "shown"}} Judgement
 *
 * @typedef {import("./confirming.js").Agreement} Agreement
 * @typedef {{status: number, body: Uint8Array}} Answer
 * @typedef {import("./lines.js").Lookup} Lookup
 */

const [PAGE, REPLY, NOTE] = [1000 * ENTRY, 32_768, 65_536];
/** How often a reply is asked for while epochs pass, or a call is made again while other tabs store something. */
const TRIES = 5;

const utf8 = new TextEncoder();

/** The service, the browser or what is kept can't be used now. */
export class Unusable extends Error {}

/** @param {Saved} saved @returns {Uint8Array} */
function sealedOf(saved) {
  const text = utf8.encode(JSON.stringify(saved));
  return joined(sha256(text), text);
}

/** @param {Uint8Array} sealed @returns {Saved} */
function savedIn(sealed) {
  const text = sealed.slice(32);
  if (!isSame(sha256(text), sealed.slice(0, 32))) throw new RangeError("its digest is another one");
  return JSON.parse(new TextDecoder().decode(text));
}

/** @param {Saved} saved @returns {Uint8Array} */
function stateIn(saved) {
  const state = fromHex(saved.state);
  if (state === null) throw new RangeError("the client's state is not hexadecimal digits");
  return state;
}

/** The epoch and the key of a reply that was accepted, which shows a key. @param {string} reply */
function shownBy(reply) {
  const { entry, end } = partsOf(/** @type {Uint8Array} */ (fromHex(reply)));
  return { epoch: epochOf(entry), key: "key" in end ? end.key : new Uint8Array(0) };
}

/**
 * The epochs of two replies, the earlier one in hexadecimal digits; null if they are under different policies.
 * @param {string} before @param {Uint8Array} now @returns {import("./vouching.js").Span | null}
 */
function spanOf(before, now) {
  const [old, { entry }] = [partsOf(/** @type {Uint8Array} */ (fromHex(before))).entry, partsOf(now)];
  return isSame(policyOf(old), policyOf(entry)) ? { earlier: epochOf(old), before: epochBefore(entry), later: epochOf(entry) } : null;
}

/** @param {Uint8Array | null} key @param {Findings} findings @returns {Judgement["verdict"]} */
export function verdictOf(key, { isRecord, change, isConfirmed, isAlarmed }) {
  if (change === "unvouched" || change === "reset") return change;
  return isConfirmed && !isAlarmed && (isRecord || key === null) ? "verified" : "shown";
}

export class Follower {
  #coniks;
  #store;
  #ask;
  #clock;
  /** @type {Open | null} */
  #open = null;
  /**
   * The call that is under way: calls of one tab are made one after another.
   * @type {Promise<any>}
   */
  #last = Promise.resolve();

  /**
   * @param {import("./coniks.js").Coniks} coniks @param {import("./keeping.js").Store} store
   * @param {(target: string, most: number) => Promise<Answer>} ask  what the service replies, in at most `most` bytes
   * @param {() => number} clock
   */
  constructor(coniks, store, ask, clock = () => Date.now() / 1000) {
    [this.#coniks, this.#store, this.#ask, this.#clock] = [coniks, store, ask, clock];
  }

  /**
   * Begins with the directory of a policy document. Neither that nor the auditors' keys may come from the service.
   * @param {string} policy @param {string[]} auditors @param {number} faulty  how many of the auditors may lie
   */
  async begin(policy, auditors, faulty) {
    const saved = { policy, auditors, faulty, state: "", begun: Math.floor(this.#clock()), found: [], seen: [] };
    const { client } = await this.#made(saved, null);
    saved.state = toHex(client.state);
    if (!(await this.#store.replace(null, sealedOf(saved)))) throw new Unusable("this browser follows a directory already: reload the page");
  }

  /** Forgets the directory, and all that was seen of it. */
  async forget() {
    if (!(await this.#store.replace(await this.#store.read(), null))) throw new Unusable("another tab has stored something: try again");
  }

  /** Changes how many of the auditors may lie. @param {number} faulty @returns {Promise<void>} */
  trust(faulty) {
    return this.#stored(async (it) => {
      const { state } = it.client;
      Object.assign(it, await this.#made({ ...it.saved, state: toHex(state), faulty }, state));
    });
  }

  /**
   * What is kept, null before the first visit: the origin, when that was, the entries, the auditors and how many of these may lie, and
   * what the user must see.
   */
  async view() {
    const it = await this.#opened();
    if (it === null) return null;
    const { begun, found, auditors, faulty } = it.saved;
    return { origin: it.policy.origin, begun, found, entries: it.client.entries, count: auditors.length, faulty };
  }

  /** Takes all entries that the service has, and asks up to which epoch the auditors confirm them. */
  follow() {
    return this.#stored(async (it) => {
      const agreement = await this.#agreed(it);
      return { agreement, isAlarmed: it.saved.found.length > 0 };
    });
  }

  /**
   * What the latest epoch that a quorum of the auditors confirms shows of a name, with its path; or the latest epoch, if they confirm
   * none.
   * @param {string} text
   */
  lookup(text) {
    const name = canonical(text);
    return this.#stored(async (it) => {
      const agreement = await this.#agreed(it);
      const before = new Map(it.saved.seen).get(name);
      const seen = before === undefined ? null : shownBy(before);
      // An epoch that was confirmed once stays so, also while the auditors are late.
      const epoch = agreement.epoch !== null && seen !== null && seen.epoch > agreement.epoch ? seen.epoch : agreement.epoch;
      const { found, answer } = await this.#found(it.client, name, epoch);
      const judgement = await this.#judged(it, name, found, answer.body, agreement);
      return { ...found, name, before: seen && seen.key, path: await this.#path(it, name, answer.body), agreement, ...judgement };
    });
  }

  /** The path of a reply that was accepted. @param {Open} it @param {string} name @param {Uint8Array} bytes @returns {Promise<Lookup>} */
  async #path(it, name, bytes) {
    const { entry, vrf, siblings, end } = partsOf(bytes);
    const { nonce, root } = /** @type {import("./coniks.js").Fields} */ (this.#coniks.fields(entry));
    const index = /** @type {Uint8Array} */ (await indicesOf(it.policy.vrfKey)(nameBytes(name), vrf));
    return { index, name, nonce, root, siblings, end };
  }

  /**
   * Judges what a reply shows, and keeps it: as the record that is accepted, or as what convicts the directory.
   * @param {Open} it @param {string} name @param {import("./chain.js").Found} found @param {Uint8Array} reply @param {Agreement} agreement
   * @returns {Promise<Judgement>}
   */
  async #judged(it, name, found, reply, agreement) {
    const { key } = found;
    const place = { policies: [it.policy.digest], name, hasClock: it.policy.epochPeriod !== null };
    const [seen, record] = [new Map(it.saved.seen), readRecord(key)];
    const before = seen.get(name);
    const change = before === undefined ? null : await judged(place, shownBy(before).key, key, spanOf(before, reply));
    if (before !== undefined && change === "unvouched" && it.policy.recordsVouched) this.#alarm(it, { kind: "unvouched", who: name, parts: [before, toHex(reply)] });
    const isRecord = record !== null && (await isSigned(record, place));
    const isAlarmed = it.saved.found.length > 0;
    const isConfirmed = agreement.verdict === "confirmed" && it.client.isRelied(found);
    const findings = { isRecord, change, isConfirmed, isAlarmed };
    const verdict = verdictOf(key, findings);
    if (verdict === "verified" && isRecord) it.saved = { ...it.saved, seen: [...seen.set(name, toHex(reply))] };
    return { ...findings, verdict };
  }

  /** Keeps what the user must see: the first of each kind, and for each name and auditor. @param {Open} it @param {Alarm} alarm */
  #alarm(it, alarm) {
    const isKnown = it.saved.found.some(({ kind, who }) => kind === alarm.kind && who === alarm.who);
    if (!isKnown) it.saved = { ...it.saved, found: [...it.saved.found, alarm] };
  }

  /** Takes all entries that the service has, and asks up to which epoch the auditors confirm them. @param {Open} it @returns {Promise<Agreement>} */
  async #agreed(it) {
    await this.#follow(it.client);
    const service = { note: (/** @type {string} */ query) => this.#note(query), follow: () => this.#follow(it.client) };
    const agreement = await agreed(it, service, BigInt(Math.floor(this.#clock())));
    for (const { name, says, note } of agreement.opinions) if (says === "differs") this.#alarm(it, { kind: "head", who: name, parts: [note] });
    return agreement;
  }

  /**
   * Makes a call after those before it, stores what it leaves, also if it throws, and then returns what it returned.
   * @template T
   * @param {(it: Open) => Promise<T>} call
   * @returns {Promise<T>}
   */
  #stored(call) {
    const mine = this.#last.then(() => this.#storedNow(call));
    this.#last = mine.catch(() => null);
    return mine;
  }

  /**
   * @template T
   * @param {(it: Open) => Promise<T>} call
   * @returns {Promise<T>}
   */
  async #storedNow(call) {
    for (let i = 0; i < TRIES; i++) {
      const opened = await this.#opened();
      if (opened === null) throw new Unusable("this browser follows no directory: it was never told of one, or what it stored was cleared");
      const it = { ...opened };
      const outcome = await call(it).then((value) => ({ value, error: null }), (error) => ({ value: null, error }));
      if (await this.#keep(it, outcome.error)) {
        if (outcome.error !== null) throw outcome.error;
        return /** @type {T} */ (outcome.value);
      }
    }
    throw new Unusable("other tabs store something all the time: close them, and try again");
  }

  /** @returns {Promise<Open | null>} */
  async #opened() {
    const sealed = await this.#store.read();
    if (sealed === null) return null;
    if (this.#open === null || !isSame(this.#open.sealed, sealed)) this.#open = await this.#resumed(sealed);
    return this.#open;
  }

  /** @param {Uint8Array} sealed @returns {Promise<Open>} */
  async #resumed(sealed) {
    try {
      const saved = savedIn(sealed);
      return { ...(await this.#made(saved, stateIn(saved))), sealed };
    } catch (error) {
      if (error instanceof Unsupported) throw error;
      if (error instanceof Refusal && error.why === "StateVersion") {
        throw new Unusable("what this browser has stored is of another version of this page: reload the page, or forget it and begin again");
      }
      throw new Unusable(`what this browser has stored was changed (${/** @type {Error} */ (error).message}): forget it, and begin again`);
    }
  }

  /** What is made of what is kept: the client begins without a state. @param {Saved} saved @param {Uint8Array | null} state @returns {Promise<Made>} */
  async #made(saved, state) {
    const policy = readPolicy(utf8.encode(saved.policy));
    const trust = await trustOf(this.#coniks, policy.digest, saved.auditors, saved.faulty);
    const options = { state, clock: this.#clock, trust: trust.ofClient };
    return { saved, policy, trust, client: await Client.of(this.#coniks, policy.signingKey, policy.vrfKey, policy, options) };
  }

  /**
   * Stores a client, and what a call has kept.
   * @param {Open} it @param {any} error
   * @returns {Promise<boolean>}
   */
  async #keep(it, error) {
    const { evidence = null } = error instanceof Refusal ? error : {};
    if (evidence !== null) this.#alarm(it, { kind: evidence.kind, who: "", parts: [toHex(evidence.mine), toHex(evidence.other)] });
    const saved = { ...it.saved, state: toHex(it.client.state) };
    const sealed = sealedOf(saved);
    // Until it is stored, no other call goes on with this client.
    this.#open = null;
    const isStored = await this.#store.replace(it.sealed, sealed);
    if (isStored) this.#open = { ...it, sealed, saved };
    return isStored;
  }

  // The service.

  /** @param {string} target @param {number} most @returns {Promise<Answer>} */
  async #got(target, most) {
    const answer = await this.#ask(target, most);
    if (answer.status !== 200) throw new Unusable(`the service refuses ${target.split("?")[0]} with status ${answer.status}`);
    return answer;
  }

  /**
   * Takes the entries that the service has. They are asked for from the latest one on, so that another one in its place is noticed.
   * @param {Client} client
   */
  async #follow(client) {
    const latest = client.entries.at(-1);
    const start = latest === undefined ? 0n : epochBefore(latest);
    let after = start;
    for (;;) {
      const { body } = await this.#got(`/v1/entries?after=${after}`, PAGE);
      if (body.length === 0) break;
      const isKnown = latest !== undefined && isSame(body.subarray(0, ENTRY), latest);
      await client.feed(isKnown ? body.subarray(ENTRY) : body);
      const epoch = client.head()?.epoch ?? 0n;
      if (epoch <= after) throw new Unusable("the entries of the service do not rise");
      after = epoch;
    }
    if (latest !== undefined && after === start) throw new Unusable("the service shows an older chain than before: it is late, or hides epochs");
  }

  /** A note of the service, empty if it has none. @param {string} query @returns {Promise<Uint8Array>} */
  async #note(query) {
    const answer = await this.#ask(`/v1/note${query}`, NOTE);
    return answer.status === 200 ? answer.body : new Uint8Array(0);
  }

  /**
   * What an epoch shows, by default the latest one. An epoch that begins meanwhile is taken first.
   * @param {Client} client @param {string} name @param {bigint | null} epoch
   */
  async #found(client, name, epoch) {
    const target = `/v1/lookup?name=${encodeURIComponent(name)}${epoch === null ? "" : `&epoch=${epoch}`}`;
    for (let i = 1; ; i++) {
      const answer = await this.#got(target, REPLY);
      try {
        return { answer, found: await client.lookup(name, answer.body, epoch) };
      } catch (error) {
        if (!(error instanceof Refusal) || error.evidence !== null || i === TRIES) throw error;
      }
      await this.#follow(client);
    }
  }
}

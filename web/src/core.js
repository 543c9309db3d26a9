// The binding of include/coniks_core.h, the core of a client. That header says what each struct and each call is, and the core decides
// what a client accepts. Nothing is decided here.
//
// A client has the library with a memory of its own. At the front of it are the client's struct and what that points at, which the calls
// write. A struct is words of 8 bytes, with the least significant byte first: a word has a number, a length or a place, or one or two short
// numbers of 4 bytes.

import { Rows } from "./desk.js";
import { ENTRY, GOOD } from "./formats.js";

/**
 * What a client has for its life: its policy digest, the members of `coniks_clock`, those of `coniks_promise`, and of its trust
 * document the digest, the number of auditors and how many of them may be faulty.
 * @typedef {{policy: Uint8Array, limits: bigint[], promise: bigint[], trust: {digest: Uint8Array, auditors: bigint, faulty: bigint}}} Settings
 *
 * @typedef {{status: number, kind: number, mine: bigint}} Why
 * @typedef {{place: number, shows: number, seen: number, key: Uint8Array}} Shown
 *
 * Whether an entry is signed, which is not asked of one that is kept; and the index of a name, null if the VRF proof is not one of it.
 * @typedef {{isSigned: boolean, index: Uint8Array | null}} Verdicts
 * @typedef {{epoch: bigint, link: Uint8Array}} Head
 */

/** The bytes of `coniks_core` and of `coniks_stored_entry`. */
export const CORE = 264;
export const STORED_ENTRY = 218;
const [CHANGE, ALARM, VERDICTS, HEAD, SIBLINGS, STEP, LONG] = [32, 16, 40, 48, 8192, 32, 8];
/** Where the members of `coniks_core` are. The clock, the promise and the quorum follow one another, and so do the marks and their number. */
export const AT = { policy: 0n, trust: 32n, clock: 64n, quorum: 120n, watch: 128n, stored: 176n, changes: 200n, alarms: 224n, marks: 248n };
/** A place that is none: SIZE_MAX. */
export const NOWHERE = 2n ** 64n - 1n;

/** @param {number} count @returns {bigint[]} */
export const zeros = (count) => Array(count).fill(0n);
/** The short numbers of a word. @param {bigint} word @returns {[number, number]} */
const halves = (word) => [Number(word & 0xffffffffn), Number(word >> 32n)];
/** @param {Uint8Array} bytes @param {number} at @returns {bigint} */
const longIn = (bytes, at) => new DataView(bytes.buffer, bytes.byteOffset).getBigUint64(at);

/** @param {Verdicts} verdicts @returns {Uint8Array} */
function verdictBytes({ isSigned, index }) {
  const made = new Uint8Array(VERDICTS);
  [made[0], made[4]] = [Number(isSigned), Number(index !== null)];
  made.set(index ?? [], 8);
  return made;
}

/** @param {Head[]} heads @returns {Uint8Array} */
function headBytes(heads) {
  const made = new Uint8Array(HEAD * heads.length);
  heads.forEach(({ epoch, link }, k) => {
    made[HEAD * k] = 1;
    new DataView(made.buffer).setBigUint64(HEAD * k + 8, epoch, true);
    made.set(link, HEAD * k + 16);
  });
  return made;
}

export class Core {
  #calls;
  #desk;
  #core;
  #chain;
  #changes;
  #alarms;

  /** @param {import("./coniks.js").Coniks} coniks  with a memory of its own @param {Settings} settings */
  constructor({ calls, desk }, settings) {
    const { digest, auditors, faulty } = settings.trust;
    const [core, marks] = [desk.keep(CORE), desk.keep(LONG * Number(auditors))];
    [this.#calls, this.#desk, this.#core] = [calls, desk, core];
    /** How many auditors are a quorum, 0n if there can be none. @type {bigint} */
    this.quorum = calls.coniks_core_quorum(auditors, faulty);
    desk.write(core + AT.policy, settings.policy);
    desk.write(core + AT.trust, digest);
    desk.writeWords(core + AT.clock, [...settings.limits, ...settings.promise, this.quorum]);
    desk.writeWords(core + AT.marks, [marks, auditors]);
    this.#chain = new Rows(desk, STORED_ENTRY, core + AT.stored);
    this.#changes = new Rows(desk, CHANGE, core + AT.changes);
    this.#alarms = new Rows(desk, ALARM, core + AT.alarms);
  }

  /** The memory of this client, for `succeeding.js`. */
  get parts() {
    return { desk: this.#desk, core: this.#core, chain: this.#chain, changes: this.#changes };
  }

  /** @param {bigint} old @param {bigint} ending @param {bigint} received @param {bigint} place @returns {number} */
  succeed(old, ending, received, place) {
    return this.#calls.coniks_core_succeed(old, ending, received, this.#core, place);
  }

  // What calls take.

  /** The desk, which is free. */
  #free() {
    this.#desk.clear();
    return this.#desk;
  }

  /** Bytes with their number. @param {Uint8Array} bytes @returns {[bigint, bigint]} */
  #run(bytes) {
    return [this.#desk.put(bytes), BigInt(bytes.length)];
  }

  /** An entry that was received. @param {Uint8Array} entry @param {boolean} isSigned @param {bigint} time @returns {bigint} */
  #received(entry, isSigned, time) {
    return this.#free().putWords([...this.#run(entry), BigInt(isSigned), time]);
  }

  /**
   * Makes a call with other marks and another quorum, and takes all else that it writes.
   * @param {bigint[]} marks @param {bigint} quorum @param {(core: bigint) => number} call
   * @returns {number}
   */
  #under(marks, quorum, call) {
    const desk = this.#desk;
    const core = desk.put(desk.take(this.#core, CORE));
    desk.writeWords(core + AT.quorum, [quorum]);
    desk.writeWords(core + AT.marks, [desk.putWords(marks), BigInt(marks.length)]);
    const status = call(core);
    desk.write(this.#core + AT.watch, desk.take(core + AT.watch, Number(AT.marks - AT.watch)));
    return status;
  }

  /** @param {number} status @param {bigint} why @returns {{status: number, why: Why}} */
  #judged(status, why) {
    const [both, mine] = this.#desk.words(why, 2);
    const [ofEntry, kind] = halves(both);
    return { status, why: { status: ofEntry, kind, mine } };
  }

  // What is kept.

  get count() {
    return this.#chain.length;
  }

  /** @param {number} place */
  entry(place) {
    return this.#chain.at(place).slice(0, ENTRY);
  }

  /** @param {number} place @returns {bigint} */
  epoch(place) {
    return longIn(this.#chain.at(place), 1);
  }

  /** When an entry was accepted, in Unix seconds. @param {number} place @returns {bigint} */
  firstSeen(place) {
    return longIn(this.#chain.at(place), ENTRY);
  }

  /** @param {number} place */
  seen(place) {
    return this.#chain.at(place)[STORED_ENTRY - 1];
  }

  /** Where the last change of the watched key begins, 0n if there is none. @returns {bigint} */
  get lastChange() {
    const { length } = this.#changes;
    return length === 0 ? 0n : this.#desk.words(this.#changes.place, 4 * length)[4 * length - 3];
  }

  /** The epochs of the alarms, and what was seen at each. @returns {{epoch: bigint, seen: number}[]} */
  get alarms() {
    const words = this.#desk.words(this.#alarms.place, 2 * this.#alarms.length);
    return Array.from({ length: this.#alarms.length }, (_, k) => ({ epoch: words[2 * k], seen: Number(words[2 * k + 1] & 255n) }));
  }

  // The chain.

  /** @param {Uint8Array} entry @param {boolean} isSigned @param {bigint} time */
  feed(entry, isSigned, time) {
    this.#chain.reserve(1);
    const [received, why] = [this.#received(entry, isSigned, time), this.#desk.putWords(zeros(2))];
    return this.#judged(this.#calls.coniks_core_feed(this.#core, received, why), why);
  }

  /** @param {Head[]} heads @param {bigint} least @param {Uint8Array} entry @param {boolean} isSigned @param {bigint} time */
  start(heads, least, entry, isSigned, time) {
    this.#chain.reserve(1);
    const [received, desk] = [this.#received(entry, isSigned, time), this.#desk];
    const [rows, why] = [desk.put(headBytes(heads)), desk.putWords(zeros(2))];
    const status = this.#under([], least, (core) => this.#calls.coniks_core_start(core, rows, BigInt(heads.length), received, why));
    return this.#judged(status, why);
  }

  /** @param {Head} head @returns {number} */
  compare({ epoch, link }) {
    const desk = this.#free();
    return this.#calls.coniks_core_compare(this.#core, epoch, desk.put(link), desk.putWords(zeros(1)));
  }

  /** @param {Uint8Array} entry @param {boolean} isSigned */
  evidence(entry, isSigned) {
    const [received, why] = [this.#received(entry, isSigned, 0n), this.#desk.putWords(zeros(2))];
    return this.#judged(this.#calls.coniks_core_evidence(this.#core, received, why), why);
  }

  /** The number of entries of a catch-up. @param {Uint8Array} catchUp @returns {{status: number, count: number}} */
  catchUp(catchUp) {
    const desk = this.#free();
    const count = desk.putWords(zeros(1));
    const status = this.#calls.coniks_core_catch_up(...this.#run(catchUp), count);
    return { status, count: desk.number(count) };
  }

  // The auditors.

  /** @param {bigint} auditor @param {Head} head @returns {number} */
  mark(auditor, { epoch, link }) {
    return this.#calls.coniks_core_mark(this.#core, auditor, epoch, this.#free().put(link));
  }

  /** @returns {{status: number, epoch: bigint}} */
  confirmed() {
    const desk = this.#free();
    const epoch = desk.putWords(zeros(1));
    const status = this.#calls.coniks_core_confirmed(this.#core, epoch);
    return { status, epoch: desk.words(epoch, 1)[0] };
  }

  /** @param {bigint} place @returns {number} */
  relied(place) {
    return this.#calls.coniks_core_relied(this.#core, place);
  }

  /** Drops what a quorum of the auditors confirms, or a head at `epoch`. @param {bigint} time @param {bigint | null} epoch */
  cover(time, epoch) {
    this.#alarms.reserve(this.#chain.length);
    const covered = this.#free().putWords(zeros(5));
    const call = (/** @type {bigint} */ core) => this.#calls.coniks_core_cover(core, time, covered);
    const status = epoch === null ? call(this.#core) : this.#under([epoch], 1n, call);
    return { status, epochs: this.#desk.number(covered) };
  }

  // Lookups.

  /** The parts of a reply whose verdicts a lookup takes, and whether it takes that of the entry. @param {Uint8Array} reply */
  replyNeeds(reply) {
    const desk = this.#free();
    const needs = desk.putWords(zeros(4));
    const status = this.#calls.coniks_core_reply_needs(this.#core, ...this.#run(reply), needs);
    const [[signature], [, entry, vrf, length]] = [halves(desk.words(needs, 1)[0]), desk.words(needs, 4).map(Number)];
    const parts = { entry: reply.subarray(entry, entry + ENTRY), vrf: reply.subarray(vrf, vrf + length) };
    return { status, needsSignature: signature === 1, ...parts };
  }

  /** @param {{name: Uint8Array, reply: Uint8Array, epoch: bigint | null}} asked @param {Verdicts} verdicts @param {bigint} time */
  lookup({ name, reply, epoch }, verdicts, time) {
    const desk = this.#free();
    const asking = desk.putWords([...this.#run(name), ...this.#run(reply), epoch === null ? 0n : 1n, epoch ?? 0n, time]);
    const [verified, found, why] = [desk.put(verdictBytes(verdicts)), desk.putWords(zeros(4)), desk.putWords(zeros(2))];
    const judged = this.#judged(this.#calls.coniks_core_lookup(this.#core, asking, verified, found, why), why);
    const [place, both, start, length] = desk.words(found, 4);
    const [[shows, seen], key] = [halves(both), reply.slice(Number(start), Number(start + length))];
    return { ...judged, found: { place: Number(place), shows, seen, key } };
  }

  /** The part of a history whose verdict it takes. @param {Uint8Array} history */
  historyNeeds(history) {
    const desk = this.#free();
    const needs = desk.putWords(zeros(2));
    const status = this.#calls.coniks_core_history_needs(...this.#run(history), needs);
    const [vrf, length] = desk.words(needs, 2).map(Number);
    return { status, vrf: history.subarray(vrf, vrf + length) };
  }

  /** @param {Uint8Array} name @param {Uint8Array} history @param {Uint8Array | null} index @returns {{status: number, found: Shown[]}} */
  history(name, history, index) {
    const [desk, room] = [this.#free(), this.#chain.length + 1];
    const asking = desk.putWords([...this.#run(name), ...this.#run(history)]);
    const [siblings, items] = [BigInt(desk.room(SIBLINGS)), BigInt(desk.room(STEP * room))];
    const [verdicts, steps] = [desk.put(verdictBytes({ isSigned: false, index })), desk.putWords([items, BigInt(room), 0n])];
    const status = this.#calls.coniks_core_history(this.#core, asking, verdicts, siblings, steps);
    return { status, found: this.#steps(items, Number(desk.words(steps, 3)[2])) };
  }

  /** What steps show. A key that a history sends once is one array. @param {bigint} steps @param {number} count @returns {Shown[]} */
  #steps(steps, count) {
    const keys = new Map();
    return Array.from({ length: count }, (_, k) => {
      const [place, key, length, both] = this.#desk.words(steps + BigInt(STEP * k), 4);
      if (!keys.has(key)) keys.set(key, this.#desk.take(key, Number(length)));
      const [shows, seen] = halves(both);
      return { place: Number(place), shows, seen, key: keys.get(key) };
    });
  }

  // The watched name.

  /** @param {Uint8Array} name @param {Uint8Array} key @param {bigint | null} since @returns {number} */
  watch(name, key, since) {
    const [{ base }, [isWatched]] = [this.#desk, halves(this.#desk.words(this.#core + AT.watch, 1)[0])];
    const [named, expected] = [this.#stored(name), this.#stored(key)];
    const wanted = this.#free().putWords([1n, ...named, since ?? 0n, ...expected]);
    const status = this.#calls.coniks_core_watch(this.#core, wanted, Number(since !== null));
    if (status !== GOOD || isWatched === 1) this.#desk.base = base;
    return status;
  }

  /** @param {Uint8Array} key @param {bigint} by @returns {number} */
  expect(key, by) {
    this.#changes.reserve(1);
    const { base } = this.#desk;
    const status = this.#calls.coniks_core_expect(this.#core, ...this.#stored(key), by);
    if (status !== GOOD) this.#desk.base = base;
    return status;
  }

  /**
   * Bytes that stay, with their number.
   * @param {Uint8Array} bytes
   * @returns {[bigint, bigint]}
   */
  #stored(bytes) {
    return [this.#desk.store(bytes), BigInt(bytes.length)];
  }

  /** Whether the epoch at a place is missing and lost. @param {number} place @param {bigint} time @returns {boolean} */
  isLost(place, time) {
    return this.#calls.coniks_core_lost(this.#core, time, BigInt(place)) === 1;
  }

  /** @param {bigint} epoch @returns {number} */
  note(epoch) {
    return this.#calls.coniks_core_note(this.#core, epoch);
  }

  /** @param {bigint} time @returns {{status: number, what: number, first: bigint, last: bigint}} */
  report(time) {
    const desk = this.#free();
    const report = desk.putWords(zeros(3));
    const status = this.#calls.coniks_core_report(this.#core, time, report);
    const [what, first, last] = desk.words(report, 3);
    return { status, what: halves(what)[0], first, last };
  }

  // The state.

  /** @returns {{status: number, state: Uint8Array}} */
  state() {
    const desk = this.#free();
    const size = desk.putWords(zeros(1));
    const status = this.#calls.coniks_core_state_size(this.#core, size);
    if (status !== GOOD) return { status, state: new Uint8Array(0) };
    const length = desk.number(size);
    const state = BigInt(desk.room(length));
    return { status: this.#calls.coniks_core_state_write(this.#core, state, BigInt(length), size), state: desk.take(state, length) };
  }

  /**
   * Takes the bytes of a state, which stay, and makes room for what it has. Returns its entries, whose verdicts `read` takes.
   * @param {Uint8Array} state
   * @returns {{status: number, run: [bigint, bigint], entries: Uint8Array[]}}
   */
  stateNeeds(state) {
    const run = this.#stored(state);
    const desk = this.#free();
    const needs = desk.putWords(zeros(5));
    const status = this.#calls.coniks_core_state_needs(this.#core, ...run, needs);
    const [chain, changes, alarms, start, step] = desk.words(needs, 5).map(Number);
    this.#chain.reserve(chain);
    this.#changes.reserve(changes);
    this.#alarms.reserve(alarms);
    return { status, run, entries: Array.from({ length: chain }, (_, k) => state.subarray(start + step * k, start + step * k + ENTRY)) };
  }

  /** Reads a state, whose marks are 0 if it is of other auditors. @param {[bigint, bigint]} run @param {boolean[]} verdicts @returns {number} */
  read(run, verdicts) {
    const signed = this.#free().put(new Uint8Array(Uint32Array.from(verdicts, Number).buffer));
    return this.#calls.coniks_core_state_read(this.#core, ...run, signed, BigInt(verdicts.length));
  }
}

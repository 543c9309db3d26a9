// Keys that their owners vouch for (docs/FORMATS.md): a name's bytes can be a record that has the owner's key, alone or after a notice.

import { bigEndian, isSame, joined } from "./bytes.js";
import { keyPoint } from "./ecvrf.js";
import { signaturesOf } from "./schemes.js";
import { sha256 } from "./sha256.js";
import { nameBytes } from "./values.js";

/** Where the parts of a record begin, which has the tag, its number, the voucher, the digest of what was before, its notice, its effect, the signature and the key. */
const [TAG, NUMBER, VOUCHER, BEFORE, NOTICE, EFFECT, SIGNATURE, FRONT] = ["vouched1", 8, 16, 48, 80, 88, 96, 160];
/** Where the effect of a notice begins, after its tag and its voucher, and the record after it; and how long a record can be. */
const [ASKED_TAG, ASKED, AFTER, LONGEST] = ["notice-1", 40, 48, 16_336];

/**
 * Where a record counts: the policy digests of the line of successions that ends with the directory, the name, and whether epochs have
 * times.
 * @typedef {{policies: Uint8Array[], name: string, hasClock: boolean}} Place
 *
 * A notice of a reset: the key that is to verify the next record, and the epoch from which on that counts.
 * @typedef {{voucher: Uint8Array, effect: bigint}} Notice
 *
 * `whole` has the record's bytes, and `asked` the notice before it, null if there is none.
 * @typedef {{number: bigint, voucher: Uint8Array, before: Uint8Array, notice: bigint, effect: bigint, signature: Uint8Array, key: Uint8Array, whole: Uint8Array, asked: Notice | null}} Record
 *
 * The epochs of two replies: the earlier one, the epoch before in the entry of the later one, and the later one.
 * @typedef {{earlier: bigint, before: bigint, later: bigint}} Span
 *
 * What a name's later bytes are to earlier ones: equal, or with another notice; a record that the owner signed; one after a reset; one to
 * which no steps of an honest service lead, or none; or nobody can say, since the earlier bytes are no record.
 * @typedef {"same" | "vouched" | "reset" | "unvouched" | "unknown"} Change
 */

/** A step that there never is. */
const NEVER = 2n ** 72n;

/** @param {Uint8Array} bytes @param {string} tag @returns {boolean} */
const hasTag = (bytes, tag) => new TextDecoder().decode(bytes.subarray(0, tag.length)) === tag;

/** @param {Uint8Array} bytes @param {number} at @returns {bigint} */
const long = (bytes, at) => new DataView(bytes.buffer, bytes.byteOffset).getBigUint64(at);

/** @param {...bigint} numbers @returns {bigint} */
const least = (...numbers) => numbers.reduce((a, b) => (a < b ? a : b));

/**
 * The record of a name's bytes, of which nothing is verified; null if they are none.
 * @param {Uint8Array | null} value
 * @returns {Record | null}
 */
export function readRecord(value) {
  if (value === null || !hasTag(value, ASKED_TAG)) return value && plainRecord(value, null);
  if (value.length < AFTER || keyPoint(value.slice(TAG.length, ASKED)) === null) return null;
  return plainRecord(value.slice(AFTER), { voucher: value.slice(TAG.length, ASKED), effect: long(value, ASKED) });
}

/** @param {Uint8Array} whole @param {Notice | null} asked @returns {Record | null} */
function plainRecord(whole, asked) {
  if (whole.length < FRONT || whole.length > LONGEST || !hasTag(whole, TAG)) return null;
  const voucher = whole.slice(VOUCHER, BEFORE);
  if (keyPoint(voucher) === null) return null;
  const [before, signature, key] = [whole.slice(BEFORE, NOTICE), whole.slice(SIGNATURE, FRONT), whole.slice(FRONT)];
  return { number: long(whole, NUMBER), voucher, before, notice: long(whole, NOTICE), effect: long(whole, EFFECT), signature, key, whole, asked };
}

/** Whether a record is signed by its voucher for a place. @param {Record} record @param {Place} place @returns {Promise<boolean>} */
export async function isSigned({ voucher, signature, whole }, { policies, name }) {
  const bytes = nameBytes(name);
  const verify = await signaturesOf(voucher);
  const unsigned = joined(whole.subarray(0, SIGNATURE), whole.subarray(FRONT));
  const verified = await Promise.all(policies.map((it) => verify(joined(it, bigEndian(bytes.length, 1), bytes, unsigned), signature)));
  return verified.includes(true);
}

/** The bytes of a name with a notice. @param {Notice} notice @param {Record} record @returns {Uint8Array} */
function noticed({ voucher, effect }, { whole }) {
  const number = new Uint8Array(8);
  new DataView(number.buffer).setBigUint64(0, effect);
  return joined(new TextEncoder().encode(ASKED_TAG), voucher, number, whole);
}

/**
 * What a name's later bytes are to earlier ones, null if it has none: no directory removes a name. Without a span, as of replies under
 * different policies, no condition on epochs counts.
 * @param {Place} place @param {Uint8Array} before @param {Uint8Array | null} now @param {Span | null} span
 * @returns {Promise<Change>}
 */
export async function judged(place, before, now, span) {
  if (now !== null && isSame(now, before)) return "same";
  const [old, next] = [readRecord(before), readRecord(now)];
  if (old === null && now !== null) return "unknown";
  if (old === null || next === null) return "unvouched";
  const isSameRecord = isSame(old.whole, next.whole);
  if (!isSameRecord && (next.number <= old.number || !(await isSigned(next, place)))) return "unvouched";
  const between = new Between(old, next, new Steps(place, span));
  if (isSameRecord) return between.isShown(0n) ? "same" : "unvouched";
  const { change, step } = between.record();
  return between.isShown(step) ? change : "unvouched";
}

/** The epochs at which something may change. Without a span each step is there, and each effect is late enough. */
class Steps {
  #span;
  #count;

  /** @param {Place} place @param {Span | null} span */
  constructor({ hasClock }, span) {
    this.hasClock = hasClock || span === null;
    this.#span = span;
    this.#count = span === null ? NEVER : (span.before > span.earlier ? span.before - span.earlier : 0n) + 1n;
  }

  /** @param {bigint} step @returns {boolean} */
  has(step) {
    return step < NEVER && step <= this.#count;
  }

  /** The first epoch at which so many steps may be done. @param {bigint} step @returns {bigint} */
  epochOf(step) {
    if (this.#span === null) return 0n;
    return step >= this.#count ? this.#span.later : this.#span.earlier + step;
  }

  /** The first step at an epoch or later, one too many if there is none. @param {bigint} epoch @returns {bigint} */
  at(epoch) {
    if (this.#span === null) return 1n;
    if (epoch > this.#span.later) return this.#count + 1n;
    const steps = epoch - this.#span.earlier;
    return least(steps < 1n ? 1n : steps, this.#count);
  }

  /** Whether a notice can be shown at a step: its effect is as many epochs later at the least. @param {bigint} effect @param {bigint} step @param {bigint} epochs */
  isAfter(effect, step, epochs) {
    return this.hasClock && this.has(step) && (this.#span === null || effect >= this.epochOf(step) + epochs);
  }
}

/** What leads from the record of an earlier epoch to that of a later one, by the rule in docs/FORMATS.md. */
class Between {
  #old;
  #next;
  #steps;

  /** @param {Record} old @param {Record} next @param {Steps} steps */
  constructor(old, next, steps) {
    this.#old = old;
    this.#next = next;
    this.#steps = steps;
  }

  /** Whether the later bytes can be shown, if their record can at a step. @param {bigint} step @returns {boolean} */
  isShown(step) {
    const { asked, notice } = this.#next;
    if (asked === null) return this.#steps.has(step);
    return this.#canReset(this.#next, asked.voucher) && this.#steps.isAfter(asked.effect, step + 1n, notice);
  }

  /**
   * What the later record is, another one than the earlier, and the first step that can show it.
   * @returns {{change: Change, step: bigint}}
   */
  record() {
    const [old, next] = [this.#old, this.#next];
    const [distance, isOwners] = [next.number - old.number, isSame(next.voucher, old.voucher)];
    if (next.effect > 0n) return { change: "reset", step: distance === 1n ? this.#announced() : this.#announcedLater(distance) };
    if (!isOwners) return { change: "reset", step: this.#takenOver(distance) };
    if (old.key.length === 0 && next.key.length > 0) return { change: "reset", step: this.#opened(distance) };
    return { change: "vouched", step: distance > 1n || isSame(next.before, sha256(old.whole)) ? distance : NEVER };
  }

  /** The step of a record that resets the earlier one. @returns {bigint} */
  #announced() {
    const [old, { voucher, effect, before }] = [this.#old, this.#next];
    if (!this.#canReset(old, voucher) || !isSame(before, sha256(noticed({ voucher, effect }, old)))) return NEVER;
    const isThere = old.asked !== null && old.asked.effect === effect && isSame(old.asked.voucher, voucher);
    return isThere || this.#steps.isAfter(effect, 1n, old.notice) ? this.#steps.at(effect) : NEVER;
  }

  /** The step of a record that resets one after the earlier one. @param {bigint} distance @returns {bigint} */
  #announcedLater(distance) {
    const { voucher, effect } = this.#next;
    const back = least(this.#firstReset(null) + distance - 1n, distance > 2n ? distance + 1n : NEVER);
    const step = isSame(voucher, this.#old.voucher) ? back : distance;
    return this.#steps.isAfter(effect, step, 1n) ? this.#steps.at(effect) : NEVER;
  }

  /** The step of a next record whose voucher a reset has made another one. @param {bigint} distance @returns {bigint} */
  #takenOver(distance) {
    if (distance < 2n || !this.#steps.hasClock) return NEVER;
    return least(this.#firstReset(this.#next.voucher) + distance - 1n, distance > 2n ? distance + 1n : NEVER);
  }

  /** The step of a next record of the same voucher after a closed one: two resets are between them. @param {bigint} distance @returns {bigint} */
  #opened(distance) {
    if (distance < 3n || !this.#steps.hasClock) return NEVER;
    return least(this.#firstReset(null) + distance, distance > 3n ? distance + 2n : NEVER);
  }

  /**
   * The step of a reset of the earlier record, by a new notice or by one that is there, for this voucher if one is given.
   * @param {Uint8Array | null} voucher @returns {bigint}
   */
  #firstReset(voucher) {
    const { notice, asked } = this.#old;
    if (notice === 0n || !this.#steps.hasClock) return NEVER;
    const effects = [this.#steps.epochOf(1n) + notice];
    if (asked !== null && this.#canReset(this.#old, asked.voucher) && (voucher === null || isSame(voucher, asked.voucher))) effects.push(asked.effect);
    return this.#steps.at(least(...effects));
  }

  /** Whether a notice for a voucher may be over a record. @param {Record} record @param {Uint8Array} voucher @returns {boolean} */
  #canReset(record, voucher) {
    return record.notice > 0n && this.#steps.hasClock && !isSame(voucher, record.voucher);
  }
}

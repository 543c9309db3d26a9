// Evidence that a provider equivocated: two entries with valid signatures of its key that one chain can't have.

import { Coniks } from "./coniks.js";
import { GOOD } from "./formats.js";
import { epochBefore, epochOf } from "./layout.js";

/**
 * A signed entry: the epoch before it, its own, and its bytes.
 * @typedef {{before: bigint, epoch: bigint, entry: Uint8Array}} Interval
 *
 * The kinds of coniks.h: 1 for different bodies whose intervals overlap, 2 for different policy digests, 3 for an entry that no
 * chain has.
 * @typedef {{kind: number, a: Interval, b: Interval}} Evidence
 */

/** @param {Uint8Array} entry @returns {Interval} */
function intervalOf(entry) {
  return { epoch: epochOf(entry), before: epochBefore(entry), entry };
}

/** @param {Interval} a @param {Interval} b @returns {number} */
function inOrder(a, b) {
  if (a.before !== b.before) return a.before < b.before ? -1 : 1;
  return a.epoch < b.epoch ? -1 : Number(a.epoch > b.epoch);
}

export class SignedEntries {
  /** @param {Coniks} coniks */
  constructor(coniks) {
    this.coniks = coniks;
    /** The entries with valid signatures, by their links. @type {Map<string, Interval>} */
    this.entries = new Map();
  }

  /** @param {string} link @param {Uint8Array} entry */
  add(link, entry) {
    if (!this.entries.has(link)) this.entries.set(link, intervalOf(entry));
  }

  /**
   * Looks for evidence, entry by entry in the order of their intervals. An entry that overlaps an earlier one overlaps the one that
   * ends last, so each is compared with that one, with the first and with itself.
   * @returns {Generator<Evidence | null>} null for each entry that is none with those before it
   */
  *evidence() {
    const sorted = [...this.entries.values()].sort(inOrder);
    let last = sorted[0];
    for (const it of sorted) {
      yield this.convicts(last, it) ?? this.convicts(sorted[0], it) ?? this.convicts(it, it);
      if (it.epoch > last.epoch) last = it;
    }
  }

  /** @param {Interval} a @param {Interval} b @returns {Evidence | null} */
  convicts(a, b) {
    const { status, kind } = this.coniks.convicts(a.entry, b.entry);
    return status === GOOD ? { kind, a, b } : null;
  }
}

/** What the evidence shows. @param {Evidence} evidence @returns {string} */
export function evidenceWords({ kind, a, b }) {
  if (kind === 3) return `no chain has ${a === b ? `the entry of epoch ${a.epoch}` : `one of the entries of epochs ${a.epoch} and ${b.epoch}`}`;
  if (kind === 2) return `the entries of epochs ${a.epoch} and ${b.epoch} have different policies`;
  const both = a.epoch === b.epoch ? `both entries are of epoch ${a.epoch}` : `the entries of epochs ${a.epoch} and ${b.epoch} both cover epoch ${b.before + 1n}`;
  return `${both}, and their contents differ`;
}

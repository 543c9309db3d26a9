// Why a client refuses what it is given (docs/FORMATS.md, "Replies to clients"), and what its caller must not do.

import { CAUSES, MAX_NAME, MISUSED } from "./formats.js";

/**
 * Two signed entries that convict the owner of the signing key: `mine` is one that the client kept, or `other` itself.
 * @typedef {{readonly mine: Uint8Array, readonly other: Uint8Array, readonly kind: string}} Evidence
 */

/** What the caller of a client must not do, by the numbers of coniks_core.h. @type {Record<number, (it: Record<string, any>) => string>} */
const MISUSES = {
  [MISUSED.Name]: ({ length }) => `a name has 1 to ${MAX_NAME} bytes, not ${length}`,
  [MISUSED.ExpectedKey]: () => "an expected key has fewer than 2^32 bytes",
  [MISUSED.OtherWatch]: () => "this client watches another name or key: use `expect`, or make another client",
  [MISUSED.NotWatching]: () => "no name is watched: call `watch` first",
  [MISUSED.ChangeOpen]: ({ last }) => `another change is expected by epoch ${last}: expect the next one after it`,
  [MISUSED.SameKey]: () => "the new key is the one that is expected already",
  [MISUSED.NotLater]: ({ latest }) => `epoch ${latest} is in the chain: expect the new key by a later one`,
  [MISUSED.NoAuditor]: () => "the trust document has no such auditor",
  [MISUSED.NoQuorum]: () => "at least one auditor vouches for an entry",
  [MISUSED.ManyHeads]: () => "at most 64 auditors vouch for an entry",
  [MISUSED.NoState]: () => "a state has room for fewer than 2^32 epochs, changes, alarms and marks",
};

/** The text of a misuse. @param {number} status @param {Record<string, any>} values @returns {string} */
export function misuse(status, values) {
  return MISUSES[status](values);
}

/** The names by their numbers. */
const NAMES = new Map(Object.entries(CAUSES).map(([name, [number]]) => [number, name]));

/**
 * A client refuses what it was given, and keeps nothing of it. `why` is the name in docs/FORMATS.md, `number` its number. (`cause` of
 * an Error is another error.) `status` is C's status where there is one, and `evidence` what convicts the provider, if something does.
 */
export class Refusal extends Error {
  /** @param {string | number} cause  its name or number @param {{status?: number | null, evidence?: Evidence | null, text?: string}} more */
  constructor(cause, { status = null, evidence = null, text = undefined } = {}) {
    const why = typeof cause === "number" ? NAMES.get(cause) : cause;
    const [number, own] = CAUSES[why];
    super(own ?? text);
    this.name = "Refusal";
    this.why = why;
    this.number = number;
    this.status = number < CAUSES.NoReply[0] ? number : status;
    this.evidence = evidence;
  }
}

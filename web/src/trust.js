// The auditors of a user, and the trust document that says them (docs/FORMATS.md, "The trust document").

import { toHex } from "./bytes.js";
import { BadNote, readAuditor } from "./notes.js";
import { sha256 } from "./sha256.js";

/**
 * The auditors in the order of the trust document, how many of them are a quorum, and what a client needs of that document, null without
 * auditors.
 * @typedef {{auditors: import("./notes.js").Auditor[], least: number, ofClient: {digest: Uint8Array, auditors: number, faulty: number} | null}} Trust
 */

/**
 * The auditors of verifier keys, of whom `faulty` may lie.
 * @param {import("./coniks.js").Coniks} coniks @param {Uint8Array} policy  its digest @param {string[]} keys @param {number} faulty
 * @returns {Promise<Trust>}
 */
export async function trustOf(coniks, policy, keys, faulty) {
  const sorted = [...keys].sort();
  const auditors = await Promise.all(sorted.map(readAuditor));
  for (const names of [auditors.map((it) => it.name), sorted.map((it) => it.replace(/^[^+]*[+][^+]*/, ""))]) {
    if (new Set(names).size < names.length) throw new BadNote("an auditor is listed twice");
  }
  if (auditors.length === 0) return { auditors, least: 0, ofClient: null };
  if (auditors.length === 1) throw new BadNote("one auditor can't be compared with another one: name at least two, or none");
  const least = coniks.quorum(auditors.length, faulty);
  if (least === 0) throw new RangeError("more than three auditors are needed for each one that may lie");
  const lines = ["trust coniks-1", `policy ${toHex(policy)}`, ...sorted.map((it) => `auditor ${it}`), `faulty ${faulty}`, ""];
  return { auditors, least, ofClient: { digest: sha256(new TextEncoder().encode(lines.join("\n"))), auditors: auditors.length, faulty } };
}

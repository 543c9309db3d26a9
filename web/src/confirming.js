// Up to which epoch a quorum of a user's auditors confirms the chain.

import { epochOf } from "./layout.js";
import { BadNote, SKEW, headOf, readNote, timesOf } from "./notes.js";

/** For how many seconds a head counts at least. */
const RECENT = 600n;

/**
 * What an auditor says of the chain by a note: it agrees up to an epoch; it has another link there, or an epoch that the service does
 * not show; it cosigned nothing lately, or for a later time than now; or the note is none of its own. Of an auditor with another link
 * `note` is the text that it cosigned, with its lines.
 * @typedef {{name: string, says: "differs" | "agrees" | "ahead" | "later" | "late" | "nothing", epoch: bigint | null, note: string}} Opinion
 *
 * Whether a quorum agrees now, and confirms an epoch: the latest one, else null; how many auditors are a quorum; and what each says.
 * @typedef {{verdict: "unnamed" | "unconfirmed" | "confirmed", epoch: bigint | null, least: number, opinions: Opinion[]}} Agreement
 *
 * @typedef {{policy: import("./policy.js").Policy, client: import("./client.js").Client, trust: import("./trust.js").Trust}} Followed
 *
 * What the service has: a note by the query of `/v1/note`, and new entries, which the client is fed.
 * @typedef {{note: (query: string) => Promise<Uint8Array>, follow: () => Promise<void>}} Service
 */

/** What counts of two opinions of one auditor: another link outweighs all else. @type {Opinion["says"][]} */
const WEIGHTS = ["nothing", "late", "later", "ahead", "agrees", "differs"];

/** @param {Opinion} a @param {Opinion} b @returns {Opinion} the one that counts */
function weightier(a, b) {
  const more = WEIGHTS.indexOf(a.says) - WEIGHTS.indexOf(b.says);
  return more > 0 || (more === 0 && (a.epoch ?? 0n) >= (b.epoch ?? 0n)) ? a : b;
}

/** @param {string} name @returns {Opinion} */
function nothing(name) {
  return { name, says: "nothing", epoch: null, note: "" };
}

/** @param {Opinion} opinion */
const agrees = ({ says }) => says === "agrees";

/** @param {Followed} it @param {Opinion[]} opinions @returns {Agreement} */
function agreementOf({ client, trust: { least } }, opinions) {
  const epoch = least > 0 && opinions.filter(agrees).length >= least ? client.confirmed : null;
  const verdict = least === 0 ? "unnamed" : epoch === null ? "unconfirmed" : "confirmed";
  return { verdict, epoch, least, opinions };
}

/**
 * Asks for the heads of the auditors: for the note that the service carries, or else for the latest one of each auditor.
 * @param {Followed} it @param {Service} service @param {bigint} now
 * @returns {Promise<Agreement>}
 */
export async function agreed(it, service, now) {
  const { auditors, least } = it.trust;
  if (auditors.length === 0) return agreementOf(it, []);
  const carried = await opinionsIn(it, service, now, await service.note(""));
  const latest = it.client.entries.slice(-2).map(epochOf);
  // A service that forks can carry an old note.
  const isRecent = carried.filter((it) => agrees(it) && latest.includes(/** @type {bigint} */ (it.epoch))).length >= least;
  if (isRecent) return agreementOf(it, carried);
  const own = [];
  for (const [i, { name }] of auditors.entries()) {
    const document = await service.note(`?auditor=${encodeURIComponent(name)}`);
    own.push(weightier((await opinionsIn(it, service, now, document))[i], carried[i]));
  }
  return agreementOf(it, own);
}

/**
 * What each auditor says by a note. A head that is later than the chain is followed first. The client marks those that agree.
 * @param {Followed} it @param {Service} service @param {bigint} now @param {Uint8Array} document
 * @returns {Promise<Opinion[]>}
 */
async function opinionsIn({ policy, client, trust: { auditors } }, service, now, document) {
  try {
    const note = readNote(document);
    const head = headOf(note, policy);
    const times = await Promise.all(auditors.map((it) => timesOf(note, it)));
    if (times.some((it) => it.length > 0) && client.compare(head) === "unknown") await service.follow();
    const compared = client.compare(head);
    return auditors.map(({ name }, i) => {
      const says = saysOf(policy, compared, head.epoch, times[i], now);
      if (says === "nothing") return nothing(name);
      if (says === "agrees") client.mark(i, head);
      const lines = note.lines.filter((it) => it.split(" ")[1] === name);
      return { name, says, epoch: head.epoch, note: says === "differs" ? [note.text, ...lines].join("\n") : "" };
    });
  } catch (error) {
    if (!(error instanceof BadNote)) throw error;
    return auditors.map(({ name }) => nothing(name));
  }
}

/**
 * What an auditor says that cosigned a head at these times. Its epoch must have ended lately too: an auditor that is shown no later
 * epochs confirms none.
 * @param {import("./policy.js").Policy} policy @param {string} compared @param {bigint} epoch @param {bigint[]} times @param {bigint} now
 * @returns {Opinion["says"]}
 */
function saysOf({ epochStart, epochPeriod }, compared, epoch, times, now) {
  if (times.length === 0) return "nothing";
  if (compared === "differs") return "differs";
  const until = times.filter((it) => it <= now + SKEW);
  if (until.length === 0) return "later";
  if (compared !== "equal") return "ahead";
  const lasting = 3n * (epochPeriod ?? 0n);
  const since = now - (lasting > RECENT ? lasting : RECENT);
  const isOld = epochStart !== null && epochPeriod !== null && epochStart + epoch * epochPeriod < since;
  return isOld || until.every((it) => it < since) ? "late" : "agrees";
}

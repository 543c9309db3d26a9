// Heads as signed notes, which auditors cosign (docs/FORMATS.md, "Heads of auditors").

import { fromBase64, isSame, joined, toHex } from "./bytes.js";
import { Refusal } from "./messages.js";
import { signaturesOf } from "./schemes.js";
import { sha256 } from "./sha256.js";

/**
 * An auditor's name, the bytes that name its key, and what verifies its signatures.
 * @typedef {{name: string, id: Uint8Array, isSigned: import("./schemes.js").IsSigned}} Auditor
 *
 * A head as a text, and the lines of its signatures.
 * @typedef {{text: string, lines: string[]}} Note
 */

/** The most seconds by which an auditor's clock may be ahead. */
export const SKEW = 300n;
/** The type of tlog-cosignature. */
const COSIGNATURE = 4;
const AUDITOR = /^([!-*,-~]{1,255})\+([0-9a-f]{8})\+([A-Za-z0-9+/=]+)$/;
const LINE = /^\u2014 ([^ +]+) ([A-Za-z0-9+/]+={0,2})$/u;
const TEXT = /^([!-~]+)\n([1-9][0-9]{0,19})\n([A-Za-z0-9+/]{43}=)\n$/;

/** Bytes that are no note of this directory, or a key that is none. */
export class BadNote extends Error {}

const utf8 = new TextEncoder();

/**
 * The auditor of a verifier key, NAME+ID+KEY.
 * @param {string} text
 * @returns {Promise<Auditor>}
 */
export async function readAuditor(text) {
  const [, name, id, encoded] = AUDITOR.exec(text) ?? ["", "", "", ""];
  const data = fromBase64(encoded) ?? new Uint8Array(0);
  const named = sha256(joined(utf8.encode(`${name}\n`), data)).slice(0, 4);
  if (data.length !== 33 || data[0] !== COSIGNATURE || toHex(named) !== id) {
    throw new BadNote("this is no verifier key of an auditor: take the line that coniks-audit prints");
  }
  try {
    return { name, id: named, isSigned: await signaturesOf(data.slice(1)) };
  } catch (error) {
    throw error instanceof Refusal ? new BadNote("an auditor's key is a point of prime order") : error;
  }
}

/**
 * A note's text and lines, of which nothing is verified.
 * @param {Uint8Array} document
 * @returns {Note}
 */
export function readNote(document) {
  let whole = "";
  try {
    whole = new TextDecoder("utf-8", { fatal: true, ignoreBOM: true }).decode(document);
  } catch {
    throw new BadNote("a note is UTF-8");
  }
  const at = whole.lastIndexOf("\n\n");
  const lines = whole.slice(at + 2).split("\n");
  if (at < 1 || lines.pop() !== "" || lines.length === 0 || !lines.every((it) => LINE.test(it))) {
    throw new BadNote("a note is a text, an empty line and the lines of signatures");
  }
  return { text: whole.slice(0, at + 1), lines };
}

/**
 * The head of a note.
 * @param {Note} note @param {import("./policy.js").Policy} policy
 * @returns {import("./client.js").Head}
 */
export function headOf({ text }, policy) {
  const origin = `${policy.origin}/${toHex(sha256(joined(policy.signingKey, policy.digest)))}`;
  const [, named, epoch, encoded] = TEXT.exec(text) ?? ["", "", "0", ""];
  const link = fromBase64(encoded);
  if (named !== origin || link === null || BigInt(epoch) >= 2n ** 64n) throw new BadNote("the note is no head of this directory");
  return { epoch: BigInt(epoch), link };
}

/**
 * When an auditor cosigned a note, in Unix seconds: once for each of its lines.
 * @param {Note} note @param {Auditor} auditor
 * @returns {Promise<bigint[]>}
 */
export async function timesOf({ text, lines }, { name, id, isSigned }) {
  const times = [];
  for (const line of lines) {
    const [, named, encoded] = LINE.exec(line) ?? ["", "", ""];
    const data = named === name ? fromBase64(encoded) : null;
    if (data === null || data.length !== 76 || !isSame(data.slice(0, 4), id)) continue;
    const time = new DataView(data.buffer).getBigUint64(4);
    if (await isSigned(utf8.encode(`cosignature/v1\ntime ${time}\n${text}`), data.slice(12))) times.push(time);
  }
  return times;
}

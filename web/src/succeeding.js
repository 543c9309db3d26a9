// How a client goes on in the directory that a succession names. The core decides what is accepted (include/coniks_core.h).

import { Chain } from "./chain.js";
import { AT, CORE, Core, STORED_ENTRY, zeros } from "./core.js";
import { keyPoint } from "./ecvrf.js";
import { CAUSES } from "./formats.js";
import { signaturesOf } from "./schemes.js";
import { Succession } from "./succession.js";

const SUCCESSION = 152;

/**
 * Whether the successor key of a policy signed a succession, if there is one.
 * @param {import("./succession.js").Succession} succession @param {Uint8Array | null} key
 * @returns {Promise<boolean>}
 */
export async function ofSuccession({ lines, signature }, key) {
  if (key === null || keyPoint(key) === null) return false;
  const isSigned = await signaturesOf(key);
  return isSigned(lines, signature);
}

/** @param {Succession} succession @param {boolean} isSigned @returns {Uint8Array} */
function successionBytes({ policy, last, nextPolicy, first }, isSigned) {
  const made = new Uint8Array(SUCCESSION);
  const view = new DataView(made.buffer);
  made[0] = Number(isSigned);
  made.set(policy, 4);
  view.setBigUint64(40, last.epoch, true);
  made.set(last.link, 48);
  made.set(nextPolicy, 80);
  view.setBigUint64(112, first.epoch, true);
  made.set(first.link, 120);
  return made;
}

/**
 * Goes on after another chain, which ended, with the first entry that counts. Returns the place of the last epoch there.
 * @param {Chain} chain @param {Chain} ended @param {{succession: Succession, isSigned: boolean}} ending @param {Uint8Array} entry
 * @returns {Promise<number>}
 */
export async function goOn(chain, ended, ending, entry) {
  const isSigned = await chain.isSigned(entry);
  const { status, place } = succeeded(chain.core, ended.core, ending, { entry, isSigned, time: chain.second() });
  const isConvicting = [CAUSES.OtherPolicy, CAUSES.Malformed].some(([number]) => number === status);
  chain.check(status, { evidence: isConvicting ? chain.alone(entry) : null });
  return place;
}

/**
 * @param {Core} next @param {Core} ended  with a memory of its own @param {{succession: Succession, isSigned: boolean}} ending
 * @param {{entry: Uint8Array, isSigned: boolean, time: bigint}} first
 * @returns {{status: number, place: number}}
 */
function succeeded(next, ended, { succession, isSigned }, first) {
  const { desk, chain, changes } = next.parts;
  chain.reserve(1);
  changes.reserve(1);
  const old = copyOf(ended, next);
  const [entry, length] = [desk.put(first.entry), BigInt(first.entry.length)];
  const received = desk.putWords([entry, length, BigInt(first.isSigned), first.time]);
  const [ending, place] = [desk.put(successionBytes(succession, isSigned)), desk.putWords(zeros(1))];
  return { status: next.succeed(old, ending, received, place), place: desk.number(place) };
}

/** A copy of a client in another one's memory: its name and its keys stay there. @param {Core} ended @param {Core} next @returns {bigint} */
function copyOf(ended, next) {
  const [other, { desk }] = [ended.parts, next.parts];
  const [watch, rows] = [other.desk.words(other.core + AT.watch, 6), other.desk.words(other.changes.place, 4 * other.changes.length)];
  const move = (/** @type {bigint} */ place, /** @type {bigint} */ length) => desk.store(other.desk.take(place, Number(length)));
  [watch[1], watch[4]] = [move(watch[1], watch[2]), move(watch[4], watch[5])];
  for (let k = 0; k < rows.length; k += 4) rows[k + 2] = move(rows[k + 2], rows[k + 3]);
  desk.clear();
  const stored = desk.put(other.desk.take(other.chain.place, STORED_ENTRY * ended.count));
  const [changes, core] = [desk.putWords(rows), desk.put(other.desk.take(other.core, CORE))];
  const [count, more] = [BigInt(ended.count), BigInt(rows.length / 4)];
  desk.writeWords(core + AT.watch, [...watch, stored, count, count, changes, more, more, 0n, 0n, 0n, 0n, 0n]);
  return core;
}

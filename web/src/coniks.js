// The proved library, as a module of the browser. It alone decides what is accepted.

import { toHex } from "./bytes.js";
import { Desk } from "./desk.js";
import { GOOD } from "./formats.js";

/** @typedef {{status: number, key: Uint8Array | null}} Checked */


/**
 * The parts of an entry's body.
 * @typedef {Record<"root" | "previousLink" | "nonce" | "policy", Uint8Array>} Digests
 * @typedef {{version: number, epoch: bigint, previousEpoch: bigint} & Digests} Fields
 */

const STATE = 80;

export class Coniks {
  /** @param {WebAssembly.Module} module @param {WebAssembly.Instance} instance */
  constructor(module, instance) {
    this.module = module;
    /** @type {any} */
    this.calls = instance.exports;
    this.desk = new Desk(this.calls.memory, this.calls.__heap_base.value);
  }

  /** @param {BufferSource} bytes @returns {Promise<Coniks>} */
  static async of(bytes) {
    const { module, instance } = /** @type {WebAssembly.WebAssemblyInstantiatedSource} */ (await WebAssembly.instantiate(bytes, {}));
    return new Coniks(module, instance);
  }

  /** The library with a memory of its own. @returns {Promise<Coniks>} */
  async another() {
    return new Coniks(this.module, await WebAssembly.instantiate(this.module, {}));
  }

  /**
   * What a proof's bytes say of a name at its index, under a root and a nonce.
   * @param {Uint8Array} nonce @param {Uint8Array} root @param {Uint8Array} index @param {Uint8Array} name @param {Uint8Array} proof
   * @returns {Checked}
   */
  check(nonce, root, index, name, proof) {
    const desk = this.desk;
    desk.clear();
    const [a, b, c, d, e] = [nonce, root, index, name, proof].map((it) => desk.put(it));
    const [start, length] = [desk.put(new Uint8Array(8)), desk.put(new Uint8Array(8))];
    const status = this.calls.coniks_check(a, b, c, d, BigInt(name.length), e, BigInt(proof.length), start, length);
    if (status !== GOOD) return { status, key: null };
    return { status, key: desk.take(e + BigInt(desk.number(start)), desk.number(length)) };
  }

  /** The state of an auditor that has seen no entry. @returns {Uint8Array} */
  begin() {
    return new Uint8Array(STATE);
  }

  /**
   * Audits an entry. The state changes if the entry follows.
   * @param {Uint8Array} state @param {Uint8Array} entry @param {boolean} isGood
   * @returns {number}
   */
  feed(state, entry, isGood) {
    this.desk.clear();
    const here = this.desk.put(state);
    const status = this.calls.coniks_auditor_feed(here, this.desk.put(entry), BigInt(entry.length), isGood ? 1 : 0);
    state.set(this.desk.take(here, STATE));
    return status;
  }

  /**
   * Shows a client's monitor an entry and a proof. An expected key of no bytes is none.
   * @param {Uint8Array} state
   * @param {{index: Uint8Array, name: Uint8Array, expected: Uint8Array}} wanted
   * @param {Uint8Array} entry @param {boolean} isGood @param {Uint8Array} proof
   * @returns {number}
   */
  step(state, wanted, entry, isGood, proof) {
    this.desk.clear();
    const here = this.desk.put(state);
    const [index, name, expected, seen, shown] = [wanted.index, wanted.name, wanted.expected, entry, proof].map((it) => this.desk.put(it));
    const [n, x, e, p] = [wanted.name, wanted.expected, entry, proof].map((it) => BigInt(it.length));
    const status = this.calls.coniks_monitor_step(here, index, name, n, expected, x, seen, e, isGood ? 1 : 0, shown, p);
    state.set(this.desk.take(here, STATE));
    return status;
  }

  /**
   * Whether two entries are evidence, and of which kind.
   * @param {Uint8Array} a @param {Uint8Array} b
   * @returns {{status: number, kind: number}}
   */
  convicts(a, b) {
    this.desk.clear();
    const out = this.desk.put(new Uint8Array(4));
    const [one, other] = [this.desk.put(a), this.desk.put(b)];
    const status = this.calls.coniks_convicts(one, BigInt(a.length), other, BigInt(b.length), out);
    return { status, kind: new DataView(this.desk.take(out, 4).buffer).getUint32(0, true) };
  }

  /** The link of an entry, 32 bytes, or null if the bytes are no entry. @param {Uint8Array} entry @returns {Uint8Array | null} */
  linkBytes(entry) {
    this.desk.clear();
    const out = this.desk.put(new Uint8Array(32));
    const status = this.calls.coniks_link(this.desk.put(entry), BigInt(entry.length), out);
    return status === GOOD ? this.desk.take(out, 32) : null;
  }

  /**
   * The link of an entry of 209 bytes, in hexadecimal digits; the empty text of any other bytes.
   * @param {Uint8Array} entry
   * @returns {string}
   */
  link(entry) {
    return toHex(this.linkBytes(entry) ?? new Uint8Array(0));
  }

  /**
   * Reads the body of an entry and verifies nothing. Returns null if the bytes are no entry.
   * @param {Uint8Array} entry
   * @returns {Fields | null}
   */
  fields(entry) {
    this.desk.clear();
    const out = this.desk.put(new Uint8Array(152));
    if (this.calls.coniks_entry_body(this.desk.put(entry), BigInt(entry.length), out) !== GOOD) return null;
    const bytes = this.desk.take(out, 152);
    const [root, previousLink, nonce, policy] = [16, 48, 80, 112].map((at) => bytes.slice(at, at + 32));
    const numbers = new DataView(bytes.buffer);
    const [epoch, previousEpoch] = [numbers.getBigUint64(0, true), numbers.getBigUint64(8, true)];
    return { version: bytes[144], epoch, previousEpoch, root, previousLink, nonce, policy };
  }

  /**
   * Returns the body of an entry with its digests as hexadecimal digits, or null if the bytes are no entry.
   * @param {Uint8Array} entry
   * @returns {{epoch: bigint, root: string, nonce: string, version: number} | null}
   */
  body(entry) {
    const read = this.fields(entry);
    return read && { epoch: read.epoch, root: toHex(read.root), nonce: toHex(read.nonce), version: read.version };
  }

  /** How many of the auditors are a quorum, if `faulty` of them may lie; 0 if there can be none. @param {number} auditors @param {number} faulty @returns {number} */
  quorum(auditors, faulty) {
    return Number(this.calls.coniks_core_quorum(BigInt(auditors), BigInt(faulty)));
  }

  /** Returns the text of a status. @param {number} status @returns {string} */
  text(status) {
    this.desk.clear();
    const room = this.desk.put(new Uint8Array(128));
    const size = Number(this.calls.coniks_text(status, room, 128n));
    return new TextDecoder().decode(this.desk.take(room, Math.min(size, 128)));
  }
}

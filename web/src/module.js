// The module for web projects: the calls of the library as functions that throw, classes for an auditor and a monitor, and the client.

import { Client, expectedKey } from "./client.js";
import { Coniks } from "./coniks.js";
import { ABSENT, BODY, CAUSES, CHANGED, GOOD, KINDS, NO_EVIDENCE } from "./formats.js";
import { Refusal } from "./messages.js";
import { Policy, readPolicy } from "./policy.js";
import { Unsupported } from "./schemes.js";
import { Succession, readSuccession } from "./succession.js";
import { bytes, nameBytes, unsigned } from "./values.js";

export { Policy, Refusal, Succession, Unsupported, readPolicy, readSuccession };

const STATE_BYTES = 80;
const UNUSED = 7;
const [ENTRY_LENGTH] = CAUSES.EntryLength;
const SEEN = new Map([[GOOD, "same"], [ABSENT, "absent"], [CHANGED, "changed"]]);

/** Why a proof or an entry isn't accepted: `status` is its number in coniks.h, `message` its text. */
export class Refused extends Error {
  constructor(status, text) {
    super(text);
    this.name = "Refused";
    this.status = status;
  }
}

function bool(value) {
  if (typeof value !== "boolean") throw new TypeError("whether the signature is good is true or false");
  return value;
}

/** Follows a chain of entries. Made by `Library.auditor`. */
class Auditor {
  constructor(library, state = new Uint8Array(STATE_BYTES)) {
    this.library = library;
    // The last bytes of a state are unused, and so are zeros.
    this.saved = bytes(state, "the state", STATE_BYTES).fill(0, STATE_BYTES - UNUSED);
  }

  get state() {
    return this.saved.slice();
  }

  get head() {
    return this.library.head(this.saved);
  }

  feed(entry, signatureIsGood) {
    this.library.accepted(this.library.calls.feed(this.saved, bytes(entry, "the entry"), bool(signatureIsGood)));
  }
}

/** Watches one name. Made by `Library.monitor`. */
class Monitor extends Auditor {
  constructor(library, name, index, expected, state) {
    super(library, state);
    this.wanted = { index: bytes(index, "the index", 32), name: nameBytes(name), expected: new Uint8Array() };
    this.expected = expected;
  }

  get expected() {
    return this.wanted.expected.length ? this.wanted.expected.slice() : null;
  }

  set expected(key) {
    this.wanted.expected = expectedKey(key);
  }

  step(entry, signatureIsGood, proof) {
    const status = this.library.calls.step(this.saved, this.wanted, bytes(entry, "the entry"), bool(signatureIsGood), bytes(proof, "the proof"));
    return SEEN.get(status) ?? this.library.accepted(status);
  }
}

/** The library. Made by `load`. */
class Library {
  constructor(calls) {
    this.calls = calls;
  }

  accepted(status) {
    if (status !== 0) throw new Refused(status, this.text(status));
  }

  check(nonce, root, index, name, proof) {
    const [a, b, c] = [bytes(nonce, "the nonce", 32), bytes(root, "the root", 32), bytes(index, "the index", 32)];
    const { status, key } = this.calls.check(a, b, c, nameBytes(name), bytes(proof, "the proof"));
    if (status === ABSENT) return null;
    this.accepted(status);
    return key;
  }

  auditor(state) {
    return new Auditor(this, state);
  }

  monitor(name, index, expected, state) {
    return new Monitor(this, name, index, expected, state);
  }

  head(state) {
    const { desk, calls } = this.calls;
    desk.clear();
    const [here, epoch, link] = [desk.put(state), desk.put(new Uint8Array(8)), desk.put(new Uint8Array(32))];
    if (calls.coniks_auditor_head(here, epoch, link) !== 0) return null;
    return { epoch: new DataView(desk.take(epoch, 8).buffer).getBigUint64(0, true), link: desk.take(link, 32) };
  }

  link(entry) {
    return this.calls.linkBytes(bytes(entry, "the entry")) ?? this.accepted(ENTRY_LENGTH);
  }

  convicts(a, b) {
    const { status, kind } = this.calls.convicts(bytes(a, "an entry"), bytes(b, "an entry"));
    if (status === NO_EVIDENCE) return null;
    this.accepted(status);
    return KINDS.get(kind);
  }

  body(entry) {
    return this.calls.fields(bytes(entry, "the entry")) ?? this.accepted(ENTRY_LENGTH);
  }

  bodyBytes(body) {
    const written = new Uint8Array(152);
    const numbers = new DataView(written.buffer);
    numbers.setBigUint64(0, unsigned(body.epoch, 64, "the epoch"), true);
    numbers.setBigUint64(8, unsigned(body.previousEpoch, 64, "the epoch before"), true);
    [body.root, body.previousLink, body.nonce, body.policy].forEach((it, place) => written.set(bytes(it, "a digest", 32), 16 + 32 * place));
    written[144] = Number(unsigned(body.version, 8, "the version"));
    const { desk, calls } = this.calls;
    desk.clear();
    const out = desk.put(new Uint8Array(BODY));
    calls.coniks_body_bytes(desk.put(written), out);
    return desk.take(out, BODY);
  }

  client(signingKey, vrfKey, policy, options) {
    return Client.of(this.calls, signingKey, vrfKey, policy, options);
  }

  vouched(signingKey, vrfKey, policy, entry, heads, least, options) {
    return Client.vouched(this.calls, signingKey, vrfKey, policy, entry, heads, least, options);
  }

  text(status) {
    return this.calls.text(Number(unsigned(status, 32, "a status")));
  }

  version() {
    const number = this.calls.calls.coniks_version();
    return [Math.floor(number / 10000), Math.floor(number / 100) % 100, number % 100].join(".");
  }
}

/** Makes the library of the bytes of coniks.wasm. */
export async function load(module) {
  return new Library(await Coniks.of(module));
}

// Tests which numbers the module for web projects takes: `node --test web/tests/arguments.test.mjs`.

import assert from "node:assert/strict";
import { readFileSync } from "node:fs";
import { test } from "node:test";

import { load } from "../out/coniks.js";

const library = await load(readFileSync(new URL("../out/coniks.wasm", import.meta.url)));
const digest = new Uint8Array(32);
const body = { version: 1, epoch: 7n, previousEpoch: 6n, root: digest, previousLink: digest, nonce: digest, policy: digest };
const bytesWith = (changed) => Buffer.from(library.bodyBytes({ ...body, ...changed })).toString("hex");
const wanted = "01" + "0000000000000007" + "0000000000000006" + "00".repeat(128);

test("numbers", () => {
  assert.equal(bytesWith({}), wanted);
  assert.equal(bytesWith({ version: 1n, epoch: 7, previousEpoch: 6 }), wanted);
  assert.equal(bytesWith({ epoch: 2n ** 64n - 1n }).slice(2, 18), "ff".repeat(8));
  const others = ["7", "", " 7 ", true, null, undefined, [7], new Date(7), 7.5, NaN, Infinity, 2 ** 53, { valueOf: () => 7n }];
  for (const member of ["version", "epoch", "previousEpoch"]) {
    for (const value of others) assert.throws(() => bytesWith({ [member]: value }), TypeError, `${member} ${String(value)}`);
    for (const value of [-1, -1n, 2n ** 64n]) assert.throws(() => bytesWith({ [member]: value }), RangeError, `${member} ${value}`);
  }
  assert.throws(() => bytesWith({ version: 256 }), RangeError);
  for (const value of others) assert.throws(() => library.text(value), TypeError, `text ${String(value)}`);
  assert.equal(library.text(4n), library.text(4));
});

test("states and copies", () => {
  // The last 7 bytes of a state are unused, and read as zeros.
  const used = Uint8Array.from({ length: 80 }, (_, i) => (i < 73 ? i : 0));
  const filled = Uint8Array.from(used).fill(255, 73);
  assert.deepEqual(library.auditor(filled).state, used);
  assert.deepEqual(library.monitor("alice", digest, null, filled).state, used);

  // What is given is copied, also a Buffer, whose slice is no copy.
  const [state, index, key] = [used, digest, Uint8Array.of(1)].map((it) => Buffer.from(it));
  const monitor = library.monitor("alice", index, key, state);
  for (const it of [state, index, key]) it.fill(9);
  assert.deepEqual(monitor.state, used);
  assert.deepEqual(monitor.expected, Uint8Array.of(1));
});

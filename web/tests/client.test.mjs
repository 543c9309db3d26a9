// Tests of the client beside the cases of cases/client: `node --test web/tests/client.test.mjs`.
//
// Keys, entries, replies and results are those of cases/client, which another implementation made.

import { readFileSync } from "node:fs";
import { test } from "node:test";

import { load, readPolicy } from "../out/coniks.js";
import { VrfKey, keyPoint } from "../src/ecvrf.js";
import { signaturesOf } from "../src/schemes.js";
import { data, hex, read, same, textBytes, throwing, thrown } from "../telling.mjs";

const library = await load(readFileSync(new URL("../out/coniks.wasm", import.meta.url)));
const cases = new Map(read("cases/client/replies.jsonl").trim().split("\n").map((line) => [JSON.parse(line).name, JSON.parse(line)]));
const given = cases.get("reply: a key");
const policy = readPolicy(textBytes(given.policy));
const entries = given.steps[0].entries.map(data);
const [name, reply] = [data(given.steps[1].name), data(given.steps[1].reply)];
const wanted = given.gives.steps[1];
const clock = () => given.now;

/** A client of the case, with other keys or options. */
const begun = ({ signing = policy.signingKey, vrf = policy.vrfKey, ...options } = {}) => library.client(signing, vrf, policy, { clock, ...options });

/** The same, which was fed the entries. */
async function fed(options) {
  const client = await begun(options);
  await client.feed(entries);
  return client;
}

const isSigned = await signaturesOf(policy.signingKey);
const vrfKey = new VrfKey(policy.vrfKey, keyPoint(policy.vrfKey), crypto.subtle);
const signing = { verify: (body, signature) => isSigned(body, signature) };
const index = async (requested, proof) => (await vrfKey.output(requested, proof)).slice(0, 32);
const vrf = { verify: async (requested, proof) => (await vrfKey.output(requested, proof)) !== null, index };
const shown = ({ epoch, key, seen, age, firstSeen }) => ({ epoch, key, seen, age, first_seen: firstSeen });
const ordered = ({ epoch, key, seen, age, first_seen }) => ({ epoch, key, seen, age, first_seen });

/** A promise that is settled from outside. */
function deferred() {
  const made = {};
  made.promise = new Promise((resolve, reject) => Object.assign(made, { resolve, reject }));
  return made;
}

class Broken extends Error {}

test("schemes of the caller", async () => {
  for (const [what, options] of [["keys", {}], ["objects", { signing, vrf }]]) {
    const client = await fed(options);
    same(`a lookup by ${what}`, shown(await client.lookup(name, reply)), ordered(wanted));
  }
  const none = await fed({ vrf: { verify: () => true, index: () => new Uint8Array(32) } });
  await throwing("another index", () => none.lookup(name, reply), "RootMismatch");
  // Only `true` itself counts.
  for (const result of [1, "true", {}, [], new Boolean(true), undefined, null, NaN, false, () => true]) {
    for (const reported of [result, Promise.resolve(result)]) {
      const client = await begun({ signing: { verify: () => reported } });
      await throwing(`signatures that are ${String(result)}`, () => client.feed(entries), "Signature");
      same("no entry is kept", client.entries, []);
      const other = await fed({ vrf: { verify: () => reported, index } });
      await throwing(`proofs that are ${String(result)}`, () => other.lookup(name, reply), "VrfProof");
    }
  }
  const wrong = [["none", undefined, "TypeError"], ["text", "0".repeat(32), "TypeError"], ["an array", Array(32).fill(0), "TypeError"]];
  for (const [what, reported, error] of [...wrong, ["31 bytes", new Uint8Array(31), "RangeError"], ["a buffer", new ArrayBuffer(32), "TypeError"]]) {
    const client = await fed({ vrf: { verify: () => true, index: () => reported } });
    client.watch(name, data(wanted.key));
    await throwing(`an index that is ${what}`, () => client.lookup(name, reply), error);
    same("the epoch stays missing", client.missing.length, 1);
  }
});

test("schemes that fail", async () => {
  const throws = () => {
    throw new Broken();
  };
  for (const verify of [() => Promise.reject(new Broken()), throws]) {
    const client = await begun({ signing: { verify } });
    await throwing("a scheme that fails at a feed", () => client.feed(entries), "Broken");
    same("nothing is kept", client.entries, []);
    const other = await fed({ vrf: { verify, index } });
    other.watch(name, data(wanted.key));
    await throwing("a scheme that fails at a lookup", () => other.lookup(name, reply), "Broken");
    same("the epoch is missing", other.missing.length, 1);
  }
  let calls = 0;
  const client = await begun({ signing: { verify: (...it) => (++calls === 3 ? Promise.reject(new Broken()) : isSigned(...it)) } });
  await throwing("a scheme that fails at the third entry", () => client.feed(entries), "Broken");
  same("two entries are kept", client.entries, entries.slice(0, 2));
  same("the rest follows", (await client.feed(entries.slice(2))).length, entries.length - 2);
});

test("what no scheme is asked for", async () => {
  const requested = [];
  const counting = { verify: (/** @type {any[]} */ ...it) => (requested.push(it), true), index: () => new Uint8Array(32) };
  const client = await begun({ signing: counting, vrf: counting });
  for (const [what, call, error] of [
    ["a reply that is cut", () => client.lookup(name, reply.slice(0, 290)), "CutInVrf"],
    ["a history of another version", () => client.history(name, Uint8Array.of(2)), "HistoryVersion"],
    ["an entry of 208 bytes", () => client.feed([entries[0].slice(1)]), "EntryLength"],
    ["a state of another directory", () => begun({ signing: counting, state: new Uint8Array(200).fill(3, 0, 1) }), "StateDamaged"],
  ]) {
    await throwing(/** @type {string} */ (what), /** @type {any} */ (call), /** @type {string} */ (error));
    same(`${what}: no scheme is asked`, requested.length, 0);
  }
});

test("calls that wait for each other", async () => {
  // The first signature is verified at last. Calls beside it go on, and its entry is kept once.
  const first = deferred();
  let calls = 0;
  const client = await begun({ signing: { verify: (...it) => (calls++ === 0 ? first.promise : isSigned(...it)) } });
  const waiting = client.feed(entries);
  same("a feed beside one that waits", (await client.feed(entries)).length, entries.length);
  same("a lookup beside it", shown(await client.lookup(name, reply)), ordered(wanted));
  first.resolve(true);
  await throwing("what comes late", () => waiting, "NotLater");
  same("each entry is kept once", client.entries, entries);

  for (const count of [2, 20]) {
    const many = await begun();
    const refused = await Promise.all(Array.from({ length: count }, () => thrown(() => many.feed(entries))));
    same(`one of ${count} feeds is accepted`, [refused.filter((it) => it === null).length, new Set(refused).size], [1, 2]);
    same(`${count} feeds keep each entry once`, many.entries, entries);
  }
});

/** A client whose lookup waits until the promise of its proof is resolved. */
async function looking(options = {}, count = entries.length) {
  const proof = deferred();
  const client = await begun({ vrf: { verify: () => proof.promise, index }, ...options });
  await client.feed(entries.slice(0, count));
  return { client, proof };
}

test("changes while a lookup waits", async () => {
  const older = cases.get("reply: an older epoch").steps[1];
  const [olderName, olderReply] = [data(older.name), data(older.reply)];
  {
    const { client, proof } = await looking();
    const found = client.lookup(name, reply);
    client.watch(name, data(wanted.key));
    proof.resolve(true);
    same("a watch that begins meanwhile", [(await found).seen, client.missing], ["same", []]);
  }
  {
    const { client, proof } = await looking();
    const found = client.lookup(olderName, olderReply, older.epoch);
    client.cover(client.head());
    proof.resolve(true);
    await throwing("an entry that is dropped meanwhile", () => found, "UnknownEpoch");
  }
  {
    // The reply is of the latest epoch only when the call begins.
    const count = entries.findIndex((it) => hex(it) === hex(olderReply.slice(1, 210))) + 1;
    const { client, proof } = await looking({ maxAge: 1e9 }, count);
    const found = client.lookup(olderName, olderReply);
    await client.feed(entries.slice(count));
    proof.resolve(true);
    await throwing("a chain that grows meanwhile", () => found, "OtherEpoch");
    same("the earlier entry was the latest one", [count > 0, count < entries.length], [true, true]);
  }
  {
    let now = given.now;
    const verify = () => {
      now += 3 * 3600;
      return true;
    };
    const client = await fed({ vrf: { verify, index }, clock: () => now });
    client.watch(name, data(wanted.key));
    await throwing("a clock that goes on meanwhile", () => client.lookup(name, reply), "Stale");
    same("nothing was seen", client.missing.length, 1);
  }
});

const zero = (/** @type {Uint8Array[]} */ all) => all.forEach((it) => it.fill(0));
const buffers = (/** @type {Uint8Array[]} */ all) => all.map((it) => Buffer.from(it));

/** Callers change what they passed while a call waits. The slice of a Buffer is no copy. */
test("what is given is copied", async () => {
  const keys = buffers([policy.signingKey, policy.vrfKey, policy.digest]);
  const making = library.client(...keys, { clock });
  zero(keys);
  const client = await making;
  const lists = buffers(entries);
  const feeding = client.feed(lists);
  zero(lists);
  same("entries are copied", (await feeding).length, entries.length);
  same("kept entries are copies", client.entries, entries);
  const words = buffers([name, reply]);
  const looked = client.lookup(...words);
  zero(words);
  same("a name and a reply are copied", (await looked).key, wanted.key);
  const watched = buffers([name, data(wanted.key)]);
  client.watch(...watched);
  zero(watched);
  same("a watched name and key are copied", (await client.lookup(name, reply)).seen, "same");
  const [late] = buffers(entries.slice(-1));
  const vouching = library.vouched(policy.signingKey, policy.vrfKey, policy.digest, late, new Map([["one", client.head()]]), 1, { clock });
  zero([late]);
  same("a first entry is copied", (await vouching).head(), client.head());
  const state = Buffer.from(client.state);
  const resuming = library.client(policy.signingKey, policy.vrfKey, policy.digest, { clock, state });
  zero([state]);
  same("a state is copied", (await resuming).state, client.state);
  const [entry] = buffers(entries);
  const evidence = client.evidence(entry);
  zero([entry]);
  same("another one's entry is copied", await evidence, null);
});

/** A quorum of three of four auditors. The head is that of the chain, by its entry. */
test("auditors and their marks", async () => {
  const digest = new Uint8Array(32).fill(7);
  const trust = { digest, auditors: 4, faulty: 1 };
  const client = await fed({ trust });
  const [head, found] = [client.head(), await client.lookup(name, reply)];
  digest.fill(0);
  same("no auditor", [client.confirmed, client.isRelied(found), client.drop()], [null, false, []]);
  same("two of three", [client.mark(0, head), client.mark(3, head), client.mark(3, head), client.confirmed, client.isRelied(found), client.drop()], ["equal", "equal", "equal", null, false, []]);
  same("another link", [client.mark(1, { ...head, link: new Uint8Array(32) }), client.confirmed], ["differs", null]);
  same("a quorum", [client.mark(2n, head), client.confirmed, client.isRelied(found)], ["equal", head.epoch, true]);
  same("one head drops nothing", [client.cover(head), client.entries.length], ["equal", entries.length]);
  const { state } = client;
  for (const [what, named, confirmed] of [["the same", { ...trust, digest: new Uint8Array(32).fill(7) }, head.epoch], ["another one", trust, null], ["none", null, null]]) {
    same(`a state under a trust document: ${what}`, (await begun({ state, trust: named })).confirmed, confirmed);
  }
  const dropped = client.drop();
  same("a quorum drops what is before", [dropped.length, client.entries.length], [entries.length - 1, 1]);
  client.watch(name, data(wanted.key), head.epoch);
  same("an owner's report", client.report(), { what: "missing", first: head.epoch, last: head.epoch });
  await client.lookup(name, reply);
  const report = client.report();
  same("a good report", [report, Object.isFrozen(report), client.alarms], [{ what: "good", first: head.epoch, last: head.epoch }, true, []]);
});

test("another key than the owner's", async () => {
  const client = await fed();
  client.watch(name, new TextEncoder().encode("another key"), 1);
  await client.lookup(name, reply);
  const [head, missing] = [client.head(), client.missing];
  same("it is reported before missing epochs", [client.report().what, missing.length > 0], ["changed", true]);
  same("missing epochs stay", [client.cover(head), client.missing, client.alarms], ["equal", missing, []]);
});

test("what is returned is a copy", async () => {
  const client = await fed();
  client.watch(name, data(wanted.key));
  const found = await client.lookup(name, reply);
  const [before, link] = [hex(client.state), hex(client.head().link)];
  zero([found.key, client.state, client.head().link, ...client.entries]);
  client.entries.length = 0;
  client.missing.push(7n);
  same("what was returned changes nothing", hex(client.state), before);
  same("heads are copies", client.head().link, link);
  for (const it of [found, client.head(), policy]) same("results are frozen", Object.isFrozen(it), true);
  zero([policy.signingKey, policy.vrfKey, policy.digest, policy.document]);
  same("a policy returns copies", policy.document, textBytes(given.policy));
  const verify = (/** @type {Uint8Array[]} */ ...parts) => {
    const reported = isSigned(...parts.map((it) => it.slice()));
    zero(parts);
    return reported;
  };
  same("a scheme gets copies", (await fed({ signing: { verify } })).entries, entries);
  await throwing("a client in a literal", async () => ({ ...client }).feed(entries), "TypeError");
  await throwing("a client as a prototype", () => Object.create(client).feed(entries), "TypeError");
  await throwing("a clone of a client", () => structuredClone(client).feed(entries), "TypeError");
});

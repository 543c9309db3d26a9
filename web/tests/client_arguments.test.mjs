// Tests of what callers, services and platforms can do wrong to the client: `node --test web/tests/client_arguments.test.mjs`. Policy,
// reply, history and state are the examples of docs/FORMATS.md and docs/STORED.md.

import assert from "node:assert/strict";
import { createHash } from "node:crypto";
import { readFileSync } from "node:fs";
import { test } from "node:test";

import { Policy, Refusal, Unsupported, load, readPolicy, readSuccession } from "../out/coniks.js";
import { Coniks } from "../src/coniks.js";
import { Refusal as Refused } from "../src/messages.js";
import { data, hex, read, same, textBytes, throwing, thrown } from "../telling.mjs";

const module = readFileSync(new URL("../out/coniks.wasm", import.meta.url));
const library = await load(module);
const formats = read("docs/FORMATS.md");
const stored = read("docs/STORED.md");

/** The lines of the example after a text of a page. @param {string} after @param {string} page */
function example(after, page = formats) {
  const lines = page.slice(page.indexOf(after)).split("\n");
  const first = lines.findIndex((it) => it.startsWith("    "));
  const length = lines.slice(first).findIndex((it) => !it.startsWith("    "));
  return lines.slice(first, first + length).map((it) => it.trim());
}

const policy = readPolicy(textBytes(`${example("The keys of this example are").join("\n")}\n`));
const reply = data(example("The reply for alice at epoch 2").join(""));
const history = data(example("The history of alice at epochs 1 and 2").join(""));
const state = data(example("The state of a client without a trust document that watches alice", stored).join(""));
const entries = [state.slice(37, 246), state.slice(255, 464)];
const start = Number(policy.epochStart);
const clock = () => start + 3600 + 60;
const begun = (more = {}) => library.client(policy.signingKey, policy.vrfKey, policy, { clock, ...more });
const signing = { verify: () => true };
const vrf = { verify: () => true, index: () => new Uint8Array(32) };
const key = textBytes("k");
const key32 = new Uint8Array(32).fill(7);

/** A reply whose bytes were given away. */
function detached() {
  const given = reply.slice();
  structuredClone(given.buffer, { transfer: [given.buffer] });
  return given;
}

/** No alarms, no trust document and no marks, in a state. */
const NOTHING = new Uint8Array(40);

/** A state with other bytes, and the digest of them. @param {Uint8Array[]} parts */
function renewed(...parts) {
  const whole = Buffer.concat(parts);
  return Buffer.concat([whole, createHash("sha256").update(whole).digest()]);
}

test("the examples of docs/FORMATS.md and docs/STORED.md", async () => {
  same("the digest of the policy", policy.digest, "9b7c1ee453e0628965915c3a88e82924b3e90fe53ba30531b2b3ff12be6f7fef");
  const parts = { origin: policy.origin, start: policy.epochStart, period: policy.epochPeriod, saved: policy.proofsKept, records: policy.recordsVouched };
  same("its parts", parts, { origin: "keys.example.com/directory", start: 1767225600, period: 3600, saved: null, records: false });
  const client = await begun();
  client.watch("alice", key, 1);
  let now = start + 60;
  const timed = await library.client(policy.signingKey, policy.vrfKey, policy, { clock: () => now });
  timed.watch("alice", key, 1);
  for (const entry of entries) {
    same("an entry", await timed.feed([entry]), [{ epoch: now < start + 3600 ? 1 : 2, seen: "missing" }]);
    now += 3600;
  }
  now = start + 3660;
  same("the reply", await timed.lookup("alice", reply), { epoch: 2, key, seen: "same", age: 60, firstSeen: start + 3660 });
  same("the state", timed.state, state);
  same("the missing epochs", timed.missing, [1]);
  const found = await timed.history("alice", history);
  same("the history", found.map((it) => [it.epoch, it.seen, it.age]), [[1, "same", 3660], [2, "same", 60]]);
  same("a key that the history sends once is one array", found[0].key === found[1].key, true);
  same("the state once more", (await begun({ state })).state, state);
  const expecting = await begun({ state });
  expecting.expect(textBytes("n"), 5);
  await assert.rejects(async () => expecting.expect(textBytes("o"), 9), /another change is expected by epoch 5:/);
  const changed = expecting.state;
  same("a change and the digest in the state", changed.subarray(513), data(example("Then it expects the key `n` by epoch 5", stored).join("")));
  same("the state with a change once more", (await begun({ state: changed })).state, changed);
});

test("the policy that promises records", async () => {
  const text = `${example("The same directory, if it promises records of owners").join("\n")}\n`;
  const promising = readPolicy(textBytes(text));
  same("its digest", promising.digest, "5f75a068225cfe181d7149be0081df3d59afc095aeff7f9e3c1fdaca09965a10");
  same("its parts", [promising.recordsVouched, promising.proofsKept, promising.epochPeriod], [true, null, 3600]);
  same("its last number", readPolicy(textBytes(text.replace("kept forever", "kept 7"))).proofsKept, 7);
  const wrong = [
    ["records vouched\n", "records vouched\nrecords vouched\n"], ["records vouched", "records any"], ["vouched\n", "vouched \n"], ["records vouched\nproofs-kept forever\n", "proofs-kept forever\nrecords vouched\n"],
    ["evidence one-chain\nrecords vouched\n", "records vouched\nevidence one-chain\n"], ["kept forever", `kept ${2n ** 64n}`], ["period 3600", "period 0"],
  ];
  for (const [from, to] of wrong) await throwing(`no policy: ${to.slice(0, 40)}`, () => readPolicy(textBytes(text.replace(from, to))), "RangeError");
});

test("the succession of the example", async () => {
  const [ends, goesOn, text] = ["The first policy above with a successor key", "The policy that goes on has the third key", "Each chain has the two epochs"].map(
    (it) => `${example(it).join("\n")}\n`,
  );
  const [old, next] = [readPolicy(textBytes(ends)), readPolicy(textBytes(goesOn))];
  same("the successor keys", [old.successorKey, next.successorKey, policy.successorKey], [data("ec172b93ad5e563bf4932c70e1245034c35467ef2efd4d64ebf819683467e2bf"), null, null]);
  const it = readSuccession(textBytes(text));
  same("its policies", [it.policy, it.nextPolicy], [old.digest, next.digest]);
  same("its epochs", [it.last.epoch, it.first.epoch], [2, 2]);
  same("its text", `${new TextDecoder().decode(it.lines)}signature ${hex(it.signature)}\n`, text);
  for (const [from, to] of [["last-epoch 2", "last-epoch 0"], ["first-epoch 2", `first-epoch ${2n ** 64n}`], ["coniks-1", "coniks-2"], ["\nsignature", "\n\nsignature"], [hex(it.nextPolicy), hex(it.policy)]]) {
    await throwing(`no succession: ${to.slice(0, 40)}`, () => readSuccession(textBytes(text.replace(from, to))), "RangeError");
  }
  await throwing("the signing key as successor key", () => readPolicy(textBytes(ends.replace(hex(old.successorKey), hex(old.signingKey)))), "RangeError");
  const client = await library.client(old.signingKey, old.vrfKey, old, { clock: () => start });
  for (const wrong of [[text, next, entries[0]], [it, goesOn, entries[0]], [it, next.digest, entries[0]], [it, next, "00"], [it, next, entries[0], { state }], [it, next, entries[0], { age: 7 }]]) {
    await throwing("arguments of succeed", () => client.succeed(...wrong), "TypeError");
  }
  same("an epoch that the chain does not have", await thrown(() => client.succeed(it, next, entries[0])), "UnknownEpoch");
});

/** Documents that differ in one line from the example, of which a policy has exactly one. */
test("documents that are no policy", async () => {
  const document = new TextDecoder().decode(policy.document);
  const most = String(2n ** 64n - 1n);
  const good = [
    ["epoch-period 3600", `epoch-period ${most}`], ["epoch-start 1767225600", "epoch-start 0"], ["kept forever", `kept ${most}`], ["kept forever", "kept 0"],
    ["epoch-start 1767225600\nepoch-period 3600\n", ""], [/ECVRF(.|\n)*?\n(?=epoch)/, "none\n"], [/origin .*/, `origin ${"~".repeat(255)}`], [/origin .*/, "origin !"],
  ];
  const over = String(2n ** 64n);
  const wrong = [
    ["epoch-period 3600", "epoch-period 0"], ["epoch-period 3600", `epoch-period ${over}`], ["epoch-start 1767225600", `epoch-start ${over}`], ["kept forever", `kept ${over}`],
    ["epoch-period 3600", "epoch-period 03600"], ["epoch-period 3600", "epoch-period  3600"], ["epoch-period 3600", "epoch-period -1"], ["epoch-period 3600", "epoch-period 1e3"], ["epoch-period 3600\n", ""], ["epoch-start 1767225600\n", ""],
    ["kept forever\n", "kept forever"], ["kept forever\n", "kept forever\n\n"], ["kept forever\n", "kept forever\nmore\n"], ["kept forever", "kept ever"], [/\n/g, "\r\n"], ["policy", "\ufeffpolicy"], ["coniks-1", "coniks-2"],
    [/origin .*/, "origin "], [/origin .*/, `origin ${"~".repeat(256)}`], [/origin .*/, "origin a b"], [/origin .*/, "origin \u00e9"], [/origin .*/, "origin a\u0000"], ["d75a98", "D75A98"], ["d75a98", "d75a9"], ["signature Ed25519", "signature Ed448"], [/ECVRF.*/, "none"], ["one-chain", "two-chains"], [/(.|\n)*/, ""], [/$/, "\n".repeat(1e6)],
  ];
  for (const [from, to] of good) {
    const given = textBytes(document.replace(from, to));
    same(`a policy with ${to}`, [readPolicy(given).document, hex(given) !== hex(policy.document)], [given, true]);
    same("its digest", readPolicy(given).digest, createHash("sha256").update(given).digest("hex"));
  }
  for (const [from, to] of wrong) await throwing(`no policy: ${String(to).slice(0, 30)}`, () => readPolicy(textBytes(document.replace(from, to))), "RangeError");
  await throwing("a policy is made by readPolicy alone", () => new Policy(policy.document), "TypeError");
});

test("numbers", async () => {
  const listed = [...`${formats.slice(formats.indexOf("## Replies to clients"))}${stored}`.matchAll(/^\| `(\w+)` \| (\d+) \|/gm)];
  const pairs = [...formats.matchAll(/^\| `(\w+)`, `(\w+)` \| (\d+), (\d+) \|/gm)];
  for (const [, one, other, first, second] of pairs) listed.push([, one, first], [, other, second]);
  same("errors are listed", [listed.length > 20, pairs.length > 0], [true, true]);
  const types = read("web/coniks.d.ts").match(/export type Cause =[^;]*/)[0];
  const typed = [...types.matchAll(/"(\w+)"/g)].map(([, it]) => it);
  same("each error that is listed has its type", listed.filter(([, it]) => !typed.includes(it)), []);
  same("each type is an error", [typed.filter((it) => !(new Refused(it).number > 0)), new Set(typed).size], [[], typed.length]);
  for (const [, why, number] of listed) {
    const refusal = new Refused(why);
    same(`the number of ${why}`, [refusal.number, refusal.why], [Number(number), why]);
    same(`the text of ${why}`, Number(number) < 64 || /^[a-z].{10}/.test(refusal.message), true);
  }
  const client = await begun();
  await assert.rejects(client.lookup("alice", new Uint8Array(0)), /the reply has no byte: /);
  client.watch("alice", key);
  await assert.rejects(async () => client.expect(textBytes("l"), 0), /epoch 0 is in the chain: /);
  for (const [what, call, text, number] of [
    ["an entry", () => client.feed([new Uint8Array(208)]), "the entry isn't 209 bytes long", 48],
    ["a signature", () => client.feed([Uint8Array.from(entries[0], (it, i) => (i === 208 ? it ^ 1 : it))]), "the signature isn't valid for this body", 40],
    ["a first entry", () => client.feed([entries[1]]), "the previous epoch isn't that of the entry before", 37],
    ["a deep step", () => client.history("alice", Buffer.concat([history.subarray(0, 83), data("000000000000000100ffff")])), "the proof has more than 256 siblings", 2],
  ]) {
    const refusal = await call().catch((error) => error);
    same(what, [refusal.message, refusal.number, refusal.status], [text, number, number]);
    same(`${what} is a refusal`, [refusal instanceof Refusal, refusal instanceof Error, refusal.name, refusal.cause], [true, true, "Refusal", undefined]);
  }
});

test("arguments of other types", async () => {
  const [make, client] = [library.client.bind(library), await begun({ state })];
  const keys = [policy.signingKey, policy.vrfKey, policy];
  const link = new Uint8Array(32);
  const heads = new Map([["a", { epoch: 1, link }]]);
  const [head, trust] = [client.head(), { digest: link, auditors: 4, faulty: 1 }];
  const vouched = (...more) => library.vouched(...keys, ...more);
  const calls = {
    TypeError: [
      () => make(undefined, ...keys.slice(1)), () => make("00".repeat(32), ...keys.slice(1)), () => make({}, ...keys.slice(1)), () => make({ verify: true }, ...keys.slice(1)),
      () => make(keys[0], undefined, policy), () => make(keys[0], {}, policy), () => make(keys[0], { verify() {} }, policy), () => make(keys[0], { index() {} }, policy),
      () => make(keys[0], keys[1], null), () => make(keys[0], keys[1], policy.document), () => make(keys[0], keys[1], { ...policy }), () => make(keys[0], keys[1], Array(32).fill(0)),
      () => begun({ state: "state" }), () => begun({ state: [...state] }), () => begun({ max_age: 1 }), () => begun({ maxAge: "60" }), () => begun({ skew: null }), () => begun({ skew: true }), () => begun({ clock: 7 }), () => make(...keys, null),
      () => client.feed(), () => client.feed(null), () => client.feed(7), () => client.feed("abc"), () => client.feed(""), () => client.feed({}), () => client.feed(entries.map(hex)), () => client.feed([null]), () => client.feed(entries[0].buffer),
      () => client.lookup("alice"), () => client.lookup("alice", detached()), () => client.lookup("alice", hex(reply)), () => client.lookup(7, reply), () => client.lookup(null, reply), () => client.lookup("alice", reply, "2"), () => client.lookup("alice", reply, 1.5), () => client.lookup("alice", reply, true), () => client.lookup("alice", reply, NaN),
      () => client.history("alice", [...history]), () => client.watch("alice", "k"), () => client.watch("alice", undefined), () => client.watch(undefined, key), () => client.watch("alice", key, "1"), () => client.expect(undefined, 9), () => client.expect(textBytes("l"), undefined), () => client.expect(textBytes("l"), 9.5),
      () => client.compare(), () => client.compare(null), () => client.compare({}), () => client.compare({ epoch: 1 }), () => client.compare({ epoch: "1", link }), () => client.compare({ epoch: 1, link: hex(link) }), () => client.cover(undefined),
      () => begun({ trust: {} }), () => begun({ trust: 7 }), () => begun({ trust: { ...trust, digest: hex(link) } }), () => begun({ trust: { ...trust, faulty: undefined } }), () => client.mark("0", head), () => client.mark(0, null), () => client.isRelied(null), () => client.isRelied({}), () => client.note("1"), () => client.note(),
      () => client.evidence(), () => client.evidence(hex(entries[0])), () => readPolicy(), () => readPolicy("policy coniks-1\n"),
      () => vouched(entries[0], [{ epoch: 1, link }], 1), () => vouched(entries[0], { a: { epoch: 1, link } }, 1), () => vouched(entries[0], new Map([["a", null]]), 1), () => vouched(entries[0], heads, "1"), () => vouched(entries[0], heads, undefined), () => vouched(null, heads, 1), () => vouched(entries[0], heads, 1, { state }),
    ],
    RangeError: [
      () => begun({ maxAge: -1 }), () => begun({ maxAge: NaN }), () => begun({ skew: Infinity }), () => begun({ skew: 2n ** 64n }), () => client.lookup("\ud800", reply), () => client.watch("a\udc00", key), () => client.lookup("alice", reply, -1), () => client.lookup("alice", reply, 2n ** 64n),
      () => client.compare({ epoch: 1, link: new Uint8Array(31) }), () => client.compare({ epoch: -1, link }), () => client.watch("alice", new Uint8Array(0)), () => client.watch("", key), () => client.watch("a".repeat(256), key), () => client.watch("bob", key), () => client.watch("alice", key, 2),
      () => client.expect(textBytes("l"), 2), () => client.expect(key, 3), () => client.expect(new Uint8Array(0), 3), () => vouched(entries[0], heads, 0), () => vouched(entries[0], heads, 2 ** 32),
      async () => (await make(...keys, { clock })).expect(key, 9), async () => (await begun()).report(),
      () => begun({ trust: { ...trust, auditors: 3 } }), () => begun({ trust: { ...trust, auditors: 0, faulty: 0 } }), () => begun({ trust: { ...trust, digest: new Uint8Array(31) } }), () => begun({ trust: { ...trust, auditors: 2 ** 32 } }), () => client.mark(0, head), () => client.mark(2 ** 32, head), () => client.mark(-1, head), () => client.note(-1), () => client.isRelied({ epoch: -1n }),
    ],
    UnknownEpoch: [() => client.isRelied({ epoch: 9n }), () => client.isRelied({ epoch: 0 })],
    SigningKey: [() => make(new Uint8Array(32), ...keys.slice(1)), () => make(new Uint8Array(31), ...keys.slice(1)), () => make(new Uint8Array(0), ...keys.slice(1))],
    VrfKey: [() => make(keys[0], new Uint8Array(32), policy), () => make(keys[0], new Uint8Array(33), policy)],
    PolicyKeys: [() => make(keys[1], keys[1], policy), () => make(keys[0], keys[0], policy), () => make(keys[0], null, policy)],
    NoReply: [() => client.lookup("alice", new Uint8Array(0))],
    NotVouched: [() => vouched(entries[1], new Map(), 1)],
    AuditorsDiffer: [() => vouched(entries[0], heads, 1)],
  };
  for (const [error, all] of Object.entries(calls)) for (const call of all) await throwing(String(call), call, error);
  same("wrong calls change nothing", client.state, state);
  for (const time of [NaN, -1, Infinity, 2 ** 64, "7", null, undefined, Promise.resolve(7), new Date()]) {
    const wrong = await begun({ clock: () => time });
    await throwing(`the time ${String(time)}`, () => wrong.feed(entries), typeof time === "number" ? "RangeError" : "TypeError");
    same("nothing is fed then", wrong.head(), null);
    const other = await begun({ state, clock: () => time });
    await throwing(`a lookup at ${String(time)}`, () => other.lookup("alice", reply), typeof time === "number" ? "RangeError" : "TypeError");
  }
});

/** Times are compared in whole seconds, also those that are bigints. An age has the fraction of the clock. */
test("seconds with fractions, and bigints", async () => {
  const at = async (now, more) => {
    const client = await begun({ state, clock: () => now, ...more });
    return (await thrown(() => client.lookup("alice", reply))) ?? (await client.lookup("alice", reply)).age;
  };
  const begins = start + 3600;
  same("half a second after maxAge", await at(begins + 60.5, { maxAge: 60 }), 60.5);
  same("a second after it", await at(begins + 61, { maxAge: 60.5 }), "Stale");
  same("2^-20 seconds less", await at(begins + 61 - 2 ** -20, { maxAge: 60.5 }), 61 - 2 ** -20);
  same("at skew", await at(begins - 7, { skew: 7.25 }), -7);
  same("2^-20 seconds before it", await at(begins - 7 - 2 ** -20, { skew: 7.25 }), "Future");
  same("bigints", await at(BigInt(begins + 60), { maxAge: 60n, skew: 0n }), 60);
  same("a greater bigint", await at(BigInt(begins + 61), { maxAge: 60n, skew: 0n }), "Stale");
  same("two periods by default", [await at(begins + 7200, {}), await at(begins + 7201, {})], [7200, "Stale"]);
  same("300 seconds by default", [await at(begins - 300, {}), await at(begins - 301, {})], [-300, "Future"]);
  const plain = await library.client(policy.signingKey, policy.vrfKey, policy.digest, { clock, state });
  same("no clock", (await plain.lookup("alice", reply)).age, null);
  const floored = await begun({ clock: () => begins + 0.75 });
  await floored.feed(entries);
  same("the time of a feed in whole seconds", (await floored.lookup("alice", reply)).firstSeen, begins);
});

/** Epochs that can no longer be verified, by clocks with fractions, and by a bare digest. Their proofs are kept for a day. */
test("epochs that can no longer be verified", async () => {
  const lines = read("cases/client/lost.jsonl").split("\n");
  const given = JSON.parse(lines.find((it) => it.includes('"lost: as its proofs end"')));
  const saved = readPolicy(textBytes(given.policy));
  const keys = [saved.signingKey, saved.vrfKey];
  const end = start + 3600 + 86400;
  let now = start;
  const client = await library.client(...keys, saved, { clock: () => now });
  client.watch("alice", key, 1);
  await client.feed(given.steps[1].entries.map(data));
  const before = client.state;
  const at = (/** @type {any} */ time) => ((now = time), client.lost);
  same("a fraction of a second before its proofs end", at(end - 2 ** -20), []);
  same("as its proofs end", [at(end), at(BigInt(end)), at(end + 0.5)], [[1], [1], [1]]);
  same("a bigint before", at(BigInt(end - 1)), []);
  at(end).push(7n);
  same("what was returned changes nothing", client.lost, [1]);
  for (const time of [-1, NaN, Infinity, 2 ** 64]) await throwing(`a clock that returns ${time}`, () => at(time), "RangeError");
  for (const time of ["1", null, undefined]) await throwing(`a clock that returns ${JSON.stringify(time)}`, () => at(time), "TypeError");
  same("a state has nothing of it", client.state, before);
  const resumed = (/** @type {any} */ by) => library.client(...keys, by, { state: before, clock: () => end });
  same("after a state", (await resumed(saved)).lost, [1]);
  same("never by a digest", (await resumed(saved.digest)).lost, []);
});

/** A chain of `count` epochs under a policy, whose signatures a scheme accepts. @param {any} given @param {number} count */
function chainOf(given, count) {
  const made = [];
  let previousLink = new Uint8Array(32);
  for (let epoch = 1; epoch <= count; epoch++) {
    const body = library.bodyBytes({ version: 1, epoch, previousEpoch: epoch - 1, root: key32, previousLink, nonce: key32, policy: given.digest });
    made.push(Buffer.concat([body, Buffer.alloc(64, 1)]));
    previousLink = library.link(made[epoch - 1]);
  }
  return made;
}

/** Two periods may be 2^64 seconds or more. */
test("long periods", async () => {
  const text = new TextDecoder().decode(policy.document);
  for (const period of [2n ** 63n, 2n ** 64n - 1n]) {
    const long = readPolicy(textBytes(text.replace("epoch-period 3600", `epoch-period ${period}`).replace("epoch-start 1767225600", "epoch-start 0")));
    const client = await library.client(signing, vrf, long, { clock: () => 7 });
    const [entry] = chainOf(long, 1);
    await client.feed([entry]);
    const shown = Buffer.concat([Uint8Array.of(1), entry, Uint8Array.of(0, 0, 9)]);
    await throwing(`no epoch is too old: ${period}`, () => client.lookup("alice", shown), "UnknownKind");
  }
});

/** What claims to be long is refused at once, without room for it. */
test("what claims to be long", async () => {
  const client = await begun({ state });
  const chain = state.subarray(0, 513);
  const before = process.memoryUsage().arrayBuffers;
  const seenAs = (/** @type {string} */ seen) => renewed(state.subarray(0, 472), data(seen), state.subarray(473, -32));
  same("each other number is a state", await thrown(() => begun({ state: seenAs("04") })), null);
  const header = [chain.subarray(0, 33), data("ffffffff"), chain.subarray(37)];
  for (const [what, given] of [
    ["2^32 - 1 epochs", renewed(...header, data("00"))],
    ["a key of 2^32 - 1 bytes", renewed(chain, data("0105616c6963650000000000000001ffffffff"), key)],
    ["2^32 - 1 changes", renewed(chain, data("0105616c6963650000000000000001000000016bffffffff00000000000000020000000000000003000000016e"))],
    ["a new key of 2^32 - 1 bytes", renewed(chain, data("0105616c6963650000000000000001000000016b0000000100000000000000020000000000000003ffffffff"))],
    ["an empty name", renewed(chain, data("010000000000000000010000000000000000"))],
    ["bytes that follow", renewed(chain, data("0000"))],
    ["a watched epoch that is not watched", seenAs("00")],
    ["an unknown number of what was seen", seenAs("02")],
    ["a number of what was seen that is too high", seenAs("06")],
    ["no watch", renewed(chain)],
  ]) await throwing(what, () => begun({ state: given }), "StateForm");
  const long = (size, digits) => Buffer.concat([reply.subarray(0, 210), data(digits), Buffer.alloc(size)]);
  await throwing("a VRF proof of 65,535 bytes that aren't there", () => client.lookup("alice", long(10, "ffff")), "CutInVrf");
  await throwing("a VRF proof of 65,535 bytes", () => client.lookup("alice", long(65535, "ffff")), "VrfProof");
  const [proof, cut] = [reply.subarray(292), reply.subarray(0, 292)];
  await throwing("a key of 2^32 - 1 bytes in a proof", () => client.lookup("alice", Buffer.concat([cut, proof.subarray(0, proof.length - 5), data("ffffffff6b")])), "CutInKey");
  await throwing("65,535 siblings", () => client.lookup("alice", Buffer.concat([cut, data("02ffff")])), "CutInSiblings");
  const step = (digits) => Buffer.concat([history.subarray(0, 83), data(digits)]);
  await throwing("65,535 siblings in a step", () => client.history("alice", step("000000000000000100ffff")), "TooDeep");
  await throwing("a key of 2^32 - 1 bytes in a step", () => client.history("alice", step(`0000000000000001020000${"dd".repeat(32)}0005616c696365ffffffff`)), "CutInStep");
  await throwing("a pair of surrogates is a name", () => client.lookup("\ud83d\ude00", reply), "VrfProof");
  await throwing("a name of 70,000 bytes", () => client.lookup("a".repeat(70000), reply), "VrfProof");
  same("little memory was taken", process.memoryUsage().arrayBuffers - before < 64e6, true);
  const wide = renewed(state.subarray(0, 37), ...Array(2).fill(state.subarray(37, 255)), NOTHING, data("00"));
  await throwing("an entry twice", () => begun({ state: wide }), "StateForm");
});

/** The first of several errors of a state, in the order of docs/STORED.md. */
test("the first of several errors of a state", async () => {
  const [other, version, policyOf] = [data("02"), state.subarray(0, 1), state.subarray(1, 33)];
  const count = data("ffffffff");
  for (const [what, wanted, given] of [
    ["length and version", "StateLength", new Uint8Array(109)],
    ["version and digest", "StateVersion", Buffer.concat([other, state.subarray(1)])],
    ["digest and policy", "StateDamaged", Buffer.concat([version, new Uint8Array(32), state.subarray(33)])],
    ["policy and form", "StatePolicy", renewed(version, new Uint8Array(32), count, NOTHING, data("00"))],
    ["form and chain", "StateForm", renewed(version, policyOf, data("00000001"), new Uint8Array(218), NOTHING, data("03"))],
    ["chain", "StateChain", renewed(version, policyOf, data("00000001"), new Uint8Array(218), NOTHING, data("00"))],
  ]) await throwing(what, () => begun({ state: given }), wanted);
});

/** The first of two errors of a step, in the order of docs/FORMATS.md. The history before it has two steps, and one sibling at last. */
test("the first of two errors of a step", async () => {
  const client = await begun({ state });
  const saved = hex(history.subarray(-32));
  for (const [what, wanted, step] of [
    ["cut and epoch", "CutInStep", "00000000000000020300"],
    ["epoch and kind", "EpochOrder", "0000000000000002040000"],
    ["kind and depth", "UnknownEnd", "0000000000000003040101"],
    ["depth and the map's end", "TooDeep", "0000000000000003030101"],
    ["the map's end and its bits", "CutInStep", "000000000000000303000901"],
    ["spare bits and the siblings' end", "SiblingMap", "0000000000000003030001ff"],
    ["a sibling that is in no step", "SiblingMap", "000000000000000303000200"],
    ["the siblings' end and a repeated one", "CutInStep", `0000000000000003030002c0${saved}`],
    ["a repeated sibling and the end", "SiblingRepeated", `000000000000000302000180${saved}`],
    ["the end's end", "CutInStep", `000000000000000302000100${"dd".repeat(32)}0005616c69636500000001`],
    ["a repeated end", "EndRepeated", `000000000000000302000100${"dd".repeat(32)}0005616c696365000000016b`],
    ["no error of the bytes", "UnknownEpoch", "000000000000000303000100"],
  ]) await throwing(what, () => client.history("alice", Buffer.concat([history, data(step)])), wanted);
});

/** A platform without WebCrypto, or without Ed25519 in it. */
test("platforms without WebCrypto or Ed25519", async () => {
  const real = Object.getOwnPropertyDescriptor(globalThis, "crypto");
  const others = { "no crypto": undefined, "plain http": {}, "no Ed25519": { subtle: { importKey: async () => { throw new DOMException("unknown", "NotSupportedError"); } } } };
  for (const [what, value] of Object.entries(others)) {
    Object.defineProperty(globalThis, "crypto", { value, configurable: true });
    const error = await begun().catch((it) => it);
    const lacks = what === "no Ed25519" ? "Ed25519" : "WebCrypto";
    same(what, [error instanceof Unsupported, error.lacks, error.message.includes("an object with verify")], [true, lacks, true]);
    const objects = await library.client(signing, vrf, policy, { clock });
    same(`${what}, with objects`, (await objects.feed(entries)).length, 2);
  }
  Object.defineProperty(globalThis, "crypto", { value: {}, configurable: true });
  const error = await library.client(signing, policy.vrfKey, policy).catch((it) => it);
  same("a VRF's key alone", [error.lacks, error.message.includes("verify and index")], ["WebCrypto", true]);
  await throwing("a wrong key comes first", () => library.client(new Uint8Array(32), null, policy), "SigningKey");
  Object.defineProperty(globalThis, "crypto", real);
  const none = await library.client(signing, null, policy.digest, { state: null });
  await none.feed(entries);
  await throwing("no VRF", () => none.lookup("alice", reply, 2), "VrfProof");
});

/** The module with a memory of at most so many pages. @param {number} pages */
function limited(pages) {
  const bytes = Uint8Array.from(module);
  const number = (at) => {
    let [value, size] = [0, 0];
    do value |= (bytes[at + size] & 127) << (7 * size); while (bytes[at + size++] & 128);
    return [value, size];
  };
  for (let at = 8; at < bytes.length; ) {
    const [size, digits] = number(at + 1);
    if (bytes[at] === 5) {
      const most = Uint8Array.of((pages & 127) | 128, pages >> 7);
      const least = bytes.subarray(at + 1 + digits + 2, at + 1 + digits + 2 + number(at + 1 + digits + 2)[1]);
      const section = Uint8Array.of(5, 2 + least.length + most.length, 1, 1, ...least, ...most);
      return Buffer.concat([bytes.subarray(0, at), section, bytes.subarray(at + 1 + digits + size)]);
    }
    at += 1 + digits + size;
  }
  throw new Error("the module has no memory");
}

/** A memory that can't grow, and arguments beyond 32 bits: the call throws, and the module goes on. */
test("a memory that can't grow", async () => {
  const small = await Coniks.of(limited(200));
  const proof = reply.slice(292);
  const check = (/** @type {Uint8Array} */ given) => small.check(new Uint8Array(32), new Uint8Array(32), new Uint8Array(32), textBytes("alice"), given).status;
  same("a module whose memory is limited", check(proof), 8);
  await throwing("a proof that has no room", () => check(new Uint8Array(20_000_000)), "RangeError");
  same("the module goes on", check(proof), 8);
  same("a proof that has room", check(new Uint8Array(5_000_000)), 25);
  for (const size of [2 ** 32, 2 ** 40, 2 ** 53]) await throwing(`${size} bytes`, () => small.desk.room(size), "RangeError");
  same("and goes on", check(proof), 8);
  const bounded = await load(limited(200));
  const client = await bounded.client(policy.signingKey, policy.vrfKey, policy, { clock, state });
  await throwing("a reply that has no room", () => client.lookup("alice", Buffer.concat([reply, Buffer.alloc(20_000_000)])), "RangeError");
  same("nothing is kept of it", client.state, state);
  same("the client goes on", (await client.lookup("alice", reply)).key, key);
  // Arrays that grow leave less room behind than they take.
  const long = await bounded.client(signing, vrf, policy, { clock });
  same("many epochs", (await long.feed(chainOf(policy, 4000))).length, 4000);
});

// Replies to the requests of embed/tests/client_sides.py, one on each line, by the client: `node web/client_answers.mjs`.

import { readFileSync } from "node:fs";
import { createInterface } from "node:readline";

import { Refusal, load, readPolicy, readSuccession } from "./out/coniks.js";

const library = await load(readFileSync(new URL("./out/coniks.wasm", import.meta.url)));
const data = (word) => (word === "-" ? null : Uint8Array.from(Buffer.from(word.replace(".", ""), "hex")));
const hex = (bytes) => (bytes === null ? "-" : Buffer.from(bytes).toString("hex") || ".");
const number = (word) => (word === "-" ? null : BigInt(word));
const seconds = (word) => (word === "-" ? undefined : word.includes(".") ? Number(word) : BigInt(word));
const text = (value) => (value === null ? "-" : String(value));
const found = (it) => [it.epoch, hex(it.key), text(it.seen), text(it.age), it.firstSeen].join(" ");
const convicting = (it) => (it === null ? "-" : `${it.kind.replace(" ", "-")} ${hex(it.mine)} ${hex(it.other)}`);
const all = (word, values) => [word, ...values].join(" ");
let [client, now, trust] = [null, 0n, undefined];

/** What both requests that make a client begin with. */
function begun([time, maxAge, skew, signingKey, vrfKey, policy, ...rest]) {
  [client, now] = [null, seconds(time)];
  const options = { maxAge: seconds(maxAge), skew: seconds(skew), clock: () => now, trust };
  trust = undefined;
  return { keys: [data(signingKey), data(vrfKey), readPolicy(data(policy))], options, rest };
}

const headOf = (epoch, link) => ({ epoch: number(epoch), link: data(link) });
const alarmed = () => all("alarms", client.alarms.map((it) => `${it.epoch}:${it.seen}`));
const fed = async (entries) => all("fed", (await client.feed(entries)).map((it) => `${it.epoch}:${text(it.seen)}`));

const answers = {
  async begin(...words) {
    const { keys, options, rest } = begun(words);
    client = await library.client(...keys, { ...options, state: data(rest[0]) });
    return "begun";
  },
  async vouched(...words) {
    const { keys, options, rest } = begun(words);
    const [entry, least, ...heads] = rest;
    const named = new Map(heads.map((it, i) => [`auditor ${i}`, headOf(...it.split(":"))]));
    client = await library.vouched(...keys, data(entry), named, number(least), options);
    return "begun";
  },
  async succeed(maxAge, skew, signingKey, vrfKey, policy, succession, entry) {
    const options = { maxAge: seconds(maxAge), skew: seconds(skew), clock: () => now, trust };
    trust = undefined;
    const succeeded = await client.succeed(readSuccession(data(succession)), readPolicy(data(policy)), data(entry), options);
    client = succeeded.client;
    return all("void", succeeded.void.map((it) => library.body(it).epoch));
  },
  now: (time) => ((now = seconds(time)), "set"),
  trust: (digest, auditors, faulty) => ((trust = { digest: data(digest), auditors: number(auditors), faulty: number(faulty) }), "set"),
  feed: (...entries) => fed(entries.map(data)),
  catchup: (bytes) => fed(data(bytes)),
  lookup: async (name, reply, epoch) => all("found", [found(await client.lookup(data(name), data(reply), number(epoch)))]),
  history: async (name, history) => all("found", (await client.history(data(name), data(history))).map(found)),
  watch: (name, key, since) => (client.watch(data(name), data(key), number(since)), "watching"),
  expect: (key, by) => (client.expect(data(key), number(by)), "expected"),
  missing: () => all("missing", client.missing),
  lost: () => all("lost", client.lost),
  head: () => (client.head() === null ? "head -" : `head ${client.head().epoch} ${hex(client.head().link)}`),
  compare: (epoch, link) => client.compare(headOf(epoch, link)),
  cover: (epoch, link) => client.cover(headOf(epoch, link)),
  evidence: async (entry) => `evidence ${convicting(await client.evidence(data(entry)))}`,
  state: () => `state ${hex(client.state)}`,
  mark: (auditor, epoch, link) => client.mark(number(auditor), headOf(epoch, link)),
  confirmed: () => `confirmed ${text(client.confirmed)}`,
  drop: () => all("dropped", client.drop()),
  alarms: alarmed,
  note: (epoch) => (client.note(number(epoch)), alarmed()),
  report() {
    const { what, first, last } = client.report();
    return `report ${what} ${first} ${last}`;
  },
};

/** The reply for an error. */
function refused(error) {
  if (error instanceof Refusal) return `refused ${error.why} ${text(error.status)} ${convicting(error.evidence)}`;
  if (error instanceof TypeError || error instanceof RangeError) return "misuse";
  throw error;
}

for await (const line of createInterface({ input: process.stdin })) {
  const [word, ...words] = line.split(" ");
  let answer;
  try {
    answer = await answers[word](...words);
  } catch (error) {
    answer = refused(error);
  }
  process.stdout.write(`${answer}\n`);
}

// Measures the steps of a client's lookup, with the reply of cases/client: `node web/measure.mjs [COUNT]`.

import { readFileSync } from "node:fs";

import { load, readPolicy } from "./out/coniks.js";
import { VrfKey, keyPoint } from "./src/ecvrf.js";
import { signaturesOf } from "./src/schemes.js";
import { data, read, textBytes } from "./telling.mjs";

const library = await load(readFileSync(new URL("./out/coniks.wasm", import.meta.url)));
const given = JSON.parse(read("cases/client/replies.jsonl").split("\n").find((it) => it.includes('"reply: a key"')));
const policy = readPolicy(textBytes(given.policy));
const [entries, name, reply] = [given.steps[0].entries.map(data), data(given.steps[1].name), data(given.steps[1].reply)];
const options = { clock: () => given.now };
const count = Number(process.argv[2] ?? 500);

/** Prints the median and the mean of a call's milliseconds. */
async function measure(what, call) {
  for (let i = 0; i < 50; i++) await call();
  const times = [];
  for (let i = 0; i < count; i++) {
    const start = performance.now();
    await call();
    times.push(performance.now() - start);
  }
  times.sort((a, b) => a - b);
  console.log(`${what}: median ${times[count >> 1].toFixed(2)} ms, mean ${(times.reduce((a, b) => a + b) / count).toFixed(2)} ms`);
}

const client = await library.client(policy.signingKey, policy.vrfKey, policy, options);
await client.feed(entries);
const latest = entries[entries.length - 1];
const isSigned = await signaturesOf(policy.signingKey);
const vrf = new VrfKey(policy.vrfKey, keyPoint(policy.vrfKey), crypto.subtle);
const length = new DataView(reply.buffer).getUint16(210);
const proof = reply.slice(212, 212 + length);

await measure("a lookup", () => client.lookup(name, reply));
await measure("a signature", () => isSigned(latest.slice(0, 145), latest.slice(145)));
await measure("a VRF proof", () => vrf.output(name, proof));
await measure("a new client", () => library.client(policy.signingKey, policy.vrfKey, policy, options));
await measure("a client that is fed", async () => (await library.client(policy.signingKey, policy.vrfKey, policy, options)).feed(entries));

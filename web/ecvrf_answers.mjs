// Verifies VRF proofs and signatures, one on each line, for web/page_tests/test_ecvrf.py: `node web/ecvrf_answers.mjs`.
//
// `vrf KEY INPUT PROOF` gives the output or `-`, and `signature KEY MESSAGE SIGNATURE` gives `true` or `false`. Words are
// hexadecimal digits, `.` for no byte. A key that is none gives `no key`.

import { createInterface } from "node:readline";

import { VrfKey, keyPoint } from "./src/ecvrf.js";
import { signaturesOf } from "./src/schemes.js";

const data = (/** @type {string} */ word) => Uint8Array.from(Buffer.from(word.replace(".", ""), "hex"));

const answers = {
  async vrf(key, input, proof) {
    const output = await new VrfKey(key, keyPoint(key), crypto.subtle).output(input, proof);
    return output === null ? "-" : Buffer.from(output).toString("hex");
  },
  signature: async (key, message, signature) => String(await (await signaturesOf(key))(message, signature)),
};

for await (const line of createInterface({ input: process.stdin })) {
  const [word, ...words] = line.split(" ");
  const [key, ...parts] = words.map(data);
  process.stdout.write(`${keyPoint(key) === null ? "no key" : await answers[word](key, ...parts)}\n`);
}

// Replies to the requests of embed/tests/sides.py, one on each line: `node web/answers.mjs`.

import { readFileSync } from "node:fs";
import { createInterface } from "node:readline";

import { load, Refused } from "./out/coniks.js";

const library = await load(readFileSync(new URL("./out/coniks.wasm", import.meta.url)));
const data = (word) => Uint8Array.from(Buffer.from(word.replace("-", ""), "hex"));
const hex = (bytes) => Buffer.from(bytes).toString("hex");
const KINDS = [null, "overlap", "other policy", "malformed"];
let [auditor, monitor] = [library.auditor(), null];

const answers = {
  check(nonce, root, index, name, proof) {
    const key = library.check(data(nonce), data(root), data(index), data(name), data(proof));
    return key === null ? "absent" : `key ${hex(key)}`;
  },
  begin: () => hex((auditor = library.auditor()).state),
  feed: (entry, verdict) => auditor.feed(data(entry), verdict === "1") ?? "follows",
  head: () => (auditor.head ? `${auditor.head.epoch} ${hex(auditor.head.link)}` : "refused 49"),
  resume: () => hex((auditor = library.auditor(auditor.state)).state),
  watch: (name, index) => (monitor = library.monitor(data(name), data(index), null)) && "watched",
  expect: (key) => (monitor.expected = key === "-" ? null : data(key), "expected"),
  step: (entry, verdict, proof) => monitor.step(data(entry), verdict === "1", data(proof)),
  convicts: (a, b) => String(KINDS.indexOf(library.convicts(data(a), data(b)))),
  link: (entry) => hex(library.link(data(entry))),
  body(entry) {
    const it = library.body(data(entry));
    const parts = [it.root, it.previousLink, it.nonce, it.policy, library.bodyBytes(it)].map(hex).join(" ");
    return `${it.version} ${it.epoch} ${it.previousEpoch} ${parts}`;
  },
  text: (number) => library.text(Number(number)),
  version: () => library.version(),
};

for await (const line of createInterface({ input: process.stdin })) {
  const [word, ...words] = line.split(" ");
  try {
    console.log(answers[word](...words));
  } catch (error) {
    if (!(error instanceof Refused)) throw error;
    console.log(`refused ${error.status}`);
  }
}

// Each verdict on a signature or a VRF proof is made in src/verdicts.js, and passed to the core in src/chain.js:
// `node --test web/tests/verdicts.test.mjs`.

import { readdirSync } from "node:fs";
import { test } from "node:test";

import { read, same } from "../telling.mjs";

const sources = new Map(readdirSync(new URL("../src", import.meta.url)).filter((it) => it.endsWith(".js")).map((it) => [it.slice(0, -3), read(`web/src/${it}`)]));
/** The modules that a text is in. @param {RegExp} text */
const having = (text) => [...sources.keys()].filter((it) => text.test(/** @type {string} */ (sources.get(it)))).sort();
/** The modules between the core and a caller. */
const CLIENT = ["chain", "client", "core", "desk"];

test("calls of the core", () => {
  // coniks.js has the quorum of a number of auditors, which no verdict is passed to.
  same("one module calls it", having(/coniks_core_(?!quorum)/), ["core"]);
  same("one module makes a core", having(/new Core\(/), ["chain"]);
});

test("no other verdict", () => {
  const verifying = having(/\bverify\(|signaturesOf\(|indicesOf\(|VrfKey\b|subtle\b/);
  same("no module of the client verifies", CLIENT.filter((it) => verifying.includes(it)), []);
  same("one module calls the schemes of a client", having(/#isSigned\(|#indexOf\(/), ["verdicts"]);
});

test("what is passed", () => {
  // Each call that takes a verdict is given one that was just made.
  const functions = /** @type {string} */ (sources.get("chain")).split(/\n  }\n/);
  const passing = functions.filter((it) => /this\.core\.(feed|start|evidence|lookup|history|read)\(/.test(it));
  same("the calls that take one", passing.length, 6);
  for (const it of passing) {
    const made = [...it.matchAll(/const (isSigned|index|verdicts) = ([^;]*);/g)];
    const [, given] = /** @type {RegExpExecArray} */ (/this\.core\.(?:feed|start|evidence|lookup|history|read)\(([^;]*);/.exec(it));
    const passed = given.match(/\b(isSigned|index|verdicts)\b/g) ?? [];
    same(`what is passed was made: ${given}`, [passed.sort(), passed.length > 0], [made.map(([, name]) => name).sort(), true]);
    for (const [, name, by] of made) same(`${name} is made by ${by}`, /^(await this\.#verifier\.of\w+\([^()]*\)|this\.core\.replyNeeds\(reply\)\.needsSignature \? await this\.#verifier\.ofEntry\(entry\) : false)$/.test(by), true);
  }
});

// The page that follows a service: takes names, and shows what was verified and stored.

import { toHex } from "./bytes.js";
import { Coniks } from "./coniks.js";
import { drawingOf } from "./draw.js";
import { element, hashButton, nameBox } from "./elements.js";
import { Follower, Unusable } from "./following.js";
import { browserStore } from "./keeping.js";
import { epochOf, rootOf } from "./layout.js";
import { unpacked } from "./packed.js";
import { alarmSaying, foundSaying, opinionSaying, sumSaying } from "./sayings.js";
import { counting } from "./words.js";

/** Entries that are shown, the latest first, and milliseconds that a request may take. */
const [SHOWN, LONGEST] = [20, 30_000];

/** @param {string} id @returns {any} */
const part = (id) => document.getElementById(id);

/** @type {Follower} */
let follower;

/**
 * What the service replies. It follows no redirect, and takes at most `most` bytes.
 * @param {string} target @param {number} most
 * @returns {Promise<import("./following.js").Answer>}
 */
async function requested(target, most) {
  try {
    const signal = /** @type {any} */ (AbortSignal).timeout(LONGEST);
    const found = await fetch(target, { redirect: "error", cache: "no-store", credentials: "omit", signal });
    const parts = [];
    let size = 0;
    const reader = /** @type {ReadableStream<Uint8Array>} */ (found.body).getReader();
    for (let next = await reader.read(); !next.done; next = await reader.read()) {
      parts.push(next.value);
      size += next.value.length;
      if (size > most) throw new RangeError(`a reply has more than ${most} bytes`);
    }
    return { status: found.status, body: new Uint8Array(await new Blob(parts).arrayBuffer()) };
  } catch (error) {
    throw new Unusable(`the service gives no reply: ${/** @type {Error} */ (error).message}`);
  }
}

/** @param {bigint | number} seconds @returns {string} */
function timeText(seconds) {
  return new Date(1000 * Number(seconds)).toISOString().replace("T", " ").slice(0, 16);
}

/** @param {any} error @returns {HTMLElement} */
function refused(error) {
  return element("p", "bad", `Not verified: ${error.message}.`, ...(error.why ? [element("small", "marks", ` (${error.why})`)] : []));
}

// What is shown. Each call is made after what it shows was stored.

/** A paragraph, or an item, of what is said. @param {string} tag @param {string} kind  beside its colour @param {import("./sayings.js").Saying} saying */
function paragraph(tag, kind, { colour, words }) {
  return element(tag, [colour, kind].filter(Boolean).join(" "), ...words.map(wordBox));
}

/** @param {import("./sayings.js").Word} word @returns {string | HTMLElement} */
function wordBox(word) {
  if (typeof word === "string") return word;
  if ("name" in word) return nameBox(word.name);
  return "auditor" in word ? element("code", "name", word.auditor) : element("code", "key", word.key);
}

/** @param {{agreement: import("./confirming.js").Agreement, isAlarmed: boolean}} it */
function showOpinions({ agreement, isAlarmed }) {
  const items = agreement.opinions.map((it) => paragraph("li", "", opinionSaying(it, isAlarmed)));
  part("opinions").replaceChildren(paragraph("li", "sum", sumSaying(agreement, isAlarmed)), ...items);
}

/** @param {Awaited<ReturnType<Follower["lookup"]>>} found */
function showFound(found) {
  const { key, path } = found;
  const drawing = drawingOf({ index: path.index, indexIs: "verified", verdict: { key } }, path);
  const details = element("details", "lookup authentic", element("summary", "", "The authentication path"), drawing);
  part("result").replaceChildren(paragraph("p", "found", foundSaying(found)), details);
  showOpinions(found);
}

/** @param {NonNullable<Awaited<ReturnType<Follower["view"]>>>} view */
function showView({ origin, begun, found, entries, count, faulty }) {
  part("origin").textContent = origin;
  part("alarms").replaceChildren(...found.map((it) => {
    const text = element("pre", "", [it.kind, ...it.parts].join("\n"));
    return element("div", "contradiction", paragraph("p", "", alarmSaying(it)), text);
  }));
  part("lying").value = String(faulty);
  part("count").textContent = counting(count, "auditor");
  part("trusting").hidden = count === 0;
  const epochs = entries.map(epochOf);
  const span = epochs.length > 0 ? `, epochs ${epochs[0]} to ${epochs[epochs.length - 1]}` : "";
  part("since").textContent = `Since ${timeText(begun)} (UTC): ${counting(entries.length, "entry", "entries")}${span}. Each is signed, and has the link of the one before.`;
  const items = entries.map((it, i) => element("li", "", `epoch ${epochs[i]}, root `, hashButton(toHex(rootOf(it)), `the root of epoch ${epochs[i]}`)));
  part("entries").replaceChildren(...items.slice(-SHOWN).reverse());
}

/** Shows what is kept, or asks for what is needed to begin. */
async function showSaved() {
  const view = await follower.view();
  for (const id of ["asking", "chain", "stored"]) part(id).hidden = view === null;
  part("begin").hidden = view !== null;
  if (view !== null) showView(view);
}

/** @param {boolean} isBusy */
function setBusy(isBusy) {
  for (const it of document.querySelectorAll("button")) /** @type {HTMLButtonElement} */ (it).disabled = isBusy;
  part("state").textContent = isBusy ? "Asking the service .." : "";
  part("state").dataset.done = String(!isBusy);
}

/** Makes a call, and shows what it returns, or why it does not. @param {() => Promise<void>} call */
async function tried(call) {
  part("shown").hidden = false;
  part("result").replaceChildren();
  part("opinions").replaceChildren();
  setBusy(true);
  try {
    await call();
  } catch (error) {
    part("result").replaceChildren(refused(error));
  }
  try {
    await showSaved();
  } catch (error) {
    // What is stored was changed: it can only be forgotten.
    part("stored").hidden = false;
    part("result").replaceChildren(refused(error));
  }
  setBusy(false);
}

/** @param {string} field @returns {number} how many auditors may lie, as a field says */
function numberIn(field) {
  const text = part(field).value.trim();
  if (!/^[0-9]{1,3}$/.test(text)) throw new RangeError("how many auditors may lie is a number in digits");
  return Number(text);
}

async function trust() {
  await follower.trust(numberIn("lying"));
  showOpinions(await follower.follow());
}

async function start() {
  // A document ends with a line's end, which a copy often lacks.
  const keys = part("auditors").value.split("\n").map((/** @type {string} */ it) => it.trim()).filter(Boolean);
  await follower.begin(`${part("policy").value.trim()}\n`, keys, numberIn("faulty"));
  showOpinions(await follower.follow());
}

async function forget() {
  if (confirm("Forget the chain of this directory, and the evidence against it, if there is any?")) await follower.forget();
}

export async function begin() {
  follower = new Follower(await Coniks.of(await unpacked(part("module").textContent)), browserStore, requested);
  part("start").addEventListener("click", () => tried(start));
  part("look").addEventListener("click", () => tried(async () => showFound(await follower.lookup(part("name").value))));
  part("compare").addEventListener("click", () => tried(async () => showOpinions(await follower.follow())));
  part("trust").addEventListener("click", () => tried(trust));
  part("forget").addEventListener("click", () => tried(forget));
  part("name").addEventListener("keydown", (/** @type {KeyboardEvent} */ it) => {
    if (it.key === "Enter" && !part("look").disabled) part("look").click();
  });
  try {
    const { status } = await requested("/v1/head", 4096);
    if (status !== 200) throw new Unusable("this page is not from a service of a directory: open it there");
  } catch (error) {
    part("shown").hidden = false;
    part("result").replaceChildren(refused(error));
    return setBusy(false);
  }
  await tried(async () => {});
  part("shown").hidden = part("result").childElementCount === 0;
}

// The page: takes lines, has them checked a few at a time, and shows the results.

import { equivocation, twoAnswers } from "./contradictions.js";
import { Coniks } from "./coniks.js";
import { pathOf } from "./draw.js";
import { element, sentence } from "./elements.js";
import { EXAMPLE, FIELDS, NOT_VERIFIED, keysOf } from "./keys.js";
import { linesOf } from "./lines.js";
import { unpacked } from "./packed.js";
import { Reading } from "./reading.js";
import { CLASSES, Teller, counted, kindOf, seenWords } from "./rows.js";
import { counting, keyText, nameNote, nameText } from "./words.js";

/**
 * @typedef {import("./reading.js").Row} Row
 * @typedef {import("./reading.js").LookupRow} LookupRow
 * @typedef {import("./rows.js").Counts} Counts
 * @typedef {import("./keys.js").Field} Field
 */

/** Milliseconds after which the page is drawn again while lines are read, rows that are shown at first, and rows drawn at a time. */
const TURN = 20;
const SHOWN = 200;
const DRAWN = 20;

/** Epochs of a name that are shown at first, names that the menu lists, and contradictions that are shown. */
const EPOCHS = 100;
const NAMES = 500;
const CONTRADICTIONS = 3;

/** With more lines the first lookup isn't unfolded. */
const MANY = 100;

/** A longer text isn't put into the field, which would take longer than checking it. */
const LONG = 200_000;

/** @type {Record<Field, string>} */
const NO_KEYS = { signing: "", vrf: "", key: "" };

/** @param {string} id @returns {any} */
const part = (id) => document.getElementById(id);

/** @type {Coniks} */
let coniks;
/** The texts and files that were given last. @type {(string | Uint8Array)[]} */
let given = [];
/** Counts readings, so that one that was started after another ends that one. */
let turn = 0;
/** The reading that is to stop. */
let cancelled = 0;
/** Whether the keys are those that came with the example. */
let isExample = false;

/** A reading with its number. */
class Work {
  /** @param {Reading} reading @param {number} mine */
  constructor(reading, mine) {
    this.reading = reading;
    this.mine = mine;
    this.last = performance.now();
    this.teller = new Teller(coniks, reading);
  }

  /** Whether another reading took over. */
  get isOver() {
    return this.mine !== turn;
  }

  /** Lets the browser draw and respond, if it has not for a while. @param {number} [done] @returns {Promise<boolean>} whether the work is to stop */
  async pause(done) {
    if (performance.now() - this.last > TURN) {
      if (done !== undefined) part("progress").value = done;
      part("reading").hidden = this.isOver;
      await new Promise((go) => setTimeout(go));
      this.last = performance.now();
    }
    return this.isOver || cancelled === this.mine;
  }
}

/** Waits until the browser has drawn what was added. In a page that isn't shown it does not wait for that. */
function drawn() {
  return new Promise((go) => (document.hidden ? setTimeout(go) : requestAnimationFrame(() => setTimeout(go))));
}

/** @param {Work} work @param {LookupRow} row */
function lookupItem({ reading, teller }, row) {
  const made = element("details", CLASSES[kindOf(row, reading)]);
  const summary = element("summary", "", sentence("verdict", teller.verdict(row)));
  if ("key" in row.verdict) summary.append(" ", element("code", "key", keyText(row.verdict.key, 80)));
  summary.append(element("span", "standing", teller.standing(row)));
  made.append(summary);
  made.addEventListener("toggle", () => {
    if (/** @type {HTMLDetailsElement} */ (made).open && made.childElementCount === 1) made.append(pathOf(row));
  });
  return made;
}

/** @param {Work} work @param {Exclude<Row, LookupRow>} row */
function plainItem({ reading, teller }, row) {
  return element("p", CLASSES[kindOf(row, reading)], sentence(row.what === "entry" ? "entry" : "", teller.plain(row)));
}

/** @param {Work} work @param {number} from @param {number} to */
function drawRows(work, from, to) {
  const items = work.reading.rows.slice(from, to).map((row, i) => {
    const shown = row.what === "lookup" ? lookupItem(work, row) : plainItem(work, row);
    return element("li", "", element("span", "number", `line ${from + i + 1}`), shown);
  });
  part("results").append(...items);
}

/** Shows the next rows, some at a time. @param {Work} work @param {number} from */
async function show(work, from) {
  const { rows } = work.reading;
  const [more, to] = [part("more"), Math.min(from + SHOWN, rows.length)];
  more.hidden = true;
  for (let next = from; next < to; next += DRAWN) {
    drawRows(work, next, Math.min(next + DRAWN, to));
    await drawn();
    if (work.isOver) return;
  }
  more.hidden = rows.length <= to;
  more.onclick = () => show(work, to);
}

/** The epochs of a name, some at a time. @param {Reading} reading @param {string} name */
function showTimeline(reading, name) {
  const [list, later, watched] = [part("timeline"), part("later"), reading.watched(name)];
  let next = watched.next();
  list.replaceChildren(...(next.done ? [element("li", "", "none of its entries is in the pasted chain")] : []));
  later.onclick = () => {
    for (let shown = 0; !next.done && shown < EPOCHS; next = watched.next(), shown++) {
      const it = next.value;
      const epochs = it.seen === "missing" && it.last !== it.epoch ? `epochs ${it.epoch} to ${it.last}` : `epoch ${it.epoch}`;
      list.append(element("li", it.seen, element("span", "epoch", epochs), sentence("", [seenWords(it, reading.keys)])));
    }
    later.hidden = next.done;
  };
  later.onclick();
}

/** A name in the menu, which no other text follows. @param {string} name */
function option(name) {
  const note = nameNote(name);
  return new Option(`\u2066${nameText(name)}\u2069${note ? ` (${note})` : ""}`, name);
}

/** @param {Reading} reading */
function showWatched(reading) {
  const choice = part("watched");
  const names = reading.names();
  part("watch").hidden = names.length === 0;
  choice.replaceChildren(...names.slice(0, NAMES).map(option));
  part("unlisted").textContent = names.length > NAMES ? `The menu has the first ${NAMES} of ${names.length} names.` : "";
  choice.onchange = () => showTimeline(reading, choice.value);
  if (names.length) showTimeline(reading, choice.value);
}

/** @param {Field} field @param {string} words  what is wrong with the key, or why it can't be used */
function tellKey(field, words) {
  part(field).setAttribute("aria-invalid", String(words !== "" && !words.startsWith(NOT_VERIFIED)));
  part(`${field}-note`).textContent = words;
}

/** @returns {string} the kind of keys that is chosen */
function chosen() {
  return /** @type {HTMLInputElement} */ (document.querySelector("input[name=keys]:checked")).value;
}

/** Fills the fields of the keys. @param {string} kind @param {Record<Field, string>} texts */
function setKeys(kind, texts) {
  /** @type {HTMLInputElement} */ (document.querySelector(`input[value=${kind}]`)).checked = true;
  for (const field of FIELDS) part(field).value = texts[field];
  showFields();
}

function showFields() {
  for (const kind of ["provider", "demonstration"]) part(`of-${kind}`).hidden = chosen() !== kind;
}

/** @returns {Record<Field, string>} */
function keyTexts() {
  return /** @type {Record<Field, string>} */ (Object.fromEntries(FIELDS.map((it) => [it, part(it).value.trim()])));
}

/** Reads lines until all are read or reading is cancelled. @param {Work} work */
async function readLines(work) {
  part("progress").max = given.reduce((size, it) => size + it.length, 0);
  for (const line of linesOf(given)) {
    await work.reading.read(line);
    if (await work.pause(line.end)) return;
  }
}

/** Judges the lookups with VRF proofs. @param {Work} work */
async function judgeLookups(work) {
  const { lookups } = work.reading;
  part("progress").max = lookups.length;
  for (const [i, row] of lookups.entries()) {
    await work.reading.judge(row);
    if (await work.pause(i + 1)) return;
  }
}

/** @param {Work} work @returns {Promise<Counts>} */
async function countRows(work) {
  const counts = /** @type {Counts} */ ({});
  const add = (/** @type {string} */ kind) => (counts[kind] = (counts[kind] ?? 0) + 1);
  for (const row of work.reading.rows) {
    add(kindOf(row, work.reading));
    if (row.what === "entry" && row.isSigned !== null) add(row.isSigned ? "signed" : "unsigned");
    if (await work.pause()) break;
  }
  return counts;
}

/** Looks for contradictions, and shows some of each kind. @param {Work} work */
async function showContradictions(work) {
  const { reading } = work;
  const kinds = [() => found(work, reading.signed.evidence(), 1, equivocation), () => found(work, reading.contradictions(), CONTRADICTIONS, (it) => twoAnswers(...it))];
  const shown = [];
  for (const find of kinds) shown.push(...(await find()));
  if (work.isOver) return;
  part("contradictions").replaceChildren(...shown);
  part("contradictions").hidden = shown.length === 0;
}

/**
 * The first of what is found, drawn.
 * @template T
 * @param {Work} work @param {Iterable<T | null>} all @param {number} most @param {(it: T) => HTMLElement} draw
 * @returns {Promise<HTMLElement[]>}
 */
async function found(work, all, most, draw) {
  const shown = [];
  for (const it of all) {
    if (it !== null) shown.push(draw(it));
    if (shown.length === most || (await work.pause())) break;
  }
  return shown;
}

/** Shows nothing of what was given before. */
function clear() {
  for (const id of ["more", "watch", "reading", "contradictions"]) part(id).hidden = true;
  for (const id of ["results", "timeline", "contradictions"]) part(id).replaceChildren();
  part("summary").textContent = "Reading…";
}

/** Reads what is given, and shows it. */
async function readAll() {
  const mine = ++turn;
  clear();
  const { keys, wrong } = await keysOf(coniks, chosen(), keyTexts());
  if (mine !== turn) return;
  for (const field of FIELDS) tellKey(field, wrong[field]);
  part("of-example").hidden = !keys.isExample;
  const work = new Work(new Reading(coniks, keys), mine);
  for (const step of [readLines, judgeLookups, showContradictions, showRows]) {
    await step(work);
    if (work.isOver) return;
  }
  showWatched(work.reading);
  part("summary").dataset.done = String(work.reading.rows.length);
}

/** @param {Work} work */
async function showRows(work) {
  const [counts, { rows, keys }] = [await countRows(work), work.reading];
  if (work.isOver) return;
  part("reading").hidden = true;
  part("folded").textContent = rows.length ? `${counting(rows.length, "line")}: show them, or paste others` : "Paste lines";
  const cut = cancelled === work.mine ? `Cancelled after ${counting(rows.length, "line")}; the rest is not read. ` : "";
  part("summary").textContent = cut + (rows.length ? counted(counts, keys) : "Nothing is pasted.");
  if (counts.unsigned && !counts.signed) tellKey(keys.kind === "provider" ? "signing" : "key", `wrong key: no signature of ${counting(counts.unsigned, "entry", "entries")} is one under it`);
  await show(work, 0);
  const first = /** @type {HTMLDetailsElement | null} */ (document.querySelector("details.lookup"));
  if (!work.isOver && first && rows.length <= MANY) first.open = true;
}

/** The bytes of files, one after another. @param {Iterable<File>} files @returns {Promise<Uint8Array[]>} */
async function contentsOf(files) {
  const all = [];
  for (const file of files) all.push(new Uint8Array(await file.arrayBuffer()));
  return all;
}

/** Whether each line is one of the example. @param {string} text */
function isOfExample(text) {
  const example = new Set((part("tour").textContent ?? "").split("\n"));
  return text.split("\n").every((it) => example.has(it));
}

/** The keys of the example are for its lines alone. */
function dropExampleKeys() {
  if (isExample) setKeys("none", NO_KEYS);
  isExample = false;
}

/** Takes texts or files. Only a short text is put into the field. @param {(string | Uint8Array)[]} parts */
function take(parts) {
  const [text] = parts;
  part("lines").value = typeof text === "string" && text.length <= LONG ? text : "";
  part("pasted").open = false;
  given = parts;
  return readAll();
}

/** Takes the user's lines. @param {(string | Uint8Array)[]} parts */
function takeOwn(parts) {
  dropExampleKeys();
  return take(parts);
}

/** @param {DataTransfer | null} dropped */
async function takeDropped(dropped) {
  const files = [...(dropped?.files ?? [])];
  return takeOwn(files.length ? await contentsOf(files) : [dropped?.getData("text/plain") ?? ""]);
}

/** @param {ClipboardEvent} event */
function takePasted(event) {
  const text = event.clipboardData?.getData("text/plain") ?? "";
  const isShort = text.length <= LONG && /** @type {Element} */ (event.target).closest("input, textarea");
  if (isShort || text === "") return;
  event.preventDefault();
  takeOwn([text]);
}

function listenToLines() {
  const [input, files] = [part("lines"), part("file")];
  let waiting = 0;
  const soon = () => {
    // What is shown is that of the text before.
    turn++;
    clear();
    clearTimeout(waiting);
    waiting = window.setTimeout(readAll, 150);
  };
  input.addEventListener("input", (/** @type {InputEvent} */ event) => {
    given = [input.value];
    part("pasted").open = event.inputType !== "insertFromPaste";
    if (!isOfExample(input.value)) dropExampleKeys();
    soon();
  });
  const keysChanged = () => {
    showFields();
    soon();
  };
  const keyTyped = () => {
    isExample = false;
    keysChanged();
  };
  for (const field of FIELDS) part(field).addEventListener("input", keyTyped);
  part("choice").addEventListener("change", keysChanged);
  files.addEventListener("change", async () => {
    const parts = await contentsOf(files.files);
    // The same file can be opened again.
    files.value = "";
    if (parts.length) await takeOwn(parts);
  });
}

/** @param {string} kind @param {Record<Field, string>} keys */
function takeExample(kind, keys) {
  setKeys(kind, keys);
  isExample = kind === "provider";
  return take([part("tour").textContent ?? ""]);
}

function listen() {
  listenToLines();
  document.addEventListener("paste", takePasted);
  document.addEventListener("dragover", (event) => event.preventDefault());
  document.addEventListener("drop", async (event) => {
    event.preventDefault();
    await takeDropped(event.dataTransfer);
  });
  part("example").addEventListener("click", () => takeExample("provider", EXAMPLE));
  part("unkeyed").addEventListener("click", () => takeExample("none", NO_KEYS));
  part("cancel").addEventListener("click", () => (cancelled = turn));
}

export async function begin() {
  try {
    coniks = await Coniks.of(await unpacked(part("module").textContent));
  } catch (error) {
    part("unsupported").hidden = false;
    part("reason").textContent = String(error);
    return;
  }
  listen();
  await takeExample("provider", EXAMPLE);
}

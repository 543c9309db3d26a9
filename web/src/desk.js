// The memory of a module: at its front what is kept, and after that what one call takes.

/** Most bytes of what is kept and of the arguments of a call, together. The memory has at most 4 GiB. */
const ROOM = 2 ** 32 - 2 ** 24;
const PAGE = 65536;
const WORD = 8;

export class Desk {
  /** @param {WebAssembly.Memory} memory @param {bigint} base */
  constructor(memory, base) {
    this.memory = memory;
    this.base = Number(base);
    this.at = this.base;
  }

  /** Frees what the call before took. */
  clear() {
    this.at = this.base;
  }

  /** Throws a RangeError if the memory can't grow so far. @param {number} size @returns {number} the place of that many free bytes */
  room(size) {
    const [here, end] = [this.at, this.at + 16 * Math.ceil(size / 16)];
    if (end > ROOM) throw new RangeError("the arguments of a call have less than 4 GiB together");
    const missing = end + 16 - this.memory.buffer.byteLength;
    if (missing > 0) this.memory.grow(Math.ceil(missing / PAGE));
    this.at = end;
    return here;
  }

  /** The place of zero bytes that stay. @param {number} size @returns {bigint} */
  keep(size) {
    this.clear();
    const here = this.room(size);
    this.bytes(here, size).fill(0);
    this.base = this.at;
    return BigInt(here);
  }

  /** The place of bytes that stay. @param {Uint8Array} bytes @returns {bigint} */
  store(bytes) {
    return this.write(this.keep(bytes.length), bytes);
  }

  /** @param {Uint8Array} bytes @returns {bigint} */
  put(bytes) {
    return this.write(BigInt(this.room(bytes.length)), bytes);
  }

  /** Puts numbers of 64 bits, the least significant byte first. @param {bigint[]} numbers @returns {bigint} */
  putWords(numbers) {
    return this.writeWords(BigInt(this.room(WORD * numbers.length)), numbers);
  }

  /** Writes to a place, and returns it. @param {bigint} here @param {Uint8Array} bytes @returns {bigint} */
  write(here, bytes) {
    this.bytes(Number(here), bytes.length).set(bytes);
    return here;
  }

  /** @param {bigint} here @param {bigint[]} numbers @returns {bigint} */
  writeWords(here, numbers) {
    const view = new DataView(this.memory.buffer);
    numbers.forEach((it, k) => view.setBigUint64(Number(here) + WORD * k, it, true));
    return here;
  }

  /** The bytes at a place, until the memory grows. @param {number} here @param {number} size @returns {Uint8Array} */
  bytes(here, size) {
    return new Uint8Array(this.memory.buffer, here, size);
  }

  /** @param {bigint} here @param {number} size @returns {Uint8Array} */
  take(here, size) {
    return this.bytes(Number(here), size).slice();
  }

  /** @param {bigint} here @param {number} count @returns {bigint[]} */
  words(here, count) {
    const view = new DataView(this.memory.buffer);
    return Array.from({ length: count }, (_, k) => view.getBigUint64(Number(here) + WORD * k, true));
  }

  /** @param {bigint} here @returns {number} */
  number(here) {
    return Number(this.words(here, 1)[0]);
  }
}

/** An array of a client's struct: its elements have one size, and calls append and drop them. */
export class Rows {
  /** @param {Desk} desk @param {number} size @param {bigint} array  three words: where the elements are, for how many there is room, and how many there are */
  constructor(desk, size, array) {
    this.desk = desk;
    this.size = size;
    this.array = array;
  }

  get place() {
    return this.desk.words(this.array, 1)[0];
  }

  get length() {
    return Number(this.desk.words(this.array, 3)[2]);
  }

  /** Makes room for more elements. The desk is cleared then. @param {number} more */
  reserve(more) {
    const [place, before, length] = this.desk.words(this.array, 3).map(Number);
    const needed = length + more;
    if (needed <= before) return;
    const room = Math.max(needed, 2 * before);
    const grown = this.desk.keep(room * this.size);
    this.desk.write(grown, this.desk.bytes(place, length * this.size));
    this.desk.writeWords(this.array, [grown, BigInt(room)]);
  }

  /** The bytes of an element. @param {number} k @returns {Uint8Array} */
  at(k) {
    return this.desk.bytes(Number(this.place) + this.size * k, this.size);
  }
}

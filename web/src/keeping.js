// What the page keeps in the browser's IndexedDB: one value, which several tabs share.

import { isSame } from "./bytes.js";

const [DATABASE, STORE, KEY] = ["coniks", "kept", "directory"];

/**
 * Where a value is kept. `replace` stores a value, or none, in the place of the one that was read, and returns false if that is no
 * longer there.
 * @typedef {{read: () => Promise<Uint8Array | null>, replace: (before: Uint8Array | null, after: Uint8Array | null) => Promise<boolean>}} Store
 */

/** The result of a request. @param {IDBRequest} request @returns {Promise<any>} */
function resultOf(request) {
  return new Promise((resolve, reject) => {
    request.onsuccess = () => resolve(request.result);
    request.onerror = () => reject(request.error);
  });
}

/** Makes a call with the database, which is opened anew for each: a user may clear it meanwhile. @param {(database: IDBDatabase) => Promise<any>} call */
async function opened(call) {
  const request = indexedDB.open(DATABASE, 1);
  request.onupgradeneeded = () => request.result.createObjectStore(STORE);
  const database = await resultOf(request);
  try {
    return await call(database);
  } finally {
    database.close();
  }
}

/** @param {any} value @returns {Uint8Array | null} */
function bytesIn(value) {
  if (value === undefined) return null;
  return value instanceof Uint8Array ? value : new Uint8Array(0);
}

/** @type {Store} */
export const browserStore = {
  read: () => opened(async (database) => bytesIn(await resultOf(database.transaction(STORE).objectStore(STORE).get(KEY)))),

  replace: (before, after) =>
    opened(async (database) => {
      const transaction = database.transaction(STORE, "readwrite", { durability: "strict" });
      const ended = new Promise((resolve, reject) => {
        transaction.oncomplete = () => resolve(null);
        transaction.onabort = () => reject(transaction.error);
      });
      const store = transaction.objectStore(STORE);
      const present = bytesIn(await resultOf(store.get(KEY)));
      const isThere = before === null || present === null ? before === present : isSame(before, present);
      if (isThere) after === null ? store.delete(KEY) : store.put(after, KEY);
      await ended;
      return isThere;
    }),
};

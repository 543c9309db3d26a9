// Feeds a client the entries that a directory published, looks a name up, and stores the client's state.
import { load, readPolicy, Refusal, type Found, type Library, type Monitor, type Seen } from "./out/coniks.js";

export interface Published {
  policy: Uint8Array;
  catchUp: Uint8Array;
  reply: Uint8Array;
}

export interface Shown {
  /** The name's key, null if it is bound to none. */
  key: Uint8Array | null;
  /** The client's state, for the next time. */
  state: Uint8Array;
}

/** Returns what a reply shows of a name, or why it is refused. `state` is that of the last time, null for a first one. */
export async function lookup(module: BufferSource, published: Published, name: string, state: Uint8Array | null): Promise<Shown | string> {
  const library: Library = await load(module);
  const policy = readPolicy(published.policy);
  try {
    const client = await library.client(policy.signingKey, policy.vrfKey, policy, { state });
    await client.feed(published.catchUp);
    const found: Found = await client.lookup(name, published.reply);
    return { key: found.key, state: client.state };
  } catch (error) {
    if (!(error instanceof Refusal)) throw error;
    const alarm = error.evidence === null ? "" : `, and this convicts the provider: ${error.evidence.kind}`;
    return `refused (${error.why}): ${error.message}${alarm}`;
  }
}

/** Returns what a proof shows at its entry, whose signature `isSigned` verifies, without a client. */
export function step(monitor: Monitor, isSigned: (entry: Uint8Array) => boolean, entry: Uint8Array, proof: Uint8Array): Seen {
  return monitor.step(entry, isSigned(entry), proof);
}

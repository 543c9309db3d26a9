/** Why a proof or an entry isn't accepted: `status` is its number in coniks.h, `message` its text. */
export class Refused extends Error {
  readonly status: number;
}

/** What an accepted proof shows, compared with what the client expects. */
export type Seen = "same" | "absent" | "changed";

export interface Head {
  readonly epoch: bigint;
  readonly link: Uint8Array;
}

/** An entry without its signature. */
export interface Body {
  version: number;
  epoch: bigint;
  previousEpoch: bigint;
  root: Uint8Array;
  previousLink: Uint8Array;
  nonce: Uint8Array;
  policy: Uint8Array;
}

/** Follows a chain of entries. */
export interface Auditor {
  /** All that the auditor keeps, to be stored and handed to another one. */
  readonly state: Uint8Array;
  /** The last entry accepted, null before the first. */
  readonly head: Head | null;
  /** Accepts an entry that follows the last one. Throws `Refused`, and then is unchanged. */
  feed(entry: Uint8Array, signatureIsGood: boolean): void;
}

/** Watches one name over a chain. */
export interface Monitor extends Auditor {
  /** The key that is expected, null if none is. */
  expected: Uint8Array | null;
  /** Returns what the proof shows at the entry's epoch. Throws `Refused`, and then is unchanged. */
  step(entry: Uint8Array, signatureIsGood: boolean, proof: Uint8Array): Seen;
}

/** Different bodies whose intervals (previous epoch, epoch] overlap; different policy digests; an entry that no chain contains. */
export type EvidenceKind = "overlap" | "other policy" | "malformed";

/** What is kept of an entry that convicts its signer: `mine` is one that the client kept, or `other` itself if no chain has it. */
export interface Evidence {
  readonly mine: Uint8Array;
  readonly other: Uint8Array;
  readonly kind: EvidenceKind;
}

/** Why a client refuses something, by the names of docs/FORMATS.md, "Replies to clients". */
export type Cause =
  // formats.toml: causes
  | "TooDeep" | "NameLength" | "KeyLength" | "WrongName" | "OtherIsSame" | "OtherOffPath" | "RootMismatch" | "NoBytes" |
  "UnknownKind" | "CutInCount" | "CutInSiblings" | "CutInOther" | "CutInOpening" | "CutInName" | "CutInKey" | "BytesFollow" |
  "Version" | "VersionBack" | "FirstEpoch" | "NotLater" | "PreviousEpoch" | "PreviousLink" | "NonceChanged" | "Signature" |
  "EntryLength" | "NoReply" | "ReplyVersion" | "CutInEntry" | "CutInVrf" | "CatchUpLength" | "NoHistory" | "HistoryVersion" |
  "CutInStep" | "EpochOrder" | "UnknownEnd" | "SiblingMap" | "SiblingRepeated" | "EndRepeated" | "OtherPolicy" | "Malformed" |
  "Equivocation" | "UnknownEpoch" | "OtherEpoch" | "Stale" | "Future" | "VrfProof" | "SuccessionPolicy" | "SuccessionSignature"
  | "NextPolicy" | "ChainDiffers" | "OtherStart" | "StateLength" | "StateVersion" | "StateDamaged" | "StatePolicy" | "StateForm"
  | "StateChain" | "NotVouched" | "AuditorsDiffer" | "SigningKey" | "VrfKey" | "PolicyKeys";
  // formats.toml: end

/** A client refuses what it was given, and keeps nothing of it. */
export class Refusal extends Error {
  /** The name of docs/FORMATS.md. (`cause` of an Error is another error.) */
  readonly why: Cause;
  /** The number of docs/FORMATS.md. */
  readonly number: number;
  /** The status of coniks.h, where there is one. */
  readonly status: number | null;
  /** What convicts the provider, if something does: publish it. */
  readonly evidence: Evidence | null;
}

/** The platform lacks what a key needs. Pass an object in place of the key. */
export class Unsupported extends Error {
  readonly lacks: "WebCrypto" | "Ed25519";
}

/** What a directory promises for its life. Times are Unix seconds. Made by `readPolicy`. */
export class Policy {
  private constructor();
  /** The name of the directory. */
  readonly origin: string;
  readonly signingKey: Uint8Array;
  /** Null without a VRF. */
  readonly vrfKey: Uint8Array | null;
  /** When epoch 1 begins, null in a directory without a clock. */
  readonly epochStart: bigint | null;
  /** How many seconds an epoch lasts, null in a directory without a clock. */
  readonly epochPeriod: bigint | null;
  /** For how many seconds proofs are kept, null for ever. */
  readonly proofsKept: bigint | null;
  /** Whether the directory promises that each key is a record of its owner (docs/FORMATS.md, "Keys that their owners vouch for"). */
  readonly recordsVouched: boolean;
  /** The public key that signs a succession (Ed25519), which is kept offline, null if the directory has none. */
  readonly successorKey: Uint8Array | null;
  readonly document: Uint8Array;
  /** The policy digest of each body, 32 bytes. */
  readonly digest: Uint8Array;
}

/** Returns the policy of a document (docs/FORMATS.md, "The policy document"). Throws a RangeError for any other bytes. */
export function readPolicy(document: Uint8Array): Policy;

/** What ends the chain of one policy, and names the directory that goes on. Made by `readSuccession`. */
export class Succession {
  private constructor();
  /** The digest of the policy that ends, 32 bytes. */
  readonly policy: Uint8Array;
  /** The last head of its chain. */
  readonly last: Head;
  /** The digest of the policy that goes on, 32 bytes. */
  readonly nextPolicy: Uint8Array;
  /** The first head of its chain that counts. */
  readonly first: Head;
  /** The lines that the signature is over. */
  readonly lines: Uint8Array;
  readonly signature: Uint8Array;
}

/** Returns what a succession says (docs/FORMATS.md, "A succession"). Throws a RangeError for any other bytes. A client verifies it. */
export function readSuccession(text: Uint8Array): Succession;

/** A signature scheme with its public key, in place of an Ed25519 key. */
export interface SignatureScheme {
  /** Whether 64 bytes are a valid signature of 145 bytes. The result, also of a promise, counts only if it is `true` itself. */
  verify(body: Uint8Array, signature: Uint8Array): boolean | Promise<boolean>;
}

/** Where names are stored, in place of a VRF's key. */
export interface IndexScheme {
  /** Whether the proof is one of this name. A directory without a VRF has the proof of no byte. */
  verify(name: Uint8Array, proof: Uint8Array): boolean | Promise<boolean>;
  /** Returns the index of a name, 32 bytes, whose proof was verified. */
  index(name: Uint8Array, proof: Uint8Array): Uint8Array | Promise<Uint8Array>;
}

/** A public key of 32 bytes for Ed25519 (RFC 8032), or an object for another scheme. */
export type SigningKey = Uint8Array | SignatureScheme;

/** A public key of 32 bytes for ECVRF-EDWARDS25519-SHA512-TAI (RFC 9381), or an object; null without a VRF: then nothing can be looked up. */
export type VrfKey = Uint8Array | IndexScheme | null;

export interface ClientOptions {
  /** How many seconds ago the latest epoch may have begun, by default two periods. */
  maxAge?: number | bigint;
  /** In how many seconds the latest epoch may begin, by default 300. */
  skew?: number | bigint;
  /** Returns the Unix time in seconds, by default that of the platform. */
  clock?: () => number | bigint;
  /** Of the trust document: its SHA-256, how many auditors it has, and how many of them may be faulty. Without it no epoch is confirmed. */
  trust?: { digest: Uint8Array; auditors: number | bigint; faulty: number | bigint };
}

/** What an epoch shows of the watched name: the expected key, or none if none is expected; another key; none though one is expected; no reply yet. */
export type Watched = "same" | "changed" | "absent" | "missing";

/** An entry that was accepted. */
export interface Fed {
  readonly epoch: bigint;
  /** "missing" if the epoch must show the watched name, until a reply does; else null. An entry that is signed again has what was seen. */
  readonly seen: Watched | null;
}

/** An epoch of the watched name that was dropped, and not seen as the same. It is "missing" if it was lost. */
export interface Alarm {
  readonly epoch: bigint;
  readonly seen: "changed" | "absent" | "missing";
}

/** What a client reports of the watched name (docs/STORED.md), and the first and the last epoch that it is about: 0n if it is "unwatched". */
export interface Report {
  readonly what: "changed" | "missing" | "lost" | "unwatched" | "unconfirmed" | "good";
  readonly first: bigint;
  readonly last: bigint;
}

/** What an accepted reply shows. It is an object also if the name has no key: look at `key`. */
export interface Found {
  readonly epoch: bigint;
  /** The key, null if the name is bound to none. */
  readonly key: Uint8Array | null;
  /** What that is for the watched name, null for other names and epochs. */
  readonly seen: Watched | null;
  /** How many seconds ago the epoch began by the policy's clock, null without a clock. */
  readonly age: number | null;
  /** The Unix time in seconds at which the client accepted the entry. */
  readonly firstSeen: bigint;
}

/**
 * A client of one directory, which can't forget a step: it verifies signatures, the chain, VRF proofs, paths and the requested epoch.
 * Bytes are copied when a call begins, and what is returned is a copy or frozen. Calls may be under way at once: each checks and
 * keeps in one step, after what it waits for, and sees what others kept until then. So await `feed` before a lookup that needs it.
 * Wrong arguments are a TypeError or a RangeError. A client can't be copied: pass its state on. Times are compared in whole seconds:
 * fractions of the clock's time, of `maxAge` and of `skew` are dropped.
 */
export interface Client {
  /**
   * Accepts entries that continue the chain: a catch-up's bytes, or entries. Throws `Refusal` at the first one that does not, and
   * keeps those before it. An entry whose body is signed again takes the place of the latest one. After `PreviousLink` get the latest
   * entry once more and feed it: it may have been signed again.
   */
  feed(entries: Uint8Array | Iterable<Uint8Array>): Promise<Fed[]>;
  /** Returns what a reply shows of a name, at the requested epoch, or at the latest one. Only a requested epoch may be old. Throws `Refusal`. */
  lookup(name: string | Uint8Array, reply: Uint8Array, epoch?: number | bigint | null): Promise<Found>;
  /**
   * Returns what a history shows of a name, one for each of its epochs. Throws `Refusal`, and then keeps nothing of it. A key
   * that the history sends once is one array.
   */
  history(name: string | Uint8Array, history: Uint8Array): Promise<Found[]>;
  /**
   * Watches the client's own name: each epoch from `since` on, by default the latest, must show the key, or none for null. A client
   * watches one name for its life. The same call once more changes nothing; another one throws a RangeError.
   */
  watch(name: string | Uint8Array, key: Uint8Array | null, since?: number | bigint | null): void;
  /**
   * Expects the owner's own change of the key: later epochs may show the old or the new key, and from epoch `by` on only the new one.
   * Throws a RangeError if no name is watched, and while another change is open.
   */
  expect(key: Uint8Array | null, by: number | bigint): void;
  /** The epochs that must show the watched name, and of which no reply was accepted. */
  readonly missing: bigint[];
  /**
   * The missing epochs of which the policy promises no proof any more, by the client's clock. Report that they can no longer be
   * verified, never that they are the same.
   */
  readonly lost: bigint[];
  /** Returns the head of the latest entry, null before the first. */
  head(): Head | null;
  /** Returns whether a head is one of the chain, as far as its entries are kept. One that differs convicts nobody: fetch its entry. */
  compare(head: Head): "equal" | "unknown" | "differs";
  /**
   * Compares an auditor's head, and drops the entries before it if it is equal: the auditor's chain has them. Epochs that are missing
   * stay, with what follows them, unless they are lost: of these an alarm stays. A client with `trust` only compares, since one auditor
   * confirms nothing: call `mark` and `drop`.
   */
  cover(head: Head): "equal" | "unknown" | "differs";
  /**
   * Compares a head that an auditor cosigned, and remembers its epoch if they are equal. The auditor is the one at this place of the
   * trust document, from 0 on. Verify the cosignature first. Throws a RangeError if there is no such auditor.
   */
  mark(auditor: number | bigint, head: Head): "equal" | "unknown" | "differs";
  /** The latest epoch that a quorum of the auditors confirms, null if there is none. */
  readonly confirmed: bigint | null;
  /** Returns whether a quorum of the auditors confirms the epoch of what was found. Throws `Refusal` if it is not kept any more. */
  isRelied(found: Found): boolean;
  /**
   * Drops the first epochs: those before the confirmed one, and before the first missing one that is not lost. Returns them. Each watched
   * one that was not seen as the same leaves an alarm. No reply for a dropped epoch is accepted: ask for missing ones first.
   */
  drop(): bigint[];
  /** The alarms of dropped epochs, until their owner takes note of them. */
  readonly alarms: Alarm[];
  /** Takes note of the alarms up to an epoch, which the owner has seen: they are dropped. */
  note(epoch: number | bigint): void;
  /** Returns what to report to the owner of the watched name. Throws a RangeError if none is watched. */
  report(): Report;
  /**
   * Returns a client of the directory that a succession of this one's policy names, which watches the same name, and the entries of this
   * one that are void. `policy` is the next policy, and `entry` the first one of its chain that counts. This client stays as it is: if an
   * entry is void, keep one with the succession, and tell the user. A client that has only the digest of its policy knows no successor
   * key. Throws `Refusal`.
   */
  succeed(succession: Succession, policy: Policy, entry: Uint8Array, options?: ClientOptions): Promise<{ readonly client: Client; readonly void: Uint8Array[] }>;
  /** Returns what convicts the provider together with another one's entry, or null. Throws `Refusal` if that isn't signed. */
  evidence(entry: Uint8Array): Promise<Evidence | null>;
  /** The entries that are stored, in the order of the chain. */
  readonly entries: Uint8Array[];
  /**
   * All that the client keeps, to be stored, and given to another one: 110 bytes, 218 for each epoch, 9 for each alarm, 8 for each auditor,
   * and the watched name.
   */
  readonly state: Uint8Array;
}

export interface Library {
  /**
   * Returns a client with the keys and the policy that the directory publishes. A policy that is a digest of 32 bytes has no clock.
   * `state` is what another client had as its `state`. Throws `Refusal` for wrong keys and states, and `Unsupported`.
   */
  client(signingKey: SigningKey, vrfKey: VrfKey, policy: Policy | Uint8Array, options?: ClientOptions & { state?: Uint8Array | null }): Promise<Client>;
  /**
   * Returns a client whose chain begins with an entry that at least so many auditors have. `heads` has the head of each auditor for
   * that entry's epoch, by the auditor's name; get each from the auditor itself. With `trust`, call `mark` with each of them afterwards.
   */
  vouched(
    signingKey: SigningKey, vrfKey: VrfKey, policy: Policy | Uint8Array,
    entry: Uint8Array, heads: Map<string, Head>, least: number | bigint, options?: ClientOptions,
  ): Promise<Client>;
  /** Returns the key that a proof shows, null if it shows that the name is bound to none. Throws `Refused`. */
  check(nonce: Uint8Array, root: Uint8Array, index: Uint8Array, name: string | Uint8Array, proof: Uint8Array): Uint8Array | null;
  /** Returns an auditor that has seen no entry, or one that goes on from a state. */
  auditor(state?: Uint8Array): Auditor;
  monitor(name: string | Uint8Array, index: Uint8Array, expected: Uint8Array | null, state?: Uint8Array): Monitor;
  /** Returns the link of an entry. Throws `Refused`. */
  link(entry: Uint8Array): Uint8Array;
  /** Returns why two entries, whose signatures are verified, are evidence that their signer equivocated; null if they are none. Throws `Refused`. */
  convicts(a: Uint8Array, b: Uint8Array): EvidenceKind | null;
  /** Reads the body of an entry and verifies nothing. Throws `Refused`. */
  body(entry: Uint8Array): Body;
  /** Returns the bytes of a body that are signed. Throws `TypeError` if a number is neither a bigint nor a safe integer. */
  bodyBytes(body: Body): Uint8Array;
  /** Returns the text of an error's status in coniks.h, "" for other numbers. */
  text(status: number): string;
  version(): string;
}

/** Makes the library of the bytes of coniks.wasm. The arguments of a call have less than 4 GiB together; a RangeError says that there is no room. */
export function load(module: BufferSource): Promise<Library>;

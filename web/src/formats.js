// The lengths, numbers and texts of docs/FORMATS.md. Generated from formats.toml by scripts/tables.

export const BODY = 145;
export const ENTRY = 209;
/** The bytes of a reply before its VRF proof. */
export const REPLY_FRONT = 212;
/** The most bytes of a name. */
export const MAX_NAME = 255;

/** The parts of an entry: from which byte to which. @type {Record<string, [number, number]>} */
export const PLACES = {
  version: [0, 1],
  epoch: [1, 9],
  previousEpoch: [9, 17],
  root: [17, 49],
  previousLink: [49, 81],
  nonce: [81, 113],
  policy: [113, 145],
  signature: [145, 209],
};

/** Statuses that are no errors. */
export const GOOD = 0;
export const ABSENT = 1;
export const CHANGED = 9;
export const NO_EVIDENCE = 50;

/** The statuses of a call of the core that its caller must not make. */
export const MISUSED = {
  Name: 130,
  ExpectedKey: 131,
  OtherWatch: 132,
  NotWatching: 133,
  ChangeOpen: 134,
  SameKey: 135,
  NotLater: 136,
  NoRoom: 137,
  NoAuditor: 138,
  NotConfirmed: 139,
  HasEntries: 140,
  NoQuorum: 141,
  ManyHeads: 142,
  NoState: 143,
};

/** The kinds of evidence. */
export const KINDS = new Map([[1, "overlap"], [2, "other policy"], [3, "malformed"]]);

/** The numbers of what is refused. The library has the texts of those below 64. @type {Record<string, [number, string?]>} */
export const CAUSES = {
  TooDeep: [2],
  NameLength: [3],
  KeyLength: [4],
  WrongName: [5],
  OtherIsSame: [6],
  OtherOffPath: [7],
  RootMismatch: [8],
  NoBytes: [17],
  UnknownKind: [18],
  CutInCount: [19],
  CutInSiblings: [20],
  CutInOther: [21],
  CutInOpening: [22],
  CutInName: [23],
  CutInKey: [24],
  BytesFollow: [25],
  Version: [33],
  VersionBack: [34],
  FirstEpoch: [35],
  NotLater: [36],
  PreviousEpoch: [37],
  PreviousLink: [38],
  NonceChanged: [39],
  Signature: [40],
  EntryLength: [48],
  NoReply: [64, "the reply has no byte: ask for the reply again"],
  ReplyVersion: [65, "the reply has another version than 1: take a later version of this client"],
  CutInEntry: [66, "the reply ends before its entry does: ask for the reply again"],
  CutInVrf: [67, "the bytes end before the VRF proof does: ask for the reply again"],
  CatchUpLength: [68, "a catch-up has 209 bytes for each entry: ask for it again"],
  NoHistory: [69, "the history has no byte: ask for it again"],
  HistoryVersion: [70, "the history has another version than 1: take a later version of this client"],
  CutInStep: [71, "the history ends within a step: ask for it again"],
  EpochOrder: [72, "the epochs of a history must rise: ask another service"],
  UnknownEnd: [73, "a step's kind of end is unknown: ask another service"],
  SiblingMap: [74, "a step's map has a spare bit, or lacks a sibling: ask another service"],
  SiblingRepeated: [75, "a step sends a sibling that stays: ask another service"],
  EndRepeated: [76, "a step sends an end that stays: ask another service"],
  OtherPolicy: [80, "the signed entry has another policy digest than the directory's: keep the evidence, and publish it"],
  Malformed: [81, "no chain has the signed entry: keep the evidence, and publish it"],
  Equivocation: [82, "the signed entry and one of the chain convict the provider: keep the evidence, and publish it"],
  UnknownEpoch: [83, "the chain has no entry at this epoch: feed a catch-up first"],
  OtherEpoch: [84, "the reply is of another epoch than the one that was asked for: feed a catch-up, and ask again"],
  Stale: [85, "the latest epoch is too old by the policy's clock: feed a catch-up, or alarm"],
  Future: [86, "the latest epoch has not begun by the policy's clock: see whether the clock is right, or alarm"],
  VrfProof: [87, "the VRF proof is not one of this name: ask for the reply again"],
  SuccessionPolicy: [88, "the succession ends another policy: take the one of this directory"],
  SuccessionSignature: [89, "the policy's successor key did not sign the succession: ask the directory's operator"],
  NextPolicy: [90, "the succession names another policy to go on: take the policy document that it names"],
  ChainDiffers: [91, "the chain has another entry at the succession's last epoch: keep both, and ask auditors for their entry"],
  OtherStart: [92, "the succession names another first entry of the next chain: take the entry that it names"],
  StateLength: [96, "a state has at least 110 bytes: restore the state that was stored last, or start anew with an auditor's head"],
  StateVersion: [97, "the state has another version than 3: take the client that wrote it, or start anew with an auditor's head"],
  StateDamaged: [98, "the state was changed: restore the state that was stored last, or start anew with an auditor's head"],
  StatePolicy: [99, "the state is that of another directory: take the one of this policy"],
  StateForm: [100, "the state is not one of docs/FORMATS.md: restore the state that was stored last, or start anew with an auditor's head"],
  StateChain: [101, "the entries in the state are no chain of this directory: restore the state that was stored last, or start anew with an auditor's head"],
  NotVouched: [104, "too few auditors have this entry: ask more of them, or take an earlier entry"],
  AuditorsDiffer: [105, "an auditor has another link for this epoch: fetch its entry, and compare"],
  SigningKey: [112, "the signing key is no point of prime order: take the one of the policy document"],
  VrfKey: [113, "the VRF's key is no point of prime order: take the one of the policy document"],
  PolicyKeys: [114, "the keys are not those of the policy: take both from its document"],
};

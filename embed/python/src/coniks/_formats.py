"""The lengths, numbers and texts of docs/FORMATS.md. Generated from formats.toml by scripts/tables."""

from __future__ import annotations

import enum

BODY_LENGTH = 145
ENTRY_LENGTH = 209
SIGNATURE_LENGTH = 64

# The parts of an entry.
VERSION = slice(0, 1)
EPOCH = slice(1, 9)
PREVIOUS_EPOCH = slice(9, 17)
ROOT = slice(17, 49)
PREVIOUS_LINK = slice(49, 81)
NONCE = slice(81, 113)
POLICY = slice(113, 145)
SIGNATURE = slice(145, 209)

# The bytes of a reply before its VRF proof.
REPLY_FRONT = 212

# The most bytes of a name; at least 1.
MAX_NAME = 255
# The most bytes of a key; at least 1.
MAX_KEY = 16384
# The most siblings of a proof.
MAX_SIBLINGS = 256

# Statuses that are no errors.
GOOD = 0
ABSENT = 1
CHANGED = 9
NO_EVIDENCE = 50


class Status(enum.IntEnum):
    """Why a proof or an entry is refused, by the numbers of coniks.h."""

    TOO_DEEP = 2
    NAME_LENGTH = 3
    KEY_LENGTH = 4
    WRONG_NAME = 5
    OTHER_IS_SAME = 6
    OTHER_OFF_PATH = 7
    ROOT_MISMATCH = 8
    NO_BYTES = 17
    UNKNOWN_KIND = 18
    CUT_IN_COUNT = 19
    CUT_IN_SIBLINGS = 20
    CUT_IN_OTHER = 21
    CUT_IN_OPENING = 22
    CUT_IN_NAME = 23
    CUT_IN_KEY = 24
    BYTES_FOLLOW = 25
    VERSION_UNKNOWN = 33
    VERSION_BACK = 34
    FIRST_EPOCH = 35
    NOT_LATER = 36
    PREVIOUS_EPOCH = 37
    PREVIOUS_LINK = 38
    NONCE_CHANGED = 39
    SIGNATURE = 40
    ENTRY_LENGTH = 48
    NO_ENTRY = 49


class EvidenceKind(enum.IntEnum):
    """Why two entries, signed with one key, are evidence that its owner equivocated, by the numbers of coniks.h. Bodies overlap if
    they differ and their intervals (previous epoch, epoch] do."""

    OVERLAP = 1
    OTHER_POLICY = 2
    MALFORMED = 3


class Cause(enum.IntEnum):
    """Why a client refuses something. The causes up to 48 have the names and the numbers of `coniks.Status`."""

    TOO_DEEP = 2
    NAME_LENGTH = 3
    KEY_LENGTH = 4
    WRONG_NAME = 5
    OTHER_IS_SAME = 6
    OTHER_OFF_PATH = 7
    ROOT_MISMATCH = 8
    NO_BYTES = 17
    UNKNOWN_KIND = 18
    CUT_IN_COUNT = 19
    CUT_IN_SIBLINGS = 20
    CUT_IN_OTHER = 21
    CUT_IN_OPENING = 22
    CUT_IN_NAME = 23
    CUT_IN_KEY = 24
    BYTES_FOLLOW = 25
    VERSION_UNKNOWN = 33
    VERSION_BACK = 34
    FIRST_EPOCH = 35
    NOT_LATER = 36
    PREVIOUS_EPOCH = 37
    PREVIOUS_LINK = 38
    NONCE_CHANGED = 39
    SIGNATURE = 40
    ENTRY_LENGTH = 48
    NO_REPLY = 64
    REPLY_VERSION = 65
    CUT_IN_ENTRY = 66
    CUT_IN_VRF = 67
    CATCH_UP_LENGTH = 68
    NO_HISTORY = 69
    HISTORY_VERSION = 70
    CUT_IN_STEP = 71
    EPOCH_ORDER = 72
    UNKNOWN_END = 73
    SIBLING_MAP = 74
    SIBLING_REPEATED = 75
    END_REPEATED = 76
    OTHER_POLICY = 80
    MALFORMED = 81
    EQUIVOCATION = 82
    UNKNOWN_EPOCH = 83
    OTHER_EPOCH = 84
    STALE = 85
    FUTURE = 86
    VRF_PROOF = 87
    SUCCESSION_POLICY = 88
    SUCCESSION_SIGNATURE = 89
    NEXT_POLICY = 90
    CHAIN_DIFFERS = 91
    OTHER_START = 92
    STATE_LENGTH = 96
    STATE_VERSION = 97
    STATE_DAMAGED = 98
    STATE_POLICY = 99
    STATE_FORM = 100
    STATE_CHAIN = 101
    NOT_VOUCHED = 104
    AUDITORS_DIFFER = 105
    SIGNING_KEY = 112
    VRF_KEY = 113
    POLICY_KEYS = 114


class Misuse(enum.IntEnum):
    """The statuses of a call of the core that the caller must not make."""

    NAME = 130
    EXPECTED_KEY = 131
    OTHER_WATCH = 132
    NOT_WATCHING = 133
    CHANGE_OPEN = 134
    SAME_KEY = 135
    NOT_LATER = 136
    NO_ROOM = 137
    NO_AUDITOR = 138
    NOT_CONFIRMED = 139
    HAS_ENTRIES = 140
    NO_QUORUM = 141
    MANY_HEADS = 142
    NO_STATE = 143


class GuardRefusal(enum.IntEnum):
    """Why a step of a guard is refused, by the numbers of coniks_guard.h."""

    MALFORMED = 112
    NOTHING_RECORDED = 113
    BEGINS_UNASKED = 114
    BEGINS_AGAIN = 115
    OTHER_POLICY = 116
    LOG_BEHIND = 117
    RECORD_BEHIND = 118
    OTHER_LINK = 119
    VERSION_BACK = 120
    NONCE_CHANGED = 121
    OTHER_OPEN = 122
    NOT_ASKED = 123
    MAY_BE_SIGNED = 124
    RECORD_OLD = 125
    OTHER_BODIES = 126
    NO_ENTRY = 127
    NO_ROOM = 137


# The texts of those causes for which the library has none.
TEXTS = {
    Cause.NO_REPLY: "the reply has no byte: ask for the reply again",
    Cause.REPLY_VERSION: "the reply has another version than 1: take a later version of this client",
    Cause.CUT_IN_ENTRY: "the reply ends before its entry does: ask for the reply again",
    Cause.CUT_IN_VRF: "the bytes end before the VRF proof does: ask for the reply again",
    Cause.CATCH_UP_LENGTH: "a catch-up has 209 bytes for each entry: ask for it again",
    Cause.NO_HISTORY: "the history has no byte: ask for it again",
    Cause.HISTORY_VERSION: "the history has another version than 1: take a later version of this client",
    Cause.CUT_IN_STEP: "the history ends within a step: ask for it again",
    Cause.EPOCH_ORDER: "the epochs of a history must rise: ask another service",
    Cause.UNKNOWN_END: "a step's kind of end is unknown: ask another service",
    Cause.SIBLING_MAP: "a step's map has a spare bit, or lacks a sibling: ask another service",
    Cause.SIBLING_REPEATED: "a step sends a sibling that stays: ask another service",
    Cause.END_REPEATED: "a step sends an end that stays: ask another service",
    Cause.OTHER_POLICY: "the signed entry has another policy digest than the directory's: keep the evidence, and publish it",
    Cause.MALFORMED: "no chain has the signed entry: keep the evidence, and publish it",
    Cause.EQUIVOCATION: "the signed entry and one of the chain convict the provider: keep the evidence, and publish it",
    Cause.UNKNOWN_EPOCH: "the chain has no entry at this epoch: feed a catch-up first",
    Cause.OTHER_EPOCH: "the reply is of another epoch than the one that was asked for: feed a catch-up, and ask again",
    Cause.STALE: "the latest epoch is too old by the policy's clock: feed a catch-up, or alarm",
    Cause.FUTURE: "the latest epoch has not begun by the policy's clock: see whether the clock is right, or alarm",
    Cause.VRF_PROOF: "the VRF proof is not one of this name: ask for the reply again",
    Cause.SUCCESSION_POLICY: "the succession ends another policy: take the one of this directory",
    Cause.SUCCESSION_SIGNATURE: "the policy's successor key did not sign the succession: ask the directory's operator",
    Cause.NEXT_POLICY: "the succession names another policy to go on: take the policy document that it names",
    Cause.CHAIN_DIFFERS: "the chain has another entry at the succession's last epoch: keep both, and ask auditors for their entry",
    Cause.OTHER_START: "the succession names another first entry of the next chain: take the entry that it names",
    Cause.STATE_LENGTH: "a state has at least 110 bytes: restore the state that was stored last, or start anew with an auditor's head",
    Cause.STATE_VERSION: "the state has another version than 3: take the client that wrote it, or start anew with an auditor's head",
    Cause.STATE_DAMAGED: "the state was changed: restore the state that was stored last, or start anew with an auditor's head",
    Cause.STATE_POLICY: "the state is that of another directory: take the one of this policy",
    Cause.STATE_FORM: "the state is not one of docs/FORMATS.md: restore the state that was stored last, or start anew with an auditor's head",
    Cause.STATE_CHAIN: "the entries in the state are no chain of this directory: restore the state that was stored last, or start anew with an auditor's head",
    Cause.NOT_VOUCHED: "too few auditors have this entry: ask more of them, or take an earlier entry",
    Cause.AUDITORS_DIFFER: "an auditor has another link for this epoch: fetch its entry, and compare",
    Cause.SIGNING_KEY: "the signing key is no point of prime order: take the one of the policy document",
    Cause.VRF_KEY: "the VRF's key is no point of prime order: take the one of the policy document",
    Cause.POLICY_KEYS: "the keys are not those of the policy: take both from its document",
}

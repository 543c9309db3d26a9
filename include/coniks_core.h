/*
 * The core of a client of a key directory: its chain, its lookups and its own name, over memory of the caller. docs/FORMATS.md, "Replies to
 * clients", defines what each call accepts. What is stated about proofs, memory, stack, threads and pointers in coniks.h holds here too.
 *
 * A client is a struct coniks_core: its rules, the watched name, and arrays of stored epochs, from the oldest to the latest one, of the
 * changes of the key that the owner made, of alarms, and of a mark for each auditor that it names. The caller has the memory, the clock and
 * the cryptography. It verifies signatures and VRF proofs with its own library, and passes the verdicts: 1 if valid, anything else if not.
 * All bytes 0 but the rules and the arrays' places and rooms is a client that has seen nothing.
 *
 * A lookup has two phases. coniks_core_reply_needs says what of the reply has to be verified. coniks_core_lookup takes the verdicts:
 *
 *     coniks_needs needs;
 *     status = coniks_core_reply_needs(&core, reply, reply_length, &needs);
 *     if (status != CONIKS_GOOD) return status;
 *     coniks_verdicts verdicts = {0};
 *     if (needs.signature) verdicts.signature = my_verify(reply + needs.entry_start);
 *     verdicts.index = my_vrf(name, name_length, reply + needs.vrf_start, needs.vrf_length, &verdicts.at);
 *     coniks_asking asking = {name, name_length, reply, reply_length, 0, 0, my_time()};
 *     status = coniks_core_lookup(&core, &asking, &verdicts, &found, &why);
 *
 * `found` is what the reply shows; of a watched name it says also whether that is what the owner expects. After an error nothing is
 * written but `why`. Arrays may not overlap. Anyone who can change what a client keeps decides what it accepts next.
 *
 * The caller verifies an auditor's cosignature of a head with its own library, and passes the head to coniks_core_mark. 3 says that the
 * auditor has another chain: get its entry, and call coniks_core_evidence. What was found is relied on once a quorum of auditors confirms
 * its epoch:
 *
 *     core.rules.quorum = coniks_core_quorum(auditors, faulty);
 *     if (coniks_core_mark(&core, place, epoch, &link) == 3) return my_alarm(place);
 *     if (coniks_core_relied(&core, found.place) != CONIKS_GOOD) return my_wait(found.place);
 *     status = coniks_core_report(&core, my_time(), &report);
 *
 * coniks_core_cover drops old epochs. Each watched one that was not the same leaves an alarm, which is reported until the owner takes note
 * of it: then call coniks_core_note.
 *
 * A history and a state have two phases too. A state gives nothing to the client before its signatures are verified:
 *
 *     coniks_state_needs needs;
 *     status = coniks_core_state_needs(&core, state, state_length, &needs);
 *     if (status != CONIKS_GOOD) return status;
 *     for (k = 0; k < needs.stored; k++) verdicts[k] = my_verify(state + needs.entry_start + k * needs.entry_step);
 *     status = coniks_core_state_read(&core, state, state_length, verdicts, needs.stored);
 */
#ifndef CONIKS_CORE_H
#define CONIKS_CORE_H

#include "coniks.h"

#ifdef __cplusplus
extern "C" {
#endif

/* Why the core refuses something, beside the statuses of coniks.h. docs/FORMATS.md and docs/STORED.md have those below 128. */
enum coniks_core_status {
    /* A history with a step of more than 256 siblings is CONIKS_E_TOO_DEEP. */

    /* formats.toml: statuses */
    /* the bytes are no reply, no catch-up or no history */
    CONIKS_CORE_E_NO_REPLY = 64,         /* the reply has no byte */
    CONIKS_CORE_E_REPLY_VERSION = 65,    /* the reply's first byte is not 1 */
    CONIKS_CORE_E_CUT_IN_ENTRY = 66,     /* the reply ends before its entry does */
    CONIKS_CORE_E_CUT_IN_VRF = 67,       /* the reply or the history ends within the VRF proof or its length */
    CONIKS_CORE_E_CATCH_UP_LENGTH = 68,  /* the number of a catch-up's bytes is not a multiple of 209 */
    CONIKS_CORE_E_NO_HISTORY = 69,       /* the history has no byte */
    CONIKS_CORE_E_HISTORY_VERSION = 70,  /* the history's first byte is not 1 */
    CONIKS_CORE_E_CUT_IN_STEP = 71,      /* the history ends within a step */
    CONIKS_CORE_E_EPOCH_ORDER = 72,      /* a step's epoch is not greater than the one before */
    CONIKS_CORE_E_UNKNOWN_END = 73,      /* the kind of a step's end is greater than 3, or 3 in the first step */
    CONIKS_CORE_E_SIBLING_MAP = 74,      /* a map has a spare bit, or a sibling is neither sent nor in the step before */
    CONIKS_CORE_E_SIBLING_REPEATED = 75, /* a sibling is sent that equals the one in its place of the step before */
    CONIKS_CORE_E_END_REPEATED = 76,     /* an end is sent that equals the one of the step before */

    /* the reply or the entry is not one that the client can accept */
    CONIKS_CORE_E_OTHER_POLICY = 80,  /* the signed entry has another policy digest than the directory's */
    CONIKS_CORE_E_MALFORMED = 81,     /* no chain has the signed entry */
    CONIKS_CORE_E_EQUIVOCATION = 82,  /* the signed entry and a stored one are evidence */
    CONIKS_CORE_E_UNKNOWN_EPOCH = 83, /* the chain has no entry at this epoch */
    CONIKS_CORE_E_OTHER_EPOCH = 84,   /* the reply's body is not that of the client's entry at the requested epoch */
    CONIKS_CORE_E_STALE = 85,         /* the latest epoch began too long ago */
    CONIKS_CORE_E_FUTURE = 86,        /* the latest epoch begins too far in the future */
    CONIKS_CORE_E_VRF_PROOF = 87,     /* the VRF proof is not one of this name */

    /* a client does not go on by this succession */
    CONIKS_CORE_E_SUCCESSION_POLICY = 88,    /* the succession ends another policy */
    CONIKS_CORE_E_SUCCESSION_SIGNATURE = 89, /* the signature of the succession is not valid, or the policy has no such key */
    CONIKS_CORE_E_NEXT_POLICY = 90,          /* the succession names another policy to go on */
    CONIKS_CORE_E_CHAIN_DIFFERS = 91,        /* another stored entry covers the last epoch */
    CONIKS_CORE_E_OTHER_START = 92,          /* the succession names another first entry of the next chain */

    /* the state is not one of this directory */
    CONIKS_CORE_E_STATE_LENGTH = 96,  /* the state has fewer than 110 bytes */
    CONIKS_CORE_E_STATE_VERSION = 97, /* the state's first byte is not 3 */
    CONIKS_CORE_E_STATE_DAMAGED = 98, /* the state's digest is not that of the bytes before it */
    CONIKS_CORE_E_STATE_POLICY = 99,  /* the state's policy digest is not that of the client */
    CONIKS_CORE_E_STATE_FORM = 100,   /* a part of the state has a form that no state has, or bytes follow */
    CONIKS_CORE_E_STATE_CHAIN = 101,  /* the entries in the state are no chain of this directory */

    /* a client can't begin with this entry */
    CONIKS_CORE_E_NOT_VOUCHED = 104,     /* fewer auditors than a quorum have the entry's head */
    CONIKS_CORE_E_AUDITORS_DIFFER = 105, /* an auditor has another link for the entry's epoch */

    /* a call that the caller must not make */
    CONIKS_CORE_E_NAME = 130,          /* a watched name has no byte, or more than 255 */
    CONIKS_CORE_E_EXPECTED_KEY = 131,  /* an expected key has 2^32 bytes or more */
    CONIKS_CORE_E_OTHER_WATCH = 132,   /* another name, another key, or from another epoch on is watched */
    CONIKS_CORE_E_NOT_WATCHING = 133,  /* no name is watched */
    CONIKS_CORE_E_CHANGE_OPEN = 134,   /* another change of the key is open */
    CONIKS_CORE_E_SAME_KEY = 135,      /* the new key is the one that is expected already */
    CONIKS_CORE_E_NOT_LATER = 136,     /* the epoch by which the new key is expected is not after the latest one */
    CONIKS_CORE_E_NO_ROOM = 137,       /* the caller's memory has no room for what is written */
    CONIKS_CORE_E_NO_AUDITOR = 138,    /* there is no mark at the place */
    CONIKS_CORE_E_NOT_CONFIRMED = 139, /* no quorum of auditors confirms an epoch, or this one */
    CONIKS_CORE_E_HAS_ENTRIES = 140,   /* the client that starts has an entry already */
    CONIKS_CORE_E_NO_QUORUM = 141,     /* the quorum is 0 */
    CONIKS_CORE_E_MANY_HEADS = 142,    /* there are more than 64 heads */
    CONIKS_CORE_E_NO_STATE = 143       /* a state has no room for the client: see coniks_core_state_size */
    /* formats.toml: end */
};

/* A stored epoch: 218 bytes, as a client's state has them. Seen: 0 not watched, 1 the same, 3 another key, 4 no key, 5 missing. */
typedef struct coniks_stored_entry {
    uint8_t entry[209];
    uint8_t first_seen[8]; /* Unix time in seconds, big-endian */
    uint8_t seen;
} coniks_stored_entry;

/* A change of the watched key: epochs up to `last_old` show the key before it, those from `first_new` on the new one. The caller keeps
 * the key's bytes; no byte is no key. */
typedef struct coniks_change {
    uint64_t last_old;
    uint64_t first_new;
    const uint8_t *key;
    size_t key_length;
} coniks_change;

/* A dropped watched epoch that was not the same. Seen: 3 another key, 4 no key, 5 it was missing, and lost. */
typedef struct coniks_alarm {
    uint64_t epoch;
    uint8_t seen;
} coniks_alarm;

/* The watched name, and the key before the first change. The caller keeps the bytes; all bytes 0 watches no name. */
typedef struct coniks_watch {
    uint32_t is_watched; /* 1 if a name is watched; else nothing more is read */
    const uint8_t *name;
    size_t name_length;
    uint64_t since; /* the first watched epoch */
    const uint8_t *key;
    size_t key_length;
} coniks_watch;

/* The policy's clock and the client's limits, in seconds. */
typedef struct coniks_clock {
    uint32_t is_there; /* 1 if the policy has a clock; else no epoch is stale or in the future */
    uint64_t start;    /* at which epoch 1 begins, in Unix time */
    uint64_t period;   /* of an epoch */
    uint64_t max_age;  /* how long ago the latest epoch may have begun; two periods by default */
    uint64_t skew;     /* how far from now it may begin; 300 by default */
} coniks_clock;

/* How long the policy promises proofs of a past epoch. All bytes 0 is forever. */
typedef struct coniks_promise {
    uint32_t is_limited; /* 1 if for `seconds` after the next stored epoch begins; else forever */
    uint64_t seconds;
} coniks_promise;

/* What the policy and the trust document of a client fix. */
typedef struct coniks_rules {
    coniks_bytes32 policy; /* the SHA-256 of the policy */
    coniks_bytes32 trust;  /* that of the trust document; all bytes 0 without one */
    coniks_clock clock;
    coniks_promise promise;
    size_t quorum; /* of the auditors, as coniks_core_quorum returns it. 0 confirms nothing */
} coniks_rules;

/* The stored epochs: the first `count` of `items`, which has room for `room`. So it is for the other arrays. */
typedef struct coniks_stored {
    coniks_stored_entry *items;
    size_t room;
    size_t count;
} coniks_stored;

typedef struct coniks_changes {
    coniks_change *items;
    size_t room;
    size_t count;
} coniks_changes;

typedef struct coniks_alarms {
    coniks_alarm *items;
    size_t room;
    size_t count;
} coniks_alarms;

/* A client. If a count is greater than its room, coniks_core_mark and the calls that take a `const coniks_core *` read as many items as there
 * is room for. A lookup, a history and coniks_core_watch return CONIKS_CORE_E_NO_ROOM then, and so do coniks_core_feed, coniks_core_expect,
 * coniks_core_cover and coniks_core_note for an array that they change. */
typedef struct coniks_core {
    coniks_rules rules;
    coniks_watch watch;
    coniks_stored stored;
    coniks_changes changes;
    coniks_alarms alarms;
    uint64_t *marks; /* one for each auditor, in the order of the trust document: all 0 at the beginning */
    size_t mark_count;
} coniks_core;

/* An entry that the client received. */
typedef struct coniks_received {
    const uint8_t *entry;
    size_t entry_length;
    uint32_t signature; /* the verdict on its signature */
    uint64_t time;      /* when it was received, in Unix time */
} coniks_received;

/* A name that is looked up, and the reply. */
typedef struct coniks_asking {
    const uint8_t *name;
    size_t name_length;
    const uint8_t *reply;
    size_t reply_length;
    uint32_t is_requested; /* 1 if `epoch` is requested; else the latest one */
    uint64_t epoch;
    uint64_t time; /* when the reply was received, in Unix time */
} coniks_asking;

/* What the caller verified: 1 for what is valid. A verdict that is left out is 0. */
typedef struct coniks_verdicts {
    uint32_t signature; /* of the reply's entry; not read if the client keeps its bytes */
    uint32_t index;     /* the VRF proof is one of the name */
    coniks_bytes32 at;  /* the index that it gives */
} coniks_verdicts;

/* What of a reply has to be verified, as parts of it. */
typedef struct coniks_needs {
    uint32_t signature; /* 1 if that of the entry has to be, 0 if the client keeps its bytes */
    size_t entry_start; /* the 209 bytes of the entry */
    size_t vrf_start;
    size_t vrf_length;
} coniks_needs;

/* What an accepted reply shows. */
typedef struct coniks_found {
    size_t place;     /* of its epoch among the stored ones */
    uint32_t shows;   /* 1 a key, 2 none */
    uint32_t seen;    /* the number that the epoch has now, if the name is watched there, else 0 */
    size_t key_start; /* the key is this part of the reply */
    size_t key_length;
} coniks_found;

/* More on a refused entry: the evidence, if there is one. */
typedef struct coniks_why {
    uint32_t status; /* why an entry that convicts does not follow, 33 to 39, else 0 */
    uint32_t kind;   /* one of `enum coniks_evidence`, 0 if there is none */
    size_t mine;     /* the place of the stored entry that convicts with it; SIZE_MAX if it convicts alone. With
                        CONIKS_CORE_E_AUDITORS_DIFFER the place of the first auditor that differs, and `kind` is 0 */
} coniks_why;

/* The head that an auditor cosigned. */
typedef struct coniks_head {
    uint32_t is_there; /* 1 if the client has a head of this auditor; else nothing more is read */
    uint64_t epoch;
    coniks_bytes32 link;
} coniks_head;

/* What the client reports of the watched name: the first of these that applies. */
enum coniks_report_verdict {
    CONIKS_REPORT_CHANGED =
        1, /* `from` shows another key, or no key: the epoch of the first such alarm, else the first stored one */
    CONIKS_REPORT_MISSING = 2, /* the stored epoch `from` is missing, and not lost; it is the first such one */
    CONIKS_REPORT_LOST =
        3, /* `from` is lost: the policy promises no proof of it any more; of the first such alarm, else kept */
    CONIKS_REPORT_UNWATCHED = 4,   /* no stored epoch is watched; here and below there is no alarm */
    CONIKS_REPORT_UNCONFIRMED = 5, /* each epoch shows the expected key, but no quorum confirms the latest one */
    CONIKS_REPORT_GOOD = 6         /* each epoch shows the expected key, and a quorum confirms all of them */
};

typedef struct coniks_report {
    uint32_t verdict; /* one of `enum coniks_report_verdict` */
    uint64_t from;    /* the epochs that it is about; both are equal for 1 to 3, and 0 for 4 */
    uint64_t to;
} coniks_report;

/* What coniks_core_cover dropped. */
typedef struct coniks_covered {
    size_t epochs; /* how many stored epochs */
    uint64_t from; /* the first and the last of them; 0 if there is none */
    uint64_t to;
    size_t changes; /* how many changes of the watched key */
    size_t alarms;  /* how many alarms the dropped epochs left */
} coniks_covered;

/* A name that is looked up at several epochs, and the history. */
typedef struct coniks_history {
    const uint8_t *name;
    size_t name_length;
    const uint8_t *history;
    size_t history_length;
} coniks_history;

/* What of a history has to be verified, as a part of it. */
typedef struct coniks_history_needs {
    size_t vrf_start;
    size_t vrf_length;
} coniks_history_needs;

/* Memory of one call for the siblings of a step. */
typedef struct coniks_siblings {
    uint8_t strings[256][32];
} coniks_siblings;

/* What a step of an accepted history shows. The key is a part of the history's bytes. */
typedef struct coniks_step {
    size_t place; /* of its epoch among the stored ones */
    const uint8_t *key;
    size_t key_length;
    uint32_t shows; /* 1 a key, 2 none; 0 in a history that is not accepted */
    uint32_t seen;  /* the number that the epoch has now, if the name is watched there, else 0 */
} coniks_step;

/* Memory for what the steps of a history show: the first `count` are written. */
typedef struct coniks_steps {
    coniks_step *items;
    size_t room;
    size_t count;
} coniks_steps;

/* What a client needs for a state. Entry k, counted from 0, is at entry_start + k * entry_step of the state's bytes. */
typedef struct coniks_state_needs {
    size_t stored;  /* the number of stored epochs: each has a signature to verify */
    size_t changes; /* of changes of the watched key */
    size_t alarms;  /* of alarms */
    size_t entry_start;
    size_t entry_step;
} coniks_state_needs;

/* A succession: its lines, which the caller has read, and the verdict on its signature by the successor key of the client's policy. */
typedef struct coniks_succession {
    uint32_t signature;
    coniks_bytes32 policy;
    uint64_t last_epoch;
    coniks_bytes32 last_link;
    coniks_bytes32 next_policy;
    uint64_t first_epoch;
    coniks_bytes32 first_link;
} coniks_succession;

/*
 * Accepts an entry. One that continues the chain is stored after the others. The latest one with another signature takes its place: its time
 * and what was seen stay, and each mark at its epoch becomes 0. Returns CONIKS_GOOD; the first of 48, 40, 80, 81, 82 and 33 to 39, with
 * `why`; or CONIKS_CORE_E_NO_ROOM. After CONIKS_E_PREVIOUS_LINK get the latest entry once more, and feed it before the next one: it may have
 * been signed again.
 */
CONIKS_NODISCARD CONIKS_NONNULL((1, 2, 3))
uint32_t coniks_core_feed(coniks_core *core, const coniks_received *received, coniks_why *why);

/* Finds what of a reply the caller has to verify. Returns CONIKS_GOOD, or the first of 64 to 67. */
CONIKS_NODISCARD CONIKS_NONNULL((1, 4))
uint32_t coniks_core_reply_needs(const coniks_core *core, const uint8_t *reply, size_t reply_length, coniks_needs *needs);

/*
 * Looks a name up in a reply. Returns CONIKS_GOOD, with `found`; a watched epoch and the changes are marked then. Else returns 137 if a
 * count is greater than its room, and writes nothing; or the first of 64 to 67, 40, 80 to 87, 17 to 25 and 2 to 8, with `why`, and writes
 * nothing else.
 */
CONIKS_NODISCARD CONIKS_NONNULL((1, 2, 3, 4, 5))
uint32_t coniks_core_lookup(coniks_core *core, const coniks_asking *asking, const coniks_verdicts *verdicts,
                            coniks_found *found, coniks_why *why);

/*
 * Begins to watch the name and the key of `wanted`, from its epoch `since` on if `is_since` is 1, else from the latest one, or 1 without an
 * entry. Its `is_watched` is not read. The watched epochs are missing until a reply for them is accepted. The same call once more changes
 * nothing. Returns CONIKS_GOOD, or the first of 130 to 132 and 137.
 */
CONIKS_NODISCARD CONIKS_NONNULL((1, 2))
uint32_t coniks_core_watch(coniks_core *core, const coniks_watch *wanted, uint32_t is_since);

/*
 * Expects a change of the watched key that its owner makes, to a new key, which each epoch from `by` on is to show. It is written after the
 * other changes. Returns CONIKS_GOOD, or the first of 133, 131 and 134 to 137.
 */
CONIKS_NODISCARD CONIKS_NONNULL((1))
uint32_t coniks_core_expect(coniks_core *core, const uint8_t *key, size_t key_length, uint64_t by);

/*
 * Compares a head, for example an auditor's. Returns 1 if the client keeps an entry with this epoch and link, and writes its place; 2 if it
 * keeps none that covers the epoch; 3 if it keeps another one that does: get that entry, and call coniks_core_evidence.
 */
CONIKS_NODISCARD CONIKS_NONNULL((1, 3, 4))
uint32_t coniks_core_compare(const coniks_core *core, uint64_t epoch, const coniks_bytes32 *link, size_t *place);

/* Finds the first stored entry that is evidence with an entry of somebody else. Returns CONIKS_GOOD, with `why`; 48, 40, or
 * CONIKS_NO_EVIDENCE. The time is not read. An entry that no chain contains convicts alone: see coniks_convicts. */
CONIKS_NODISCARD CONIKS_NONNULL((1, 2, 3))
uint32_t coniks_core_evidence(const coniks_core *core, const coniks_received *received, coniks_why *why);

/*
 * The quorum of `auditors` of which at most `faulty` lie or are silent. Returns 0, which is no quorum, if three times `faulty` are not fewer
 * than `auditors`, and for 2^32 auditors or more.
 */
CONIKS_NODISCARD
size_t coniks_core_quorum(size_t auditors, size_t faulty);

/*
 * Compares the head that an auditor cosigned, as coniks_core_compare does, and raises its mark to the head's epoch if they are equal: then
 * it returns 1. `place` is that of the auditor in the marks. Verify the cosignature first. Call it before epochs are dropped: a head at a
 * dropped epoch is unknown. Returns CONIKS_CORE_E_NO_AUDITOR if there is no such mark.
 */
CONIKS_NODISCARD CONIKS_NONNULL((1, 4))
uint32_t coniks_core_mark(coniks_core *core, size_t place, uint64_t epoch, const coniks_bytes32 *link);

/* Writes the greatest epoch that a quorum of the marks confirms. Returns CONIKS_GOOD, or CONIKS_CORE_E_NOT_CONFIRMED if there is none. */
CONIKS_NODISCARD CONIKS_NONNULL((1, 2))
uint32_t coniks_core_confirmed(const coniks_core *core, uint64_t *epoch);

/*
 * Finds whether the client may rely on what a stored epoch shows, for example at the place of `coniks_found`. Call it before
 * coniks_core_cover, which moves epochs. Returns CONIKS_GOOD if a quorum confirms the epoch, CONIKS_CORE_E_NOT_CONFIRMED if none does yet, or
 * CONIKS_CORE_E_UNKNOWN_EPOCH if there is no epoch at the place.
 */
CONIKS_NODISCARD CONIKS_NONNULL((1))
uint32_t coniks_core_relied(const coniks_core *core, size_t place);

/*
 * Accepts the first entry of a client that starts late, and has no stored epoch: one for which a quorum of the auditors has a head. `heads`
 * has the head of each auditor, in the order of the marks, at most 64. Verify the cosignatures first, and call coniks_core_mark with each
 * head afterwards. Returns CONIKS_GOOD, with one stored epoch; else the first of 140 to 142 and 137, or the first of 48, 40, 80, 81, 105 and
 * 104, with `why`.
 */
CONIKS_NODISCARD CONIKS_NONNULL((1, 4, 5))
uint32_t coniks_core_start(coniks_core *core, const coniks_head *heads, size_t head_count, const coniks_received *received,
                           coniks_why *why);

/*
 * Goes on in the directory that a succession names. `next` is a client that has seen nothing, under the next policy's rules, with room for
 * one epoch and one change; `received` is the first entry of the next chain that counts. Returns CONIKS_GOOD: then `next` has this entry, and
 * watches the name of `core`, whose name and keys it shares. Entries of `core` after *place are void: keep one with the succession, and tell
 * the user. Else returns the first of 140 and 137, or the first of 88 to 90, 83, 91, 48, 40, 80, 81 and 92, and writes nothing.
 */
CONIKS_NODISCARD CONIKS_NONNULL((1, 2, 3, 4, 5))
uint32_t coniks_core_succeed(const coniks_core *core, const coniks_succession *succession, const coniks_received *received,
                             coniks_core *next, size_t *place);

/*
 * Drops the first stored epochs: those before the epoch that a quorum of the marks confirms, and before the first missing one that is not
 * lost. Each watched one that was not the same leaves an alarm after the others. Drops the first changes, which no epoch that is left needs.
 * What is left moves to the front of the arrays, the counts and the first key of the watch are set, and `covered` says what was dropped.
 * Returns CONIKS_GOOD, also if nothing was; or CONIKS_CORE_E_NO_ROOM if a count is greater than its room, or there is no room for the alarms,
 * of which there are at most as many more as there are stored epochs. Before it, compare heads, and look missing epochs up: no reply for a
 * dropped one is accepted.
 */
CONIKS_NODISCARD CONIKS_NONNULL((1, 3))
uint32_t coniks_core_cover(coniks_core *core, uint64_t time, coniks_covered *covered);

/*
 * Takes note of the alarms up to an epoch: drops the first ones, as long as they are of this epoch or of an earlier one. Call it when the
 * owner has seen all of them: a report names the first one only. Returns CONIKS_GOOD, or CONIKS_CORE_E_NO_ROOM if the count is greater than
 * the room.
 */
CONIKS_NODISCARD CONIKS_NONNULL((1))
uint32_t coniks_core_note(coniks_core *core, uint64_t epoch);

/*
 * Reports what the client has seen of the watched name: at the stored epochs, and at dropped ones by their alarms. Returns CONIKS_GOOD, with
 * `report`, or CONIKS_CORE_E_NOT_WATCHING. It does not compare the latest epoch with the clock.
 */
CONIKS_NODISCARD CONIKS_NONNULL((1, 3))
uint32_t coniks_core_report(const coniks_core *core, uint64_t time, coniks_report *report);

/*
 * Returns 1 if the stored epoch at a place is missing and lost: the policy promises no proof of it any more. Else returns 0, also if there is
 * no epoch at the place.
 */
CONIKS_NODISCARD CONIKS_NONNULL((1))
uint32_t coniks_core_lost(const coniks_core *core, uint64_t time, size_t place);

/* Writes the number of entries of a catch-up, 209 bytes each: feed them one after another. Returns CONIKS_GOOD, or 68. */
CONIKS_NODISCARD CONIKS_NONNULL((3))
uint32_t coniks_core_catch_up(const uint8_t *catch_up, size_t catch_up_length, size_t *count);

/* Finds what of a history the caller has to verify: its VRF proof. Returns CONIKS_GOOD, or the first of 69, 70 and 67. */
CONIKS_NODISCARD CONIKS_NONNULL((3))
uint32_t coniks_core_history_needs(const uint8_t *history, size_t history_length, coniks_history_needs *needs);

/*
 * Accepts a history of a name as a whole. Returns CONIKS_GOOD: the number of steps and what they show is in `steps`, and the watched epochs
 * and the changes are marked. Of the verdicts, `index` and `at` are read. Else returns 137 if a count of the client is greater than its
 * room; or the first of 69, 70, 67, 71 to 76 and 2; 87; then of the steps, one after another, 137 if `steps` has no room for it, 83, and 3
 * to 8. Then the count of `steps` and what the client keeps are unchanged, and each step that was written shows 0. The room is never too
 * small if it is one more than the number of stored epochs.
 */
CONIKS_NODISCARD CONIKS_NONNULL((1, 2, 3, 4, 5))
uint32_t coniks_core_history(coniks_core *core, const coniks_history *asking, const coniks_verdicts *verdicts,
                             coniks_siblings *siblings, coniks_steps *steps);

/*
 * Writes the number of bytes of a client's state. Returns CONIKS_GOOD; or CONIKS_CORE_E_NO_STATE, if there are 2^32 stored epochs, changes,
 * alarms or marks or more, a key has 2^32 bytes or more, or the watched name has no byte or more than 255.
 */
CONIKS_NODISCARD CONIKS_NONNULL((1, 2))
uint32_t coniks_core_state_size(const coniks_core *core, size_t *size);

/* Writes a client's state to the first *size of `room` bytes. Returns CONIKS_GOOD, or the first of 143 and 137. */
CONIKS_NODISCARD CONIKS_NONNULL((1, 4))
uint32_t coniks_core_state_write(const coniks_core *core, uint8_t *state, size_t room, size_t *size);

/* Finds what a client needs for a state: the room, and the entries whose signatures the caller has to verify. Of the client only the rules
 * are read. Returns CONIKS_GOOD, or the first of 96 to 100. */
CONIKS_NODISCARD CONIKS_NONNULL((1, 4))
uint32_t coniks_core_state_needs(const coniks_core *core, const uint8_t *state, size_t state_length, coniks_state_needs *needs);

/*
 * Reads a client's state. verdicts[k] is the verdict on the signature of entry k; one that is missing is not valid. Returns CONIKS_GOOD, with
 * the stored epochs, the watched name, the changes, the alarms and the marks. The marks are 0 if the state is of another trust document, or
 * of another number of auditors. The name and the keys are parts of the state's bytes, which the caller keeps. Else returns the first of 96
 * to 100, 137 and 101, and nothing is written.
 */
CONIKS_NODISCARD CONIKS_NONNULL((1))
uint32_t coniks_core_state_read(coniks_core *core, const uint8_t *state, size_t state_length, const uint32_t *verdicts,
                                size_t verdict_count);

#ifdef __cplusplus
}
#endif

#endif

/*
 * A client of a CONIKS key directory in C, over coniks_core.h and libsodium: it verifies signatures, the chain, VRF proofs, paths and
 * the requested epoch. What it accepts is decided by the core; here are memory, cryptography and texts. To take it over, copy client.h,
 * client_parts.h and the ten files of the build line below.
 *
 *     coniks_client_begin_settings(&settings);                    the keys and the policy that the directory publishes
 *     settings.signing_key = &signing_key;
 *     settings.vrf_key = &vrf_key;
 *     settings.policy = document;
 *     settings.policy_length = document_length;
 *     status = coniks_client_new(&client, &settings);             0 is success, everything else is none
 *     status = coniks_client_catch_up(client, ...);               all entries since the last one
 *     status = coniks_client_lookup(client, &asking, ...);        found.key is the name's key, if found.shows says so
 *     coniks_client_free(client);
 *
 * Statuses. A call that can fail returns 0 for success, a status of coniks.h, or one of `enum coniks_client_status`. If several
 * errors apply, the first in the order of docs/FORMATS.md is returned. After an error nothing of what was refused is kept, and
 * what a call would write is zeroed. Signatures are verified first, so what anyone can send is never an alarm. What convicts the
 * provider is in `struct coniks_client_refusal`: publish it.
 *
 * Memory. The client allocates by `settings.memory`, and frees all of it in coniks_client_free. It keeps up to 468 bytes for each
 * entry, 16 for each alarm, 8 for each auditor, and 32 and the new key for each change of the watched key. Keys that it drops are freed, and
 * other room is used again. No length in a message decides how much is allocated: beside what is kept, a history takes 32 bytes for each
 * stored entry while the call lasts, and a state 4. Calls use at most 32 KiB of stack.
 *
 * Threads. There is no global state. A client is for one thread at a time, and can't be copied: one of both would miss what the
 * other is fed. Pass its state on instead.
 *
 * Pointers. A pointer may be NULL only if its length is 0, or if its comment says so. Outputs may not overlap inputs.
 *
 * Limits. A name has 1 to 255 bytes, a key that a proof shows 1 to 16,384, and an expected key fewer than 2^32. Times are Unix
 * times in whole seconds.
 *
 * Build, in the repository, after embed/build and with libsodium-dev (libsodium 1.0.18):
 *
 *     cd embed/c && cc program.c client.c client_ecvrf.c client_memory.c client_policy.c client_replies.c client_schemes.c \
 *         client_state.c client_texts.c client_verdicts.c client_watch.c -I../../include ../out/libconiks.a -lsodium
 */
#ifndef CONIKS_CLIENT_H
#define CONIKS_CLIENT_H

#include "coniks_core.h"

#ifdef __cplusplus
extern "C" {
#endif

/* Why a client refuses something. The first block has the numbers of docs/FORMATS.md; the second is of this client alone. */
enum coniks_client_status {
    /* formats.toml: statuses */
    CONIKS_CLIENT_E_NO_REPLY = 64,
    CONIKS_CLIENT_E_REPLY_VERSION = 65,
    CONIKS_CLIENT_E_CUT_IN_ENTRY = 66,
    CONIKS_CLIENT_E_CUT_IN_VRF = 67,
    CONIKS_CLIENT_E_CATCH_UP_LENGTH = 68,
    CONIKS_CLIENT_E_NO_HISTORY = 69,
    CONIKS_CLIENT_E_HISTORY_VERSION = 70,
    CONIKS_CLIENT_E_CUT_IN_STEP = 71,
    CONIKS_CLIENT_E_EPOCH_ORDER = 72,
    CONIKS_CLIENT_E_UNKNOWN_END = 73,
    CONIKS_CLIENT_E_SIBLING_MAP = 74,
    CONIKS_CLIENT_E_SIBLING_REPEATED = 75,
    CONIKS_CLIENT_E_END_REPEATED = 76,
    CONIKS_CLIENT_E_OTHER_POLICY = 80,
    CONIKS_CLIENT_E_MALFORMED = 81,
    CONIKS_CLIENT_E_EQUIVOCATION = 82,
    CONIKS_CLIENT_E_UNKNOWN_EPOCH = 83,
    CONIKS_CLIENT_E_OTHER_EPOCH = 84,
    CONIKS_CLIENT_E_STALE = 85,
    CONIKS_CLIENT_E_FUTURE = 86,
    CONIKS_CLIENT_E_VRF_PROOF = 87,
    CONIKS_CLIENT_E_SUCCESSION_POLICY = 88,
    CONIKS_CLIENT_E_SUCCESSION_SIGNATURE = 89,
    CONIKS_CLIENT_E_NEXT_POLICY = 90,
    CONIKS_CLIENT_E_CHAIN_DIFFERS = 91,
    CONIKS_CLIENT_E_OTHER_START = 92,
    CONIKS_CLIENT_E_STATE_LENGTH = 96,
    CONIKS_CLIENT_E_STATE_VERSION = 97,
    CONIKS_CLIENT_E_STATE_DAMAGED = 98,
    CONIKS_CLIENT_E_STATE_POLICY = 99,
    CONIKS_CLIENT_E_STATE_FORM = 100,
    CONIKS_CLIENT_E_STATE_CHAIN = 101,
    CONIKS_CLIENT_E_NOT_VOUCHED = 104,
    CONIKS_CLIENT_E_AUDITORS_DIFFER = 105,
    CONIKS_CLIENT_E_SIGNING_KEY = 112,
    CONIKS_CLIENT_E_VRF_KEY = 113,
    CONIKS_CLIENT_E_POLICY_KEYS = 114,
    /* formats.toml: end */

    /* a call that the caller must not make, or that the machine can't do */
    CONIKS_CLIENT_E_POLICY_FORM = 128,    /* the policy is no document, or there is neither document nor digest */
    CONIKS_CLIENT_E_LEAST = 129,          /* no auditor is asked for */
    CONIKS_CLIENT_E_NAME = 130,           /* a watched name has no byte, or more than 255 */
    CONIKS_CLIENT_E_EXPECTED_KEY = 131,   /* an expected key has no byte, or 2^32 or more */
    CONIKS_CLIENT_E_OTHER_WATCH = 132,    /* the client watches another name, another key, or from another epoch on */
    CONIKS_CLIENT_E_NOT_WATCHING = 133,   /* the client watches no name */
    CONIKS_CLIENT_E_CHANGE_OPEN = 134,    /* another change of the key is not over */
    CONIKS_CLIENT_E_SAME_KEY = 135,       /* the new key is the one that is expected already */
    CONIKS_CLIENT_E_NOT_LATER = 136,      /* the epoch by which the new key is expected is not after the latest one */
    CONIKS_CLIENT_E_ROOM = 137,           /* the results need more room */
    CONIKS_CLIENT_E_NO_AUDITOR = 138,     /* the trust document has no such auditor */
    CONIKS_CLIENT_E_NOT_CONFIRMED = 139,  /* no quorum of auditors confirms an epoch, or this one */
    CONIKS_CLIENT_E_MANY_HEADS = 142,     /* there are more than 64 heads */
    CONIKS_CLIENT_E_QUORUM = 144,         /* the auditors that may be faulty, times three, are not fewer than all */
    CONIKS_CLIENT_E_MEMORY = 145,         /* an allocation failed */
    CONIKS_CLIENT_E_SODIUM = 146,         /* libsodium can't be initialized */
    CONIKS_CLIENT_E_SUCCESSION_FORM = 147 /* the text is no succession */
};

/* What an epoch shows of the watched name. */
enum coniks_client_seen {
    CONIKS_CLIENT_UNWATCHED = 0,    /* another name, or an epoch that is not watched */
    CONIKS_CLIENT_SAME = 1,         /* the expected key, or none if none is expected */
    CONIKS_CLIENT_KEY_CHANGED = 3,  /* another key, or a key though none is expected */
    CONIKS_CLIENT_KEY_ABSENT = 4,   /* no key, though one is expected */
    CONIKS_CLIENT_REPLY_MISSING = 5 /* no reply was accepted for the epoch */
};

/* What an accepted reply shows. */
enum coniks_client_shows {
    CONIKS_CLIENT_NOTHING = 0, /* the reply was refused */
    CONIKS_CLIENT_KEY = 1,
    CONIKS_CLIENT_NO_KEY = 2 /* the name is bound to no key */
};

/* Whether a head is one of the client's chain. One that differs convicts nobody: fetch its entry, and call
 * coniks_client_evidence. */
enum coniks_client_comparison { CONIKS_CLIENT_EQUAL = 1, CONIKS_CLIENT_UNKNOWN = 2, CONIKS_CLIENT_DIFFERS = 3 };

/* As `max_age`: twice the period of the policy. */
#define CONIKS_CLIENT_TWO_PERIODS UINT64_MAX

/* Verifies signatures, in place of an Ed25519 key. Returns 1 if the 64 bytes are a valid signature of the 145; any other number
 * means that they are not. It may not call the client. */
typedef struct coniks_client_signatures {
    int (*verify)(void *context, const uint8_t *body, const uint8_t *signature);
    void *context;
} coniks_client_signatures;

/* A name, and the VRF proof that a message has for it. A directory without a VRF has the proof of no byte. */
typedef struct coniks_client_proof {
    const uint8_t *name;
    size_t name_length;
    const uint8_t *proof;
    size_t proof_length;
} coniks_client_proof;

/* Verifies where names are stored, in place of a VRF's key. Returns 1 and writes the index if the proof is one of this name; any
 * other number means that it is not. */
typedef struct coniks_client_indices {
    int (*index)(void *context, const coniks_client_proof *proof, coniks_bytes32 *index);
    void *context;
} coniks_client_indices;

/* Where memory is from. `allocate` returns NULL if there is none. */
typedef struct coniks_client_memory {
    void *(*allocate)(void *context, size_t size);
    void (*release)(void *context, void *block);
    void *context;
} coniks_client_memory;

/* What the directory publishes, and how the client works. All pointers of the first block are read in the call alone. */
typedef struct coniks_client_settings {
    const coniks_bytes32 *signing_key; /* Ed25519; not read if `signatures` is set */
    const coniks_bytes32 *vrf_key;     /* ECVRF-EDWARDS25519-SHA512-TAI; NULL without a VRF; not read if `indices` is set */
    const uint8_t *policy;             /* the policy document, or NULL if there is only its digest */
    size_t policy_length;
    const coniks_bytes32 *policy_digest; /* read only if `policy` is NULL; the client has no clock then */

    coniks_client_signatures signatures; /* its function is NULL for Ed25519 */
    coniks_client_indices indices;       /* its function is NULL for the VRF */
    coniks_client_memory memory;         /* malloc and free */
    uint64_t (*clock)(void *context);    /* returns the Unix time; time(2) */
    void *clock_context;
    uint64_t max_age;            /* how many seconds ago the latest epoch may have begun; CONIKS_CLIENT_TWO_PERIODS */
    uint64_t skew;               /* how many seconds from now it may begin; 300 */
    const coniks_bytes32 *trust; /* the SHA-256 of the trust document, NULL without one; read in the call alone */
    size_t auditors;             /* the number of its auditors, of which at most `faulty` lie or are silent */
    size_t faulty;
} coniks_client_settings;

/* The head of a chain: the epoch and the link of its latest entry. */
typedef struct coniks_client_head {
    uint64_t epoch;
    coniks_bytes32 link;
} coniks_client_head;

/* The first entry of a chain, and the head of each auditor for its epoch, one for each, at most 64. At least `least` of them must be that of
 * the entry. */
typedef struct coniks_client_vouching {
    const uint8_t *entry;
    size_t entry_length;
    const coniks_client_head *heads;
    size_t head_count;
    size_t least;
} coniks_client_vouching;

/* Two signed entries that convict the owner of the signing key. `mine` is one that the client keeps, or `other` itself if no
 * chain has it. `kind` is one of `enum coniks_evidence`, 0 if there is no evidence. */
typedef struct coniks_client_evidence {
    uint8_t mine[CONIKS_ENTRY_BYTES];
    uint8_t other[CONIKS_ENTRY_BYTES];
    uint32_t kind;
} coniks_client_evidence;

/* More on why an entry was refused. `status` is why an entry that convicts does not follow, 34 to 39, else 0. */
typedef struct coniks_client_refusal {
    uint32_t status;
    coniks_client_evidence evidence;
} coniks_client_refusal;

/* An entry that was accepted. `seen` is CONIKS_CLIENT_REPLY_MISSING if the epoch must show the watched name, until a reply does. */
typedef struct coniks_client_step {
    uint64_t epoch;
    uint32_t seen;
} coniks_client_step;

/* The entries of a catch-up: the first `count` were accepted. As many steps of them are written as there is room for. */
typedef struct coniks_client_steps {
    coniks_client_step *items;
    size_t room;
    size_t count;
} coniks_client_steps;

/* What an accepted reply shows. The key is a part of the reply's bytes, or of the history's. */
typedef struct coniks_client_found {
    uint32_t shows; /* one of `enum coniks_client_shows` */
    uint32_t seen;  /* one of `enum coniks_client_seen` */
    uint64_t epoch;
    const uint8_t *key; /* NULL without a key */
    size_t key_length;
    uint64_t first_seen; /* when the client accepted the entry */
    int has_age;         /* 1 if the policy has a clock */
    int64_t age;         /* how many seconds ago the epoch began by it, below 0 if it has not begun, within the type's limits */
} coniks_client_found;

/* What a history shows: the first `count` of `items`, one for each of its epochs. */
typedef struct coniks_client_shown {
    coniks_client_found *items;
    size_t room;
    size_t count;
} coniks_client_shown;

/* What a client goes on with: a succession, the directory that it names, and the first entry of that directory's chain that counts. */
typedef struct coniks_client_succession {
    const uint8_t *text;
    size_t text_length;
    const coniks_client_settings *settings; /* of the next client */
    const uint8_t *entry;
    size_t entry_length;
} coniks_client_succession;

typedef struct coniks_client coniks_client;

/* Writes the defaults: no keys, no policy, libsodium, malloc and free, time(2), two periods, 300 seconds. */
CONIKS_NONNULL((1))
void coniks_client_begin_settings(coniks_client_settings *settings);

/*
 * Makes a client that has no entry. Returns 0, or CONIKS_CLIENT_E_POLICY_FORM, 112, 113, 114, CONIKS_CLIENT_E_QUORUM, or an error of
 * the machine; then *client is NULL.
 */
CONIKS_NODISCARD CONIKS_NONNULL((1, 2))
uint32_t coniks_client_new(coniks_client **client, const coniks_client_settings *settings);

/* Makes a client that goes on from the state of another one. Its marks are those of the state if that is of the same trust document and
 * number of auditors, else 0. Also returns 96 to 101. */
CONIKS_NODISCARD CONIKS_NONNULL((1, 2))
uint32_t coniks_client_resume(coniks_client **client, const coniks_client_settings *settings, const uint8_t *state,
                              size_t state_length);

/*
 * Makes a client whose chain begins with an entry that auditors have. Get each head from the auditor itself. With a trust document, call
 * coniks_client_mark with each of them afterwards. Also returns the errors of the entry alone (48, 40, 80, 81), 105, 104,
 * CONIKS_CLIENT_E_LEAST and CONIKS_CLIENT_E_MANY_HEADS. `why` may be NULL.
 */
CONIKS_NODISCARD CONIKS_NONNULL((1, 2, 3))
uint32_t coniks_client_vouched(coniks_client **client, const coniks_client_settings *settings,
                               const coniks_client_vouching *vouching, coniks_client_refusal *why);

/*
 * Makes a client that goes on in the directory that a succession names, and watches the name of this one. Entries of this one after *place
 * are void: keep one with the succession, and tell the user. This client stays as it is. Returns 0, or the first of
 * CONIKS_CLIENT_E_SUCCESSION_FORM, the errors of coniks_client_new, 88 to 90, 83, 91, 48, 40, 80, 81, 92 and CONIKS_CLIENT_E_MEMORY; then *next is NULL.
 * A client that has only the digest of its policy knows no successor key. `why` may be NULL.
 */
CONIKS_NODISCARD CONIKS_NONNULL((1, 2, 3, 4))
uint32_t coniks_client_succeed(const coniks_client *client, const coniks_client_succession *given, coniks_client **next,
                               size_t *place, coniks_client_refusal *why);

/* Frees a client; NULL is none. */
void coniks_client_free(coniks_client *client);

/* Accepts an entry that continues the chain, or the latest one signed again. Returns 0, or the first error of "A client's chain". After
 * CONIKS_E_PREVIOUS_LINK get the latest entry once more, and feed it before the next one: it may have been signed again. `step` and `why`
 * may be NULL. */
CONIKS_NODISCARD CONIKS_NONNULL((1))
uint32_t coniks_client_feed(coniks_client *client, const uint8_t *entry, size_t entry_length, coniks_client_step *step,
                            coniks_client_refusal *why);

/*
 * Accepts the entries of a catch-up, which continue the chain; those before a refused one are kept. Returns 0, 68, or the error of the
 * first entry that was refused. `steps` and `why` may be NULL.
 */
CONIKS_NODISCARD CONIKS_NONNULL((1))
uint32_t coniks_client_catch_up(coniks_client *client, const uint8_t *catch_up, size_t length, coniks_client_steps *steps,
                                coniks_client_refusal *why);

/*
 * Writes what a reply shows of a name, at the epoch that was requested, or at the latest one. Ask for a number of your own, never for that
 * of the reply. The time of `asking` is not read. Returns 0, or the first error of "A client's lookup". `why` may be NULL.
 */
CONIKS_NODISCARD CONIKS_NONNULL((1, 2, 3))
uint32_t coniks_client_lookup(coniks_client *client, const coniks_asking *asking, coniks_client_found *found,
                              coniks_client_refusal *why);

/*
 * Writes what a history shows of a name. It has at most as many epochs as the client keeps entries. Returns 0, or the first error of
 * "A client's lookup", CONIKS_CLIENT_E_ROOM or CONIKS_CLIENT_E_MEMORY; then the count of `shown` is 0.
 */
CONIKS_NODISCARD CONIKS_NONNULL((1, 2, 3))
uint32_t coniks_client_history(coniks_client *client, const coniks_history *asking, coniks_client_shown *shown);

/*
 * Watches the client's own name, that of `wanted`: each epoch from its epoch `since` on if `is_since` is 1, else from the latest one on,
 * must show its key, or none if that is NULL. A client watches one name for its life. The same call once more changes nothing. Returns 0,
 * 130 to 132, or CONIKS_CLIENT_E_MEMORY.
 */
CONIKS_NODISCARD CONIKS_NONNULL((1, 2))
uint32_t coniks_client_watch(coniks_client *client, const coniks_watch *wanted, uint32_t is_since);

/*
 * Expects the owner's own change of the key: later epochs may show the old or the new key, and from epoch `by` on only the new
 * one, or none if `key` is NULL. Returns 0, 131, 133 to 136, or CONIKS_CLIENT_E_MEMORY.
 */
CONIKS_NODISCARD CONIKS_NONNULL((1))
uint32_t coniks_client_expect(coniks_client *client, const uint8_t *key, size_t key_length, uint64_t by);

/* Writes the epochs that must show the watched name and of which no reply was accepted, at most `room`. Returns how many there are. */
CONIKS_NODISCARD CONIKS_NONNULL((1))
size_t coniks_client_missing(const coniks_client *client, uint64_t *epochs, size_t room);

/*
 * Writes the missing epochs of which the policy promises no proof any more, at most `room`. Returns how many there are, at most as
 * many as coniks_client_missing does. A later call can return more, since each reads the clock. Report "epochs 100 to 102 can no
 * longer be verified", never that they are the same.
 */
CONIKS_NODISCARD CONIKS_NONNULL((1))
size_t coniks_client_lost(const coniks_client *client, uint64_t *epochs, size_t room);

/* Writes the head of the latest entry. Returns 0, or CONIKS_E_NO_ENTRY. */
CONIKS_NODISCARD CONIKS_NONNULL((1, 2))
uint32_t coniks_client_latest(const coniks_client *client, coniks_client_head *head);

/* Returns how many entries are kept. */
CONIKS_NODISCARD CONIKS_NONNULL((1))
size_t coniks_client_count(const coniks_client *client);

/* Returns the 209 bytes of an entry that is stored, from 0 on in the order of the chain, until the next call that changes the
 * client. Returns NULL after the last one. */
CONIKS_NODISCARD CONIKS_NONNULL((1))
const uint8_t *coniks_client_entry(const coniks_client *client, size_t place);

/* Returns whether a head is one of the chain, as far as its entries are kept: one of `enum coniks_client_comparison`. */
CONIKS_NODISCARD CONIKS_NONNULL((1, 2))
uint32_t coniks_client_compare(const coniks_client *client, const coniks_client_head *head);

/*
 * Drops the entries before that of an auditor's head, if it is one of this chain: the auditor's chain has them. Epochs that are missing
 * and not lost stay, with what follows them. Each dropped watched epoch that was not the same leaves an alarm. Returns what
 * coniks_client_compare does. A client with a trust document only compares, since one auditor confirms nothing: call coniks_client_mark
 * and coniks_client_drop.
 */
CONIKS_NODISCARD CONIKS_NONNULL((1, 2))
uint32_t coniks_client_cover(coniks_client *client, const coniks_client_head *head);

/* Compares the head that an auditor cosigned, as coniks_client_compare does, and remembers it if it is equal. Verify the cosignature
 * first. `auditor` is its place in the trust document, from 0 on. Also returns CONIKS_CLIENT_E_NO_AUDITOR. */
CONIKS_NODISCARD CONIKS_NONNULL((1, 3))
uint32_t coniks_client_mark(coniks_client *client, size_t auditor, const coniks_client_head *head);

/* Writes the greatest epoch that a quorum of the auditors confirms. Returns 0, or CONIKS_CLIENT_E_NOT_CONFIRMED. */
CONIKS_NODISCARD CONIKS_NONNULL((1, 2))
uint32_t coniks_client_confirmed(const coniks_client *client, uint64_t *epoch);

/* Returns 0 if the client may rely on what a stored epoch shows, since a quorum confirms it, or CONIKS_CLIENT_E_NOT_CONFIRMED, or 83. */
CONIKS_NODISCARD CONIKS_NONNULL((1))
uint32_t coniks_client_relied(const coniks_client *client, uint64_t epoch);

/* Drops entries as coniks_client_cover does: those before the epoch that a quorum of the auditors confirms. Returns 0, and writes what was
 * dropped. */
CONIKS_NODISCARD CONIKS_NONNULL((1, 2))
uint32_t coniks_client_drop(coniks_client *client, coniks_covered *covered);

/* Writes the alarms of dropped epochs, at most `room`. Returns how many there are. */
CONIKS_NODISCARD CONIKS_NONNULL((1))
size_t coniks_client_alarms(const coniks_client *client, coniks_alarm *alarms, size_t room);

/* Takes note of the alarms up to an epoch, which the owner has seen: they are dropped. */
CONIKS_NONNULL((1))
void coniks_client_note(coniks_client *client, uint64_t epoch);

/* Reports what the client has seen of the watched name. Returns 0, or CONIKS_CLIENT_E_NOT_WATCHING. Without a trust document the report is
 * never CONIKS_REPORT_GOOD. */
CONIKS_NODISCARD CONIKS_NONNULL((1, 2))
uint32_t coniks_client_report(const coniks_client *client, coniks_report *report);

/*
 * Writes what convicts the provider together with another one's entry. Returns 0 if something does, CONIKS_NO_EVIDENCE if nothing
 * does, CONIKS_E_ENTRY_LENGTH, or CONIKS_E_SIGNATURE if the entry is not signed.
 */
CONIKS_NODISCARD CONIKS_NONNULL((1, 4))
uint32_t coniks_client_evidence_of(const coniks_client *client, const uint8_t *entry, size_t entry_length,
                                   coniks_client_evidence *evidence);

/*
 * Writes all that the client keeps: 110 bytes, 218 for each epoch, 9 for each alarm, 8 for each auditor, and the watched name. *length
 * is how many bytes these are.
 * Returns 0, or CONIKS_CLIENT_E_ROOM if there is room for fewer, and writes no part of a state.
 */
CONIKS_NODISCARD CONIKS_NONNULL((1, 4))
uint32_t coniks_client_state(const coniks_client *client, uint8_t *state, size_t room, size_t *length);

/* Writes the text of a status of coniks.h or of this client, as coniks_text does. No text is longer than 160 bytes. */
size_t coniks_client_text(uint32_t status, uint8_t *text, size_t room);

#ifdef __cplusplus
}
#endif

#endif

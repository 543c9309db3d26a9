/*
 * A guard of a signing key, which lets it sign one chain, over memory of the caller. Two signed bodies that one chain can't have
 * convict the key's owner, and an old backup of the log or a second service would make such bodies. docs/STORED.md, "The guard's
 * record", defines the record and its steps. What is stated about proofs, memory, stack, threads and pointers in coniks.h holds here too.
 *
 * The caller stores the record: the last entry signed, the open body, and the abandoned bodies. It reads the record, calls one of the
 * steps, and replaces the record that it read, durably, if that is still there; else it begins again with the one that is. So many
 * processes share a record. It signs a body in two steps:
 *
 *     status = coniks_guard_ask(&record, abandoned, count, may_begin, &body);
 *     if (status != CONIKS_GOOD) return status;
 *     my_replace(&record, abandoned, count);
 *     if (coniks_guard_answer(&record, abandoned, count, &body, &signature) == CONIKS_GUARD_UNSETTLED) {
 *         my_sign(&body, &signature);
 *         my_read(&record, abandoned, &count);
 *         status = coniks_guard_sign(&record, abandoned, room, &count, 0, &body, &signature);
 *         if (status != CONIKS_GOOD) return status;
 *         my_replace(&record, abandoned, count);
 *     }
 *     if (coniks_guard_answer(&record, abandoned, count, &body, &signature) != CONIKS_GUARD_SIGNED) return my_refusal();
 *     my_return(&signature);
 *
 * What a stored record says may be returned, and no other signature. Then all bodies of which a signature is ever returned are those of
 * one good chain under one policy, and no abandoned one is among them. That is proved of any steps of any processes on one record, if
 * each record replaces the one that it was made from, and each stored signature was verified.
 */
#ifndef CONIKS_GUARD_H
#define CONIKS_GUARD_H

#include "coniks.h"

#ifdef __cplusplus
extern "C" {
#endif

/* Why a step is refused, beside CONIKS_E_ENTRY_LENGTH. */
enum coniks_guard_status {
    /* a call that the caller must not make */
    CONIKS_GUARD_E_NO_ROOM = 137, /* *count is greater than `room`, or there is no room for a body more */

    /* formats.toml: statuses */
    /* the key must not sign the body */
    CONIKS_GUARD_E_MALFORMED = 112,        /* no chain has such a body */
    CONIKS_GUARD_E_NOTHING_RECORDED = 113, /* it follows an epoch, and there is no signed entry */
    CONIKS_GUARD_E_BEGINS_UNASKED = 114,   /* it is a first body, nothing is signed, and the caller allows none */
    CONIKS_GUARD_E_BEGINS_AGAIN = 115,     /* it is a first body, and there is a signed entry */
    CONIKS_GUARD_E_OTHER_POLICY = 116,     /* its policy digest is not that of the signed entry */
    CONIKS_GUARD_E_LOG_BEHIND = 117,       /* the epoch before it is earlier than that of the signed entry */
    CONIKS_GUARD_E_RECORD_BEHIND = 118,    /* the epoch before it is later than that of the signed entry */
    CONIKS_GUARD_E_OTHER_LINK = 119,       /* its previous link is not that of the signed entry */
    CONIKS_GUARD_E_VERSION_BACK = 120,     /* its version is lower than that of the signed entry */
    CONIKS_GUARD_E_NONCE_CHANGED = 121,    /* its version is 1, and its nonce is not that of the signed entry */
    CONIKS_GUARD_E_OTHER_OPEN = 122,       /* another body is open; also of a signature that is to be replaced */

    /* a signature is not stored */
    CONIKS_GUARD_E_NOT_ASKED = 123, /* the body is not open: another step came between */

    /* a body is not abandoned */
    CONIKS_GUARD_E_MAY_BE_SIGNED = 124, /* the epoch before it is earlier than that of the signed entry */
    CONIKS_GUARD_E_RECORD_OLD = 125,    /* the epoch before it is later than that of the signed entry */

    /* an entry is not adopted */
    CONIKS_GUARD_E_OTHER_BODIES = 126, /* the record has anything but this entry */
    CONIKS_GUARD_E_NO_ENTRY = 127      /* no chain has such an entry */
    /* formats.toml: end */
};

/* What a record says of a body. */
enum coniks_guard_answer {
    CONIKS_GUARD_UNSETTLED = 0, /* it is neither signed nor abandoned: the key may be used for it if it is open */
    CONIKS_GUARD_SIGNED = 1,    /* it is that of the last entry signed */
    CONIKS_GUARD_ABANDONED = 2  /* no signature of it is returned */
};

/* A signature. */
typedef struct coniks_bytes64 {
    uint8_t bytes[64];
} coniks_bytes64;

/* A record without its abandoned bodies. All bytes 0 is the record of a key that has signed nothing. */
typedef struct coniks_guard_record {
    uint32_t has_entry; /* 0 if the key has signed nothing; else `entry` is the last entry signed */
    uint32_t has_asked; /* 0 if no body is open; else `asked` is */
    uint8_t entry[209];
    uint8_t asked[145];
} coniks_guard_record;

/* Returns what a record says of a body, one of `enum coniks_guard_answer`. Writes the signature only with CONIKS_GUARD_SIGNED. */
CONIKS_NODISCARD CONIKS_NONNULL((1, 4, 5))
uint32_t coniks_guard_answer(const coniks_guard_record *record, const coniks_bytes145 *abandoned, size_t count,
                             const coniks_bytes145 *body, coniks_bytes64 *signature);

/*
 * Asks for the signature of a body. A body that is signed or abandoned changes nothing. Another one is open then. `may_begin` is 1 if it
 * may be the first body of a directory. Returns CONIKS_GOOD, or the first of 112 to 122.
 */
CONIKS_NODISCARD CONIKS_NONNULL((1, 5))
uint32_t coniks_guard_ask(coniks_guard_record *record, const coniks_bytes145 *abandoned, size_t count, uint32_t may_begin,
                          const coniks_bytes145 *body);

/*
 * Stores the signature of the open body, which is that of the last entry signed then. Verify it first. Of the abandoned bodies those stay
 * that follow the same entry: they move to the front, and *count is set. A body that is signed or abandoned changes nothing. But if
 * `replaces` is 1, and the body is that of the last entry, its signature takes the place of the stored one: pass 1 only if that one is not
 * valid. Returns CONIKS_GOOD, or the first of 137, 122 and 123.
 */
CONIKS_NODISCARD CONIKS_NONNULL((1, 4, 6, 7))
uint32_t coniks_guard_sign(coniks_guard_record *record, coniks_bytes145 *abandoned, size_t room, size_t *count,
                           uint32_t replaces, const coniks_bytes145 *body, const coniks_bytes64 *signature);

/*
 * Abandons a body, for ever. It is written after the *count abandoned ones, and is not open any more. A body that is signed or abandoned
 * changes nothing: coniks_guard_answer says which. Returns CONIKS_GOOD, or the first of 137 for *count, 124, 125, and 137 for the room.
 */
CONIKS_NODISCARD CONIKS_NONNULL((1, 4, 5))
uint32_t coniks_guard_abandon(coniks_guard_record *record, coniks_bytes145 *abandoned, size_t room, size_t *count,
                              const coniks_bytes145 *body);

/*
 * Adopts the last entry that the key has signed without a guard. Verify its signature first. A record that has nothing, or this entry as
 * the last one, has it then. Returns CONIKS_GOOD, or the first of 48, 126 and 127.
 */
CONIKS_NODISCARD CONIKS_NONNULL((1))
uint32_t coniks_guard_adopt(coniks_guard_record *record, const coniks_bytes145 *abandoned, size_t count, const uint8_t *entry,
                            size_t entry_length);

#ifdef __cplusplus
}
#endif

#endif

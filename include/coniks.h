/*
 * The client's side of a CONIKS key directory: a checker of its proofs, an auditor of its chain of signed entries, and a
 * monitor of one name (Melara, Blankstein, Bonneau, Felten, Freedman: "CONIKS: Bringing Key Transparency to End Users",
 * USENIX Security 2015). The hash is SHA-256 (FIPS 180-4). What each call returns and writes is proved to be what is described
 * here, for all bytes that are passed in. What is stated about memory, stack and threads is tested. This header, the compiler and
 * the caller's pointers are not proved.
 *
 * Memory. No call allocates or keeps a pointer, so there is nothing to free. A call uses at most 8 KiB of stack, whatever
 * the length of its input. No other thread may write what a call reads, and outputs may not overlap inputs.
 *
 * Threads. There is no global state. Calls may run at once, also in signal handlers, if no two of them write to the same
 * place.
 *
 * Pointers. A pointer may be NULL only if its length is 0. The library checks every length: no combination of
 * lengths and bytes is undefined.
 *
 * Statuses. A call that can fail returns a number of `enum coniks_status`; 0 means success. If several errors apply, the
 * first in the order that the call states is returned. After an error nothing is written. From version 1.0.0 on a status
 * keeps its name and its number.
 *
 * Bytes. Numbers are big-endian. The offsets of a proof of n siblings:
 *
 *     0           1 byte: the kind of its end, 0 an empty node, 1 the leaf of another index, 2 the leaf of the requested index
 *     1           2 bytes: n
 *     3           the siblings, 32 bytes each, from the root down
 *     3 + 32 n    kind 0: nothing; kind 1: the other index (32) and its commitment (32); kind 2: the opening (32), the length
 *                 of the name (2), the name, the length of the key (4), the key
 *
 * Nothing follows. An entry is the encoding of one epoch's signed tree root (STR). Its offsets: version 0 (1 byte), epoch 1
 * (8), epoch before 9 (8), root 17 (32), previous link 49 (32), nonce 81 (32), policy 113 (32), signature 145 (64).
 * docs/FORMATS.md has more on both, in "A proof in bytes" and "Entries".
 *
 * Build and run, in the repository:
 *
 *     embed/build && cc program.c -Iinclude embed/out/libconiks.a -o program && ./program
 *
 * After embed/install: cc program.c $(pkg-config --cflags --libs coniks). The archive for x86-64 needs a processor of level
 * x86-64-v2 (SSE4.2).
 */
#ifndef CONIKS_H
#define CONIKS_H

#include <stddef.h>
#include <stdint.h>

#ifdef __cplusplus
extern "C" {
#endif

/* The version of the header and the library. The shared object's name contains the first number. */
#define CONIKS_VERSION "1.0.0"
#define CONIKS_VERSION_MAJOR 1
#define CONIKS_VERSION_MINOR 0
#define CONIKS_VERSION_PATCH 0
#define CONIKS_VERSION_NUMBER (10000 * CONIKS_VERSION_MAJOR + 100 * CONIKS_VERSION_MINOR + CONIKS_VERSION_PATCH)

/* A result that must be used: the status shows whether anything was written. */
#if defined(__GNUC__)
#define CONIKS_NODISCARD __attribute__((warn_unused_result))
/* Pointers that must not be NULL, as a list in parentheses. A pointer with a length may be NULL if that length is 0. */
#define CONIKS_NONNULL(arguments) __attribute__((nonnull arguments))
#else
#define CONIKS_NODISCARD
#define CONIKS_NONNULL(arguments)
#endif

enum {
    /* formats.toml: lengths */
    CONIKS_BODY_BYTES = 145,     /* of an entry's body, which is signed */
    CONIKS_SIGNATURE_BYTES = 64, /* of its signature, for example Ed25519 (RFC 8032) */
    CONIKS_ENTRY_BYTES = 209,    /* both */
    CONIKS_MAX_NAME = 255,       /* bytes of a name; at least 1 */
    CONIKS_MAX_KEY = 16384,      /* bytes of a key; at least 1 */
    CONIKS_MAX_PROOF = 24872,    /* bytes of the longest proof that can be accepted */
    CONIKS_TEXT_BYTES = 128      /* bytes of the longest text of coniks_text, with its zero byte */
    /* formats.toml: end */
};

enum coniks_status {
    /* formats.toml: outcomes */
    CONIKS_GOOD = 0,         /* success: a key is shown, an entry follows, the expected key is seen, or bytes were written */
    CONIKS_ABSENT = 1,       /* the proof is accepted; the name is bound to no key */
    CONIKS_CHANGED = 9,      /* of coniks_monitor_step: the proof is accepted, and does not show what is expected */
    CONIKS_NO_EVIDENCE = 50, /* of coniks_convicts: the entries are no evidence of equivocation */
    /* formats.toml: end */

    /* formats.toml: statuses */
    /* of coniks_check and coniks_monitor_step: the proof is not accepted */
    CONIKS_E_TOO_DEEP = 2,       /* the proof has more than 256 siblings */
    CONIKS_E_NAME_LENGTH = 3,    /* the name is empty or longer than 255 bytes */
    CONIKS_E_KEY_LENGTH = 4,     /* the proof's key is empty or longer than 16384 bytes */
    CONIKS_E_WRONG_NAME = 5,     /* the proof's leaf contains another name */
    CONIKS_E_OTHER_IS_SAME = 6,  /* the proof's other index is the requested index */
    CONIKS_E_OTHER_OFF_PATH = 7, /* the proof's other index isn't on the path to the requested index */
    CONIKS_E_ROOT_MISMATCH = 8,  /* the root computed from the proof isn't the expected root */

    /* of coniks_check and coniks_monitor_step: the bytes are not a proof */
    CONIKS_E_NO_BYTES = 17,        /* there are no bytes */
    CONIKS_E_UNKNOWN_KIND = 18,    /* the first byte is not 0, 1 or 2 */
    CONIKS_E_CUT_IN_COUNT = 19,    /* the bytes end within the number of siblings */
    CONIKS_E_CUT_IN_SIBLINGS = 20, /* the bytes end within the siblings */
    CONIKS_E_CUT_IN_OTHER = 21,    /* the bytes end within the other index or its commitment */
    CONIKS_E_CUT_IN_OPENING = 22,  /* the bytes end within the opening */
    CONIKS_E_CUT_IN_NAME = 23,     /* the bytes end within the name or its length */
    CONIKS_E_CUT_IN_KEY = 24,      /* the bytes end within the key or its length */
    CONIKS_E_BYTES_FOLLOW = 25,    /* bytes follow the proof */

    /* of coniks_auditor_feed and coniks_monitor_step: the entry does not follow the last accepted one */
    CONIKS_E_VERSION_UNKNOWN = 33, /* the version is neither 1 nor 2 */
    CONIKS_E_VERSION_BACK = 34,    /* the version is lower than that of the entry before */
    CONIKS_E_FIRST_EPOCH = 35,     /* the first epoch is 0 */
    CONIKS_E_NOT_LATER = 36,       /* the epoch isn't later than that of the entry before */
    CONIKS_E_PREVIOUS_EPOCH = 37,  /* the previous epoch isn't that of the entry before */
    CONIKS_E_PREVIOUS_LINK = 38,   /* the previous link isn't that of the entry before */
    CONIKS_E_NONCE_CHANGED = 39,   /* the version is 1 and the nonce isn't that of the entry before */
    CONIKS_E_SIGNATURE = 40,       /* the signature isn't valid for the body, as the caller has verified it */

    /* of calls that take an entry */
    CONIKS_E_ENTRY_LENGTH = 48, /* the entry isn't 209 bytes long */

    /* of coniks_auditor_head */
    CONIKS_E_NO_ENTRY = 49 /* no entry was accepted yet */
    /* formats.toml: end */
};

/* Why two entries, signed with one key, are evidence that its owner equivocated. */
enum coniks_evidence {
    /* formats.toml: evidence */
    CONIKS_OVERLAP = 1,      /* different bodies whose intervals (previous epoch, epoch] overlap */
    CONIKS_OTHER_POLICY = 2, /* different policy digests */
    CONIKS_MALFORMED = 3     /* one is in no chain: its version, its epochs or its first link is wrong */
    /* formats.toml: end */
};

/* A nonce, a root, an index or a link. */
typedef struct coniks_bytes32 {
    uint8_t bytes[32];
} coniks_bytes32;

/* The body of an entry, which is signed. */
typedef struct coniks_bytes145 {
    uint8_t bytes[145];
} coniks_bytes145;

/*
 * The whole state of an auditor between entries. It contains no pointer and no padding, so it may be copied, written to a
 * file, read again on the same kind of machine, and compared with memcmp. All bytes 0 is the state before the first entry.
 * Anyone who can change it decides what is accepted next: protect it as you protect keys.
 */
typedef struct coniks_auditor {
    uint64_t epoch;      /* of the last accepted entry, at least 1; 0 before the first */
    coniks_bytes32 link; /* of that entry */
    coniks_bytes32 nonce;
    uint8_t version;
    uint8_t unused[7]; /* written as 0, and not read */
} coniks_auditor;

/* An entry without its signature: the tree root of one epoch, and what is signed with it. */
typedef struct coniks_body {
    uint64_t epoch;               /* from 1 on */
    uint64_t previous_epoch;      /* 0 for the first */
    coniks_bytes32 root;          /* of the tree at this epoch */
    coniks_bytes32 previous_link; /* 32 zero bytes for the first */
    coniks_bytes32 nonce;         /* under which the tree is hashed */
    coniks_bytes32 policy;        /* the digest of the directory's policy */
    uint8_t version;              /* 1 or 2 */
    uint8_t unused[7];            /* written as 0, and not read */
} coniks_body;

/*
 * Checks the proof of a name at its index, under a root and a nonce.
 *
 * Returns CONIKS_GOOD if the proof shows a key. Then *key_start and *key_length are the place of the key in the proof; a key
 * has at least one byte. Returns CONIKS_ABSENT if the proof shows that the name is bound to none. Else returns the first
 * error: of the bytes (17 to 25), then of the proof (2 to 8). Writes only for CONIKS_GOOD.
 *
 * Take root and nonce from an audited entry. Compute the index from the name, with its VRF proof (CONIKS, section 3.4: a
 * verifiable unpredictable function): a proof for another index is a proof for another name.
 */
CONIKS_NODISCARD CONIKS_NONNULL((1, 2, 3, 8, 9))
uint32_t coniks_check(const coniks_bytes32 *nonce, const coniks_bytes32 *root, const coniks_bytes32 *index, const uint8_t *name,
                      size_t name_length, const uint8_t *proof, size_t proof_length, size_t *key_start, size_t *key_length);

/* Writes the state of an auditor that has seen no entry: all bytes 0. */
CONIKS_NONNULL((1))
void coniks_auditor_begin(coniks_auditor *state);

/*
 * Audits an entry.
 *
 * Verify the signature first, with the directory's public key: the entry's last 64 bytes over its first 145. Pass 1 as
 * `signature_verdict` if it is valid, and anything else if not. The result of OpenSSL's EVP_DigestVerify, which can be
 * negative, may be passed as it is.
 *
 * Returns CONIKS_GOOD if the entry follows the last accepted one; the state is then that of this entry. Else returns 48, or
 * the first of 33 to 40, and the state is unchanged.
 */
CONIKS_NODISCARD CONIKS_NONNULL((1))
uint32_t coniks_auditor_feed(coniks_auditor *state, const uint8_t *entry, size_t entry_length, uint32_t signature_verdict);

/*
 * Writes the head: epoch and link of the last accepted entry. Two auditors with the same head have seen the same chain, or
 * two different byte strings of equal SHA-256. Returns CONIKS_E_NO_ENTRY if there was no entry.
 */
CONIKS_NODISCARD CONIKS_NONNULL((1, 2, 3))
uint32_t coniks_auditor_head(const coniks_auditor *state, uint64_t *epoch, coniks_bytes32 *link);

/*
 * Monitors a name: audits the entry of an epoch, and checks the proof of the client's own name at that epoch. The state is
 * an auditor's; use one for each name. An expected key of no bytes means that the name is expected to be bound to none.
 *
 * Accepts the entry and returns CONIKS_GOOD if the proof shows the expected key, CONIKS_ABSENT if it shows no key though one
 * is expected, and CONIKS_CHANGED if it shows another key, or a key though none is expected. Else returns the first of 48,
 * 17 to 25, 33 to 40 and 2 to 8, and the state is unchanged.
 */
CONIKS_NODISCARD CONIKS_NONNULL((1, 2))
uint32_t coniks_monitor_step(coniks_auditor *state, const coniks_bytes32 *index, const uint8_t *name, size_t name_length,
                             const uint8_t *expected, size_t expected_length, const uint8_t *entry, size_t entry_length,
                             uint32_t signature_verdict, const uint8_t *proof, size_t proof_length);

/* Reads the body of an entry, and verifies nothing. Returns CONIKS_GOOD or CONIKS_E_ENTRY_LENGTH. */
CONIKS_NODISCARD CONIKS_NONNULL((3))
uint32_t coniks_entry_body(const uint8_t *entry, size_t entry_length, coniks_body *body);

/* Writes the bytes of a body, which are signed. An entry is these bytes and the 64 of the signature. */
CONIKS_NONNULL((1, 2))
void coniks_body_bytes(const coniks_body *body, coniks_bytes145 *bytes);

/* Writes the link of an entry, which the next entry contains. Returns CONIKS_GOOD or CONIKS_E_ENTRY_LENGTH. */
CONIKS_NODISCARD CONIKS_NONNULL((3))
uint32_t coniks_link(const uint8_t *entry, size_t entry_length, coniks_bytes32 *link);

/*
 * Compares two entries that were signed with one key: whether they are evidence that its owner equivocated. Verify both
 * signatures first. A key signs one chain, and nothing else; so no two entries of an honest owner are evidence. If two good
 * chains part, the first entries with different bodies are evidence, whatever their epochs are.
 *
 * Returns CONIKS_GOOD if they are, and writes the first kind of `enum coniks_evidence` that applies. Returns
 * CONIKS_NO_EVIDENCE if they are not, and CONIKS_E_ENTRY_LENGTH if one of them does not have 209 bytes.
 */
CONIKS_NODISCARD CONIKS_NONNULL((5))
uint32_t coniks_convicts(const uint8_t *a, size_t a_length, const uint8_t *b, size_t b_length, uint32_t *kind);

/*
 * Writes the text of an error's status, in English and ASCII, and a zero byte after it, as snprintf does. Writes at most
 * `room` bytes, the last one 0; a longer text is cut. Returns the length of the whole text without its zero byte. A number
 * that is no error's status has the empty text. No text with its zero byte is longer than CONIKS_TEXT_BYTES.
 */
size_t coniks_text(uint32_t status, uint8_t *text, size_t room);

/* Returns the version of the library. It is CONIKS_VERSION_NUMBER if header and library are of one version. */
uint32_t coniks_version(void);

#ifdef __cplusplus
}
#endif

#endif

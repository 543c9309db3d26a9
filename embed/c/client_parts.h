/* What the parts of the client in C share. Not for its callers. */
#ifndef CONIKS_CLIENT_PARTS_H
#define CONIKS_CLIENT_PARTS_H

#include "client.h"

enum { HASH_BYTES = 32, VRF_PROOF_BYTES = 80 };

/* The place of an entry's epoch. */
enum { EPOCH_START = 1 };

/* Bytes of the caller, or of the client. */
struct slice {
    const uint8_t *bytes;
    size_t length;
};

/* The keys of a directory. */
struct keys {
    coniks_bytes32 signing, vrf, successor;
    int has_vrf, has_successor;
};

/* What a succession says, and the lines before its signature. */
struct succession {
    coniks_succession parts; /* without the verdict on the signature */
    struct slice lines;
    uint8_t signature[CONIKS_SIGNATURE_BYTES];
};

/* The client owns all that its pointers point at. What those of its settings to keys, policy and trust point at is read as it is made. */
struct coniks_client {
    coniks_client_settings settings;
    struct keys keys;
    coniks_core core;
    uint8_t *texts; /* the watched name, and all keys of the watch and of the changes */
};

/* client_ecvrf.c */

/* Returns whether 32 bytes are the encoding of a point of prime order. */
CONIKS_NODISCARD int client_is_point(const coniks_bytes32 *key);
/* Returns whether a signature of a message is valid under a key that client_is_point accepts. */
CONIKS_NODISCARD int client_is_signature(const coniks_bytes32 *key, struct slice message, const uint8_t *signature);
/* Returns 1 and writes the first 32 bytes of the output, if the proof is valid for the input and a key that client_is_point accepts. */
CONIKS_NODISCARD int client_verify_vrf(const coniks_bytes32 *key, struct slice input, struct slice proof,
                                       coniks_bytes32 *index);
void client_hash_bytes(const uint8_t *bytes, size_t length, coniks_bytes32 *hash);

/* client_schemes.c */

/* Takes the keys of the settings, and checks that they are those of the policy document; NULL is no document. */
CONIKS_NODISCARD uint32_t client_take_keys(coniks_client *client, const struct keys *of_policy);

/* Returns whether the successor key of a policy signed a succession. */
CONIKS_NODISCARD int client_is_successor(const struct keys *keys, const struct succession *it);

/* client_verdicts.c: all verdicts that the core is given are made here */

/* Returns the verdict on the signature of an entry of 209 bytes, and 0 for bytes of another length. */
CONIKS_NODISCARD uint32_t client_signature_verdict(const coniks_client *client, const uint8_t *entry, size_t length);
/* Returns the verdict on the VRF proof of a name, with the index. */
CONIKS_NODISCARD coniks_verdicts client_index_verdict(const coniks_client *client, const coniks_client_proof *proof);

/* Returns the verdict on the signature of a succession by the successor key of the client's policy. */
CONIKS_NODISCARD uint32_t client_succession_verdict(const coniks_client *client, const struct succession *succession);

/* client_policy.c */

struct slice client_slice_of(const uint8_t *bytes, size_t length);
/* Reads a policy document: its keys, digest, clock and promise. Returns 0, or CONIKS_CLIENT_E_POLICY_FORM. */
CONIKS_NODISCARD uint32_t client_read_policy(struct slice document, struct keys *keys, coniks_rules *rules);

/* Reads a succession. Returns 0, or CONIKS_CLIENT_E_SUCCESSION_FORM. */
CONIKS_NODISCARD uint32_t client_read_succession(struct slice text, struct succession *succession);

/* client_memory.c */

/* Allocates room for a number of elements of a size, and at least one byte. Returns NULL if there is no memory. */
CONIKS_NODISCARD void *client_allocate(const coniks_client *client, size_t count, size_t size);
/* Frees a block; NULL is none. */
void client_release(const coniks_client *client, void *block);
/* Makes room for `more` stored epochs, and for `alarm_count` alarms and one of each stored epoch. */
CONIKS_NODISCARD uint32_t client_reserve_epochs(coniks_client *client, size_t more, size_t alarm_count);
/* Makes room for a number of changes. */
CONIKS_NODISCARD uint32_t client_reserve_changes(coniks_client *client, size_t room);
/* Allocates room for the watched name, all keys and more bytes. Returns NULL if there is no memory. */
CONIKS_NODISCARD uint8_t *client_allocate_texts(const coniks_client *client, size_t more);
/* Copies the watched name and all keys to a block that has room for them, in place of the one that the client owns. Changes nothing if the
 * block is NULL: there is no memory. */
uint32_t client_own_texts(coniks_client *client, uint8_t *block);
/* Returns the number in eight bytes, and the epoch of a stored entry. */
uint64_t client_number_of(const uint8_t *bytes);
uint64_t client_epoch_of(const uint8_t *entry);
/* Writes zeros; `bytes` may be NULL. */
void client_clear(void *bytes, size_t length);

/* client_state.c */

/* Takes what is in a state. */
CONIKS_NODISCARD uint32_t client_take_state(coniks_client *client, struct slice state);

/* client.c */

/* Writes why an entry was refused, unless `to` is NULL. Returns the status. */
uint32_t client_refused(const coniks_client *client, uint32_t status, const uint8_t *entry, const coniks_why *why,
                        coniks_client_refusal *to);
/* Returns the time. */
uint64_t client_time(const coniks_client *client);

#endif

/* What verifies signatures and VRF proofs: a public key over libsodium, or a scheme of the caller. */
#include <string.h>

#include "client_parts.h"

static int verify_signature(void *key, const uint8_t *body, const uint8_t *signature)
{
    return client_is_signature(key, client_slice_of(body, CONIKS_BODY_BYTES), signature);
}

/* Without a VRF the key is NULL. */
static int find_index(void *key, const coniks_client_proof *it, coniks_bytes32 *index)
{
    return key && client_verify_vrf(key, client_slice_of(it->name, it->name_length),
                                    client_slice_of(it->proof, it->proof_length), index);
}

static int is_same(const coniks_bytes32 *key, const coniks_bytes32 *other)
{
    return memcmp(key, other, sizeof *key) == 0;
}

int client_is_successor(const struct keys *keys, const struct succession *it)
{
    return keys->has_successor && client_is_point(&keys->successor) &&
           client_is_signature(&keys->successor, it->lines, it->signature);
}

/* A scheme in place of a key is its caller's choice. */
uint32_t client_take_keys(coniks_client *client, const struct keys *of_policy)
{
    coniks_client_settings *settings = &client->settings;
    struct keys *keys = &client->keys;
    const int is_signing = settings->signatures.verify == NULL, is_vrf = settings->indices.index == NULL;
    keys->has_vrf = settings->vrf_key != NULL;
    if (settings->signing_key)
        keys->signing = *settings->signing_key;
    if (keys->has_vrf)
        keys->vrf = *settings->vrf_key;
    if (is_signing)
        settings->signatures = (coniks_client_signatures){verify_signature, &keys->signing};
    if (is_vrf)
        settings->indices = (coniks_client_indices){find_index, keys->has_vrf ? &keys->vrf : NULL};
    if (is_signing && !client_is_point(&keys->signing))
        return CONIKS_CLIENT_E_SIGNING_KEY;
    if (is_vrf && keys->has_vrf && !client_is_point(&keys->vrf))
        return CONIKS_CLIENT_E_VRF_KEY;
    if (of_policy && is_signing && !is_same(&keys->signing, &of_policy->signing))
        return CONIKS_CLIENT_E_POLICY_KEYS;
    if (of_policy && is_vrf && (keys->has_vrf != of_policy->has_vrf || !is_same(&keys->vrf, &of_policy->vrf)))
        return CONIKS_CLIENT_E_POLICY_KEYS;
    return 0;
}

/* The verdicts of a client on signatures and VRF proofs: what the core is given is made here, and nowhere else. */
#include "client_parts.h"

uint32_t client_signature_verdict(const coniks_client *client, const uint8_t *entry, size_t length)
{
    const coniks_client_signatures *scheme = &client->settings.signatures;
    return length == CONIKS_ENTRY_BYTES && scheme->verify(scheme->context, entry, entry + CONIKS_BODY_BYTES) == 1;
}

uint32_t client_succession_verdict(const coniks_client *client, const struct succession *succession)
{
    return client_is_successor(&client->keys, succession) == 1;
}

coniks_verdicts client_index_verdict(const coniks_client *client, const coniks_client_proof *proof)
{
    const coniks_client_indices *scheme = &client->settings.indices;
    coniks_verdicts verdicts = {0};
    verdicts.index = scheme->index(scheme->context, proof, &verdicts.at) == 1;
    return verdicts;
}

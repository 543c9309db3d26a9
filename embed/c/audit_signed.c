/*
 * Audits a chain whose entries have Ed25519 signatures (RFC 8032). OpenSSL signs and verifies; coniks checks that each entry
 * follows the one before.
 *
 *     audit_signed
 *
 * Makes three entries and audits them, then entries that are forged in one place each, and prints the results.
 * Built with -lcrypto.
 */
#include <openssl/evp.h>
#include <stdio.h>
#include <string.h>

#include "coniks.h"

static const uint8_t SEED[32] = {7};

/* Returns 1 if the entry's signature is valid for its body, under this key. */
static uint32_t verdict(EVP_PKEY *key, const uint8_t *entry)
{
    EVP_MD_CTX *context = EVP_MD_CTX_new();
    int result = EVP_DigestVerifyInit(context, NULL, NULL, NULL, key) == 1
                     ? EVP_DigestVerify(context, entry + CONIKS_BODY_BYTES, CONIKS_SIGNATURE_BYTES, entry, CONIKS_BODY_BYTES)
                     : 0;
    EVP_MD_CTX_free(context);
    return result == 1;
}

static void sign(EVP_PKEY *key, uint8_t *entry)
{
    size_t length = CONIKS_SIGNATURE_BYTES;
    EVP_MD_CTX *context = EVP_MD_CTX_new();
    if (EVP_DigestSignInit(context, NULL, NULL, NULL, key) == 1)
        EVP_DigestSign(context, entry + CONIKS_BODY_BYTES, &length, entry, CONIKS_BODY_BYTES);
    EVP_MD_CTX_free(context);
}

/* The signed entry of an epoch, after the one that `state` saw last. */
static void make(EVP_PKEY *key, const coniks_auditor *state, uint64_t epoch, uint8_t *entry)
{
    coniks_body body;
    coniks_bytes145 bytes;
    memset(&body, 0, sizeof body);
    body.version = 1;
    body.epoch = epoch;
    if (coniks_auditor_head(state, &body.previous_epoch, &body.previous_link) != CONIKS_GOOD)
        body.previous_epoch = 0;
    memset(body.root.bytes, (int)epoch, 32);
    memset(body.nonce.bytes, 0x11, 32);
    coniks_body_bytes(&body, &bytes);
    memcpy(entry, bytes.bytes, CONIKS_BODY_BYTES);
    sign(key, entry);
}

static void tell(const char *what, uint32_t status, const coniks_auditor *state)
{
    uint8_t text[CONIKS_TEXT_BYTES];
    size_t size = coniks_text(status, text, sizeof text);
    printf("%s: %u%s%s, at epoch %llu\n", what, (unsigned)status, size ? ", " : "", (const char *)text,
           (unsigned long long)state->epoch);
}

int main(void)
{
    coniks_auditor state, before;
    uint8_t entry[CONIKS_ENTRY_BYTES], forged[CONIKS_ENTRY_BYTES];
    EVP_PKEY *key = EVP_PKEY_new_raw_private_key(EVP_PKEY_ED25519, NULL, SEED, sizeof SEED);
    uint64_t epoch;

    if (key == NULL)
        return 2;
    coniks_auditor_begin(&state);
    for (epoch = 1; epoch <= 3; epoch++) {
        before = state;
        make(key, &state, epoch, entry);
        tell("good", coniks_auditor_feed(&state, entry, sizeof entry, verdict(key, entry)), &state);
    }
    memcpy(forged, entry, sizeof entry);
    forged[20] ^= 1;
    tell("another root", coniks_auditor_feed(&before, forged, sizeof forged, verdict(key, forged)), &before);
    memcpy(forged, entry, sizeof entry);
    forged[CONIKS_BODY_BYTES] ^= 1;
    tell("another signature", coniks_auditor_feed(&before, forged, sizeof forged, verdict(key, forged)), &before);
    memcpy(forged, entry, sizeof entry);
    forged[60] ^= 1;
    sign(key, forged);
    tell("another link, signed", coniks_auditor_feed(&before, forged, sizeof forged, verdict(key, forged)), &before);
    tell("the last one again", coniks_auditor_feed(&state, entry, sizeof entry, verdict(key, entry)), &state);
    tell("cut short", coniks_auditor_feed(&before, entry, sizeof entry - 1, verdict(key, entry)), &before);
    tell("the third one", coniks_auditor_feed(&before, entry, sizeof entry, verdict(key, entry)), &before);
    printf("same state: %s\n", memcmp(&state, &before, sizeof state) == 0 ? "yes" : "no");
    EVP_PKEY_free(key);
    return 0;
}

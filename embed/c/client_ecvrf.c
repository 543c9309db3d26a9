/*
 * Signatures by Ed25519 (RFC 8032) and proofs of ECVRF-EDWARDS25519-SHA512-TAI (RFC 9381, section 5.5) over libsodium. Points are
 * encoded as in RFC 8032, section 5.1.2; numbers have their least significant byte first.
 */
#include <sodium.h>
#include <string.h>

#include "client_parts.h"

/* 2^255 - 19, the prime of the field, and 2^252 + 27742317777372353535851937790883648493, the order of the group. */
static const uint8_t PRIME[32] = {0xed, 0xff, 0xff, 0xff, 0xff, 0xff, 0xff, 0xff, 0xff, 0xff, 0xff,
                                  0xff, 0xff, 0xff, 0xff, 0xff, 0xff, 0xff, 0xff, 0xff, 0xff, 0xff,
                                  0xff, 0xff, 0xff, 0xff, 0xff, 0xff, 0xff, 0xff, 0xff, 0x7f};
static const uint8_t ORDER[32] = {0xed, 0xd3, 0xf5, 0x5c, 0x1a, 0x63, 0x12, 0x58, 0xd6, 0x9c, 0xf7,
                                  0xa2, 0xde, 0xf9, 0xde, 0x14, 0,    0,    0,    0,    0,    0,
                                  0,    0,    0,    0,    0,    0,    0,    0,    0,    0x10};
static const uint8_t IDENTITY[32] = {1};
static const uint8_t SUITE = 3, ZERO = 0;

static int is_less(const uint8_t *number, const uint8_t *limit)
{
    size_t i;
    for (i = 32; i-- > 0;) {
        if (number[i] != limit[i])
            return number[i] < limit[i];
    }
    return 0;
}

int client_is_point(const coniks_bytes32 *key)
{
    return crypto_core_ed25519_is_valid_point(key->bytes) == 1;
}

int client_is_signature(const coniks_bytes32 *key, struct slice message, const uint8_t *signature)
{
    return crypto_sign_ed25519_verify_detached(signature, message.bytes, message.length, key->bytes) == 0;
}

void client_hash_bytes(const uint8_t *bytes, size_t length, coniks_bytes32 *hash)
{
    crypto_hash_sha256(hash->bytes, bytes, length);
}

static void begin_hash(crypto_hash_sha512_state *state, uint8_t what)
{
    crypto_hash_sha512_init(state);
    crypto_hash_sha512_update(state, &SUITE, 1);
    crypto_hash_sha512_update(state, &what, 1);
}

static void end_hash(crypto_hash_sha512_state *state, uint8_t *hash)
{
    crypto_hash_sha512_update(state, &ZERO, 1);
    crypto_hash_sha512_final(state, hash);
}

static int times_cofactor(const uint8_t *point, uint8_t *product)
{
    uint8_t twice[32], fourfold[32];
    return crypto_core_ed25519_add(twice, point, point) == 0 && crypto_core_ed25519_add(fourfold, twice, twice) == 0 &&
           crypto_core_ed25519_add(product, fourfold, fourfold) == 0;
}

/* Writes eight times the point that 32 bytes encode (RFC 8032, section 5.1.3). Returns 0 if they encode none, or if this is the
 * identity. */
static int hashed_point(const uint8_t *text, uint8_t *point)
{
    uint8_t y[32];
    memcpy(y, text, sizeof y);
    y[31] &= 0x7f;
    return is_less(y, PRIME) && times_cofactor(text, point) && memcmp(point, IDENTITY, sizeof IDENTITY) != 0;
}

/* Writes the point that a key and an input are hashed to, by try and increment (section 5.4.1.1). */
static int encode_to_curve(const coniks_bytes32 *key, struct slice input, uint8_t *point)
{
    unsigned counter;
    for (counter = 0; counter < 256; counter++) {
        crypto_hash_sha512_state state;
        uint8_t hash[64], byte = (uint8_t)counter;
        begin_hash(&state, 1);
        crypto_hash_sha512_update(&state, key->bytes, 32);
        if (input.length)
            crypto_hash_sha512_update(&state, input.bytes, input.length);
        crypto_hash_sha512_update(&state, &byte, 1);
        end_hash(&state, hash);
        if (hashed_point(hash, point))
            return 1;
    }
    return 0;
}

/* Writes the difference of two multiples, of the base point if `p` is NULL. Returns 0 for a multiple 0, and for a point that is
 * not of prime order. */
static int difference(const uint8_t *a, const uint8_t *p, const uint8_t *b, const uint8_t *q, uint8_t *result)
{
    uint8_t one[32], other[32];
    int status = p ? crypto_scalarmult_ed25519_noclamp(one, a, p) : crypto_scalarmult_ed25519_base_noclamp(one, a);
    return status == 0 && crypto_scalarmult_ed25519_noclamp(other, b, q) == 0 &&
           crypto_core_ed25519_sub(result, one, other) == 0;
}

/* Returns whether the challenge of the five points is this one (section 5.4.3). */
static int is_challenge(const uint8_t *const points[5], const uint8_t *wanted)
{
    crypto_hash_sha512_state state;
    uint8_t hash[64];
    size_t i;
    begin_hash(&state, 2);
    for (i = 0; i < 5; i++)
        crypto_hash_sha512_update(&state, points[i], 32);
    end_hash(&state, hash);
    return memcmp(hash, wanted, 16) == 0;
}

/* Writes the first 32 bytes of the output of a proof that is valid (section 5.2). */
static int output(const uint8_t *gamma, coniks_bytes32 *index)
{
    crypto_hash_sha512_state state;
    uint8_t point[32], hash[64];
    if (!times_cofactor(gamma, point))
        return 0;
    begin_hash(&state, 3);
    crypto_hash_sha512_update(&state, point, sizeof point);
    end_hash(&state, hash);
    memcpy(index->bytes, hash, sizeof index->bytes);
    return 1;
}

/* Section 5.3, with the rule that Gamma is a point of prime order. */
int client_verify_vrf(const coniks_bytes32 *key, struct slice input, struct slice proof, coniks_bytes32 *index)
{
    uint8_t point[32], u[32], v[32], number[32] = {0};
    const uint8_t *gamma, *challenge, *s;
    const uint8_t *points[5];
    if (proof.length != VRF_PROOF_BYTES)
        return 0;
    gamma = proof.bytes;
    challenge = gamma + 32;
    s = challenge + 16;
    memcpy(number, challenge, 16);
    if (!is_less(s, ORDER) || !encode_to_curve(key, input, point))
        return 0;
    if (!difference(s, NULL, number, key->bytes, u) || !difference(s, point, number, gamma, v))
        return 0;
    points[0] = key->bytes;
    points[1] = point;
    points[2] = gamma;
    points[3] = u;
    points[4] = v;
    return is_challenge(points, challenge) && output(gamma, index);
}

/* The policy document, whose SHA-256 is the policy digest of each entry, and the succession. docs/FORMATS.md defines their lines. */
#include <string.h>

#include "client_parts.h"

/* Bytes that are taken from the front on. */
struct reader {
    const uint8_t *at;
    size_t left;
};

struct slice client_slice_of(const uint8_t *bytes, size_t length)
{
    struct slice it;
    it.bytes = bytes;
    it.length = length;
    return it;
}

/* Takes the line with a name and a space; the value is the rest of it. Returns 0 if the next line is another one. */
static int take_value(struct reader *it, const char *name, struct slice *value)
{
    size_t length = strlen(name);
    const uint8_t *end = it->left ? memchr(it->at, '\n', it->left) : NULL;
    if (end == NULL || (size_t)(end - it->at) < length || memcmp(it->at, name, length) != 0)
        return 0;
    *value = client_slice_of(it->at + length, (size_t)(end - it->at) - length);
    it->left -= (size_t)(end - it->at) + 1;
    it->at = end + 1;
    return 1;
}

static int is_text(struct slice value, const char *text)
{
    size_t length = strlen(text);
    return value.length == length && memcmp(value.bytes, text, length) == 0;
}

static int take_line(struct reader *it, const char *line)
{
    struct slice rest;
    return take_value(it, line, &rest) && rest.length == 0;
}

static int take_origin(struct reader *it)
{
    struct slice value;
    size_t i;
    if (!take_value(it, "origin ", &value) || value.length < 1 || value.length > 255)
        return 0;
    for (i = 0; i < value.length; i++) {
        if (value.bytes[i] < 0x21 || value.bytes[i] > 0x7e)
            return 0;
    }
    return 1;
}

static int digit(uint8_t c)
{
    if (c >= '0' && c <= '9')
        return c - '0';
    return c >= 'a' && c <= 'f' ? c - 'a' + 10 : -1;
}

/* Reads the bytes of a number of hexadecimal digits. */
static int take_digits(struct slice value, uint8_t *bytes, size_t count)
{
    size_t i;
    if (value.length != 2 * count)
        return 0;
    for (i = 0; i < count; i++) {
        int high = digit(value.bytes[2 * i]), low = digit(value.bytes[2 * i + 1]);
        if (high < 0 || low < 0)
            return 0;
        bytes[i] = (uint8_t)(high << 4 | low);
    }
    return 1;
}

static int take_key(struct reader *it, const char *name, coniks_bytes32 *key)
{
    struct slice value;
    return take_value(it, name, &value) && take_digits(value, key->bytes, sizeof key->bytes);
}

/* The number of decimal digits without leading zeros, less than 2^64. */
static int is_number(struct slice value, uint64_t *number)
{
    size_t i;
    if (value.length == 0 || (value.length > 1 && value.bytes[0] == '0'))
        return 0;
    *number = 0;
    for (i = 0; i < value.length; i++) {
        uint64_t last = (uint64_t)value.bytes[i] - '0';
        if (value.bytes[i] < '0' || value.bytes[i] > '9' || *number > (UINT64_MAX - last) / 10)
            return 0;
        *number = *number * 10 + last;
    }
    return 1;
}

static int take_vrf(struct reader *it, struct keys *keys)
{
    struct slice scheme;
    if (!take_value(it, "vrf ", &scheme))
        return 0;
    keys->has_vrf = is_text(scheme, "ECVRF-EDWARDS25519-SHA512-TAI");
    return keys->has_vrf ? take_key(it, "vrf-key ", &keys->vrf) : is_text(scheme, "none");
}

static int take_clock(struct reader *it, coniks_clock *clock)
{
    struct slice start, period;
    if (!take_value(it, "epoch-start ", &start))
        return 1;
    clock->is_there = 1;
    return is_number(start, &clock->start) && take_value(it, "epoch-period ", &period) && is_number(period, &clock->period) &&
           clock->period > 0;
}

/* The line that promises records of owners may be absent. A client in C verifies no records. */
static int take_records(struct reader *it)
{
    struct slice value;
    return !take_value(it, "records ", &value) || is_text(value, "vouched");
}

/* The line of the successor key may be absent. */
static int take_successor(struct reader *it, struct keys *keys)
{
    struct slice value;
    if (!take_value(it, "successor-key ", &value) || is_text(value, "none"))
        return 1;
    keys->has_successor = 1;
    return take_digits(value, keys->successor.bytes, sizeof keys->successor.bytes);
}

static int is_signing_key(const struct keys *keys)
{
    return keys->has_successor && memcmp(&keys->successor, &keys->signing, sizeof keys->signing) == 0;
}

static int take_promise(struct reader *it, coniks_promise *promise)
{
    struct slice value;
    if (!take_value(it, "proofs-kept ", &value))
        return 0;
    promise->is_limited = !is_text(value, "forever");
    return !promise->is_limited || is_number(value, &promise->seconds);
}

uint32_t client_read_policy(struct slice document, struct keys *keys, coniks_rules *rules)
{
    struct reader it;
    it.at = document.bytes;
    it.left = document.length;
    memset(keys, 0, sizeof *keys);
    memset(rules, 0, sizeof *rules);
    if (!take_line(&it, "policy coniks-1") || !take_origin(&it) || !take_line(&it, "signature Ed25519") ||
        !take_key(&it, "signing-key ", &keys->signing) || !take_vrf(&it, keys) || !take_clock(&it, &rules->clock) ||
        !take_line(&it, "evidence one-chain") || !take_records(&it) || !take_successor(&it, keys) ||
        !take_promise(&it, &rules->promise) || it.left || is_signing_key(keys))
        return CONIKS_CLIENT_E_POLICY_FORM;
    client_hash_bytes(document.bytes, document.length, &rules->policy);
    return 0;
}

/* The number of an epoch, at least 1. */
static int take_epoch(struct reader *it, const char *name, uint64_t *epoch)
{
    struct slice value;
    return take_value(it, name, &value) && is_number(value, epoch) && *epoch > 0;
}

/* Takes the signature, which is over the lines before. */
static int take_signature(struct reader *it, struct succession *to)
{
    struct slice value;
    to->lines.length = (size_t)(it->at - to->lines.bytes);
    return take_value(it, "signature ", &value) && take_digits(value, to->signature, sizeof to->signature);
}

uint32_t client_read_succession(struct slice text, struct succession *succession)
{
    coniks_succession *parts = &succession->parts;
    struct reader it;
    it.at = text.bytes;
    it.left = text.length;
    memset(succession, 0, sizeof *succession);
    succession->lines = text;
    if (!take_line(&it, "succession coniks-1") || !take_key(&it, "policy ", &parts->policy) ||
        !take_epoch(&it, "last-epoch ", &parts->last_epoch) || !take_key(&it, "last-link ", &parts->last_link) ||
        !take_key(&it, "next-policy ", &parts->next_policy) || !take_epoch(&it, "first-epoch ", &parts->first_epoch) ||
        !take_key(&it, "first-link ", &parts->first_link) || !take_signature(&it, succession) || it.left ||
        memcmp(&parts->policy, &parts->next_policy, sizeof parts->policy) == 0)
        return CONIKS_CLIENT_E_SUCCESSION_FORM;
    return 0;
}

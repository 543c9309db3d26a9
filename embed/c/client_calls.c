/*
 * Calls of the client in C, over the examples of docs/FORMATS.md: what its callers can do wrong, what is written after an error,
 * and lengths that nothing follows. Prints each check that fails. The exit status is 0 if none does.
 */
#include <stdio.h>
#include <stdlib.h>
#include <string.h>

#include "client_examples.h"
#include "client_parts.h"

/* WATCHED is the place of the watch in the example of a state. */
enum { ROOM = 1 << 17, WATCHED = 37 + 2 * 218 + 4 + 32 + 4, LONG_KEY = 1000 };

static int failures;

#define CHECK(is_well) check((is_well), #is_well, __LINE__)

static void check(int is_well, const char *what, int line)
{
    if (is_well)
        return;
    printf("FAILED: line %d: %s\n", line, what);
    failures++;
}

/* How much is allocated at most at once and in all, how often it still is, what a scheme returns, and what it was given last. */
struct reported {
    size_t largest, live, granted;
    uint64_t now;
    int result;
    size_t verified; /* how many signatures */
    uint8_t entry[CONIKS_ENTRY_BYTES];
    coniks_client_proof proof;
};

/* Before each block stands its size. */
union header {
    size_t size;
    long double alignment;
};

static void *counted(struct reported *reported, size_t size)
{
    union header *header = malloc(sizeof *header + size);
    if (header == NULL)
        exit(2);
    header->size = size;
    reported->live += size;
    return header + 1;
}

static void *allocate(void *context, size_t size)
{
    struct reported *reported = context;
    if (size > reported->largest)
        reported->largest = size;
    if (reported->granted == 0)
        return NULL;
    reported->granted--;
    return counted(reported, size);
}

static void release(void *context, void *block)
{
    union header *header = (union header *)block - 1;
    ((struct reported *)context)->live -= header->size;
    free(header);
}

static uint64_t clock_of(void *context)
{
    return ((const struct reported *)context)->now;
}

static int verify(void *context, const uint8_t *body, const uint8_t *signature)
{
    struct reported *reported = context;
    memcpy(reported->entry, body, CONIKS_BODY_BYTES);
    memcpy(reported->entry + CONIKS_BODY_BYTES, signature, CONIKS_SIGNATURE_BYTES);
    reported->verified++;
    return reported->result;
}

static int find(void *context, const coniks_client_proof *proof, coniks_bytes32 *index)
{
    struct reported *reported = context;
    reported->proof = *proof;
    memset(index, 7, sizeof *index);
    return reported->result;
}

static size_t read_digits(const char *digits, uint8_t *bytes)
{
    size_t i, length = strlen(digits) / 2;
    for (i = 0; i < length; i++) {
        unsigned byte = 0;
        if (sscanf(digits + 2 * i, "%2x", &byte) != 1)
            exit(2);
        bytes[i] = (uint8_t)byte;
    }
    return length;
}

static coniks_bytes32 signing_key, vrf_key;
static uint8_t reply[ROOM], history[ROOM], state[ROOM];
static size_t reply_length, history_length, state_length;

#define NAME(text) (const uint8_t *)(text), strlen(text)

static void begin_settings(coniks_client_settings *settings, struct reported *reported)
{
    memset(reported, 0, sizeof *reported);
    reported->now = START + PERIOD + 60;
    reported->granted = SIZE_MAX;
    coniks_client_begin_settings(settings);
    settings->signing_key = &signing_key;
    settings->vrf_key = &vrf_key;
    settings->policy = (const uint8_t *)POLICY;
    settings->policy_length = strlen(POLICY);
    settings->memory.allocate = allocate;
    settings->memory.release = release;
    settings->memory.context = reported;
    settings->clock = clock_of;
    settings->clock_context = reported;
}

/* A client that goes on from the example's state, without its watched name. */
static coniks_client *fed(struct reported *reported)
{
    coniks_client_settings settings;
    coniks_client *client;
    coniks_client_steps steps = {NULL, 0, 7};
    begin_settings(&settings, reported);
    CHECK(coniks_client_new(&client, &settings) == 0);
    CHECK(coniks_client_catch_up(client, state + 37, CONIKS_ENTRY_BYTES, &steps, NULL) == 0 && steps.count == 1);
    CHECK(coniks_client_feed(client, state + 37 + 218, CONIKS_ENTRY_BYTES, NULL, NULL) == 0);
    return client;
}

static int is_zero(const void *bytes, size_t length)
{
    size_t i;
    for (i = 0; i < length; i++) {
        if (((const uint8_t *)bytes)[i])
            return 0;
    }
    return 1;
}

/* A lookup of alice, at an epoch or at the latest one. */
static coniks_asking asked(const uint8_t *bytes, size_t length, const uint64_t *epoch)
{
    const coniks_asking asking = {NAME("alice"), bytes, length, epoch != NULL, epoch ? *epoch : 0, 0};
    return asking;
}

/* What a lookup of alice returns; after an error all of the result must be zero. */
static uint32_t look_up(coniks_client *client, const uint8_t *bytes, size_t length, const uint64_t *epoch)
{
    const coniks_asking asking = asked(bytes, length, epoch);
    coniks_client_found found;
    coniks_client_refusal why;
    uint32_t status;
    memset(&found, 0xff, sizeof found);
    memset(&why, 0xff, sizeof why);
    status = coniks_client_lookup(client, &asking, &found, &why);
    CHECK(status == 0 || is_zero(&found, sizeof found));
    CHECK((status == CONIKS_CLIENT_E_EQUIVOCATION || status == CONIKS_CLIENT_E_OTHER_POLICY) || is_zero(&why, sizeof why));
    return status;
}

/* What a history of alice returns, with room for a number of its epochs. */
static uint32_t go_through(coniks_client *client, struct slice bytes, coniks_client_shown *shown, size_t room)
{
    const coniks_history asking = {NAME("alice"), bytes.bytes, bytes.length};
    shown->room = room;
    return coniks_client_history(client, &asking, shown);
}

/* Watches a name from an epoch on, or from the latest one. Without a key none is expected. */
static uint32_t watch(coniks_client *client, const char *name, const char *key, const uint64_t *since)
{
    const coniks_watch wanted = {1, NAME(name), since ? *since : 0, (const uint8_t *)key, key ? strlen(key) : 0};
    return coniks_client_watch(client, &wanted, since != NULL);
}

static void try_examples(void)
{
    const coniks_asking asking = asked(reply, reply_length, NULL);
    const struct slice all = client_slice_of(history, history_length);
    struct reported reported;
    coniks_client *client = fed(&reported);
    coniks_client_found found[3];
    coniks_client_shown shown = {found, 0, 7};
    uint64_t epoch = 9, missing[2] = {7, 7};
    CHECK(coniks_client_lookup(client, &asking, &found[0], NULL) == 0);
    CHECK(found[0].shows == CONIKS_CLIENT_KEY && found[0].key == reply + 370 && found[0].key_length == 1);
    CHECK(found[0].epoch == 2 && found[0].has_age && found[0].age == 60 && found[0].first_seen == reported.now);
    CHECK(look_up(client, reply, reply_length, &epoch) == CONIKS_CLIENT_E_UNKNOWN_EPOCH);
    epoch = 1;
    CHECK(watch(client, "alice", "K", &epoch) == 0);
    CHECK(coniks_client_missing(client, missing, 1) == 2 && missing[0] == 1 && missing[1] == 7);
    CHECK(go_through(client, all, &shown, 1) == CONIKS_CLIENT_E_ROOM);
    CHECK(shown.count == 0 && is_zero(found, sizeof found[0]) && coniks_client_missing(client, NULL, 0) == 2);
    CHECK(go_through(client, all, &shown, 2) == 0 && shown.count == 2);
    CHECK(found[0].epoch == 1 && found[1].epoch == 2 && found[0].seen == CONIKS_CLIENT_KEY_CHANGED);
    CHECK(found[0].key == history + 137 && found[1].key == history + 137 && found[1].key_length == 1);
    coniks_client_free(client);
}

static void try_state(void)
{
    static uint8_t again[ROOM], changed[ROOM];
    uint8_t watch[sizeof WATCH / 2];
    coniks_client_settings settings;
    struct reported reported;
    coniks_client *client;
    size_t length, at, watch_length = read_digits(WATCH, watch);
    begin_settings(&settings, &reported);
    CHECK(coniks_client_resume(&client, &settings, state, state_length) == 0);
    memset(again, 0xaa, sizeof again);
    CHECK(coniks_client_state(client, again, state_length - 1, &length) == CONIKS_CLIENT_E_ROOM);
    CHECK(length == state_length && again[0] == 0xaa);
    CHECK(coniks_client_state(client, again, state_length, &length) == 0);
    CHECK(length == state_length && memcmp(again, state, length) == 0);
    CHECK(coniks_client_count(client) == 2 && memcmp(coniks_client_entry(client, 1), state + 255, CONIKS_ENTRY_BYTES) == 0);
    CHECK(coniks_client_entry(client, 2) == NULL && coniks_client_entry(client, SIZE_MAX) == NULL);
    CHECK(coniks_client_expect(client, (const uint8_t *)"n", 1, 5) == 0);
    CHECK(coniks_client_state(client, changed, sizeof changed, &length) == 0 && length == WATCHED + watch_length);
    CHECK(memcmp(changed, state, WATCHED) == 0 && memcmp(changed + WATCHED, watch, watch_length) == 0);
    coniks_client_free(client);
    for (at = 0; at < state_length; at++) {
        uint32_t wanted = at < 110 ? CONIKS_CLIENT_E_STATE_LENGTH : CONIKS_CLIENT_E_STATE_DAMAGED;
        CHECK(coniks_client_resume(&client, &settings, state, at) == wanted && client == NULL);
        again[at] ^= 1;
        wanted = at ? CONIKS_CLIENT_E_STATE_DAMAGED : CONIKS_CLIENT_E_STATE_VERSION;
        CHECK(coniks_client_resume(&client, &settings, again, state_length) == wanted && client == NULL);
        again[at] ^= 1;
    }
    CHECK(coniks_client_resume(&client, &settings, NULL, 0) == CONIKS_CLIENT_E_STATE_LENGTH);
    again[255 + CONIKS_BODY_BYTES] ^= 1;
    read_digits(UNSIGNED, again + state_length - HASH_BYTES);
    CHECK(coniks_client_resume(&client, &settings, again, state_length) == CONIKS_CLIENT_E_STATE_CHAIN && client == NULL);
}

/* A client has copies of the name and of both keys in a state, and without memory for them there is none. */
static void try_copies(void)
{
    static uint8_t changed[ROOM], again[ROOM];
    coniks_client_settings settings;
    struct reported reported;
    coniks_client *client;
    size_t length, again_length, granted = 0;
    uint32_t status;
    memcpy(changed, state, WATCHED);
    length = WATCHED + read_digits(WATCH, changed + WATCHED);
    memcpy(again, changed, length);
    begin_settings(&settings, &reported);
    do {
        reported.granted = granted++;
        status = coniks_client_resume(&client, &settings, again, length);
        CHECK(status == (client ? 0 : CONIKS_CLIENT_E_MEMORY));
    } while (status);
    memset(again, 0xaa, length);
    CHECK(coniks_client_state(client, again, length, &again_length) == 0 && again_length == length);
    CHECK(memcmp(again, changed, length) == 0);
    coniks_client_free(client);
}

/* The example's state with an alarm and marks, and what becomes of both. */
static void try_marks(void)
{
    static uint8_t marked[ROOM], again[ROOM];
    coniks_client_settings settings;
    struct reported reported;
    coniks_client *client;
    coniks_client_head head;
    coniks_bytes32 trust;
    coniks_alarm alarm;
    coniks_report report;
    uint64_t epoch = 9;
    size_t again_length, length = read_digits(MARKED, marked);
    begin_settings(&settings, &reported);
    read_digits(TRUST, trust.bytes);
    settings.trust = &trust;
    settings.auditors = 2;
    settings.faulty = 1;
    CHECK(coniks_client_new(&client, &settings) == CONIKS_CLIENT_E_QUORUM && client == NULL);
    settings.faulty = 0;
    CHECK(coniks_client_resume(&client, &settings, marked, length) == 0);
    CHECK(coniks_client_state(client, again, sizeof again, &again_length) == 0);
    CHECK(again_length == length && memcmp(again, marked, length) == 0);
    CHECK(coniks_client_confirmed(client, &epoch) == 0 && epoch == 2 && coniks_client_relied(client, 2) == 0);
    CHECK(coniks_client_relied(client, 1) == CONIKS_CLIENT_E_UNKNOWN_EPOCH);
    CHECK(coniks_client_alarms(client, NULL, 0) == 1 && coniks_client_alarms(client, &alarm, 1) == 1);
    CHECK(alarm.epoch == 1 && alarm.seen == CONIKS_CLIENT_KEY_CHANGED);
    CHECK(coniks_client_report(client, &report) == 0);
    CHECK(report.verdict == CONIKS_REPORT_CHANGED && report.from == 1 && report.to == 1);
    coniks_client_note(client, 0);
    CHECK(coniks_client_alarms(client, NULL, 0) == 1);
    coniks_client_note(client, 1);
    CHECK(coniks_client_alarms(client, NULL, 0) == 0);
    CHECK(coniks_client_latest(client, &head) == 0);
    CHECK(coniks_client_mark(client, 1, &head) == CONIKS_CLIENT_EQUAL);
    CHECK(coniks_client_mark(client, 2, &head) == CONIKS_CLIENT_E_NO_AUDITOR);
    coniks_client_free(client);
}

/* The marks in the example's state are not those of three auditors, of whom two are a quorum. */
static void try_other_auditors(void)
{
    static uint8_t marked[ROOM];
    coniks_client_settings settings;
    struct reported reported;
    coniks_client *client;
    coniks_client_head head;
    coniks_bytes32 trust;
    uint64_t epoch;
    size_t length = read_digits(MARKED, marked);
    begin_settings(&settings, &reported);
    read_digits(TRUST, trust.bytes);
    settings.trust = &trust;
    settings.auditors = 3;
    CHECK(coniks_client_resume(&client, &settings, marked, length) == 0);
    CHECK(coniks_client_confirmed(client, &epoch) == CONIKS_CLIENT_E_NOT_CONFIRMED);
    CHECK(coniks_client_latest(client, &head) == 0 && coniks_client_mark(client, 0, &head) == CONIKS_CLIENT_EQUAL);
    CHECK(coniks_client_relied(client, 2) == CONIKS_CLIENT_E_NOT_CONFIRMED);
    CHECK(coniks_client_mark(client, 1, &head) == CONIKS_CLIENT_EQUAL && coniks_client_relied(client, 2) == 0);
    coniks_client_free(client);
}

/* One auditor's head drops nothing of a client that names its auditors. */
static void try_one_auditor(void)
{
    coniks_client_settings settings;
    struct reported reported;
    coniks_client *client;
    coniks_client_head head;
    coniks_client_found found[2];
    coniks_client_shown shown = {found, 0, 0};
    coniks_bytes32 trust;
    begin_settings(&settings, &reported);
    read_digits(TRUST, trust.bytes);
    settings.trust = &trust;
    settings.auditors = 2;
    CHECK(coniks_client_resume(&client, &settings, state, state_length) == 0);
    CHECK(go_through(client, client_slice_of(history, history_length), &shown, 2) == 0 && shown.count == 2);
    CHECK(coniks_client_latest(client, &head) == 0 && coniks_client_cover(client, &head) == CONIKS_CLIENT_EQUAL);
    CHECK(coniks_client_count(client) == 2);
    coniks_client_free(client);
}

static void try_lengths(void)
{
    static uint8_t other[ROOM];
    struct reported reported;
    coniks_client *client = fed(&reported);
    coniks_client_found found[2];
    coniks_client_shown shown = {found, 0, 0};
    coniks_client_steps steps = {NULL, 0, 7};
    size_t size;
    for (size = 0; size < reply_length; size++)
        CHECK(look_up(client, reply, size, NULL) != 0);
    CHECK(look_up(client, NULL, 0, NULL) == CONIKS_CLIENT_E_NO_REPLY);
    memcpy(other, reply, reply_length);
    memset(other + 210, 0xff, 2);
    CHECK(look_up(client, other, reply_length, NULL) == CONIKS_CLIENT_E_CUT_IN_VRF);
    CHECK(look_up(client, other, 212 + 65535, NULL) == CONIKS_CLIENT_E_VRF_PROOF);
    memcpy(other, reply, reply_length);
    memset(other + 366, 0xff, 4);
    CHECK(look_up(client, other, reply_length, NULL) == CONIKS_E_CUT_IN_KEY);
    memcpy(other, history, history_length);
    memset(other + 133, 0xff, 4);
    CHECK(go_through(client, client_slice_of(other, history_length), &shown, 2) == CONIKS_CLIENT_E_CUT_IN_STEP);
    CHECK(go_through(client, client_slice_of(NULL, 0), &shown, 2) == CONIKS_CLIENT_E_NO_HISTORY);
    CHECK(coniks_client_catch_up(client, other, 208, &steps, NULL) == CONIKS_CLIENT_E_CATCH_UP_LENGTH && steps.count == 0);
    steps.count = 7;
    CHECK(coniks_client_catch_up(client, NULL, 0, &steps, NULL) == 0 && steps.count == 0);
    CHECK(coniks_client_feed(client, NULL, 0, NULL, NULL) == CONIKS_E_ENTRY_LENGTH);
    CHECK(reported.largest < 1 << 14);
    coniks_client_free(client);
}

/* States with their digests, of which a length or a number is wrong. No length decides how much is allocated. */
static void try_wrong_states(void)
{
    static uint8_t other[ROOM];
    coniks_client_settings settings;
    struct reported reported;
    coniks_client *client;
    size_t i, length;
    memcpy(other, state, 33);
    begin_settings(&settings, &reported);
    for (i = 0; i < sizeof NO_STATES / sizeof NO_STATES[0]; i++) {
        length = 33 + read_digits(NO_STATES[i][0], other + 33);
        length += read_digits(NO_STATES[i][1], other + length);
        CHECK(coniks_client_resume(&client, &settings, other, length) == CONIKS_CLIENT_E_STATE_FORM && client == NULL);
    }
    CHECK(reported.largest < 1 << 14);
}

/* Only 1 is the result of a scheme that accepts. */
static void try_schemes(void)
{
    static const int results[] = {0, 2, -1, 256, 1 << 16, -2147483647};
    coniks_client_settings settings;
    struct reported reported;
    coniks_client *client;
    coniks_client_evidence evidence;
    uint64_t epoch = 2;
    size_t i;
    for (i = 0; i < sizeof results / sizeof results[0]; i++) {
        begin_settings(&settings, &reported);
        settings.signatures.verify = verify;
        settings.signatures.context = &reported;
        settings.indices.index = find;
        settings.indices.context = &reported;
        CHECK(coniks_client_new(&client, &settings) == 0);
        reported.result = results[i];
        CHECK(coniks_client_feed(client, state + 37, CONIKS_ENTRY_BYTES, NULL, NULL) == CONIKS_E_SIGNATURE);
        CHECK(coniks_client_evidence_of(client, state + 37, CONIKS_ENTRY_BYTES, &evidence) == CONIKS_E_SIGNATURE);
        CHECK(coniks_client_count(client) == 0 && is_zero(&evidence, sizeof evidence));
        reported.result = 1;
        CHECK(coniks_client_feed(client, state + 37, CONIKS_ENTRY_BYTES, NULL, NULL) == 0);
        CHECK(coniks_client_feed(client, state + 255, CONIKS_ENTRY_BYTES, NULL, NULL) == 0);
        CHECK(coniks_client_evidence_of(client, state + 255, CONIKS_ENTRY_BYTES, &evidence) == CONIKS_NO_EVIDENCE);
        CHECK(look_up(client, reply, reply_length, &epoch) == CONIKS_E_ROOT_MISMATCH);
        reported.result = results[i];
        CHECK(look_up(client, reply, reply_length, &epoch) == CONIKS_CLIENT_E_VRF_PROOF);
        coniks_client_free(client);
    }
}

/* A scheme, which takes a key's place, is given the parts of what it verifies. An entry that is stored is not verified once more. */
static void try_given(void)
{
    coniks_client_settings settings;
    struct reported reported;
    coniks_client *client;
    begin_settings(&settings, &reported);
    settings.signatures.verify = verify;
    settings.signatures.context = &reported;
    settings.indices.index = find;
    settings.indices.context = &reported;
    settings.signing_key = NULL;
    settings.vrf_key = NULL;
    reported.result = 1;
    CHECK(coniks_client_new(&client, &settings) == 0);
    CHECK(coniks_client_feed(client, state + 37, CONIKS_ENTRY_BYTES, NULL, NULL) == 0);
    CHECK(memcmp(reported.entry, state + 37, sizeof reported.entry) == 0);
    CHECK(coniks_client_feed(client, state + 255, CONIKS_ENTRY_BYTES, NULL, NULL) == 0);
    CHECK(memcmp(reported.entry, state + 255, sizeof reported.entry) == 0);
    CHECK(coniks_client_feed(client, state + 255, CONIKS_ENTRY_BYTES + 1, NULL, NULL) == CONIKS_E_ENTRY_LENGTH);
    CHECK(look_up(client, reply, reply_length, NULL) == CONIKS_E_ROOT_MISMATCH && reported.verified == 2);
    CHECK(reported.proof.name_length == 5 && memcmp(reported.proof.name, "alice", 5) == 0);
    CHECK(reported.proof.proof_length == VRF_PROOF_BYTES && memcmp(reported.proof.proof, reply + 212, VRF_PROOF_BYTES) == 0);
    coniks_client_free(client);
}

/* An entry with the example's policy digest after another one, signed by nobody. */
static void make(uint64_t epoch, const coniks_client_head *before, uint8_t *entry)
{
    coniks_body body;
    coniks_bytes145 bytes;
    memset(&body, 0, sizeof body);
    body.version = 1;
    body.epoch = epoch;
    body.previous_epoch = before->epoch;
    body.previous_link = before->link;
    memcpy(body.policy.bytes, state + 1, 32);
    coniks_body_bytes(&body, &bytes);
    memcpy(entry, bytes.bytes, CONIKS_BODY_BYTES);
    memset(entry + CONIKS_BODY_BYTES, 0, CONIKS_SIGNATURE_BYTES);
}

/* A client to which each signature is good. */
static coniks_client *credulous(coniks_client_settings *settings, struct reported *reported)
{
    coniks_client *client;
    begin_settings(settings, reported);
    settings->signatures.verify = verify;
    settings->signatures.context = reported;
    reported->result = 1;
    CHECK(coniks_client_new(&client, settings) == 0);
    return client;
}

/* Feeds the entry of an epoch after the latest one, at the end of the epoch. */
static void feed_next(coniks_client *client, struct reported *reported, uint64_t epoch)
{
    uint8_t entry[CONIKS_ENTRY_BYTES];
    coniks_client_head head;
    CHECK(coniks_client_latest(client, &head) == 0 || epoch == 1);
    reported->now = START + epoch * PERIOD;
    make(epoch, &head, entry);
    CHECK(coniks_client_feed(client, entry, sizeof entry, NULL, NULL) == 0);
}

static void try_evidence(void)
{
    uint8_t first[CONIKS_ENTRY_BYTES], other[1 + CONIKS_ENTRY_BYTES + 2] = {1};
    coniks_client_settings settings;
    coniks_client_refusal why;
    coniks_client_found found;
    struct reported reported;
    coniks_client *client = credulous(&settings, &reported);
    coniks_client_head before = {0};
    const uint64_t unknown = 9;
    const coniks_asking asking = asked(other, sizeof other, &unknown);
    make(3, &before, first);
    make(2, &before, other + 1);
    CHECK(coniks_client_feed(client, first, sizeof first, NULL, &why) == 0 && is_zero(&why, sizeof why));
    CHECK(coniks_client_feed(client, other + 1, sizeof first, NULL, &why) == CONIKS_CLIENT_E_EQUIVOCATION);
    CHECK(why.status == CONIKS_E_NOT_LATER && why.evidence.kind == CONIKS_OVERLAP);
    CHECK(memcmp(why.evidence.mine, first, sizeof first) == 0 && memcmp(why.evidence.other, other + 1, sizeof first) == 0);
    CHECK(coniks_client_lookup(client, &asking, &found, &why) == CONIKS_CLIENT_E_EQUIVOCATION);
    CHECK(why.status == 0 && why.evidence.kind == CONIKS_OVERLAP && is_zero(&found, sizeof found));
    CHECK(memcmp(why.evidence.mine, first, sizeof first) == 0 && memcmp(why.evidence.other, other + 1, sizeof first) == 0);
    before.epoch = 3;
    make(5, &before, other + 1);
    CHECK(coniks_client_feed(client, other + 1, sizeof first, NULL, &why) == CONIKS_E_PREVIOUS_LINK);
    CHECK(is_zero(&why, sizeof why) && coniks_client_count(client) == 1);
    coniks_client_free(client);
}

/* The auditors of an entry are at most 64. */
static void try_many_heads(void)
{
    coniks_client_head heads[65];
    coniks_client_vouching vouching = {state + 255, CONIKS_ENTRY_BYTES, heads, 65, 1};
    coniks_client_settings settings;
    struct reported reported;
    coniks_client *client = fed(&reported);
    size_t i;
    for (i = 0; i < 65; i++)
        CHECK(coniks_client_latest(client, &heads[i]) == 0);
    coniks_client_free(client);
    begin_settings(&settings, &reported);
    CHECK(coniks_client_vouched(&client, &settings, &vouching, NULL) == CONIKS_CLIENT_E_MANY_HEADS);
    CHECK(client == NULL);
    vouching.head_count = 64;
    vouching.least = 65;
    CHECK(coniks_client_vouched(&client, &settings, &vouching, NULL) == CONIKS_CLIENT_E_NOT_VOUCHED);
    CHECK(client == NULL);
    vouching.least = 64;
    CHECK(coniks_client_vouched(&client, &settings, &vouching, NULL) == 0);
    CHECK(coniks_client_count(client) == 1);
    coniks_client_free(client);
}

/* A head of another chain drops nothing. */
static void try_covers(void)
{
    struct reported reported;
    coniks_client *client = fed(&reported);
    coniks_client_head head;
    CHECK(coniks_client_latest(client, &head) == 0 && head.epoch == 2);
    head.link.bytes[0] ^= 1;
    CHECK(coniks_client_cover(client, &head) == CONIKS_CLIENT_DIFFERS && coniks_client_count(client) == 2);
    head.link.bytes[0] ^= 1;
    CHECK(coniks_client_cover(client, &head) == CONIKS_CLIENT_EQUAL && coniks_client_count(client) == 1);
    coniks_client_free(client);
}

/* The age of epoch 2 if the first epoch begins at `start`. */
static int64_t age_at(coniks_client *client, struct reported *reported, uint64_t start, uint64_t now)
{
    const uint64_t epoch = 2;
    const coniks_asking asking = asked(reply, reply_length, &epoch);
    coniks_client_found found;
    client->core.rules.clock.start = start;
    reported->now = now;
    CHECK(coniks_client_lookup(client, &asking, &found, NULL) == 0 && found.has_age);
    return found.age;
}

static void try_ages(void)
{
    const uint64_t half = (uint64_t)INT64_MAX;
    struct reported reported;
    coniks_client *client = fed(&reported);
    CHECK(age_at(client, &reported, 0, PERIOD) == 0 && age_at(client, &reported, 0, PERIOD - 1) == -1);
    CHECK(age_at(client, &reported, 0, half + PERIOD - 1) == INT64_MAX - 1);
    CHECK(age_at(client, &reported, 0, half + PERIOD + 1) == INT64_MAX &&
          age_at(client, &reported, 0, UINT64_MAX) == INT64_MAX);
    CHECK(age_at(client, &reported, half - PERIOD, 0) == -INT64_MAX &&
          age_at(client, &reported, half - PERIOD + 2, 0) == INT64_MIN);
    CHECK(age_at(client, &reported, UINT64_MAX - PERIOD, UINT64_MAX) == 0);
    CHECK(age_at(client, &reported, UINT64_MAX - PERIOD + 1, UINT64_MAX) == INT64_MIN);
    coniks_client_free(client);
}

static void try_misuse(void)
{
    static const uint8_t long_name[256] = {'a'};
    const uint8_t *k = (const uint8_t *)"k", *new_key = (const uint8_t *)"K";
    const coniks_watch no_name = {1, NULL, 0, 0, k, 1}, neither = {1, NULL, 0, 0, k, 0};
    const coniks_watch named_long = {1, long_name, sizeof long_name, 0, k, 1};
    const coniks_watch empty = {1, NAME("alice"), 0, k, 0}, nowhere = {1, NAME("alice"), 0, NULL, 1};
    struct reported reported;
    coniks_client *client = fed(&reported);
    uint64_t second = 2;
    CHECK(coniks_client_expect(client, k, 1, 9) == CONIKS_CLIENT_E_NOT_WATCHING);
    CHECK(coniks_client_expect(client, k, 0, 9) == CONIKS_CLIENT_E_NOT_WATCHING);
    CHECK(coniks_client_watch(client, &no_name, 0) == CONIKS_CLIENT_E_NAME);
    CHECK(coniks_client_watch(client, &neither, 0) == CONIKS_CLIENT_E_NAME);
    CHECK(coniks_client_watch(client, &named_long, 0) == CONIKS_CLIENT_E_NAME);
    CHECK(coniks_client_watch(client, &empty, 0) == CONIKS_CLIENT_E_EXPECTED_KEY);
    CHECK(coniks_client_watch(client, &nowhere, 0) == CONIKS_CLIENT_E_EXPECTED_KEY);
    CHECK(watch(client, "alice", "k", NULL) == 0);
    CHECK(watch(client, "alice", "k", &second) == 0);
    CHECK(watch(client, "bob", "k", NULL) == CONIKS_CLIENT_E_OTHER_WATCH);
    CHECK(coniks_client_expect(client, k, 1, 9) == CONIKS_CLIENT_E_SAME_KEY);
    CHECK(coniks_client_expect(client, new_key, 1, 2) == CONIKS_CLIENT_E_NOT_LATER);
    CHECK(coniks_client_expect(client, new_key, 1, 3) == 0);
    CHECK(coniks_client_expect(client, NULL, 0, 9) == CONIKS_CLIENT_E_CHANGE_OPEN);
    coniks_client_free(client);
}

/* The same watch once more changes nothing, however long the key of a change is. */
static void try_watch_again(void)
{
    static uint8_t before[ROOM], after[ROOM];
    struct reported reported;
    coniks_client *client = fed(&reported);
    size_t length, length_after, live;
    CHECK(watch(client, "alice", "k", NULL) == 0);
    CHECK(coniks_client_expect(client, reply, LONG_KEY, 3) == 0);
    CHECK(coniks_client_state(client, before, sizeof before, &length) == 0);
    live = reported.live;
    CHECK(watch(client, "alice", "k", NULL) == 0 && reported.live == live);
    CHECK(coniks_client_state(client, after, sizeof after, &length_after) == 0);
    CHECK(length_after == length && memcmp(after, before, length) == 0);
    coniks_client_free(client);
}

/* The key of a change that is dropped is freed, when another one took its place. */
static void try_dropped_keys(void)
{
    const uint8_t *k = (const uint8_t *)"k";
    coniks_client_settings settings;
    struct reported reported;
    coniks_client *client = credulous(&settings, &reported);
    coniks_client_head head;
    size_t live;
    client->core.rules.promise.is_limited = 1;
    CHECK(watch(client, "alice", "k", NULL) == 0);
    feed_next(client, &reported, 1);
    CHECK(coniks_client_expect(client, reply, LONG_KEY, 2) == 0);
    feed_next(client, &reported, 2);
    CHECK(coniks_client_expect(client, k, 1, 3) == 0);
    feed_next(client, &reported, 3);
    live = reported.live;
    CHECK(coniks_client_latest(client, &head) == 0 && coniks_client_cover(client, &head) == CONIKS_CLIENT_EQUAL);
    CHECK(coniks_client_count(client) == 1 && reported.live == live - LONG_KEY - 1);
    coniks_client_free(client);
    CHECK(reported.live == 0);
}

/* Without a key of the VRF, and with a digest alone, nothing can be looked up. */
static void try_no_vrf(void)
{
    coniks_client_settings settings;
    struct reported reported;
    coniks_client *client;
    coniks_bytes32 digest;
    begin_settings(&settings, &reported);
    memcpy(digest.bytes, state + 1, 32);
    settings.policy = NULL;
    settings.policy_digest = &digest;
    settings.vrf_key = NULL;
    CHECK(coniks_client_new(&client, &settings) == 0);
    CHECK(coniks_client_catch_up(client, state + 37, CONIKS_ENTRY_BYTES, NULL, NULL) == 0);
    CHECK(coniks_client_feed(client, state + 255, CONIKS_ENTRY_BYTES, NULL, NULL) == 0);
    CHECK(look_up(client, reply, reply_length, NULL) == CONIKS_CLIENT_E_VRF_PROOF);
    coniks_client_free(client);
}

/* The example's policy, with proofs that are kept for a number of seconds, at a time. */
static size_t lost_at(coniks_client *client, struct reported *reported, uint64_t proofs_kept, uint64_t now)
{
    uint64_t epochs[2] = {7, 7};
    size_t count;
    client->core.rules.promise.is_limited = 1;
    client->core.rules.promise.seconds = proofs_kept;
    reported->now = now;
    count = coniks_client_lost(client, epochs, 2);
    CHECK(epochs[0] == (count ? 1 : 7) && epochs[1] == 7 && coniks_client_missing(client, NULL, 0) == 2);
    return count;
}

static void try_lost(void)
{
    const uint64_t second = START + PERIOD;
    uint64_t epoch = 1, room = 7;
    struct reported reported;
    coniks_client *client = fed(&reported);
    CHECK(watch(client, "alice", "k", &epoch) == 0);
    CHECK(coniks_client_lost(client, NULL, 0) == 0);
    CHECK(lost_at(client, &reported, 9, second + 8) == 0 && lost_at(client, &reported, 9, second + 9) == 1);
    CHECK(lost_at(client, &reported, 0, second - 1) == 0 && lost_at(client, &reported, 0, second) == 1);
    CHECK(lost_at(client, &reported, UINT64_MAX - second, UINT64_MAX - 1) == 0);
    CHECK(lost_at(client, &reported, UINT64_MAX - second, UINT64_MAX) == 1);
    CHECK(lost_at(client, &reported, UINT64_MAX - second + 1, UINT64_MAX) == 0);
    CHECK(lost_at(client, &reported, UINT64_MAX, UINT64_MAX) == 0 && lost_at(client, &reported, UINT64_MAX, 0) == 0);
    CHECK(lost_at(client, &reported, 9, second + 9) == 1 && coniks_client_lost(client, &room, 0) == 1 && room == 7);
    coniks_client_free(client);
}

/* Each epoch is lost and dropped as the next one comes: there is room for each alarm, also in the client that goes on. */
static void try_many_alarms(void)
{
    static uint8_t saved[ROOM];
    coniks_client_settings settings;
    struct reported reported;
    coniks_client *client = credulous(&settings, &reported);
    coniks_client_head head;
    uint64_t epoch;
    size_t length;
    client->core.rules.promise.is_limited = 1;
    CHECK(watch(client, "alice", NULL, NULL) == 0);
    for (epoch = 1; epoch <= 100; epoch++) {
        feed_next(client, &reported, epoch);
        CHECK(coniks_client_latest(client, &head) == 0 && coniks_client_cover(client, &head) == CONIKS_CLIENT_EQUAL);
        CHECK(coniks_client_count(client) == 1 && coniks_client_alarms(client, NULL, 0) == epoch - 1);
    }
    CHECK(coniks_client_state(client, saved, sizeof saved, &length) == 0);
    coniks_client_free(client);
    CHECK(coniks_client_resume(&client, &settings, saved, length) == 0 && coniks_client_alarms(client, NULL, 0) == 99);
    coniks_client_free(client);
}

/* Two epochs are lost, and the caller has room for one. */
static void try_lost_room(void)
{
    uint64_t epoch, epochs[2] = {7, 7};
    coniks_client_settings settings;
    struct reported reported;
    coniks_client *client = credulous(&settings, &reported);
    client->core.rules.promise.is_limited = 1;
    CHECK(watch(client, "alice", NULL, NULL) == 0);
    for (epoch = 1; epoch <= 3; epoch++)
        feed_next(client, &reported, epoch);
    CHECK(coniks_client_lost(client, epochs, 1) == 2 && epochs[0] == 1 && epochs[1] == 7);
    coniks_client_free(client);
}

static void try_settings(void)
{
    const coniks_client_vouching nobody = {NULL, 0, NULL, 0, 0};
    coniks_client_settings settings;
    coniks_client_head head;
    struct reported reported;
    coniks_client *client;
    coniks_bytes32 digest;
    uint64_t first = 1;
    begin_settings(&settings, &reported);
    settings.policy_length--;
    CHECK(coniks_client_new(&client, &settings) == CONIKS_CLIENT_E_POLICY_FORM && client == NULL);
    settings.policy = NULL;
    CHECK(coniks_client_new(&client, &settings) == CONIKS_CLIENT_E_POLICY_FORM && client == NULL);
    memcpy(digest.bytes, state + 1, 32);
    settings.policy_digest = &digest;
    reported.now = UINT64_MAX;
    CHECK(coniks_client_new(&client, &settings) == 0);
    CHECK(coniks_client_latest(client, &head) == CONIKS_E_NO_ENTRY && is_zero(&head, sizeof head));
    CHECK(coniks_client_feed(client, state + 37, CONIKS_ENTRY_BYTES, NULL, NULL) == 0);
    CHECK(coniks_client_feed(client, state + 255, CONIKS_ENTRY_BYTES, NULL, NULL) == 0);
    CHECK(look_up(client, reply, reply_length, NULL) == 0);
    /* A digest promises proofs for ever. */
    CHECK(watch(client, "alice", NULL, &first) == 0);
    CHECK(coniks_client_missing(client, NULL, 0) == 2 && coniks_client_lost(client, NULL, 0) == 0);
    coniks_client_free(client);
    begin_settings(&settings, &reported);
    settings.signing_key = NULL;
    CHECK(coniks_client_new(&client, &settings) == CONIKS_CLIENT_E_SIGNING_KEY && client == NULL);
    CHECK(coniks_client_vouched(&client, &settings, &nobody, NULL) == CONIKS_CLIENT_E_SIGNING_KEY);
    settings.signing_key = &signing_key;
    CHECK(coniks_client_vouched(&client, &settings, &nobody, NULL) == CONIKS_CLIENT_E_LEAST && client == NULL);
    settings.vrf_key = NULL;
    CHECK(coniks_client_new(&client, &settings) == CONIKS_CLIENT_E_POLICY_KEYS && client == NULL);
    coniks_client_free(NULL);
}

/* Writes the example's policy with other bytes in place of some of it. */
static struct slice changed_policy(const char *part, const char *other)
{
    static const char document[] = POLICY;
    static char text[1024];
    const char *at = strstr(document, part);
    int length = snprintf(text, sizeof text, "%.*s%s%s", (int)(at - document), document, other, at + strlen(part));
    return client_slice_of((const uint8_t *)text, (size_t)length);
}

static uint32_t read_changed(const char *part, const char *other)
{
    struct keys keys;
    coniks_rules rules;
    return client_read_policy(changed_policy(part, other), &keys, &rules);
}

/* What a client returns that is made with another policy. */
static uint32_t made_with(coniks_client **client, coniks_client_settings *settings, struct slice policy)
{
    settings->policy = policy.bytes;
    settings->policy_length = policy.length;
    return coniks_client_new(client, settings);
}

/* Keys that are those of no policy: of the third example of RFC 8032, and none in place of 32 zero bytes. */
static void try_other_keys(void)
{
    static const char *zeros = "0000000000000000000000000000000000000000000000000000000000000000";
    coniks_client_settings settings;
    struct reported reported;
    coniks_client *client;
    coniks_bytes32 third;
    read_digits(SIGNED[2][0], third.bytes);
    begin_settings(&settings, &reported);
    settings.signing_key = &third;
    CHECK(coniks_client_new(&client, &settings) == CONIKS_CLIENT_E_POLICY_KEYS);
    begin_settings(&settings, &reported);
    settings.vrf_key = &third;
    CHECK(coniks_client_new(&client, &settings) == CONIKS_CLIENT_E_POLICY_KEYS);
    settings.vrf_key = NULL;
    CHECK(made_with(&client, &settings, changed_policy(VRF_KEY, zeros)) == CONIKS_CLIENT_E_POLICY_KEYS);
    CHECK(made_with(&client, &settings, changed_policy("ECVRF-EDWARDS25519-SHA512-TAI\nvrf-key " VRF_KEY, "none")) == 0);
    coniks_client_free(client);
}

/* Two periods of 2^63 seconds are more than a number has. */
static void try_long_periods(void)
{
    coniks_client_settings settings;
    struct reported reported;
    coniks_client *client;
    begin_settings(&settings, &reported);
    CHECK(made_with(&client, &settings, changed_policy("period 3600", "period 9223372036854775808")) == 0);
    CHECK(client && client->core.rules.clock.max_age == UINT64_MAX);
    coniks_client_free(client);
    CHECK(made_with(&client, &settings, changed_policy("period 3600", "period 9223372036854775807")) == 0);
    CHECK(client && client->core.rules.clock.max_age == UINT64_MAX - 1);
    coniks_client_free(client);
}

static void try_policies(void)
{
    static const char *const wrong[][2] = {{"policy", "Policy"},
                                           {"coniks-1", "coniks-2"},
                                           {"keys.example.com/directory", ""},
                                           {"origin keys", "origin  keys"},
                                           {"Ed25519\n", "Ed25519 \n"},
                                           {"511a\n", "511A\n"},
                                           {"511a\n", "511\n"},
                                           {"511a\n", "511a00\n"},
                                           {"ECVRF-EDWARDS25519-SHA512-TAI", "none"},
                                           {"epoch-start 1767225600\n", ""},
                                           {"epoch-start 1767225600", "epoch-start 18446744073709551616"},
                                           {"epoch-period 3600\n", ""},
                                           {"epoch-period 3600", "epoch-period 0"},
                                           {"epoch-period 3600", "epoch-period 03600"},
                                           {"evidence one-chain\n", ""},
                                           {"proofs-kept", "records any\nproofs-kept"},
                                           {"proofs-kept", "successor-key " SIGNING_KEY "\nproofs-kept"},
                                           {"proofs-kept", "successor-key none\nrecords vouched\nproofs-kept"},
                                           {"forever\n", "forever"},
                                           {"forever\n", "forever\n\n"},
                                           {"forever", "-1"}};
    char origin[257] = {0};
    size_t i;
    for (i = 0; i < sizeof wrong / sizeof wrong[0]; i++)
        CHECK(read_changed(wrong[i][0], wrong[i][1]) == CONIKS_CLIENT_E_POLICY_FORM);
    CHECK(read_changed("epoch-start 1767225600", "epoch-start 18446744073709551615") == 0);
    CHECK(read_changed("proofs-kept", "records vouched\nproofs-kept") == 0);
    CHECK(read_changed("proofs-kept", "records vouched\nsuccessor-key none\nproofs-kept") == 0);
    CHECK(read_changed("proofs-kept", "successor-key " VRF_KEY "\nproofs-kept") == 0);
    memset(origin, 'x', 256);
    CHECK(read_changed("keys.example.com/directory", origin) == CONIKS_CLIENT_E_POLICY_FORM);
    origin[255] = 0;
    CHECK(read_changed("keys.example.com/directory", origin) == 0);
}

static void try_texts(void)
{
    uint8_t text[160], cut[5];
    uint32_t status;
    for (status = 64; status <= CONIKS_CLIENT_E_SUCCESSION_FORM; status++) {
        size_t length = coniks_client_text(status, text, sizeof text);
        CHECK(length < sizeof text && strlen((const char *)text) == length);
        CHECK(coniks_client_text(status, cut, sizeof cut) == length && (length < 4 || memcmp(cut, text, 4) == 0) &&
              cut[4] == 0);
        CHECK(coniks_client_text(status, NULL, 0) == length);
        if (length == 0)
            continue;
        memset(text, 0xaa, sizeof text);
        CHECK(coniks_client_text(status, text, length) == length && text[length - 1] == 0 && text[length] == 0xaa);
    }
    CHECK(coniks_client_text(CONIKS_CLIENT_E_MEMORY, text, sizeof text) == 13 && strcmp((char *)text, "out of memory") == 0);
    CHECK(coniks_client_text(CONIKS_E_ROOT_MISMATCH, text, sizeof text) > 0 && coniks_client_text(200, text, sizeof text) == 0);
}

/* The examples of RFC 9381, and each proof with one bit changed, with fewer bytes or with one more. */
static void try_proofs(void)
{
    uint8_t input[2], proof[VRF_PROOF_BYTES + 1] = {0};
    coniks_bytes32 key, output, index;
    size_t i, bit, length;
    for (i = 0; i < sizeof PROVED / sizeof PROVED[0]; i++) {
        struct slice name = {input, read_digits(PROVED[i][1], input)};
        read_digits(PROVED[i][0], key.bytes);
        read_digits(PROVED[i][2], proof);
        read_digits(PROVED[i][3], output.bytes);
        CHECK(client_is_point(&key));
        CHECK(client_verify_vrf(&key, name, client_slice_of(proof, VRF_PROOF_BYTES), &index) == 1);
        CHECK(memcmp(&index, &output, sizeof index) == 0);
        for (bit = 0; bit < 8 * VRF_PROOF_BYTES; bit++) {
            proof[bit / 8] = (uint8_t)(proof[bit / 8] ^ 1 << bit % 8);
            CHECK(client_verify_vrf(&key, name, client_slice_of(proof, VRF_PROOF_BYTES), &index) == 0);
            proof[bit / 8] = (uint8_t)(proof[bit / 8] ^ 1 << bit % 8);
        }
        for (length = 0; length < sizeof proof; length++)
            CHECK(client_verify_vrf(&key, name, client_slice_of(proof, length), &index) == (length == VRF_PROOF_BYTES));
        CHECK(client_verify_vrf(&key, client_slice_of(key.bytes, 3), client_slice_of(proof, VRF_PROOF_BYTES), &index) == 0);
    }
}

static void try_challenges(void)
{
    uint8_t input[1], proof[VRF_PROOF_BYTES];
    coniks_bytes32 key, index;
    size_t i;
    for (i = 0; i < sizeof CHALLENGES / sizeof CHALLENGES[0]; i++) {
        struct slice name = {input, read_digits(PROVED[1][1], input)};
        read_digits(PROVED[1][0], key.bytes);
        read_digits(CHALLENGES[i], proof);
        CHECK(client_verify_vrf(&key, name, client_slice_of(proof, sizeof proof), &index) == (i == 0));
    }
}

/* The signatures of RFC 8032, and each with one bit changed; keys that are no points of prime order. */
static void try_signatures(void)
{
    /* Of order 1, 2, 4 and 8, not reduced, no point, and of mixed order. */
    static const char *const wrong[] = {"0100000000000000000000000000000000000000000000000000000000000000",
                                        "ecffffffffffffffffffffffffffffffffffffffffffffffffffffffffffff7f",
                                        "0000000000000000000000000000000000000000000000000000000000000000",
                                        "26e8958fc2b227b045c3f489f2ef98f0d5dfac05d3c63339b13802886d53fc05",
                                        "eeffffffffffffffffffffffffffffffffffffffffffffffffffffffffffff7f",
                                        "0200000000000000000000000000000000000000000000000000000000000000",
                                        "16a567fe7d4ef5482ab4012c369bf8c5f11e8d0c2559dcda50fde59708f8aee5"};
    uint8_t message[64], signature[64];
    coniks_bytes32 key;
    size_t i, bit;
    for (i = 0; i < sizeof SIGNED / sizeof SIGNED[0]; i++) {
        struct slice signed_bytes = {message, read_digits(SIGNED[i][1], message)};
        read_digits(SIGNED[i][0], key.bytes);
        read_digits(SIGNED[i][2], signature);
        CHECK(client_is_point(&key) && client_is_signature(&key, signed_bytes, signature));
        for (bit = 0; bit < 512; bit++) {
            signature[bit / 8] = (uint8_t)(signature[bit / 8] ^ 1 << bit % 8);
            CHECK(!client_is_signature(&key, signed_bytes, signature));
            signature[bit / 8] = (uint8_t)(signature[bit / 8] ^ 1 << bit % 8);
        }
    }
    for (i = 0; i < sizeof wrong / sizeof wrong[0]; i++) {
        read_digits(wrong[i], key.bytes);
        CHECK(!client_is_point(&key));
    }
}

int main(void)
{
    read_digits(SIGNING_KEY, signing_key.bytes);
    read_digits(VRF_KEY, vrf_key.bytes);
    reply_length = read_digits(REPLY, reply);
    history_length = read_digits(HISTORY, history);
    state_length = read_digits(STATE, state);
    try_proofs();
    try_challenges();
    try_signatures();
    try_examples();
    try_state();
    try_copies();
    try_wrong_states();
    try_marks();
    try_other_auditors();
    try_one_auditor();
    try_lengths();
    try_schemes();
    try_given();
    try_evidence();
    try_many_heads();
    try_covers();
    try_ages();
    try_misuse();
    try_watch_again();
    try_dropped_keys();
    try_no_vrf();
    try_settings();
    try_lost();
    try_many_alarms();
    try_lost_room();
    try_policies();
    try_other_keys();
    try_long_periods();
    try_texts();
    return failures ? 1 : 0;
}

/* A client of a CONIKS key directory: how it begins, and its chain. client.h says what it does. */
#include "client.h"

#include <sodium.h>
#include <stdlib.h>
#include <string.h>
#include <time.h>

#include "client_parts.h"

enum { MANY_HEADS = 64 };

static void *allocate(void *context, size_t size)
{
    (void)context;
    return malloc(size);
}

static void release(void *context, void *block)
{
    (void)context;
    free(block);
}

static uint64_t machine_clock(void *context)
{
    time_t now = time(NULL);
    (void)context;
    return now > 0 ? (uint64_t)now : 0;
}

void coniks_client_begin_settings(coniks_client_settings *settings)
{
    memset(settings, 0, sizeof *settings);
    settings->memory = (coniks_client_memory){allocate, release, NULL};
    settings->clock = machine_clock;
    settings->max_age = CONIKS_CLIENT_TWO_PERIODS;
    settings->skew = 300;
}

/* Takes the policy and the keys. */
static uint32_t take_policy(coniks_client *client)
{
    const coniks_client_settings *settings = &client->settings;
    coniks_rules *rules = &client->core.rules;
    struct keys keys;
    uint32_t status;
    if (settings->policy) {
        status = client_read_policy(client_slice_of(settings->policy, settings->policy_length), &keys, rules);
        client->keys.successor = keys.successor;
        client->keys.has_successor = keys.has_successor;
        return status ? status : client_take_keys(client, &keys);
    }
    if (settings->policy_digest == NULL)
        return CONIKS_CLIENT_E_POLICY_FORM;
    rules->policy = *settings->policy_digest;
    return client_take_keys(client, NULL);
}

/* Takes the trust document, and makes a mark for each of its auditors. */
static uint32_t take_trust(coniks_client *client)
{
    const coniks_client_settings *settings = &client->settings;
    coniks_core *core = &client->core;
    if (settings->trust == NULL)
        return 0;
    core->rules.trust = *settings->trust;
    core->rules.quorum = coniks_core_quorum(settings->auditors, settings->faulty);
    if (core->rules.quorum == 0)
        return CONIKS_CLIENT_E_QUORUM;
    core->marks = client_allocate(client, settings->auditors, sizeof *core->marks);
    if (core->marks == NULL)
        return CONIKS_CLIENT_E_MEMORY;
    core->mark_count = settings->auditors;
    client_clear(core->marks, core->mark_count * sizeof *core->marks);
    return 0;
}

/* Takes the limits, which count by the policy's clock. */
static void take_limits(coniks_client *client)
{
    coniks_clock *clock = &client->core.rules.clock;
    clock->max_age = client->settings.max_age;
    if (clock->max_age == CONIKS_CLIENT_TWO_PERIODS && clock->period <= UINT64_MAX / 2)
        clock->max_age = 2 * clock->period;
    clock->skew = client->settings.skew;
}

/* Gives a client to the caller, or frees it if there is an error. */
static uint32_t hand_over(coniks_client **client, uint32_t status)
{
    if (status) {
        coniks_client_free(*client);
        *client = NULL;
    }
    return status;
}

uint32_t coniks_client_new(coniks_client **client, const coniks_client_settings *settings)
{
    coniks_client *made;
    uint32_t status;
    *client = NULL;
    if (sodium_init() < 0)
        return CONIKS_CLIENT_E_SODIUM;
    made = settings->memory.allocate(settings->memory.context, sizeof *made);
    if (made == NULL)
        return CONIKS_CLIENT_E_MEMORY;
    memset(made, 0, sizeof *made);
    made->settings = *settings;
    status = take_policy(made);
    if (status == 0)
        status = take_trust(made);
    take_limits(made);
    *client = made;
    return hand_over(client, status);
}

uint32_t coniks_client_resume(coniks_client **client, const coniks_client_settings *settings, const uint8_t *state,
                              size_t state_length)
{
    uint32_t status = coniks_client_new(client, settings);
    return status ? status : hand_over(client, client_take_state(*client, client_slice_of(state, state_length)));
}

uint64_t client_time(const coniks_client *client)
{
    return client->settings.clock(client->settings.clock_context);
}

/* Writes what convicts together with an entry. */
static void fill_evidence(const coniks_client *client, const uint8_t *entry, const coniks_why *why, coniks_client_evidence *to)
{
    to->kind = why->kind;
    if (why->kind == 0)
        return;
    memcpy(to->mine, why->mine == SIZE_MAX ? entry : client->core.stored.items[why->mine].entry, sizeof to->mine);
    memcpy(to->other, entry, sizeof to->other);
}

uint32_t client_refused(const coniks_client *client, uint32_t status, const uint8_t *entry, const coniks_why *why,
                        coniks_client_refusal *to)
{
    if (status && to) {
        to->status = why->status;
        fill_evidence(client, entry, why, &to->evidence);
    }
    return status;
}

/* Verifies an entry that was received, and makes room for it. */
static uint32_t receive(coniks_client *client, struct slice entry, coniks_received *received)
{
    const uint32_t is_signed = client_signature_verdict(client, entry.bytes, entry.length);
    *received = (coniks_received){entry.bytes, entry.length, is_signed, client_time(client)};
    return client_reserve_epochs(client, 1, client->core.alarms.count);
}

/* Accepts the first entry. The auditors that vouch for it are a quorum of their own. */
static uint32_t start(coniks_client *client, const coniks_client_vouching *vouching, coniks_client_refusal *why)
{
    coniks_rules *rules = &client->core.rules;
    const size_t quorum = rules->quorum;
    coniks_head heads[MANY_HEADS];
    coniks_received received;
    coniks_why reason = {0};
    uint32_t status = receive(client, client_slice_of(vouching->entry, vouching->entry_length), &received);
    size_t i;
    if (status)
        return status;
    for (i = 0; i < vouching->head_count; i++)
        heads[i] = (coniks_head){1, vouching->heads[i].epoch, vouching->heads[i].link};
    rules->quorum = vouching->least;
    status = coniks_core_start(&client->core, heads, vouching->head_count, &received, &reason);
    rules->quorum = quorum;
    return client_refused(client, status, vouching->entry, &reason, why);
}

uint32_t coniks_client_vouched(coniks_client **client, const coniks_client_settings *settings,
                               const coniks_client_vouching *vouching, coniks_client_refusal *why)
{
    uint32_t status = coniks_client_new(client, settings);
    client_clear(why, sizeof *why);
    if (status)
        return status;
    if (vouching->least == 0)
        return hand_over(client, CONIKS_CLIENT_E_LEAST);
    if (vouching->head_count > MANY_HEADS)
        return hand_over(client, CONIKS_CLIENT_E_MANY_HEADS);
    return hand_over(client, start(*client, vouching, why));
}

/* Writes the kind of the evidence that a refused entry is by itself, if no chain has it. */
static void convict_alone(struct slice entry, uint32_t status, coniks_why *why)
{
    why->mine = SIZE_MAX;
    if (status == CONIKS_CLIENT_E_OTHER_POLICY || status == CONIKS_CLIENT_E_MALFORMED)
        (void)!coniks_convicts(entry.bytes, entry.length, entry.bytes, entry.length, &why->kind);
}

/* Goes on after a client whose chain ended. */
static uint32_t go_on(coniks_client *next, const coniks_client *ended, const coniks_succession *succession, struct slice entry,
                      size_t *place)
{
    coniks_received received;
    uint32_t status = receive(next, entry, &received);
    if (status == 0)
        status = client_reserve_changes(next, 1);
    if (status == 0)
        status = coniks_core_succeed(&ended->core, succession, &received, &next->core, place);
    return status ? status : client_own_texts(next, client_allocate_texts(next, 0));
}

uint32_t coniks_client_succeed(const coniks_client *client, const coniks_client_succession *given, coniks_client **next,
                               size_t *place, coniks_client_refusal *why)
{
    const struct slice entry = client_slice_of(given->entry, given->entry_length);
    struct succession succession;
    coniks_why reason = {0};
    uint32_t status = client_read_succession(client_slice_of(given->text, given->text_length), &succession);
    *next = NULL;
    client_clear(why, sizeof *why);
    if (status == 0)
        status = coniks_client_new(next, given->settings);
    if (status)
        return status;
    succession.parts.signature = client_succession_verdict(client, &succession);
    status = go_on(*next, client, &succession.parts, entry, place);
    convict_alone(entry, status, &reason);
    return hand_over(next, client_refused(*next, status, entry.bytes, &reason, why));
}

uint32_t coniks_client_feed(coniks_client *client, const uint8_t *entry, size_t entry_length, coniks_client_step *step,
                            coniks_client_refusal *why)
{
    const coniks_stored *stored = &client->core.stored;
    coniks_received received;
    coniks_why reason = {0};
    uint32_t status;
    client_clear(step, sizeof *step);
    client_clear(why, sizeof *why);
    status = receive(client, client_slice_of(entry, entry_length), &received);
    if (status == 0)
        status = coniks_core_feed(&client->core, &received, &reason);
    if (status || step == NULL)
        return client_refused(client, status, entry, &reason, why);
    step->epoch = client_epoch_of(stored->items[stored->count - 1].entry);
    step->seen = stored->items[stored->count - 1].seen;
    return 0;
}

uint32_t coniks_client_catch_up(coniks_client *client, const uint8_t *catch_up, size_t length, coniks_client_steps *steps,
                                coniks_client_refusal *why)
{
    size_t done = 0, count = 0;
    uint32_t status = coniks_core_catch_up(catch_up, length, &count);
    client_clear(why, sizeof *why);
    while (status == 0 && done < count) {
        const uint8_t *entry = catch_up + done * CONIKS_ENTRY_BYTES;
        coniks_client_step *step = steps && done < steps->room ? &steps->items[done] : NULL;
        status = coniks_client_feed(client, entry, CONIKS_ENTRY_BYTES, step, why);
        if (status == 0)
            done++;
    }
    if (steps)
        steps->count = done;
    return status;
}

uint32_t coniks_client_latest(const coniks_client *client, coniks_client_head *head)
{
    const uint8_t *entry = coniks_client_entry(client, client->core.stored.count - 1);
    memset(head, 0, sizeof *head);
    if (entry == NULL)
        return CONIKS_E_NO_ENTRY;
    head->epoch = client_epoch_of(entry);
    return coniks_link(entry, CONIKS_ENTRY_BYTES, &head->link);
}

size_t coniks_client_count(const coniks_client *client)
{
    return client->core.stored.count;
}

const uint8_t *coniks_client_entry(const coniks_client *client, size_t place)
{
    const coniks_stored *stored = &client->core.stored;
    return place < stored->count ? stored->items[place].entry : NULL;
}

uint32_t coniks_client_compare(const coniks_client *client, const coniks_client_head *head)
{
    size_t place;
    return coniks_core_compare(&client->core, head->epoch, &head->link, &place);
}

uint32_t coniks_client_evidence_of(const coniks_client *client, const uint8_t *entry, size_t entry_length,
                                   coniks_client_evidence *evidence)
{
    const uint32_t is_signed = client_signature_verdict(client, entry, entry_length);
    const coniks_received received = {entry, entry_length, is_signed, 0};
    coniks_why why = {0};
    uint32_t status = coniks_core_evidence(&client->core, &received, &why);
    memset(evidence, 0, sizeof *evidence);
    if (status == CONIKS_NO_EVIDENCE) {
        why.mine = SIZE_MAX;
        status = coniks_convicts(entry, entry_length, entry, entry_length, &why.kind);
    }
    if (status == CONIKS_GOOD)
        fill_evidence(client, entry, &why, evidence);
    return status;
}

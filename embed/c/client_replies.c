/* Lookups of a client: replies and histories. */
#include <string.h>

#include "client_parts.h"

/* How many seconds ago an epoch began, INT64_MIN or INT64_MAX if it is less or more. */
static int64_t age_of(const coniks_clock *clock, uint64_t time, uint64_t epoch)
{
    uint64_t begins, after = epoch - 1;
    if (after > (UINT64_MAX - clock->start) / clock->period)
        return INT64_MIN;
    begins = clock->start + after * clock->period;
    if (time >= begins)
        return time - begins <= INT64_MAX ? (int64_t)(time - begins) : INT64_MAX;
    return begins - time <= INT64_MAX ? -(int64_t)(begins - time) : INT64_MIN;
}

/* Writes what the core has found at a time. */
static void fill_found(const coniks_core *core, uint64_t time, const coniks_step *shown, coniks_client_found *found)
{
    const coniks_stored_entry *stored = &core->stored.items[shown->place];
    const coniks_clock *clock = &core->rules.clock;
    found->shows = shown->shows;
    found->seen = shown->seen;
    found->epoch = client_epoch_of(stored->entry);
    found->key = shown->key_length ? shown->key : NULL;
    found->key_length = shown->key_length;
    found->first_seen = client_number_of(stored->first_seen);
    found->has_age = clock->is_there == 1;
    if (found->has_age)
        found->age = age_of(clock, time, found->epoch);
}

/* Verifies what a reply needs. */
static coniks_verdicts verify_reply(const coniks_client *client, const coniks_asking *asking, const coniks_needs *needs)
{
    const coniks_client_proof proof = {asking->name, asking->name_length, asking->reply + needs->vrf_start, needs->vrf_length};
    coniks_verdicts verdicts = client_index_verdict(client, &proof);
    if (needs->signature)
        verdicts.signature = client_signature_verdict(client, asking->reply + needs->entry_start, CONIKS_ENTRY_BYTES);
    return verdicts;
}

uint32_t coniks_client_lookup(coniks_client *client, const coniks_asking *asking, coniks_client_found *found,
                              coniks_client_refusal *why)
{
    coniks_asking timed = *asking;
    coniks_verdicts verdicts;
    coniks_needs needs;
    coniks_found shown;
    coniks_why reason = {0};
    uint32_t status = coniks_core_reply_needs(&client->core, asking->reply, asking->reply_length, &needs);
    timed.time = client_time(client);
    client_clear(found, sizeof *found);
    client_clear(why, sizeof *why);
    if (status)
        return status;
    verdicts = verify_reply(client, asking, &needs);
    status = coniks_core_lookup(&client->core, &timed, &verdicts, &shown, &reason);
    if (status == 0) {
        const uint8_t *key = asking->reply + shown.key_start;
        const coniks_step step = {shown.place, key, shown.key_length, shown.shows, shown.seen};
        fill_found(&client->core, timed.time, &step, found);
    }
    return client_refused(client, status, asking->reply + needs.entry_start, &reason, why);
}

/* Verifies a history, and accepts it with memory for its steps. */
static uint32_t accept_history(coniks_client *client, const coniks_history *asking, coniks_steps *steps)
{
    coniks_siblings siblings;
    coniks_verdicts verdicts;
    coniks_client_proof proof = {asking->name, asking->name_length, NULL, 0};
    coniks_history_needs needs;
    uint32_t status = coniks_core_history_needs(asking->history, asking->history_length, &needs);
    if (status)
        return status;
    steps->items = client_allocate(client, steps->room, sizeof *steps->items);
    if (steps->items == NULL)
        return CONIKS_CLIENT_E_MEMORY;
    proof.proof = asking->history + needs.vrf_start;
    proof.proof_length = needs.vrf_length;
    verdicts = client_index_verdict(client, &proof);
    return coniks_core_history(&client->core, asking, &verdicts, &siblings, steps);
}

uint32_t coniks_client_history(coniks_client *client, const coniks_history *asking, coniks_client_shown *shown)
{
    const uint64_t time = client_time(client);
    const size_t count = client->core.stored.count;
    coniks_steps steps = {NULL, shown->room < count ? shown->room : count + 1, 0};
    uint32_t status;
    client_clear(shown->items, shown->room * sizeof *shown->items);
    status = accept_history(client, asking, &steps);
    for (shown->count = 0; shown->count < steps.count; shown->count++)
        fill_found(&client->core, time, &steps.items[shown->count], &shown->items[shown->count]);
    client_release(client, steps.items);
    return status;
}

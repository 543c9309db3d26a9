/* The watched name of a client, its alarms, and the heads of auditors. */
#include <string.h>

#include "client_parts.h"

enum { SEEN_MISSING = 5 };

/* Whether the caller gives a key of at least one byte, or none. */
static int is_key_given(const uint8_t *key, size_t key_length)
{
    return (key == NULL) == (key_length == 0);
}

uint32_t coniks_client_watch(coniks_client *client, const coniks_watch *wanted, uint32_t is_since)
{
    const int was_watching = client->core.watch.is_watched == 1;
    uint8_t *texts;
    uint32_t status;
    if (!is_key_given(wanted->key, wanted->key_length))
        return wanted->name_length >= 1 && wanted->name_length <= CONIKS_MAX_NAME ? CONIKS_CLIENT_E_EXPECTED_KEY
                                                                                  : CONIKS_CLIENT_E_NAME;
    texts = client_allocate(client, CONIKS_MAX_NAME + wanted->key_length, 1);
    if (texts == NULL)
        return CONIKS_CLIENT_E_MEMORY;
    status = coniks_core_watch(&client->core, wanted, is_since);
    if (status == 0 && !was_watching)
        return client_own_texts(client, texts);
    client_release(client, texts);
    return status;
}

uint32_t coniks_client_expect(coniks_client *client, const uint8_t *key, size_t key_length, uint64_t by)
{
    uint8_t *texts;
    uint32_t status;
    if (!is_key_given(key, key_length))
        return client->core.watch.is_watched == 1 ? CONIKS_CLIENT_E_EXPECTED_KEY : CONIKS_CLIENT_E_NOT_WATCHING;
    status = client_reserve_changes(client, client->core.changes.count + 1);
    texts = status ? NULL : client_allocate_texts(client, key_length);
    if (texts == NULL)
        return CONIKS_CLIENT_E_MEMORY;
    status = coniks_core_expect(&client->core, key, key_length, by);
    if (status == 0)
        return client_own_texts(client, texts);
    client_release(client, texts);
    return status;
}

/* Writes the missing epochs, or the lost ones of them at a time, at most `room`. Returns how many there are. */
static size_t list_missing(const coniks_client *client, const uint64_t *lost_at, uint64_t *epochs, size_t room)
{
    const coniks_stored *stored = &client->core.stored;
    size_t i, count = 0;
    for (i = 0; i < stored->count; i++) {
        if (stored->items[i].seen != SEEN_MISSING)
            continue;
        if (lost_at && coniks_core_lost(&client->core, *lost_at, i) != 1)
            continue;
        if (count < room)
            epochs[count] = client_epoch_of(stored->items[i].entry);
        count++;
    }
    return count;
}

size_t coniks_client_missing(const coniks_client *client, uint64_t *epochs, size_t room)
{
    return list_missing(client, NULL, epochs, room);
}

size_t coniks_client_lost(const coniks_client *client, uint64_t *epochs, size_t room)
{
    const uint64_t time = client_time(client);
    return list_missing(client, &time, epochs, room);
}

/* Frees the keys of dropped changes. Without memory for the others they stay until the next copy. */
static void free_dropped(coniks_client *client, const coniks_covered *covered)
{
    if (covered->changes)
        (void)client_own_texts(client, client_allocate_texts(client, 0));
}

uint32_t coniks_client_drop(coniks_client *client, coniks_covered *covered)
{
    uint32_t status;
    memset(covered, 0, sizeof *covered);
    status = coniks_core_cover(&client->core, client_time(client), covered);
    free_dropped(client, covered);
    return status;
}

uint32_t coniks_client_cover(coniks_client *client, const coniks_client_head *head)
{
    coniks_core by_head = client->core;
    uint64_t mark = head->epoch;
    coniks_covered covered = {0};
    uint32_t status, found = coniks_client_compare(client, head);
    if (found != CONIKS_CLIENT_EQUAL || client->core.rules.quorum)
        return found;
    by_head.marks = &mark;
    by_head.mark_count = by_head.rules.quorum = 1;
    status = coniks_core_cover(&by_head, client_time(client), &covered);
    client->core.watch = by_head.watch;
    client->core.stored = by_head.stored;
    client->core.changes = by_head.changes;
    client->core.alarms = by_head.alarms;
    free_dropped(client, &covered);
    return status ? status : found;
}

uint32_t coniks_client_mark(coniks_client *client, size_t auditor, const coniks_client_head *head)
{
    return coniks_core_mark(&client->core, auditor, head->epoch, &head->link);
}

uint32_t coniks_client_confirmed(const coniks_client *client, uint64_t *epoch)
{
    return coniks_core_confirmed(&client->core, epoch);
}

uint32_t coniks_client_relied(const coniks_client *client, uint64_t epoch)
{
    const coniks_stored *stored = &client->core.stored;
    size_t place = 0;
    while (place < stored->count && client_epoch_of(stored->items[place].entry) != epoch)
        place++;
    return coniks_core_relied(&client->core, place);
}

size_t coniks_client_alarms(const coniks_client *client, coniks_alarm *alarms, size_t room)
{
    const coniks_alarms *all = &client->core.alarms;
    size_t count = all->count < room ? all->count : room;
    if (count)
        memcpy(alarms, all->items, count * sizeof *alarms);
    return all->count;
}

void coniks_client_note(coniks_client *client, uint64_t epoch)
{
    uint32_t status = coniks_core_note(&client->core, epoch);
    (void)status;
}

uint32_t coniks_client_report(const coniks_client *client, coniks_report *report)
{
    memset(report, 0, sizeof *report);
    return coniks_core_report(&client->core, client_time(client), report);
}

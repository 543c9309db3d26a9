/* The memory of a client: the arrays of its core, which grow before a call, one block with copies of its name and its keys, and numbers. */
#include <string.h>

#include "client_parts.h"

void *client_allocate(const coniks_client *client, size_t count, size_t size)
{
    const coniks_client_memory *memory = &client->settings.memory;
    if (count > SIZE_MAX / size)
        return NULL;
    return memory->allocate(memory->context, count ? count * size : 1);
}

void client_release(const coniks_client *client, void *block)
{
    const coniks_client_memory *memory = &client->settings.memory;
    if (block)
        memory->release(memory->context, block);
}

/* An array of a core. Its elements have `size` bytes. */
struct array {
    void *items;
    size_t room, count, size;
};

/* Moves an array to a block with this room, if it has less. Changes nothing if there is no memory. */
static uint32_t reserve(const coniks_client *client, struct array *array, size_t room)
{
    void *block;
    if (room <= array->room)
        return 0;
    block = client_allocate(client, room, array->size);
    if (block == NULL)
        return CONIKS_CLIENT_E_MEMORY;
    if (array->count)
        memcpy(block, array->items, array->count * array->size);
    client_release(client, array->items);
    array->items = block;
    array->room = room;
    return 0;
}

static uint32_t reserve_alarms(coniks_client *client, size_t room)
{
    coniks_alarms *alarms = &client->core.alarms;
    struct array array = {alarms->items, alarms->room, alarms->count, sizeof *alarms->items};
    uint32_t status = reserve(client, &array, room);
    alarms->items = array.items;
    alarms->room = array.room;
    return status;
}

/* The room for epochs doubles. There is room for the alarms first, so that a stored epoch can always be dropped. */
uint32_t client_reserve_epochs(coniks_client *client, size_t more, size_t alarm_count)
{
    coniks_stored *stored = &client->core.stored;
    struct array array = {stored->items, stored->room, stored->count, sizeof *stored->items};
    size_t room = stored->room;
    uint32_t status;
    if (more > room - stored->count)
        room = more > stored->count ? stored->count + more : 2 * stored->count;
    status = reserve_alarms(client, alarm_count + room);
    if (status)
        return status;
    status = reserve(client, &array, room);
    stored->items = array.items;
    stored->room = array.room;
    return status;
}

uint32_t client_reserve_changes(coniks_client *client, size_t room)
{
    coniks_changes *changes = &client->core.changes;
    struct array array = {changes->items, changes->room, changes->count, sizeof *changes->items};
    uint32_t status = reserve(client, &array, room);
    changes->items = array.items;
    changes->room = array.room;
    return status;
}

uint8_t *client_allocate_texts(const coniks_client *client, size_t more)
{
    const coniks_core *core = &client->core;
    size_t i, length = core->watch.name_length + core->watch.key_length + more;
    for (i = 0; i < core->changes.count; i++)
        length += core->changes.items[i].key_length;
    return client_allocate(client, length, 1);
}

/* Copies bytes to the end of a block. */
static void append(uint8_t **end, const uint8_t **bytes, size_t length)
{
    if (length)
        memcpy(*end, *bytes, length);
    *bytes = *end;
    *end += length;
}

uint32_t client_own_texts(coniks_client *client, uint8_t *block)
{
    coniks_watch *watch = &client->core.watch;
    coniks_changes *changes = &client->core.changes;
    uint8_t *end = block;
    size_t i;
    if (block == NULL)
        return CONIKS_CLIENT_E_MEMORY;
    append(&end, &watch->name, watch->name_length);
    append(&end, &watch->key, watch->key_length);
    for (i = 0; i < changes->count; i++)
        append(&end, &changes->items[i].key, changes->items[i].key_length);
    client_release(client, client->texts);
    client->texts = block;
    return 0;
}

uint64_t client_number_of(const uint8_t *bytes)
{
    uint64_t number = 0;
    size_t i;
    for (i = 0; i < 8; i++)
        number = number << 8 | bytes[i];
    return number;
}

uint64_t client_epoch_of(const uint8_t *entry)
{
    return client_number_of(entry + EPOCH_START);
}

void client_clear(void *bytes, size_t length)
{
    if (bytes && length)
        memset(bytes, 0, length);
}

void coniks_client_free(coniks_client *client)
{
    if (client == NULL)
        return;
    client_release(client, client->core.stored.items);
    client_release(client, client->core.alarms.items);
    client_release(client, client->core.changes.items);
    client_release(client, client->core.marks);
    client_release(client, client->texts);
    client_release(client, client);
}

/* The state of a client: what is kept, as bytes. docs/STORED.md defines them. */
#include "client_parts.h"

uint32_t coniks_client_state(const coniks_client *client, uint8_t *state, size_t room, size_t *length)
{
    if (coniks_core_state_size(&client->core, length))
        return CONIKS_CLIENT_E_MEMORY;
    return coniks_core_state_write(&client->core, state, room, length);
}

/* Verifies the signatures of a state's entries, and reads it into the memory that was made for it. The name and the keys are then parts
 * of the state. */
static uint32_t verify_and_read(coniks_client *client, struct slice state, const coniks_state_needs *needs, uint32_t *verdicts)
{
    size_t i;
    for (i = 0; i < needs->stored; i++)
        verdicts[i] =
            client_signature_verdict(client, state.bytes + needs->entry_start + i * needs->entry_step, CONIKS_ENTRY_BYTES);
    return coniks_core_state_read(&client->core, state.bytes, state.length, verdicts, needs->stored);
}

uint32_t client_take_state(coniks_client *client, struct slice state)
{
    coniks_state_needs needs;
    uint32_t *memory, status = coniks_core_state_needs(&client->core, state.bytes, state.length, &needs);
    if (status == 0)
        status = client_reserve_epochs(client, needs.stored, needs.alarms);
    if (status == 0)
        status = client_reserve_changes(client, needs.changes);
    if (status)
        return status;
    memory = client_allocate(client, needs.stored, sizeof *memory);
    status = memory ? verify_and_read(client, state, &needs, memory) : CONIKS_CLIENT_E_MEMORY;
    client_release(client, memory);
    return status ? status : client_own_texts(client, client_allocate_texts(client, 0));
}

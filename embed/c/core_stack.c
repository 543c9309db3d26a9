/* Prints how many bytes of stack each call of a client's core takes, at 256 siblings: how much of a painted stack was written. */
#define _XOPEN_SOURCE 700
#include <stdio.h>
#include <stdlib.h>
#include <string.h>

#include "coniks_core.h"
#include "painted.h"

enum {
    SIBLINGS = 256,
    HEADS = 64,
    ENTRY = 1,
    REPLY = 1 + 209 + 2 + 3 + SIBLINGS * 32,
    STEP = 3,
    HISTORY = STEP + 11 + SIBLINGS / 8 + SIBLINGS * 32,
    STATE = 110 + 218
};

static const char *const names[] = {
    "nothing",     "feed",        "reply_needs", "lookup",   "watch", "expect", "compare", "evidence",      "quorum",
    "mark",        "confirmed",   "relied",      "start",    "cover", "report", "history", "history_needs", "state_size",
    "state_write", "state_needs", "state_read",  "catch_up", "note",  "lost",   "succeed"};

static uint8_t reply[REPLY], history[HISTORY], state[STATE];
static coniks_siblings siblings;

/* A client and its memory. */
static coniks_core core;
static coniks_stored_entry stored[2];
static coniks_change changes[2];
static coniks_alarm alarms[2];
static uint64_t marks[HEADS];

/* A client that goes on, and its memory. */
static coniks_core next;
static coniks_stored_entry first[1];
static coniks_change changed[1];

/* Makes a client with one stored epoch, whose entry is still zero bytes, and no watched name. Its quorum is one auditor. */
static void begin(void)
{
    memset(stored, 0, sizeof stored);
    memset(marks, 0, sizeof marks);
    alarms[0] = (coniks_alarm){1, 5};
    memset(&core, 0, sizeof core);
    core.rules.quorum = 1;
    core.stored = (coniks_stored){stored, 2, 1};
    core.changes = (coniks_changes){changes, 2, 0};
    core.alarms = (coniks_alarms){alarms, 2, 0};
    core.marks = marks;
    core.mark_count = HEADS;
    memset(&next, 0, sizeof next);
    next.stored = (coniks_stored){first, 1, 0};
    next.changes = (coniks_changes){changed, 1, 0};
}

/* Makes one of the calls, or none. The copy before it takes the same stack each time. */
static void *call(void *which)
{
    coniks_watch wanted = {1, (const uint8_t *)"a", 1, 0, NULL, 0};
    coniks_received received = {reply + ENTRY, 209, 1, 0};
    coniks_asking asking = {(const uint8_t *)"a", 1, reply, REPLY, 0, 0, 0};
    coniks_verdicts verdicts = {1, 1, {{0}}};
    coniks_needs needs;
    coniks_found found;
    coniks_why why;
    coniks_head heads[HEADS] = {{0, 0, {{0}}}};
    coniks_succession succession = {1, {{0}}, 1, {{0}}, {{0}}, 1, {{0}}};
    coniks_covered covered;
    coniks_report report;
    coniks_history all = {(const uint8_t *)"a", 1, history, HISTORY};
    coniks_history_needs all_needs;
    coniks_state_needs state_needs;
    coniks_step shown[2];
    coniks_steps steps = {shown, 2, 0};
    uint32_t valid[1] = {1};
    uint8_t written[STATE];
    uint64_t epoch;
    size_t place;
    uint32_t status = 0;
    memcpy(stored[0].entry, reply + ENTRY, sizeof stored[0].entry);
    switch (*(int *)which) {
    case 1:
        status = coniks_core_feed(&core, &received, &why);
        break;
    case 2:
        status = coniks_core_reply_needs(&core, reply, REPLY, &needs);
        break;
    case 3:
        core.watch = wanted;
        status = coniks_core_lookup(&core, &asking, &verdicts, &found, &why);
        break;
    case 4:
        status = coniks_core_watch(&core, &wanted, 0);
        break;
    case 5:
        core.watch = wanted;
        status = coniks_core_expect(&core, (const uint8_t *)"k", 1, 9);
        break;
    case 6:
        status = coniks_core_compare(&core, 1, &core.rules.policy, &place);
        break;
    case 7:
        status = coniks_core_evidence(&core, &received, &why);
        break;
    case 8:
        status = (uint32_t)coniks_core_quorum(HEADS, 1);
        break;
    case 9:
        status = coniks_core_mark(&core, 0, 1, &core.rules.policy);
        break;
    case 10:
        status = coniks_core_confirmed(&core, &epoch);
        break;
    case 11:
        status = coniks_core_relied(&core, 0);
        break;
    case 12:
        core.stored.count = 0;
        status = coniks_core_start(&core, heads, HEADS, &received, &why);
        break;
    case 13:
        core.watch = wanted;
        core.marks[0] = 1;
        core.alarms.count = 1;
        status = coniks_core_cover(&core, 0, &covered);
        break;
    case 14:
        core.watch = wanted;
        core.marks[0] = 1;
        core.stored.items[0].seen = 1;
        status = coniks_core_report(&core, 0, &report);
        break;
    case 15:
        core.watch = wanted;
        status = coniks_core_history(&core, &all, &verdicts, &siblings, &steps);
        break;
    case 16:
        status = coniks_core_history_needs(history, HISTORY, &all_needs);
        break;
    case 17:
        core.mark_count = 0;
        status = coniks_core_state_size(&core, &place);
        break;
    case 18:
        core.mark_count = 0;
        status = coniks_core_state_write(&core, written, STATE, &place);
        break;
    case 19:
        status = coniks_core_state_needs(&core, state, STATE, &state_needs);
        break;
    case 20:
        status = coniks_core_state_read(&core, state, STATE, valid, 1);
        break;
    case 21:
        status = coniks_core_catch_up(reply + ENTRY, 209, &place);
        break;
    case 22:
        core.alarms.count = 1;
        status = coniks_core_note(&core, 1);
        break;
    case 23:
        status = coniks_core_lost(&core, 0, 0);
        break;
    case 24:
        core.watch = wanted;
        changes[0] = (coniks_change){0, 5, NULL, 0};
        core.changes.count = 1;
        (void)!coniks_link(reply + ENTRY, 209, &succession.last_link);
        succession.first_link = succession.last_link;
        status = coniks_core_succeed(&core, &succession, &received, &next, &place);
        break;
    default:
        break;
    }
    *(int *)which = (int)status;
    return NULL;
}

/* How many bytes of stack a call takes, and its status. */
static size_t taken(int which, int *status)
{
    *status = which;
    begin();
    return painted(call, status, NULL);
}

int main(void)
{
    int which, status;
    size_t size, idle = taken(0, &status);
    reply[0] = 1;
    /* A well-formed entry of version 1 and epoch 1, and a proof that ends with an empty node. */
    reply[ENTRY] = 1;
    reply[ENTRY + 8] = 1;
    reply[1 + 209 + 2 + 1] = SIBLINGS >> 8;
    /* A history with a step for epoch 1, all of whose siblings are sent. */
    history[0] = 1;
    history[STEP + 7] = 1;
    history[STEP + 9] = SIBLINGS >> 8;
    memset(history + STEP + 11, 0xff, SIBLINGS / 8);
    /* The state of a client with this entry. */
    begin();
    memcpy(stored[0].entry, reply + ENTRY, sizeof stored[0].entry);
    core.mark_count = 0;
    if (coniks_core_state_write(&core, state, STATE, &size) || size != STATE)
        exit(2);
    for (which = 1; which < (int)(sizeof names / sizeof *names); which++) {
        size_t bytes = taken(which, &status) - idle;
        printf("%s: %zu bytes of stack, status %d\n", names[which], bytes, status);
    }
    return 0;
}

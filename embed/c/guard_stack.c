/* Prints how many bytes of stack each call of a guard takes, with a body that is signed: how much of a painted stack was written. */
#define _XOPEN_SOURCE 700
#include <stdio.h>
#include <string.h>

#include "coniks_guard.h"
#include "painted.h"

enum { BODIES = 4 };

static const char *const names[] = {"nothing", "answer", "ask", "sign", "abandon", "adopt"};

static coniks_guard_record record;
static coniks_bytes145 abandoned[BODIES], body = {{1, 0, 0, 0, 0, 0, 0, 0, 2, 0, 0, 0, 0, 0, 0, 0, 1}};

/* Makes one of the calls, on a record with an entry and some abandoned bodies. */
static void *call(void *which)
{
    coniks_bytes64 signature = {{0}};
    size_t count = BODIES - 1;
    uint32_t status = 0;
    switch (*(int *)which) {
    case 1:
        status = coniks_guard_answer(&record, abandoned, count, &body, &signature);
        break;
    case 2:
        status = coniks_guard_ask(&record, abandoned, count, 0, &body);
        break;
    case 3:
        status = coniks_guard_sign(&record, abandoned, BODIES, &count, 0, &body, &signature);
        break;
    case 4:
        status = coniks_guard_abandon(&record, abandoned, BODIES, &count, &body);
        break;
    case 5:
        status = coniks_guard_adopt(&record, NULL, 0, record.entry, sizeof record.entry);
        break;
    default:
        break;
    }
    *(int *)which = (int)status;
    return NULL;
}

/* How many bytes of stack a call takes, on a record whose entry is followed by the body. Its status must be 0. */
static size_t taken(int which)
{
    static const coniks_guard_record empty;
    coniks_bytes32 link;
    size_t bytes;
    int status = which;
    record = empty;
    record.entry[0] = record.entry[8] = 1;
    record.has_entry = which != 5;
    if (coniks_link(record.entry, sizeof record.entry, &link))
        exit(2);
    memcpy(body.bytes + 49, link.bytes, sizeof link.bytes);
    record.has_asked = which == 3;
    memcpy(record.asked, body.bytes, sizeof record.asked);
    bytes = painted(call, &status, NULL);
    if (status != 0)
        exit(2);
    return bytes;
}

int main(void)
{
    int which;
    size_t idle = taken(0);
    for (which = 1; which < (int)(sizeof names / sizeof *names); which++)
        printf("%s: %zu bytes of stack\n", names[which], taken(which) - idle);
    return 0;
}

/*
 * Makes calls of every export, for a comparison. Each argument is placed twice: its last byte right before an inaccessible
 * page, and its first byte right after one.
 *
 * A record on standard input is the number of the call in `calls`, a number (4 bytes, high byte first) and each argument: its
 * length (4 bytes) and its bytes. For each record the result and what the call wrote are printed.
 */
#define _DEFAULT_SOURCE
#include <stdio.h>
#include <stdlib.h>
#include <string.h>
#include <sys/mman.h>
#include <unistd.h>

#include "coniks.h"

enum { MOST = 7, ROOM = 1 << 16 };

/* The arguments of a call: `r` is read, `w` is written. */
static const char *const calls[] = {"rrrrrww", "w", "wr", "rww", "wrrrrr", "rw", "rw", "rw", "w", "", "rrw"};

static uint8_t *areas[MOST], *at[MOST], given[MOST][ROOM];
static size_t lengths[MOST];

static uint32_t read_number(void)
{
    uint8_t bytes[4];
    if (fread(bytes, 1, 4, stdin) != 4)
        exit(2);
    return (uint32_t)bytes[0] << 24 | (uint32_t)bytes[1] << 16 | (uint32_t)bytes[2] << 8 | bytes[3];
}

static void make_areas(size_t page)
{
    int i;
    for (i = 0; i < MOST; i++) {
        areas[i] = mmap(NULL, ROOM + 2 * page, PROT_NONE, MAP_PRIVATE | MAP_ANONYMOUS, -1, 0);
        if (areas[i] == MAP_FAILED || mprotect(areas[i] += page, ROOM, PROT_READ | PROT_WRITE))
            exit(2);
    }
}

static void place(size_t count, int is_last)
{
    size_t i;
    for (i = 0; i < count; i++) {
        at[i] = areas[i] + (is_last ? ROOM - lengths[i] : 0);
        memcpy(at[i], given[i], lengths[i]);
    }
}

#define B32(i) ((coniks_bytes32 *)at[i])
#define STATE(i) ((coniks_auditor *)at[i])

static size_t answer(int call, uint32_t number)
{
    switch (call) {
    case 0:
        return coniks_check(B32(0), B32(1), B32(2), at[3], lengths[3], at[4], lengths[4], (size_t *)at[5], (size_t *)at[6]);
    case 1:
        coniks_auditor_begin(STATE(0));
        return 0;
    case 2:
        return coniks_auditor_feed(STATE(0), at[1], lengths[1], number);
    case 3:
        return coniks_auditor_head(STATE(0), (uint64_t *)at[1], B32(2));
    case 4:
        return coniks_monitor_step(STATE(0), B32(1), at[2], lengths[2], at[3], lengths[3], at[4], lengths[4], number, at[5],
                                   lengths[5]);
    case 5:
        return coniks_entry_body(at[0], lengths[0], (coniks_body *)at[1]);
    case 6:
        coniks_body_bytes((const coniks_body *)at[0], (coniks_bytes145 *)at[1]);
        return 0;
    case 7:
        return coniks_link(at[0], lengths[0], B32(1));
    case 8:
        return coniks_text(number, at[0], lengths[0]);
    case 9:
        return coniks_version();
    default:
        return coniks_convicts(at[0], lengths[0], at[1], lengths[1], (uint32_t *)at[2]);
    }
}

static void print_answer(const char *kinds, size_t result)
{
    size_t i, k;
    printf("%zu", result);
    for (i = 0; kinds[i]; i++) {
        if (kinds[i] == 'r' && memcmp(at[i], given[i], lengths[i]))
            printf(" argument %zu is written", i);
        if (kinds[i] == 'w')
            putchar(' ');
        for (k = 0; kinds[i] == 'w' && k < lengths[i]; k++)
            printf("%02x", at[i][k]);
    }
    putchar('\n');
}

int main(void)
{
    int call;
    make_areas((size_t)sysconf(_SC_PAGESIZE));
    while ((call = getchar()) != EOF) {
        uint32_t number = read_number();
        size_t i, count = strlen(calls[call]);
        int is_last;
        for (i = 0; i < count; i++) {
            lengths[i] = read_number();
            if (lengths[i] > ROOM || fread(given[i], 1, lengths[i], stdin) != lengths[i])
                return 2;
        }
        for (is_last = 0; is_last < 2; is_last++) {
            place(count, is_last);
            print_answer(calls[call], answer(call, number));
        }
    }
    return 0;
}

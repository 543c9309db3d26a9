/* Prints how many bytes of stack a check takes, at 0, 128 and 256 siblings: how much of a painted stack was written. */
#define _XOPEN_SOURCE 700
#include <stdio.h>
#include <stdlib.h>

#include "coniks.h"
#include "painted.h"

static uint8_t proof[3 + 256 * 32];
static size_t proof_length;

static void *call(void *is_checked)
{
    coniks_bytes32 zero = {{0}};
    size_t start, count;
    uint32_t status = CONIKS_E_ROOT_MISMATCH;
    if (is_checked)
        status = coniks_check(&zero, &zero, &zero, (const uint8_t *)"a", 1, proof, proof_length, &start, &count);
    return status == CONIKS_E_ROOT_MISMATCH ? NULL : is_checked;
}

static size_t taken(void *is_checked)
{
    void *result = NULL;
    size_t bytes = painted(call, is_checked, &result);
    if (result)
        exit(2);
    return bytes;
}

int main(void)
{
    int is_checked = 1;
    size_t siblings, idle = taken(NULL);
    for (siblings = 0; siblings <= 256; siblings += 128) {
        proof[1] = (uint8_t)(siblings >> 8);
        proof[2] = (uint8_t)siblings;
        proof_length = 3 + 32 * siblings;
        printf("%zu siblings: %zu bytes of stack\n", siblings, taken(&is_checked) - idle);
    }
    return 0;
}

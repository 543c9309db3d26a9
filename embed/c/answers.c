/*
 * Checks many proofs, for a comparison. Prints the status for each record on standard input, and the key if there is one.
 *
 * A record is the lengths of name and proof (4 bytes each, high byte first), nonce, root and index, the name and the proof.
 * Name and proof are copied to blocks of exactly their size, so that a sanitizer sees a byte read past them.
 */
#include <stdio.h>
#include <stdlib.h>

#include "coniks.h"

static size_t number(const uint8_t *bytes)
{
    return (size_t)bytes[0] << 24 | (size_t)bytes[1] << 16 | (size_t)bytes[2] << 8 | bytes[3];
}

static uint8_t *read_exactly(size_t length)
{
    uint8_t *bytes = malloc(length ? length : 1);
    if (bytes == NULL || fread(bytes, 1, length, stdin) != length)
        exit(2);
    return bytes;
}

int main(void)
{
    uint8_t lengths[8];
    while (fread(lengths, 1, sizeof lengths, stdin) == sizeof lengths) {
        size_t name_length = number(lengths), proof_length = number(lengths + 4);
        size_t start = 7777777, count = 7777777, i;
        coniks_bytes32 given[3];
        uint8_t *name, *proof;
        uint32_t status;
        if (fread(given, 1, sizeof given, stdin) != sizeof given)
            return 2;
        name = read_exactly(name_length);
        proof = read_exactly(proof_length);
        status = coniks_check(&given[0], &given[1], &given[2], name, name_length, proof, proof_length, &start, &count);
        printf("%u", (unsigned)status);
        if (status == CONIKS_GOOD) {
            putchar(' ');
            for (i = 0; i < count; i++)
                printf("%02x", proof[start + i]);
        } else if (start != 7777777 || count != 7777777) {
            printf(" written");
        }
        putchar('\n');
        free(name);
        free(proof);
    }
    return 0;
}

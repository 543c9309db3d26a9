/*
 * Checks the proof of a lookup, in its bytes, under the nonce and the root of an entry.
 *
 *     check_lookup NONCE ROOT INDEX NAME < PROOF
 *
 * NONCE, ROOT and INDEX are 64 hexadecimal digits each. Prints the key, in hexadecimal digits, or `absent`, or why the proof
 * is refused. The exit status is 0, or 1 if the proof is refused.
 */
#include <stdio.h>
#include <string.h>

#include "coniks.h"

static int digit(char c)
{
    if (c >= '0' && c <= '9')
        return c - '0';
    if (c >= 'a' && c <= 'f')
        return c - 'a' + 10;
    return -1;
}

static int read_bytes32(const char *text, coniks_bytes32 *out)
{
    size_t i;
    if (strlen(text) != 64)
        return 0;
    for (i = 0; i < 32; i++) {
        int high = digit(text[2 * i]), low = digit(text[2 * i + 1]);
        if (high < 0 || low < 0)
            return 0;
        out->bytes[i] = (uint8_t)(high << 4 | low);
    }
    return 1;
}

int main(int argc, char **argv)
{
    static uint8_t proof[CONIKS_MAX_PROOF + 1];
    coniks_bytes32 nonce, root, index;
    size_t length, start, count, i;
    uint32_t status;

    if (argc != 5 || !read_bytes32(argv[1], &nonce) || !read_bytes32(argv[2], &root) || !read_bytes32(argv[3], &index)) {
        fputs("check_lookup NONCE ROOT INDEX NAME < PROOF\n", stderr);
        return 2;
    }
    length = fread(proof, 1, sizeof proof, stdin);
    status = coniks_check(&nonce, &root, &index, (const uint8_t *)argv[4], strlen(argv[4]), proof, length, &start, &count);
    if (status == CONIKS_GOOD) {
        for (i = 0; i < count; i++)
            printf("%02x", proof[start + i]);
        putchar('\n');
        return 0;
    }
    if (status == CONIKS_ABSENT) {
        puts("absent");
        return 0;
    }
    uint8_t text[CONIKS_TEXT_BYTES];
    coniks_text(status, text, sizeof text);
    printf("refused (%u): %s\n", (unsigned)status, (const char *)text);
    return 1;
}

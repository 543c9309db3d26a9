/*
 * Looks a name up, from what a directory's service sent.
 *
 *     client_lookup SIGNING_KEY VRF_KEY POLICY CATCH_UP NAME REPLY [EPOCH]
 *
 * The keys are 64 hexadecimal digits, `-` for a directory without a VRF. POLICY, CATCH_UP and REPLY are files: the policy document,
 * all entries of the chain, and the reply for NAME at EPOCH, by default the latest. Prints the key in hexadecimal digits, or
 * `absent`, or why something is refused. The exit status is 0, or 1 if something is refused.
 */
#include <errno.h>
#include <stdio.h>
#include <stdlib.h>
#include <string.h>

#include "client.h"

struct file {
    uint8_t *bytes;
    size_t length;
};

static int digit(char c)
{
    if (c >= '0' && c <= '9')
        return c - '0';
    if (c >= 'a' && c <= 'f')
        return c - 'a' + 10;
    return -1;
}

static int read_key(const char *text, coniks_bytes32 *key)
{
    size_t i;
    if (strlen(text) != 64)
        return 0;
    for (i = 0; i < 32; i++) {
        int high = digit(text[2 * i]), low = digit(text[2 * i + 1]);
        if (high < 0 || low < 0)
            return 0;
        key->bytes[i] = (uint8_t)(high << 4 | low);
    }
    return 1;
}

static int read_number(const char *text, uint64_t *number)
{
    char *end;
    errno = 0;
    *number = strtoull(text, &end, 10);
    return text[0] >= '0' && text[0] <= '9' && *end == 0 && errno == 0;
}

/* Reads a whole file, which the caller frees. */
static int read_file(const char *path, struct file *file)
{
    FILE *stream = fopen(path, "rb");
    size_t room = 4096, got = 1;
    file->bytes = stream ? malloc(room) : NULL;
    file->length = 0;
    while (file->bytes && got > 0) {
        got = fread(file->bytes + file->length, 1, room - file->length, stream);
        file->length += got;
        if (file->length == room) {
            uint8_t *larger = realloc(file->bytes, room *= 2);
            if (larger == NULL)
                free(file->bytes);
            file->bytes = larger;
        }
    }
    if (stream && (ferror(stream) || fclose(stream))) {
        free(file->bytes);
        file->bytes = NULL;
    }
    if (file->bytes == NULL)
        fprintf(stderr, "%s can't be read\n", path);
    return file->bytes != NULL;
}

static int refuse(uint32_t status)
{
    uint8_t text[160];
    coniks_client_text(status, text, sizeof text);
    printf("refused (%u): %s\n", (unsigned)status, (const char *)text);
    return 1;
}

/* Feeds the catch-up, looks the name up and prints its key. */
static int look_up(coniks_client *client, const struct file *catch_up, const coniks_asking *asking)
{
    coniks_client_found found;
    size_t i;
    uint32_t status = coniks_client_catch_up(client, catch_up->bytes, catch_up->length, NULL, NULL);
    if (status)
        return refuse(status);
    status = coniks_client_lookup(client, asking, &found, NULL);
    if (status)
        return refuse(status);
    if (found.shows == CONIKS_CLIENT_NO_KEY) {
        puts("absent");
        return 0;
    }
    for (i = 0; i < found.key_length; i++)
        printf("%02x", found.key[i]);
    putchar('\n');
    return 0;
}

int main(int argc, char **argv)
{
    coniks_client_settings settings;
    coniks_client *client;
    coniks_bytes32 signing_key, vrf_key;
    struct file policy = {NULL, 0}, catch_up = {NULL, 0}, reply = {NULL, 0};
    uint64_t epoch = 0;
    int is_refused = 1, has_vrf = argc > 2 && strcmp(argv[2], "-") != 0;

    if (argc < 7 || argc > 8 || !read_key(argv[1], &signing_key) || (has_vrf && !read_key(argv[2], &vrf_key)) ||
        (argc == 8 && !read_number(argv[7], &epoch))) {
        fputs("client_lookup SIGNING_KEY VRF_KEY POLICY CATCH_UP NAME REPLY [EPOCH]\n", stderr);
        return 2;
    }
    if (read_file(argv[3], &policy) && read_file(argv[4], &catch_up) && read_file(argv[6], &reply)) {
        const coniks_asking asking = {
            (const uint8_t *)argv[5], strlen(argv[5]), reply.bytes, reply.length, argc == 8, epoch, 0};
        uint32_t status;
        coniks_client_begin_settings(&settings);
        settings.signing_key = &signing_key;
        settings.vrf_key = has_vrf ? &vrf_key : NULL;
        settings.policy = policy.bytes;
        settings.policy_length = policy.length;
        status = coniks_client_new(&client, &settings);
        is_refused = status ? refuse(status) : look_up(client, &catch_up, &asking);
        coniks_client_free(client);
    }
    free(policy.bytes);
    free(catch_up.bytes);
    free(reply.bytes);
    return is_refused;
}

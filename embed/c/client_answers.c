/*
 * Replies to the requests of embed/tests/client_sides.py over the client in C, one on each line.
 *
 *     client_answers [refusing]
 *
 * With `refusing`, each call is made with its first allocation refused, then with its second, until it needs no more: a client
 * that has no memory must be as it was. At the end no block may be left; the exit status is 3 if one is.
 */
#define _POSIX_C_SOURCE 200809L
#include <stdio.h>
#include <stdlib.h>
#include <string.h>

#include "client.h"

/* What is allocated, and after how many allocations the next one is refused. */
struct blocks {
    size_t live, left;
};

/* The words of a request, and what it is made over. */
struct answerer {
    coniks_client *client;
    struct blocks blocks;
    int is_refusing;
    uint64_t now;
    /* of the trust document that the next client names; no auditor is no document */
    coniks_bytes32 trust;
    size_t auditors, faulty;
    char **words;
    size_t count;
};

struct bytes {
    uint8_t *at;
    size_t length;
};

static void fail(const char *why)
{
    fprintf(stderr, "%s\n", why);
    exit(2);
}

static void *allocate(void *context, size_t size)
{
    struct blocks *blocks = context;
    void *block = blocks->left ? malloc(size ? size : 1) : NULL;
    if (block == NULL)
        return NULL;
    blocks->left--;
    blocks->live++;
    return block;
}

static void release(void *context, void *block)
{
    struct blocks *blocks = context;
    blocks->live--;
    free(block);
}

static uint64_t clock_of(void *context)
{
    return *(const uint64_t *)context;
}

static void *own(size_t size)
{
    void *block = malloc(size ? size : 1);
    if (block == NULL)
        fail("out of memory");
    return block;
}

static const char *word(const struct answerer *it, size_t place)
{
    if (place >= it->count)
        fail("a word is missing");
    return it->words[place];
}

static int is_nothing(const struct answerer *it, size_t place)
{
    return strcmp(word(it, place), "-") == 0;
}

static uint64_t number(const char *digits)
{
    return strtoull(digits, NULL, 10);
}

/* Bytes of exactly their size, so that a sanitizer sees a byte read past them. */
static struct bytes bytes_of(const char *digits, size_t length)
{
    struct bytes bytes;
    size_t i;
    bytes.length = digits[0] == '.' ? 0 : length / 2;
    bytes.at = own(bytes.length);
    for (i = 0; i < bytes.length; i++) {
        unsigned byte = 0;
        sscanf(digits + 2 * i, "%2x", &byte);
        bytes.at[i] = (uint8_t)byte;
    }
    return bytes;
}

/* The bytes of a word; NULL for `-`. */
static struct bytes bytes_at(const struct answerer *it, size_t place)
{
    struct bytes none = {NULL, 0};
    return is_nothing(it, place) ? none : bytes_of(word(it, place), strlen(word(it, place)));
}

static int take32(struct bytes bytes, coniks_bytes32 *to)
{
    int is_well = bytes.length == sizeof to->bytes;
    if (is_well)
        memcpy(to->bytes, bytes.at, sizeof to->bytes);
    free(bytes.at);
    return is_well;
}

static void print_bytes(const uint8_t *bytes, size_t length)
{
    size_t i;
    for (i = 0; i < length; i++)
        printf("%02x", bytes[i]);
    if (length == 0)
        putchar('.');
}

static struct bytes state_of(const coniks_client *client)
{
    struct bytes state = {NULL, 0};
    if (coniks_client_state(client, NULL, 0, &state.length) != CONIKS_CLIENT_E_ROOM)
        fail("a state of no byte");
    state.at = own(state.length);
    if (coniks_client_state(client, state.at, state.length, &state.length))
        fail("no state");
    return state;
}

/* Before a call is tried: how many of its allocations are granted, and the client's state. */
struct trial {
    size_t granted;
    struct bytes state;
};

static struct trial begin_trial(struct answerer *it)
{
    struct trial trial = {0, {NULL, 0}};
    it->blocks.left = it->is_refusing ? 0 : SIZE_MAX;
    if (it->is_refusing && it->client)
        trial.state = state_of(it->client);
    return trial;
}

/* Whether a call is made again, with one allocation more. Then the client must be as it was before. */
static int is_tried_again(struct answerer *it, struct trial *trial, uint32_t status)
{
    int is_again = it->is_refusing && status == CONIKS_CLIENT_E_MEMORY;
    if (is_again && trial->state.at) {
        struct bytes state = state_of(it->client);
        if (state.length != trial->state.length || memcmp(state.at, trial->state.at, state.length) != 0)
            fail("without memory the client is another one");
        free(state.at);
    }
    it->blocks.left = ++trial->granted;
    if (!is_again)
        free(trial->state.at);
    return is_again;
}

static const char *const KINDS[] = {"-", "overlap", "other-policy", "malformed"};
static const char *const SEEN[] = {"-", "same", "", "changed", "absent", "missing"};
static const char *const REPORTS[] = {"", "changed", "missing", "lost", "unwatched", "unconfirmed", "good"};
static const char *const COMPARISONS[] = {"", "equal", "unknown", "differs"};

/* clang-format off */
static const struct {
    uint32_t status;
    const char *name;
} NAMES[] = {
    /* formats.toml: names */
    {2, "TooDeep"},
    {3, "NameLength"},
    {4, "KeyLength"},
    {5, "WrongName"},
    {6, "OtherIsSame"},
    {7, "OtherOffPath"},
    {8, "RootMismatch"},
    {17, "NoBytes"},
    {18, "UnknownKind"},
    {19, "CutInCount"},
    {20, "CutInSiblings"},
    {21, "CutInOther"},
    {22, "CutInOpening"},
    {23, "CutInName"},
    {24, "CutInKey"},
    {25, "BytesFollow"},
    {33, "Version"},
    {34, "VersionBack"},
    {35, "FirstEpoch"},
    {36, "NotLater"},
    {37, "PreviousEpoch"},
    {38, "PreviousLink"},
    {39, "NonceChanged"},
    {40, "Signature"},
    {48, "EntryLength"},
    {49, "NoEntry"},
    {64, "NoReply"},
    {65, "ReplyVersion"},
    {66, "CutInEntry"},
    {67, "CutInVrf"},
    {68, "CatchUpLength"},
    {69, "NoHistory"},
    {70, "HistoryVersion"},
    {71, "CutInStep"},
    {72, "EpochOrder"},
    {73, "UnknownEnd"},
    {74, "SiblingMap"},
    {75, "SiblingRepeated"},
    {76, "EndRepeated"},
    {80, "OtherPolicy"},
    {81, "Malformed"},
    {82, "Equivocation"},
    {83, "UnknownEpoch"},
    {84, "OtherEpoch"},
    {85, "Stale"},
    {86, "Future"},
    {87, "VrfProof"},
    {88, "SuccessionPolicy"},
    {89, "SuccessionSignature"},
    {90, "NextPolicy"},
    {91, "ChainDiffers"},
    {92, "OtherStart"},
    {96, "StateLength"},
    {97, "StateVersion"},
    {98, "StateDamaged"},
    {99, "StatePolicy"},
    {100, "StateForm"},
    {101, "StateChain"},
    {104, "NotVouched"},
    {105, "AuditorsDiffer"},
    {112, "SigningKey"},
    {113, "VrfKey"},
    {114, "PolicyKeys"},
    /* formats.toml: end */
}; /* the names of docs/FORMATS.md */
/* clang-format on */

static void print_evidence(const coniks_client_evidence *evidence)
{
    printf(" %s", KINDS[evidence->kind]);
    if (evidence->kind) {
        putchar(' ');
        print_bytes(evidence->mine, sizeof evidence->mine);
        putchar(' ');
        print_bytes(evidence->other, sizeof evidence->other);
    }
}

/* Prints why a call has no result. */
static void print_refusal(uint32_t status, const coniks_client_refusal *why)
{
    uint32_t own_status = status < CONIKS_CLIENT_E_NO_REPLY ? status : why->status;
    uint8_t text[160];
    size_t i = 0;
    if (status == CONIKS_CLIENT_E_MEMORY || status == CONIKS_CLIENT_E_SODIUM ||
        coniks_client_text(status, text, sizeof text) - 1 >= sizeof text - 1)
        fail("an error of the machine, or one without a text");
    if (status >= CONIKS_CLIENT_E_POLICY_FORM) {
        puts("misuse");
        return;
    }
    while (i < sizeof NAMES / sizeof NAMES[0] && NAMES[i].status != status)
        i++;
    if (i == sizeof NAMES / sizeof NAMES[0])
        fail("a status without a name");
    printf("refused %s ", NAMES[i].name);
    printf(own_status ? "%u" : "-", (unsigned)own_status);
    print_evidence(&why->evidence);
    putchar('\n');
}

static const coniks_client_refusal NO_REASON;

/* Prints the word of a call that succeeded, or why it did not. */
static void print_result(uint32_t status, const char *message)
{
    if (status)
        print_refusal(status, &NO_REASON);
    else
        puts(message);
}

/* Makes the client of a request, from its state or from an entry that auditors have. */
static uint32_t make(struct answerer *it, const coniks_client_settings *settings, coniks_client_refusal *why)
{
    int is_vouched = strcmp(word(it, 0), "vouched") == 0;
    size_t i, count = is_vouched ? it->count - 9 : 0;
    struct bytes given = bytes_at(it, 7);
    coniks_client_head *heads = own(count * sizeof *heads);
    const size_t least = is_vouched ? (size_t)number(word(it, 8)) : 0;
    const coniks_client_vouching vouching = {given.at, given.length, heads, count, least};
    struct trial trial = begin_trial(it);
    uint32_t status;
    for (i = 0; i < count; i++) {
        const char *colon = strchr(word(it, 9 + i), ':');
        heads[i].epoch = number(word(it, 9 + i));
        if (colon == NULL || !take32(bytes_of(colon + 1, strlen(colon + 1)), &heads[i].link))
            fail("a head");
    }
    do {
        if (is_vouched)
            status = coniks_client_vouched(&it->client, settings, &vouching, why);
        else if (given.at)
            status = coniks_client_resume(&it->client, settings, given.at, given.length);
        else
            status = coniks_client_new(&it->client, settings);
        if ((status == 0) != (it->client != NULL) || (status && it->blocks.live))
            fail("an error with a client, or with a block that is left");
    } while (is_tried_again(it, &trial, status));
    free(given.at);
    free(heads);
    return status;
}

/* Takes the trust document of the next client: its digest, its auditors, and how many of them may be faulty. */
static void set_trust(struct answerer *it)
{
    if (!take32(bytes_at(it, 1), &it->trust))
        fail("a trust document's digest");
    it->auditors = (size_t)number(word(it, 2));
    it->faulty = (size_t)number(word(it, 3));
    puts("set");
}

/* What the settings of a client point at. */
struct published {
    coniks_bytes32 signing_key, vrf_key;
    struct bytes policy;
};

/* Takes the settings from the words of a request: limits, keys and policy, from a place on. */
static coniks_client_settings settings_at(struct answerer *it, size_t place, struct published *published)
{
    coniks_client_settings settings;
    published->policy = bytes_at(it, place + 4);
    coniks_client_begin_settings(&settings);
    settings.memory.allocate = allocate;
    settings.memory.release = release;
    settings.memory.context = &it->blocks;
    settings.clock = clock_of;
    settings.clock_context = &it->now;
    if (!is_nothing(it, place))
        settings.max_age = number(word(it, place));
    if (!is_nothing(it, place + 1))
        settings.skew = number(word(it, place + 1));
    if (!take32(bytes_at(it, place + 2), &published->signing_key) ||
        (!is_nothing(it, place + 3) && !take32(bytes_at(it, place + 3), &published->vrf_key)))
        fail("a key has 32 bytes");
    settings.signing_key = &published->signing_key;
    settings.vrf_key = is_nothing(it, place + 3) ? NULL : &published->vrf_key;
    settings.policy = published->policy.at;
    settings.policy_length = published->policy.length;
    settings.trust = it->auditors ? &it->trust : NULL;
    settings.auditors = it->auditors;
    settings.faulty = it->faulty;
    it->auditors = 0;
    return settings;
}

static void begin(struct answerer *it)
{
    coniks_client_settings settings;
    coniks_client_refusal why = NO_REASON;
    struct published published;
    uint32_t status;
    coniks_client_free(it->client);
    it->client = NULL;
    it->now = number(word(it, 1));
    settings = settings_at(it, 2, &published);
    status = make(it, &settings, &why);
    free(published.policy.at);
    if (status)
        print_refusal(status, &why);
    else
        puts("begun");
}

/* Prints the epochs of a client after a place. */
static void print_void(const coniks_client *client, size_t place)
{
    coniks_body body;
    printf("void");
    for (place++; place < coniks_client_count(client); place++) {
        if (coniks_entry_body(coniks_client_entry(client, place), CONIKS_ENTRY_BYTES, &body))
            fail("an entry");
        printf(" %llu", (unsigned long long)body.epoch);
    }
    putchar('\n');
}

/* Goes on in another directory, in which the later requests are answered. */
static void succeed(struct answerer *it)
{
    struct published published;
    const coniks_client_settings settings = settings_at(it, 1, &published);
    struct bytes text = bytes_at(it, 6), entry = bytes_at(it, 7);
    const coniks_client_succession given = {text.at, text.length, &settings, entry.at, entry.length};
    struct trial trial = begin_trial(it);
    coniks_client_refusal why = NO_REASON;
    coniks_client *next;
    uint32_t status;
    size_t place;
    do {
        status = coniks_client_succeed(it->client, &given, &next, &place, &why);
        if ((status == 0) != (next != NULL))
            fail("an error with a client");
    } while (is_tried_again(it, &trial, status));
    free(text.at);
    free(entry.at);
    free(published.policy.at);
    if (status) {
        print_refusal(status, &why);
        return;
    }
    print_void(it->client, place);
    coniks_client_free(it->client);
    it->client = next;
}

static void print_step(const coniks_client_step *step)
{
    printf(" %llu:%s", (unsigned long long)step->epoch, SEEN[step->seen]);
}

/* Prints what each of these entries was, or why one was refused. */
static void print_fed(uint32_t status, const coniks_client_refusal *why, const coniks_client_step *steps, size_t count)
{
    size_t i;
    if (status) {
        print_refusal(status, why);
        return;
    }
    printf("fed");
    for (i = 0; i < count; i++)
        print_step(&steps[i]);
    putchar('\n');
}

static void feed(struct answerer *it)
{
    coniks_client_step *steps = own(it->count * sizeof *steps);
    coniks_client_refusal why;
    uint32_t status = 0;
    size_t done;
    for (done = 0; done + 1 < it->count && status == 0; done++) {
        struct bytes entry = bytes_at(it, done + 1);
        struct trial trial = begin_trial(it);
        do
            status = coniks_client_feed(it->client, entry.at, entry.length, &steps[done], &why);
        while (is_tried_again(it, &trial, status));
        free(entry.at);
    }
    print_fed(status, &why, steps, done);
    free(steps);
}

/* Catches up. Without memory some entries may be accepted, and the others are given again. */
static void catch_up(struct answerer *it)
{
    struct bytes given = bytes_at(it, 1);
    size_t done = 0, room = given.length / CONIKS_ENTRY_BYTES;
    coniks_client_step *steps = own(room * sizeof *steps);
    coniks_client_refusal why;
    uint32_t status;
    it->blocks.left = it->is_refusing ? 0 : SIZE_MAX;
    do {
        coniks_client_steps more = {&steps[done], room - done, 0};
        const size_t start = done * CONIKS_ENTRY_BYTES;
        status = coniks_client_catch_up(it->client, given.at + start, given.length - start, &more, &why);
        done += more.count;
        it->blocks.left = 1;
    } while (it->is_refusing && status == CONIKS_CLIENT_E_MEMORY);
    free(given.at);
    print_fed(status, &why, steps, done);
    free(steps);
}

static void print_found(const coniks_client_found *found)
{
    if ((found->shows == CONIKS_CLIENT_KEY) != (found->key != NULL))
        fail("a key that is not shown, or none that is");
    printf(" %llu ", (unsigned long long)found->epoch);
    if (found->shows == CONIKS_CLIENT_KEY)
        print_bytes(found->key, found->key_length);
    else
        putchar('-');
    printf(" %s ", SEEN[found->seen]);
    printf(found->has_age ? "%lld" : "-", (long long)found->age);
    printf(" %llu", (unsigned long long)found->first_seen);
}

static void look_up(struct answerer *it)
{
    struct bytes name = bytes_at(it, 1), reply = bytes_at(it, 2);
    const coniks_asking asking = {name.at, name.length, reply.at, reply.length, !is_nothing(it, 3), number(word(it, 3)), 0};
    coniks_client_found found;
    coniks_client_refusal why;
    struct trial trial = begin_trial(it);
    uint32_t status;
    do
        status = coniks_client_lookup(it->client, &asking, &found, &why);
    while (is_tried_again(it, &trial, status));
    if (status) {
        print_refusal(status, &why);
    } else {
        printf("found");
        print_found(&found);
        putchar('\n');
    }
    free(name.at);
    free(reply.at);
}

static void go_through(struct answerer *it)
{
    struct bytes name = bytes_at(it, 1), history = bytes_at(it, 2);
    const coniks_history asking = {name.at, name.length, history.at, history.length};
    size_t i, room = coniks_client_count(it->client);
    coniks_client_shown shown = {own(room * sizeof *shown.items), room, 0};
    struct trial trial = begin_trial(it);
    uint32_t status;
    do
        status = coniks_client_history(it->client, &asking, &shown);
    while (is_tried_again(it, &trial, status));
    if (status) {
        print_refusal(status, &NO_REASON);
    } else {
        printf("found");
        for (i = 0; i < shown.count; i++)
            print_found(&shown.items[i]);
        putchar('\n');
    }
    free(name.at);
    free(history.at);
    free(shown.items);
}

static void watch(struct answerer *it)
{
    struct bytes name = bytes_at(it, 1), key = bytes_at(it, 2);
    const coniks_watch wanted = {1, name.at, name.length, number(word(it, 3)), key.at, key.length};
    struct trial trial = begin_trial(it);
    uint32_t status;
    do
        status = coniks_client_watch(it->client, &wanted, !is_nothing(it, 3));
    while (is_tried_again(it, &trial, status));
    print_result(status, "watching");
    free(name.at);
    free(key.at);
}

static void expect(struct answerer *it)
{
    struct bytes key = bytes_at(it, 1);
    struct trial trial = begin_trial(it);
    uint32_t status;
    do
        status = coniks_client_expect(it->client, key.at, key.length, number(word(it, 2)));
    while (is_tried_again(it, &trial, status));
    print_result(status, "expected");
    free(key.at);
}

/* Prints epochs of the watched name, which a call writes. */
static void print_epochs(struct answerer *it)
{
    int is_lost = strcmp(word(it, 0), "lost") == 0;
    size_t (*call)(const coniks_client *, uint64_t *, size_t) = is_lost ? coniks_client_lost : coniks_client_missing;
    size_t i, count = call(it->client, NULL, 0);
    uint64_t *epochs = own(count * sizeof *epochs);
    if (call(it->client, epochs, count) != count)
        fail("two numbers of epochs");
    printf("%s", word(it, 0));
    for (i = 0; i < count; i++)
        printf(" %llu", (unsigned long long)epochs[i]);
    putchar('\n');
    free(epochs);
}

static void print_head(struct answerer *it)
{
    coniks_client_head head;
    if (coniks_client_latest(it->client, &head)) {
        puts("head -");
        return;
    }
    printf("head %llu ", (unsigned long long)head.epoch);
    print_bytes(head.link.bytes, sizeof head.link.bytes);
    putchar('\n');
}

static void compare(struct answerer *it)
{
    int is_cover = strcmp(word(it, 0), "cover") == 0;
    coniks_client_head head;
    head.epoch = number(word(it, 1));
    if (!take32(bytes_at(it, 2), &head.link))
        puts("misuse");
    else
        puts(COMPARISONS[is_cover ? coniks_client_cover(it->client, &head) : coniks_client_compare(it->client, &head)]);
}

static void mark(struct answerer *it)
{
    coniks_client_head head;
    uint32_t status;
    head.epoch = number(word(it, 2));
    if (!take32(bytes_at(it, 3), &head.link)) {
        puts("misuse");
        return;
    }
    status = coniks_client_mark(it->client, (size_t)number(word(it, 1)), &head);
    if (status <= CONIKS_CLIENT_DIFFERS)
        puts(COMPARISONS[status]);
    else
        print_refusal(status, &NO_REASON);
}

static void print_confirmed(struct answerer *it)
{
    uint64_t epoch;
    if (coniks_client_confirmed(it->client, &epoch))
        puts("confirmed -");
    else
        printf("confirmed %llu\n", (unsigned long long)epoch);
}

/* Prints the epochs that are dropped: the first of those that were kept. */
static void drop(struct answerer *it)
{
    size_t i, count = coniks_client_count(it->client);
    uint64_t *epochs = own(count * sizeof *epochs);
    coniks_covered covered;
    coniks_body body;
    for (i = 0; i < count; i++) {
        if (coniks_entry_body(coniks_client_entry(it->client, i), CONIKS_ENTRY_BYTES, &body))
            fail("an entry");
        epochs[i] = body.epoch;
    }
    if (coniks_client_drop(it->client, &covered))
        fail("no room for what is dropped");
    printf("dropped");
    for (i = 0; i < covered.epochs; i++)
        printf(" %llu", (unsigned long long)epochs[i]);
    putchar('\n');
    free(epochs);
}

static void print_alarms(struct answerer *it)
{
    size_t i, count;
    coniks_alarm *alarms;
    if (it->count > 1)
        coniks_client_note(it->client, number(word(it, 1)));
    count = coniks_client_alarms(it->client, NULL, 0);
    alarms = own(count * sizeof *alarms);
    if (coniks_client_alarms(it->client, alarms, count) != count)
        fail("two numbers of alarms");
    printf("alarms");
    for (i = 0; i < count; i++)
        printf(" %llu:%s", (unsigned long long)alarms[i].epoch, SEEN[alarms[i].seen]);
    putchar('\n');
    free(alarms);
}

static void print_report(struct answerer *it)
{
    coniks_report report;
    uint32_t status = coniks_client_report(it->client, &report);
    if (status) {
        print_refusal(status, &NO_REASON);
        return;
    }
    printf("report %s %llu %llu\n", REPORTS[report.verdict], (unsigned long long)report.from, (unsigned long long)report.to);
}

static void print_convicting(struct answerer *it)
{
    struct bytes entry = bytes_at(it, 1);
    coniks_client_evidence evidence;
    uint32_t status = coniks_client_evidence_of(it->client, entry.at, entry.length, &evidence);
    if (status == 0 || status == CONIKS_NO_EVIDENCE) {
        printf("evidence");
        print_evidence(&evidence);
        putchar('\n');
    } else {
        print_refusal(status, &NO_REASON);
    }
    free(entry.at);
}

static void print_state(struct answerer *it)
{
    struct bytes state = state_of(it->client);
    printf("state ");
    print_bytes(state.at, state.length);
    putchar('\n');
    free(state.at);
}

static void set_clock(struct answerer *it)
{
    it->now = number(word(it, 1));
    puts("set");
}

static const struct {
    const char *word;
    void (*call)(struct answerer *it);
} CALLS[] = {
    {"begin", begin},
    {"vouched", begin},
    {"succeed", succeed},
    {"now", set_clock},
    {"trust", set_trust},
    {"feed", feed},
    {"catchup", catch_up},
    {"lookup", look_up},
    {"history", go_through},
    {"watch", watch},
    {"expect", expect},
    {"missing", print_epochs},
    {"lost", print_epochs},
    {"head", print_head},
    {"compare", compare},
    {"cover", compare},
    {"evidence", print_convicting},
    {"state", print_state},
    {"mark", mark},
    {"confirmed", print_confirmed},
    {"drop", drop},
    {"alarms", print_alarms},
    {"note", print_alarms},
    {"report", print_report},
};

/* Splits a line into words at its spaces. */
static void split(struct answerer *it, char *line)
{
    size_t i;
    line[strcspn(line, "\n")] = 0;
    it->count = 1;
    for (i = 0; line[i]; i++)
        it->count += line[i] == ' ';
    it->words = own(it->count * sizeof *it->words);
    for (i = 0; i < it->count; i++) {
        it->words[i] = line;
        line += strcspn(line, " ");
        *line++ = 0;
    }
}

int main(int argc, char **argv)
{
    struct answerer it = {NULL, {0, SIZE_MAX}, 0, 0, {{0}}, 0, 0, NULL, 0};
    char *line = NULL;
    size_t room = 0, i;
    it.is_refusing = argc == 2 && strcmp(argv[1], "refusing") == 0;
    while (getline(&line, &room, stdin) > 0) {
        split(&it, line);
        for (i = 0; i < sizeof CALLS / sizeof CALLS[0] && strcmp(CALLS[i].word, it.words[0]) != 0; i++)
            continue;
        if (i == sizeof CALLS / sizeof CALLS[0])
            fail("no request");
        CALLS[i].call(&it);
        fflush(stdout);
        free(it.words);
    }
    free(line);
    coniks_client_free(it.client);
    return it.blocks.live ? 3 : 0;
}

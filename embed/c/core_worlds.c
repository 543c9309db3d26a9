/*
 * Goes through all that can happen to the owner of a name in a few epochs, by the calls of a client's core: each history of keys with each
 * fork of it, each change that she expects, and each order of lookups, repeated ones and covers. `core_worlds EPOCHS KEYS`: each letter is
 * a key, the first one is hers, and - is none. With a third word missing epochs are also dropped as lost ones, and their alarms are noted:
 * with `lost` at each moment, with `noted` at once, and nothing is then kept of them. Prints counts, or what went wrong, with status 1.
 *
 * The directory's entries and replies are made here, with the SHA-256 of OpenSSL. All signatures and VRF proofs are valid.
 */
#include <openssl/sha.h>
#include <stdio.h>
#include <stdlib.h>
#include <string.h>

#include "coniks_core.h"

enum { MOST = 5, LETTERS = 4, BITS = 3, ENTRY = 209, REPLY = 512, CHANGES = 2 };

/* A chain of entries up to an epoch, with what a reply shows there of alice and of bob. */
struct chain {
    uint8_t entry[ENTRY], link[32], reply[2][REPLY];
    size_t length[2];
    size_t before; /* the place of the chain without the last entry */
    int epoch, letter;
};

/* A change that the owner expects: said at the epoch `after`, and the new key is there from some epoch up to `by` on. */
struct meant {
    uint8_t after, by, letter;
};

/* What has happened. Two moments are the same if their bytes are. */
struct moment {
    uint16_t chain;                                /* the entries that were fed */
    uint8_t oldest, first_key;                     /* the first stored epoch; the watched key before the changes */
    uint8_t seen[MOST];                            /* the numbers of the stored epochs */
    uint8_t change_count, meant_count, same;       /* bit e of `same`: epoch e was the same */
    uint8_t alarms, noted;                         /* the epochs that have an alarm, and those whose alarm was noted */
    struct meant changes[CHANGES], meant[CHANGES]; /* the core's changes: last_old, first_new and key; and the owner's */
};

/* A client at a moment, as its caller in C has it: the core, its memory, and the mark of one auditor. */
struct client {
    coniks_core core;
    coniks_stored_entry stored[MOST + 1];
    coniks_change changes[CHANGES + 1];
    coniks_alarm alarms[MOST + 1];
    uint64_t mark;
};

static const uint8_t names[2][6] = {"alice", "bob"}, name_lengths[2] = {5, 3};
static const coniks_bytes32 policy = {{7}}, nonce = {{9}};
static const char *letters;
static int epochs, letter_count, with_lost, notes_at_once;
static struct chain *chains;
static size_t chain_count;
static unsigned long moments, lookups[2], refused, compared, forks;

static void wrong(const char *what, const struct moment *at, size_t other)
{
    printf("wrong: %s, at epoch %d, chains %d and %zu, same %x\n", what, chains[at->chain].epoch, at->chain, other, at->same);
    exit(1);
}

static void must(int is_so, const char *what, const struct moment *at, size_t other)
{
    if (!is_so)
        wrong(what, at, other);
}

/* The directory. */

static uint8_t *put(uint8_t *end, const void *bytes, size_t count)
{
    memcpy(end, bytes, count);
    return end + count;
}

static uint8_t *put_number(uint8_t *end, uint64_t number, int size)
{
    while (size-- > 0)
        *end++ = (uint8_t)(number >> 8 * size);
    return end;
}

/* The index of a name: 000 and zero bits for alice, 001 for bob. */
static void index_of(int who, uint8_t *index)
{
    memset(index, 0, 32);
    index[0] = who ? 0x20 : 0;
}

static void hash_empty(int level, uint8_t *digest)
{
    uint8_t bytes[67] = {0x45}, *end = put(bytes + 1, nonce.bytes, 32);
    memset(end, 0, 32);
    if (level > 0)
        end[0] = (uint8_t)(1 << (8 - level));
    put_number(end + 32, (uint64_t)level, 2);
    SHA256(bytes, sizeof bytes, digest);
}

static void hash_node(const uint8_t *left, const uint8_t *right, uint8_t *digest)
{
    uint8_t bytes[65] = {0x49};
    put(put(bytes + 1, left, 32), right, 32);
    SHA256(bytes, sizeof bytes, digest);
}

/* What a reply shows if the index is there: the opening, the name and the key. */
static size_t binding(int who, char letter, uint8_t *bytes)
{
    uint8_t *end = bytes;
    memset(end, 0xdd, 32);
    end = put_number(end + 32, name_lengths[who], 2);
    end = put_number(put(end, names[who], name_lengths[who]), 1, 4);
    *end++ = (uint8_t)letter;
    return (size_t)(end - bytes);
}

static void hash_binding(int who, char letter, uint8_t *digest)
{
    uint8_t bytes[128] = {0x43};
    SHA256(bytes, 1 + binding(who, letter, bytes + 1), digest);
}

static void hash_leaf(int who, char letter, int level, uint8_t *digest)
{
    uint8_t bytes[99] = {0x4c}, *end = put(bytes + 1, nonce.bytes, 32);
    index_of(who, end);
    put_number(end + 32, (uint64_t)level, 2);
    hash_binding(who, letter, end + 34);
    SHA256(bytes, sizeof bytes, digest);
}

/* The root of alice's key, none for -, and bob's key; and the proof of each of them. */
static void prove(char letter, uint8_t *root, uint8_t proof[2][REPLY], size_t *length)
{
    uint8_t leaf[2][32], empty[32];
    int who, level;
    for (who = 0; who < 2; who++) {
        int is_there = who || letter != '-', is_deep = letter != '-';
        uint8_t *end = put_number(proof[who], is_there ? 2 : 1, 1);
        end = put_number(end, is_deep ? BITS : 0, 2);
        for (level = 1; is_deep && level < BITS; level++, end += 32)
            hash_empty(level, end);
        if (is_deep) {
            hash_leaf(1 - who, who ? letter : 'b', BITS, end);
            end += 32;
        }
        if (is_there) {
            end += binding(who, who ? 'b' : letter, end);
        } else {
            index_of(1, end);
            hash_binding(1, 'b', end + 32);
            end += 64;
        }
        length[who] = (size_t)(end - proof[who]);
    }
    hash_leaf(1, 'b', letter == '-' ? 0 : BITS, leaf[1]);
    hash_leaf(0, letter, BITS, leaf[0]);
    if (letter == '-') {
        memcpy(root, leaf[1], 32);
        return;
    }
    hash_node(leaf[0], leaf[1], root);
    for (level = BITS - 1; level > 0; level--) {
        hash_empty(level, empty);
        hash_node(root, empty, root);
    }
}

/* Makes the chain that has one entry more than another. */
static void make_chain(size_t before, int letter)
{
    struct chain *it = &chains[chain_count++], *old = &chains[before];
    uint8_t proof[2][REPLY], whole[210] = {0x53}, *end = it->entry;
    size_t length[2];
    int who;
    it->before = before;
    it->epoch = old->epoch + 1;
    it->letter = letter;
    end = put_number(put_number(put_number(end, 1, 1), (uint64_t)it->epoch, 8), (uint64_t)old->epoch, 8);
    prove(letters[letter], end, proof, length);
    end = put(put(put(end + 32, old->link, 32), nonce.bytes, 32), policy.bytes, 32);
    memset(end, 0xee, 64);
    memcpy(whole + 1, it->entry, ENTRY);
    SHA256(whole, sizeof whole, it->link);
    for (who = 0; who < 2; who++) {
        end = put(put_number(it->reply[who], 1, 1), it->entry, ENTRY);
        end = put(put_number(end, 0, 2), proof[who], length[who]);
        it->length[who] = (size_t)(end - it->reply[who]);
    }
}

static void make_chains(void)
{
    size_t all = 1, level = 1, place;
    int epoch, letter;
    for (epoch = 0; epoch < epochs; epoch++)
        all += level *= (size_t)letter_count;
    chains = calloc(all, sizeof *chains);
    if (!chains)
        exit(2);
    chain_count = 1;
    for (place = 0; chain_count < all; place++)
        for (letter = 0; letter < letter_count; letter++)
            make_chain(place, letter);
}

/* The chain of the first epochs of another one. */
static size_t up_to(size_t chain, int epoch)
{
    while (chains[chain].epoch > epoch)
        chain = chains[chain].before;
    return chain;
}

static int letter_at(const struct moment *at, int epoch)
{
    return chains[up_to(at->chain, epoch)].letter;
}

/* What the owner meant. */

/* Whether the epochs of a set may show their keys: each change was made at some epoch that the owner said, after the one before it. */
static int are_meant(const struct moment *at, unsigned set, int change, int from, int key)
{
    int last = change < at->meant_count ? at->meant[change].by : epochs + 1, epoch;
    for (epoch = from; epoch <= last; epoch++) {
        if (change < at->meant_count && epoch > at->meant[change].after &&
            are_meant(at, set, change + 1, epoch, at->meant[change].letter))
            return 1;
        if (epoch <= epochs && set >> epoch & 1 && letter_at(at, epoch) != key)
            return 0;
    }
    return change == at->meant_count;
}

static int is_meant(const struct moment *at, unsigned set)
{
    return are_meant(at, set, 0, 1, 0);
}

static int is_honest(const struct moment *at)
{
    return is_meant(at, (2u << chains[at->chain].epoch) - 2);
}

/* The client at a moment, and the moment of a client. */

static void set_key(const uint8_t **key, size_t *length, int letter)
{
    *key = (const uint8_t *)&letters[letter];
    *length = letters[letter] != '-';
}

static void set_epochs(coniks_stored *stored, const struct moment *at)
{
    int epoch;
    for (epoch = at->oldest; epoch <= chains[at->chain].epoch; epoch++, stored->count++) {
        memcpy(stored->items[stored->count].entry, chains[up_to(at->chain, epoch)].entry, ENTRY);
        stored->items[stored->count].seen = at->seen[stored->count];
    }
}

static void set_changes(coniks_changes *changes, const struct moment *at)
{
    for (; changes->count < at->change_count; changes->count++) {
        const struct meant *meant = &at->changes[changes->count];
        coniks_change *change = &changes->items[changes->count];
        change->last_old = meant->after;
        change->first_new = meant->by;
        set_key(&change->key, &change->key_length, meant->letter);
    }
}

static void set_alarms(coniks_alarms *alarms, const struct moment *at)
{
    int epoch;
    for (epoch = 1; epoch < at->oldest; epoch++) {
        if (at->alarms >> epoch & 1)
            alarms->items[alarms->count++] = (coniks_alarm){(uint64_t)epoch, 5};
    }
}

/* Makes the client at a moment. Its auditor confirms nothing yet. */
static coniks_core *client_at(const struct moment *at, struct client *memory)
{
    coniks_core *it = &memory->core;
    memset(memory, 0, sizeof *memory);
    it->rules.policy = policy;
    it->rules.quorum = 1;
    it->watch = (coniks_watch){1, names[0], name_lengths[0], 1, NULL, 0};
    set_key(&it->watch.key, &it->watch.key_length, at->first_key);
    it->stored = (coniks_stored){memory->stored, MOST + 1, 0};
    it->changes = (coniks_changes){memory->changes, CHANGES + 1, 0};
    it->alarms = (coniks_alarms){memory->alarms, MOST + 1, 0};
    it->marks = &memory->mark;
    it->mark_count = 1;
    set_epochs(&it->stored, at);
    set_changes(&it->changes, at);
    set_alarms(&it->alarms, at);
    return it;
}

/* Notes in a moment what has become of its client. */
static void note(struct moment *at, const coniks_core *it)
{
    const coniks_change *changes = it->changes.items;
    const coniks_alarm *alarms = it->alarms.items;
    size_t place;
    memset(at->seen, 0, sizeof at->seen);
    memset(at->changes, 0, sizeof at->changes);
    for (place = 0; place < it->stored.count; place++)
        at->seen[place] = it->stored.items[place].seen;
    at->oldest = it->stored.count ? it->stored.items[0].entry[8] : 1;
    at->first_key = (uint8_t)((const char *)it->watch.key - letters);
    at->change_count = (uint8_t)it->changes.count;
    for (place = 0; place < it->changes.count; place++) {
        at->changes[place].after = (uint8_t)changes[place].last_old;
        at->changes[place].by = (uint8_t)changes[place].first_new;
        at->changes[place].letter = (uint8_t)((const char *)changes[place].key - letters);
    }
    at->alarms = 0;
    for (place = 0; place < it->alarms.count; place++) {
        must(alarms[place].seen == 5, "an alarm is not of a lost epoch", at, place);
        at->alarms |= (uint8_t)(1 << alarms[place].epoch);
    }
}

/* All moments: a table of them, and those that are left. */

static struct moment *table, *left;
static size_t table_size = 1 << 16, left_count, left_room;

static struct moment *place_of(const struct moment *it)
{
    const uint8_t *bytes = (const uint8_t *)it;
    size_t hash = 14695981039346656037u, k;
    for (k = 0; k < sizeof *it; k++)
        hash = (hash ^ bytes[k]) * 1099511628211u;
    for (hash &= table_size - 1; table[hash].oldest && memcmp(&table[hash], it, sizeof *it);
         hash = (hash + 1) & (table_size - 1))
        ;
    return &table[hash];
}

static void grow(void)
{
    struct moment *old = table;
    size_t size = table_size, k;
    table_size *= 2;
    table = calloc(table_size, sizeof *table);
    if (!table)
        exit(2);
    for (k = 0; k < size; k++)
        if (old[k].oldest)
            *place_of(&old[k]) = old[k];
    free(old);
}

static void reach(const struct moment *it)
{
    struct moment *place = place_of(it);
    if (place->oldest)
        return;
    *place = *it;
    if (left_count == left_room) {
        left_room = left_room ? 2 * left_room : 1024;
        left = realloc(left, left_room * sizeof *left);
        if (!left)
            exit(2);
    }
    left[left_count++] = *it;
    if (++moments > table_size / 2)
        grow();
}

/* The steps from a moment. */

/* Looks a name up at the last epoch of a chain, by the reply for it there. */
static uint32_t look_up(coniks_core *it, int who, const struct chain *shown, coniks_found *found, coniks_why *why)
{
    coniks_verdicts verdicts = {1, 1, {{0}}};
    coniks_asking asking = {names[who], name_lengths[who], shown->reply[who], shown->length[who], 1, (uint64_t)shown->epoch, 0};
    index_of(who, verdicts.at.bytes);
    return coniks_core_lookup(it, &asking, &verdicts, found, why);
}

static void look_up_each(const struct moment *at)
{
    int epoch;
    for (epoch = at->oldest; epoch <= chains[at->chain].epoch; epoch++) {
        const struct chain *shown = &chains[up_to(at->chain, epoch)];
        struct client memory;
        coniks_core *it = client_at(at, &memory);
        struct moment next = *at;
        coniks_found found;
        coniks_why why;
        uint32_t status = look_up(it, 0, shown, &found, &why);
        must(status == 0 && found.place == (size_t)(epoch - at->oldest), "an honest reply is refused", at, 0);
        must(found.seen == it->stored.items[found.place].seen, "an epoch has another number than the reply", at, 0);
        lookups[found.seen != 1]++;
        if (found.seen != 1) {
            must(!(at->same >> epoch & 1), "another key after the same", at, 0);
            must(!is_honest(at), "another key of an honest directory", at, 0);
            continue;
        }
        note(&next, it);
        next.same |= (uint8_t)(1 << epoch);
        reach(&next);
        it = client_at(at, &memory);
        status = look_up(it, 1, shown, &found, &why);
        next = *at;
        note(&next, it);
        must(status == 0 && found.seen == 0 && !memcmp(&next, at, sizeof next), "a lookup of bob marks something", at, 0);
    }
}

static int is_usable(const struct moment *at, int letter)
{
    int is_used = letter < 2 || letters[letter] == '-', epoch, place;
    for (epoch = 1; epoch <= chains[at->chain].epoch; epoch++)
        is_used |= letter_at(at, epoch) == letter - 1;
    for (place = 0; place < at->meant_count; place++)
        is_used |= at->meant[place].letter == letter - 1;
    return is_used;
}

static uint32_t feed(coniks_core *it, const struct chain *next, coniks_why *why)
{
    const coniks_received received = {next->entry, ENTRY, 1, 0};
    return coniks_core_feed(it, &received, why);
}

static void feed_each(const struct moment *at)
{
    size_t next;
    for (next = 1; next < chain_count; next++) {
        struct client memory;
        coniks_core *it = client_at(at, &memory);
        struct moment after = *at;
        coniks_why why;
        if (chains[next].before != at->chain || !is_usable(at, chains[next].letter))
            continue;
        must(feed(it, &chains[next], &why) == 0, "the next entry is refused", at, next);
        after.chain = (uint16_t)next;
        note(&after, it);
        reach(&after);
    }
}

static void expect_each(const struct moment *at)
{
    int letter, by, latest = chains[at->chain].epoch;
    for (letter = 0; at->meant_count < CHANGES && letter < letter_count; letter++) {
        for (by = latest + 1; is_usable(at, letter) && by <= epochs + 1; by++) {
            struct client memory;
            coniks_core *it = client_at(at, &memory);
            struct moment after = *at;
            const uint8_t *key;
            size_t length;
            set_key(&key, &length, letter);
            if (coniks_core_expect(it, key, length, (uint64_t)by))
                continue;
            note(&after, it);
            after.meant[after.meant_count].after = (uint8_t)latest;
            after.meant[after.meant_count].by = (uint8_t)by;
            after.meant[after.meant_count++].letter = (uint8_t)letter;
            reach(&after);
        }
    }
}

/* How many of the first stored epochs may be dropped, if one is confirmed: those before it and before the first missing one that is not lost. */
static size_t droppable(const struct moment *at, int confirmed, int is_over)
{
    size_t place = 0;
    while (at->oldest + (int)place < confirmed && (at->seen[place] != 5 || is_over))
        place++;
    return place;
}

/* A cover, if this epoch is confirmed, and the promise of proofs is over or not. */
static void cover(const struct moment *at, int epoch, int is_over)
{
    struct client memory;
    coniks_core *it = client_at(at, &memory);
    struct moment after = *at;
    size_t place, dropped = droppable(at, epoch, is_over), alarms = 0;
    coniks_covered covered;
    it->marks[0] = (uint64_t)epoch;
    it->rules.promise.is_limited = (uint32_t)is_over;
    must(coniks_core_cover(it, 0, &covered) == 0, "a cover is refused", at, 0);
    note(&after, it);
    must(after.oldest == at->oldest + covered.epochs && covered.epochs == dropped, "a cover drops others", at, 0);
    for (place = 0; place < dropped; place++) {
        int bit = at->oldest + (int)place, has = after.alarms >> bit & 1;
        must(at->seen[place] == 1 ? (at->same >> bit & 1) && !has : has, "a dropped epoch without its alarm", at, place);
        alarms += (size_t)has;
    }
    must(covered.alarms == alarms && it->alarms.count == (size_t)__builtin_popcount(at->alarms) + alarms, "other alarms", at,
         0);
    if (notes_at_once) {
        must(coniks_core_note(it, (uint64_t)epoch) == 0 && !it->alarms.count, "no note", at, 0);
        note(&after, it);
    }
    reach(&after);
}

static void cover_each(const struct moment *at)
{
    int epoch, is_over;
    for (epoch = at->oldest; epoch <= chains[at->chain].epoch; epoch++)
        for (is_over = 0; is_over <= with_lost; is_over++)
            cover(at, epoch, is_over);
}

static void note_each(const struct moment *at)
{
    int epoch;
    for (epoch = 1; at->alarms && epoch < at->oldest; epoch++) {
        struct client memory;
        coniks_core *it = client_at(at, &memory);
        struct moment after = *at;
        must(coniks_core_note(it, (uint64_t)epoch) == 0, "no note", at, 0);
        note(&after, it);
        must(after.alarms == (at->alarms & ~((2u << epoch) - 1)), "another alarm is noted", at, 0);
        after.noted |= at->alarms & ~after.alarms;
        reach(&after);
    }
}

/* Whether there is no alarm, and all epochs from the oldest stored one on were the same. */
static int is_all_same(const struct moment *at)
{
    int place, count = chains[at->chain].epoch - at->oldest + 1;
    for (place = 0; place < count; place++)
        if (at->seen[place] != 1)
            return 0;
    return count > 0 && !at->alarms;
}

/* The first missing stored epoch that is lost, or that is not; 0 if there is none. The latest one is never lost. */
static int first_missing(const struct moment *at, int is_over, int is_lost)
{
    int epoch, latest = chains[at->chain].epoch;
    for (epoch = at->oldest; epoch <= latest; epoch++)
        if (at->seen[epoch - at->oldest] == 5 && (is_over && epoch < latest) == is_lost)
            return epoch;
    return 0;
}

/* What has to be reported, if an epoch is confirmed. */
static coniks_report reported(const struct moment *at, int is_over, uint64_t mark)
{
    uint64_t latest = (uint64_t)chains[at->chain].epoch, first = (uint64_t)first_missing(at, is_over, 0);
    coniks_report it = {mark >= latest ? CONIKS_REPORT_GOOD : CONIKS_REPORT_UNCONFIRMED, at->oldest, latest};
    if (!first && at->alarms)
        it.verdict = CONIKS_REPORT_LOST, first = (uint64_t)__builtin_ctz(at->alarms);
    else if (first)
        it.verdict = CONIKS_REPORT_MISSING;
    else if ((first = (uint64_t)first_missing(at, is_over, 1)))
        it.verdict = CONIKS_REPORT_LOST;
    else if (!latest)
        it.verdict = CONIKS_REPORT_UNWATCHED, it.from = 0;
    if (first)
        it.from = it.to = first;
    return it;
}

/* What the client reports, if its auditor confirms the latest epoch, and if not. No epoch shows another key. */
static void report(const struct moment *at, int is_over)
{
    struct client memory;
    coniks_core *it = client_at(at, &memory);
    coniks_report message, wanted;
    uint64_t latest = (uint64_t)chains[at->chain].epoch, mark;
    it->rules.promise.is_limited = (uint32_t)is_over;
    for (mark = latest ? latest - 1 : 0; mark <= latest; mark++) {
        it->marks[0] = mark;
        must(coniks_core_report(it, 0, &message) == 0, "no report", at, 0);
        wanted = reported(at, is_over, mark);
        must(message.verdict == wanted.verdict, "another verdict is reported", at, wanted.verdict);
        must(message.from == wanted.from && message.to == wanted.to, "a report is about other epochs", at, 0);
        must((message.verdict == CONIKS_REPORT_GOOD) == (is_all_same(at) && mark == latest), "a report is good", at, 0);
    }
}

/* Each dropped epoch was the same, or has an alarm, or had one that the owner took note of. */
static int is_accounted(const struct moment *at)
{
    unsigned dropped = (1u << at->oldest) - 2;
    return (dropped & ~(unsigned)(at->same | at->alarms | at->noted)) == 0;
}

/* What another chain of the directory is to a client: no reply and no entry of it is accepted, and each convicts if it overlaps. */
static void try_fork(const struct moment *at, size_t other)
{
    const struct chain *fork = &chains[other];
    unsigned is_stored = fork->epoch >= at->oldest && fork->epoch <= chains[at->chain].epoch;
    struct moment after = *at;
    struct client memory;
    coniks_core *it = client_at(at, &memory);
    coniks_found found;
    coniks_why why = {0};
    uint32_t status = look_up(it, 0, fork, &found, &why);
    must(status == (is_stored ? CONIKS_CORE_E_EQUIVOCATION : CONIKS_CORE_E_UNKNOWN_EPOCH), "a reply of another chain", at,
         other);
    must(why.kind == is_stored && (!is_stored || why.mine == (size_t)(fork->epoch - at->oldest)), "its evidence", at, other);
    status = feed(it, fork, &why);
    must(status != 0 && (status == CONIKS_CORE_E_EQUIVOCATION) == is_stored, "an entry of another chain", at, other);
    note(&after, it);
    must(!memcmp(&after, at, sizeof after), "a refused call changes something", at, other);
    refused += 2;
}

/*
 * The owner law, with Bob's client on another chain: if all stored epochs of Alice are the same, and Bob's head is equal to one of hers,
 * then what his client accepts there at a stored epoch is the same for her.
 */
static void compare_with(const struct moment *at, size_t bob)
{
    coniks_bytes32 link;
    struct client memory, his_memory;
    coniks_core *hers = client_at(at, &memory), *his;
    size_t place;
    coniks_found found, again;
    coniks_why why;
    struct moment his_moment;
    int epoch;
    memcpy(link.bytes, chains[bob].link, 32);
    compared++;
    if (coniks_core_compare(hers, (uint64_t)chains[bob].epoch, &link, &place) != 1) {
        must(up_to(at->chain, chains[bob].epoch) != bob, "an equal head is not found", at, bob);
        forks++;
        return;
    }
    must(up_to(at->chain, chains[bob].epoch) == bob, "a head of another chain is equal", at, bob);
    memset(&his_moment, 0, sizeof his_moment);
    his_moment.chain = (uint16_t)bob;
    his_moment.oldest = 1;
    his = client_at(&his_moment, &his_memory);
    his->watch.is_watched = 0;
    for (epoch = at->oldest; epoch <= chains[bob].epoch; epoch++) {
        const struct chain *shown = &chains[up_to(bob, epoch)];
        must(look_up(his, 0, shown, &found, &why) == 0, "Bob's reply is refused", at, bob);
        must(look_up(hers, 0, shown, &again, &why) == 0 && again.seen == 1 && again.shows == found.shows,
             "Bob accepted a key that is not Alice's", at, bob);
    }
}

static void step(const struct moment *at)
{
    size_t other;
    must(is_meant(at, at->same), "the same of what the owner did not mean", at, 0);
    must(notes_at_once || is_accounted(at), "a dropped epoch of which nothing is known", at, 0);
    look_up_each(at);
    if (chains[at->chain].epoch < epochs)
        feed_each(at);
    expect_each(at);
    cover_each(at);
    note_each(at);
    report(at, 0);
    if (with_lost)
        report(at, 1);
    for (other = 1; other < chain_count; other++) {
        const struct chain *fork = &chains[other];
        if (fork->epoch <= chains[at->chain].epoch && up_to(at->chain, fork->epoch) != other &&
            up_to(at->chain, fork->epoch - 1) == fork->before)
            try_fork(at, other);
        if (is_all_same(at) && fork->epoch >= at->oldest && fork->epoch <= chains[at->chain].epoch)
            compare_with(at, other);
    }
}

int main(int count, char **words)
{
    struct moment first;
    notes_at_once = count == 4 && !strcmp(words[3], "noted");
    with_lost = notes_at_once || (count == 4 && !strcmp(words[3], "lost"));
    if (count != 3 + with_lost || (epochs = atoi(words[1])) < 1 || epochs > MOST ||
        (letter_count = (int)strlen(words[2])) < 2 || letter_count > LETTERS)
        return 2;
    letters = words[2];
    make_chains();
    table = calloc(table_size, sizeof *table);
    if (!table)
        return 2;
    memset(&first, 0, sizeof first);
    first.oldest = 1;
    reach(&first);
    while (left_count > 0) {
        struct moment at = left[--left_count];
        step(&at);
    }
    printf("moments %lu, same %lu, another key %lu, refused of forks %lu, heads compared %lu, of other chains %lu\n", moments,
           lookups[0], lookups[1], refused, compared, forks);
    return 0;
}

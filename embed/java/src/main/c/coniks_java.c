/*
 * The one native function of org.coniks.Native, over the client in C (embed/c/client.h). A call has numbers, some of which are places in
 * its memory. There are copies of its arrays, and room for what the call writes. Place 0 is NULL, and has the memory's address.
 */
#include <jni.h>
#include <stdlib.h>
#include <string.h>

#include "client.h"

/* In the order of Native.Call. */
enum { MAKE, DISPOSE, TEXT, CATCH_UP, FEED, LOOKUP, HISTORY, LATEST, COUNT, ENTRY, COMPARE, COVER, MARK, CONFIRMED };
enum { RELIED = CONFIRMED + 1, DROP, WATCH, EXPECT, MISSING, LOST, ALARMS, NOTE, REPORT, EVIDENCE, STATE };
enum { NUMBERS = 29, TEXT_BYTES = 161 };

/* Java has the sizes of structs, as pointers of 64 bits give them. */
typedef char has_sizes_of_java[sizeof(coniks_client_found) == 56 && sizeof(coniks_covered) == 40 ? 1 : -1];

/* A client, and the call that is made of it. */
struct bound {
    coniks_client *client;
    const struct call *call;
};

/* A call. The first number is the time. */
struct call {
    JNIEnv *env;
    jobject verdicts;
    struct bound *bound;
    uint8_t *memory;
    uint64_t n[NUMBERS];
};

struct bytes {
    const uint8_t *at;
    size_t length;
};

static jbyteArray array_of(JNIEnv *env, struct bytes bytes)
{
    jbyteArray array = (*env)->NewByteArray(env, (jsize)bytes.length);
    if (array)
        (*env)->SetByteArrayRegion(env, array, 0, (jsize)bytes.length, (const jbyte *)bytes.at);
    return array;
}

/* Asks a scheme of Java. Returns 1 and writes the index if it accepts. After an exception no scheme is asked. */
static int ask(const struct call *it, jboolean is_index, struct bytes first, struct bytes second, coniks_bytes32 *index)
{
    JNIEnv *env = it->env;
    jbyteArray one, other, message = NULL;
    jmethodID method;
    int is_valid;
    if ((*env)->ExceptionCheck(env) || (*env)->PushLocalFrame(env, 8))
        return 0;
    method = (*env)->GetMethodID(env, (*env)->GetObjectClass(env, it->verdicts), "ask", "(Z[B[B)[B");
    one = method ? array_of(env, first) : NULL;
    other = one ? array_of(env, second) : NULL;
    if (other)
        message = (*env)->CallObjectMethod(env, it->verdicts, method, is_index, one, other);
    is_valid = !(*env)->ExceptionCheck(env) && message != NULL;
    if (is_valid)
        (*env)->GetByteArrayRegion(env, message, 0, sizeof index->bytes, (jbyte *)index->bytes);
    (*env)->PopLocalFrame(env, NULL);
    return is_valid;
}

static int verify(void *bound, const uint8_t *body, const uint8_t *signature)
{
    const struct bytes first = {body, CONIKS_BODY_BYTES}, second = {signature, CONIKS_ENTRY_BYTES - CONIKS_BODY_BYTES};
    coniks_bytes32 unused;
    return ask(((struct bound *)bound)->call, JNI_FALSE, first, second, &unused);
}

static int index_of(void *bound, const coniks_client_proof *proof, coniks_bytes32 *index)
{
    const struct bytes first = {proof->name, proof->name_length}, second = {proof->proof, proof->proof_length};
    return ask(((struct bound *)bound)->call, JNI_TRUE, first, second, index);
}

static uint64_t clock_of(void *bound)
{
    return ((struct bound *)bound)->call->n[0];
}

/* The address of a place. */
static void *at(const struct call *it, size_t number)
{
    return it->n[number] ? it->memory + it->n[number] : NULL;
}

static void read_settings(const struct call *it, struct bound *bound, coniks_client_settings *settings)
{
    coniks_client_begin_settings(settings);
    settings->policy = at(it, 1);
    settings->policy_length = it->n[2];
    settings->policy_digest = at(it, 3);
    settings->signing_key = at(it, 5);
    settings->vrf_key = at(it, 7);
    settings->trust = at(it, 9);
    settings->max_age = it->n[11];
    settings->skew = it->n[12];
    settings->auditors = it->n[13];
    settings->faulty = it->n[14];
    settings->signatures.verify = it->n[15] ? verify : NULL;
    settings->indices.index = it->n[16] ? index_of : NULL;
    settings->clock = clock_of;
    settings->clock_context = settings->signatures.context = settings->indices.context = bound;
}

/* Makes a client that goes on after another one, and writes the place of the last epoch there. */
static uint32_t succeed(const struct call *it, const coniks_client_settings *settings, coniks_client **next)
{
    const struct bound *ended = (const struct bound *)(uintptr_t)it->n[26];
    const coniks_client_succession given = {at(it, 24), it->n[25], settings, at(it, 19), it->n[20]};
    size_t place = 0;
    const uint32_t status = coniks_client_succeed(ended->client, &given, next, &place, at(it, 28));
    memcpy((struct bound **)at(it, 27) + 1, &place, sizeof place);
    return status;
}

/* Makes a client from a state, from an entry that auditors have, from a succession, or from none of them. */
static uint32_t make(const struct call *it)
{
    const coniks_client_vouching vouching = {at(it, 19), it->n[20], at(it, 21), it->n[22] / sizeof(coniks_client_head),
                                             it->n[23]};
    struct bound *bound = malloc(sizeof *bound);
    coniks_client_settings settings;
    uint32_t status;
    if (bound == NULL)
        return CONIKS_CLIENT_E_MEMORY;
    bound->call = it;
    read_settings(it, bound, &settings);
    if (it->n[17])
        status = coniks_client_resume(&bound->client, &settings, at(it, 17), it->n[18]);
    else if (it->n[24])
        status = succeed(it, &settings, &bound->client);
    else if (it->n[19])
        status = coniks_client_vouched(&bound->client, &settings, &vouching, at(it, 28));
    else
        status = coniks_client_new(&bound->client, &settings);
    memcpy(at(it, 27), &bound, sizeof bound);
    if (status)
        free(bound);
    return status;
}

static uint32_t look_up(const struct call *it, coniks_client *client)
{
    const uint64_t *epoch = at(it, 5);
    const coniks_asking asking = {at(it, 1), it->n[2], at(it, 3), it->n[4], epoch != NULL, epoch ? *epoch : 0, 0};
    return coniks_client_lookup(client, &asking, at(it, 6), at(it, 7));
}

/* Writes the number of steps where why a call is refused would be. */
static uint32_t go_through(const struct call *it, coniks_client *client)
{
    const coniks_history asking = {at(it, 1), it->n[2], at(it, 3), it->n[4]};
    coniks_client_shown shown = {at(it, 6), it->n[5], 0};
    const uint32_t status = coniks_client_history(client, &asking, &shown);
    memcpy(at(it, 7), &shown.count, sizeof shown.count);
    return status;
}

static uint32_t watch(const struct call *it, coniks_client *client)
{
    const uint64_t *since = at(it, 5);
    const coniks_watch wanted = {1, at(it, 1), it->n[2], since ? *since : 0, at(it, 3), it->n[4]};
    return coniks_client_watch(client, &wanted, since != NULL);
}

/* Makes a call. Its results are after what it is given, and why it is refused after these. */
static uint64_t call(const struct call *it, coniks_client *client, jint what)
{
    const uint64_t *n = it->n;
    switch (what) {
    case MAKE: return make(it);
    case DISPOSE: return coniks_client_free(client), free(it->bound), 0;
    case TEXT: return coniks_client_text((uint32_t)n[1], at(it, 2), TEXT_BYTES);
    case CATCH_UP: return coniks_core_catch_up(at(it, 1), n[2], at(it, 3));
    case FEED: return coniks_client_feed(client, at(it, 1), n[2], at(it, 3), at(it, 4));
    case LOOKUP: return look_up(it, client);
    case HISTORY: return go_through(it, client);
    case LATEST: return coniks_client_latest(client, at(it, 1));
    case COUNT: return coniks_client_count(client);
    case ENTRY: return memcpy(at(it, 2), coniks_client_entry(client, n[1]), CONIKS_ENTRY_BYTES), 0;
    case COMPARE: return coniks_client_compare(client, at(it, 1));
    case COVER: return coniks_client_cover(client, at(it, 1));
    case MARK: return coniks_client_mark(client, n[3], at(it, 1));
    case CONFIRMED: return coniks_client_confirmed(client, at(it, 1));
    case RELIED: return coniks_client_relied(client, n[1]);
    case DROP: return coniks_client_drop(client, at(it, 1));
    case WATCH: return watch(it, client);
    case EXPECT: return coniks_client_expect(client, at(it, 1), n[2], n[3]);
    case MISSING: return coniks_client_missing(client, at(it, 2), n[1]);
    case LOST: return coniks_client_lost(client, at(it, 2), n[1]);
    case ALARMS: return coniks_client_alarms(client, at(it, 2), n[1]);
    case NOTE: return coniks_client_note(client, n[1]), 0;
    case REPORT: return coniks_client_report(client, at(it, 1));
    case EVIDENCE: return coniks_client_evidence_of(client, at(it, 1), n[2], at(it, 3));
    default: return coniks_client_state(client, at(it, 2), n[1], at(it, 3));
    }
}

/* Makes a call in memory that has what Java's has, before it and after it. */
JNIEXPORT jlong JNICALL Java_org_coniks_Native_call(JNIEnv *env, jclass class, jint what, jlong bound, jbyteArray memory,
                                                    jlongArray numbers, jobject verdicts)
{
    const jsize length = (*env)->GetArrayLength(env, memory), count = (*env)->GetArrayLength(env, numbers);
    struct call it = {env, verdicts, (struct bound *)(uintptr_t)bound, malloc((size_t)length), {0}};
    uint64_t value;
    (void)class;
    if (it.memory == NULL)
        return (*env)->ThrowNew(env, (*env)->FindClass(env, "java/lang/OutOfMemoryError"), "no memory for a call");
    (*env)->GetByteArrayRegion(env, memory, 0, length, (jbyte *)it.memory);
    (*env)->GetLongArrayRegion(env, numbers, 0, count < NUMBERS ? count : NUMBERS, (jlong *)it.n);
    memcpy(it.memory, &it.memory, sizeof it.memory);
    if (it.bound)
        it.bound->call = &it;
    value = call(&it, it.bound ? it.bound->client : NULL, what);
    if (!(*env)->ExceptionCheck(env))
        (*env)->SetByteArrayRegion(env, memory, 0, length, (const jbyte *)it.memory);
    free(it.memory);
    return (jlong)value;
}

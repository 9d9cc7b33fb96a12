/* The stack that each call takes at (13, 8192, 128), its caller's argument and reply included: a thread's stack is filled with a
   mark, the thread makes one call, and the lowest byte that lost its mark is looked for. What a thread without a call takes is
   left out. Calls that take a name are made for both; those on capsules and words on sparse and on dense ones, which take more,
   accepted and refused; both forms of publish accepted, and refused with 23 and 34. Fails where a call takes more KiB than the
   header says, or where publish_small takes MOST_OWN bytes or more besides three stations: the caller's argument and reply, and a
   copy in the call. */
#include <pthread.h>
#include <stdio.h>
#include <stdlib.h>
#include <string.h>

#include "shearcotter.h"

enum { SIZE = 1 << 20, MARK = 0xA5, M = 13, N = 8192, T = 128, SMALL = SHEARCOTTER_SMALL_WORK_BYTES(M, T), MOST_OWN = 65536 };

static uint8_t file[1 << 15], network[SHEARCOTTER_NETWORK_BYTES(M, T)], other[1 << 15], public_key[1 << 21], work[1 << 21];
static uint8_t dependent[1 << 15], reducible[1 << 15];
static uint8_t pattern[N / 8], word[N / 8], marks[N / 8], capsule[M * T / 8], out[N / 8];
static uint8_t card[3 * sizeof capsule + 1], records[4];
static uint16_t list[SHEARCOTTER_LONGEST];
static size_t size;
static uint8_t name;
static shearcotter_station station;
static volatile int refused;

static void *nothing(void *none) { return none; }

static void *fresh(void *none) { station = shearcotter_fresh(); return none; }

#define CALL(made, call) \
    static void *made(void *none) \
    { \
        shearcotter_reply reply = call; \
        station = reply.station; \
        refused = reply.refused; \
        return none; \
    }

CALL(load, shearcotter_load(station, name, file, size))
CALL(load_network, shearcotter_load_network(station, name, network, sizeof network))
CALL(load_dependent, shearcotter_load(station, name, dependent, size))
CALL(load_reducible, shearcotter_load(station, name, reducible, size))
CALL(publish, shearcotter_publish(station, name, public_key, sizeof public_key, work, sizeof work))
CALL(publish_small, shearcotter_publish_small(station, name, public_key, sizeof public_key, work, SMALL))
CALL(open_capsule, shearcotter_open(station, name, capsule, sizeof capsule, out, sizeof out))
CALL(read_word, shearcotter_read(station, name, word, sizeof word, out, sizeof out))
CALL(read_marked, shearcotter_read_marked(station, name, word, sizeof word, marks, sizeof marks, out, sizeof out))
CALL(drop, shearcotter_drop(station, name))

/* The number that three capsules have in common; another where they have none. */
static void *report(void *none)
{
    for (int i = 0; i < 3; i++)
        memcpy(card + i * sizeof capsule, capsule, sizeof capsule);
    shearcotter_reported reported = shearcotter_report(station, name, card, sizeof card, records, sizeof records);
    station = reported.station;
    refused = reported.counts[records[0]] == 3 ? records[0] : -1;
    return none;
}

static void *session(void *none)
{
    shearcotter_derived derived = shearcotter_session(station, name, capsule, sizeof capsule, pattern, sizeof pattern);
    station = derived.station;
    refused = derived.refused;
    return none;
}

static void *to_network(void *none)
{
    refused = shearcotter_to_network(file, size, network, sizeof network).refused;
    return none;
}

static void *from_network(void *none)
{
    refused = shearcotter_from_network(network, sizeof network, other, sizeof other).refused;
    return none;
}

static void *shake(void *none)
{
    shearcotter_shake256(pattern, sizeof pattern, out, sizeof out);
    return none;
}

static void *lock(void *none)
{
    refused = shearcotter_lock(M, N, T, public_key, SHEARCOTTER_PUBLIC_BYTES(M, N, T), pattern, sizeof pattern, capsule,
                               sizeof capsule);
    return none;
}

static void *shortest_register(void *none)
{
    shearcotter_register found = shearcotter_shortest_register(M, list, SHEARCOTTER_LONGEST);
    refused = found.refused;
    return none;
}

/* The bytes of stack that a thread takes. */
static size_t taken(void *(*call)(void *))
{
    unsigned char *stack = aligned_alloc(4096, SIZE);
    pthread_attr_t attributes;
    pthread_t thread;
    size_t low = 0;
    memset(stack, MARK, SIZE);
    if (pthread_attr_init(&attributes) || pthread_attr_setstack(&attributes, stack, SIZE) ||
        pthread_create(&thread, &attributes, call, NULL) || pthread_join(thread, NULL))
        exit(2);
    while (low < SIZE && stack[low] == MARK)
        low++;
    free(stack);
    return SIZE - low;
}

static int failed;

/* A call that is to answer the number; the bytes of stack that it takes. */
static size_t measure_answer(const char *of, const char *call, void *(*made)(void *), size_t stated, int number)
{
    size_t bytes = taken(made) - taken(nothing), kib = (bytes + 1023) / 1024;
    printf("%-1s %-13s %2d %4zu KiB, stated %zu\n", of, call, number, kib, stated);
    failed |= refused != number || kib > stated;
    return bytes;
}

static void measure(const char *of, const char *call, void *(*made)(void *), size_t stated)
{
    measure_answer(of, call, made, stated, 0);
}

/* Both forms of publish, which answer the number. The small form's own arrays are what it takes besides three stations. */
static void measure_publish(const char *of, int number)
{
    measure_answer(of, "publish", publish, SHEARCOTTER_STACK_PUBLISH, number);
    size_t bytes = measure_answer(of, "publish_small", publish_small, SHEARCOTTER_STACK_PUBLISH_SMALL, number);
    size_t own = bytes < 3 * sizeof station ? 0 : bytes - 3 * sizeof station;
    printf("  its own arrays %zu bytes, less than %d\n", own, MOST_OWN);
    failed |= own >= MOST_OWN;
}

/* The calls on the capsule, which opens, or else is refused with 13. */
static void measure_capsule(const char *of, int number)
{
    measure_answer(of, "open", open_capsule, SHEARCOTTER_STACK_OPEN, number);
    measure_answer(of, "report", report, SHEARCOTTER_STACK_REPORT, number);
    measure(of, "session", session, SHEARCOTTER_STACK_SESSION);
}

/* The readings of the word, without marks and with t marks. */
static void measure_word(const char *of, int number)
{
    measure_answer(of, "read", read_word, SHEARCOTTER_STACK_READ, number);
    memset(marks, 0, sizeof marks);
    measure_answer(of, "read_marked", read_marked, SHEARCOTTER_STACK_READ_MARKED, number);
    memcpy(marks, pattern, sizeof marks);
    measure_answer(of, "read_marked", read_marked, SHEARCOTTER_STACK_READ_MARKED, number);
}

/* The code word with ones at all places from m*t on, and marks at 2t of them: only the reading with ones there succeeds. */
static void code_word(void)
{
    size_t length = SHEARCOTTER_PATTERN_BYTES(N - M * T);
    memset(word, 0, sizeof word);
    memset(word + M * T / 8, 0xFF, length);
    for (size_t i = 0; i < M * T * length; i++)
        word[i / length / 8] ^= (uint8_t)(__builtin_parity(public_key[i]) << i / length % 8);
    memset(marks, 0, sizeof marks);
    memset(marks + M * T / 8, 0xFF, 2 * T / 8);
}

static void measure_words(const char *of)
{
    memcpy(word, pattern, sizeof word);
    measure_word(of, 0);
    for (int dense = 0x55; dense <= 0xFF; dense += 0x55) {
        memset(word, dense, sizeof word);
        measure_word(of, 14);
    }
    code_word();
    measure(of, "read", read_word, SHEARCOTTER_STACK_READ);
    measure(of, "read_marked", read_marked, SHEARCOTTER_STACK_READ_MARKED);
}

/* The calls that take a name; what is locked is for the named recipient's key. */
static void measure_named(const char *of)
{
    measure(of, "load_network", load_network, SHEARCOTTER_STACK_LOAD_NETWORK);
    drop(NULL);
    load_dependent(NULL);
    measure_publish(of, SHEARCOTTER_DEPENDENT_COLUMNS);
    drop(NULL);
    load_reducible(NULL);
    measure_publish(of, SHEARCOTTER_REDUCIBLE_KEY);
    drop(NULL);
    measure(of, "load", load, SHEARCOTTER_STACK_LOAD);
    measure_publish(of, 0);
    measure("", "lock", lock, SHEARCOTTER_STACK_LOCK);
    measure_capsule(of, 0);
    for (int dense = 0x55; dense <= 0xFF; dense += 0x55) {
        memset(capsule, dense, sizeof capsule);
        measure_capsule(of, 13);
    }
    measure_words(of);
    measure(of, "drop", drop, SHEARCOTTER_STACK_DROP);
}

/* The number that publish answers for the key of a file, with so much room. */
static int number_of(const uint8_t *of, size_t room)
{
    shearcotter_reply reply = shearcotter_load(shearcotter_fresh(), SHEARCOTTER_A, of, size);
    if (!reply.refused)
        reply = shearcotter_publish(reply.station, SHEARCOTTER_A, public_key, room, work, sizeof work);
    return reply.refused;
}

/* The key with its support turned round until it has no public key. */
static void make_dependent(void)
{
    memcpy(dependent, file, size);
    do {
        uint8_t first[] = {dependent[3], dependent[4]};
        memmove(dependent + 3, dependent + 5, 2 * (N - 1));
        memcpy(dependent + 3 + 2 * (N - 1), first, sizeof first);
    } while (number_of(dependent, sizeof public_key) != SHEARCOTTER_DEPENDENT_COLUMNS);
}

/* The key with g drawn until it has a proper factor and no root: about one in three has no root, and few of these are irreducible. */
static void make_reducible(void)
{
    uint64_t seed = 1;
    memcpy(reducible, file, size);
    do {
        for (int i = 0; i < T; i++) {
            seed ^= seed << 13, seed ^= seed >> 7, seed ^= seed << 17;
            reducible[5 + 2 * (N + i)] = (uint8_t)(seed >> 32);
            reducible[6 + 2 * (N + i)] = (uint8_t)(seed >> 40 & ((1 << M) - 1) >> 8);
        }
    } while (number_of(reducible, 0) != SHEARCOTTER_REDUCIBLE_KEY);
}

int main(int count, char **words)
{
    FILE *key = count == 2 ? fopen(words[1], "rb") : NULL;
    size = key ? fread(file, 1, sizeof file, key) : 0;
    if (size != SHEARCOTTER_FILE_BYTES(N, T))
        return 2;
    make_dependent();
    make_reducible();
    memset(pattern, 0xFF, T / 8);
    for (int i = 0; i < SHEARCOTTER_LONGEST; i++)
        list[i] = (uint16_t)(i * i % (1 << M));
    measure("", "fresh", fresh, SHEARCOTTER_STACK_FRESH);
    measure("", "to_network", to_network, SHEARCOTTER_STACK_TO_NETWORK);
    measure("", "from_network", from_network, SHEARCOTTER_STACK_FROM_NETWORK);
    for (name = SHEARCOTTER_A; name <= SHEARCOTTER_B; name++)
        measure_named(name == SHEARCOTTER_A ? "A" : "B");
    measure("", "register", shortest_register, SHEARCOTTER_STACK_REGISTER);
    measure("", "shake256", shake, SHEARCOTTER_STACK_SHAKE);
    puts(failed ? "stack: a call takes more than the header says or than it may, or answers another number than expected"
                : "stack: no call takes more than the header says, and publish_small less than it may");
    return failed;
}

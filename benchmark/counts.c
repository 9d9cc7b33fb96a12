/* For each key file named: load, the question whether it is an exchange key, by both forms of publish, both forms themselves but at
   the largest shape, where that would take long, open, a session key, a report on three capsules, a read of the word of ones, and
   one with t marks, under callgrind, which writes a profile of each call with the title 'CALL SHAPE', and of nothing else. */
#include <stdio.h>
#include <string.h>
#include <valgrind/callgrind.h>

#include "shearcotter.h"

enum { PLACES = SHEARCOTTER_MOST_PLACES, ERRORS = SHEARCOTTER_MOST_ERRORS, WORD = PLACES / 8 };
static uint8_t file[SHEARCOTTER_FILE_BYTES(PLACES, ERRORS) + 1], public_key[13 * ERRORS * WORD], work[13 * ERRORS * WORD];
static uint8_t again[sizeof public_key];
static uint8_t pattern[WORD], ones[WORD], capsule[WORD], out[WORD], capsules[3 * WORD], records[3];
static shearcotter_reply reply;
static shearcotter_derived derived;
static shearcotter_reported reported;

#define PROFILE(name, result, call) \
    do { \
        char title[40]; \
        snprintf(title, sizeof title, "%s %d,%d,%d", name, m, n, t); \
        CALLGRIND_START_INSTRUMENTATION; \
        result = call; \
        CALLGRIND_STOP_INSTRUMENTATION; \
        CALLGRIND_DUMP_STATS_AT(title); \
    } while (0)

/* `count` ones in a word, each `step` places after the one before. */
static void fill(uint8_t *word, int step, int count)
{
    memset(word, 0, WORD);
    for (int i = 0; i < count; i++)
        word[i * step / 8] |= (uint8_t)(1 << i * step % 8);
}

/* Whether the calls answer as they must. */
static int profile(size_t size)
{
    int m = file[0], n = file[1] + 256 * file[2], t = (int)(size - SHEARCOTTER_FILE_BYTES(n, 0)) / 2;
    size_t word_bytes = SHEARCOTTER_PATTERN_BYTES(n), capsule_bytes = SHEARCOTTER_CAPSULE_BYTES(m, t);
    fill(ones, 1, n);
    fill(pattern, n / t, t);
    reply.station = shearcotter_fresh();
    PROFILE("load", reply, shearcotter_load(reply.station, SHEARCOTTER_A, file, size));
    PROFILE("asked", reply, shearcotter_publish(reply.station, SHEARCOTTER_A, public_key, 0, work, 0));
    int exchange = reply.refused == SHEARCOTTER_SHORT_OUTPUT;
    PROFILE("asked_small", reply, shearcotter_publish_small(reply.station, SHEARCOTTER_A, public_key, 0, work, 0));
    exchange = exchange && reply.refused == SHEARCOTTER_SHORT_OUTPUT;
    if (n < PLACES) {
        size_t small = SHEARCOTTER_SMALL_WORK_BYTES(m, t);
        PROFILE("publish_small", reply, shearcotter_publish_small(reply.station, SHEARCOTTER_A, again, sizeof again, work, small));
        PROFILE("publish", reply, shearcotter_publish(reply.station, SHEARCOTTER_A, public_key, sizeof public_key, work, sizeof work));
        exchange = exchange && memcmp(again, public_key, SHEARCOTTER_PUBLIC_BYTES(m, n, t)) == 0;
    } else {
        reply = shearcotter_publish(reply.station, SHEARCOTTER_A, public_key, sizeof public_key, work, sizeof work);
    }
    shearcotter_lock((uint8_t)m, (uint16_t)n, (uint16_t)t, public_key, SHEARCOTTER_PUBLIC_BYTES(m, n, t), pattern, word_bytes,
                     capsule, WORD);
    PROFILE("open", reply, shearcotter_open(reply.station, SHEARCOTTER_A, capsule, capsule_bytes, out, WORD));
    int opened = exchange && !reply.refused && memcmp(out, pattern, word_bytes) == 0;
    PROFILE("session", derived, shearcotter_session(reply.station, SHEARCOTTER_A, capsule, capsule_bytes, pattern, word_bytes));
    opened = opened && !derived.refused;
    for (int i = 0; i < 3; i++)
        memcpy(capsules + (size_t)i * capsule_bytes, capsule, capsule_bytes);
    PROFILE("report", reported, shearcotter_report(reply.station, SHEARCOTTER_A, capsules, 3 * capsule_bytes, records, sizeof records));
    opened = opened && !reported.refused && reported.counts[0] == 3;
    capsule[0] ^= 1;
    PROFILE("reject", derived, shearcotter_session(reply.station, SHEARCOTTER_A, capsule, capsule_bytes, pattern, word_bytes));
    opened = opened && !derived.refused;
    PROFILE("ones", reply, shearcotter_read(reply.station, SHEARCOTTER_A, ones, word_bytes, out, WORD));
    opened = opened && reply.refused == SHEARCOTTER_NO_CODE_WORD;
    PROFILE("marked", reply, shearcotter_read_marked(reply.station, SHEARCOTTER_A, ones, word_bytes, pattern, word_bytes, out, WORD));
    return opened && reply.refused == SHEARCOTTER_NO_CODE_WORD;
}

int main(int count, char **words)
{
    int wrong = 0;
    for (int i = 1; i < count; i++) {
        FILE *key = fopen(words[i], "rb");
        size_t size = key ? fread(file, 1, sizeof file, key) : 0;
        wrong |= !size || !profile(size);
    }
    if (wrong)
        fprintf(stderr, "counts: a key file cannot be read, or a call answers something else than it must\n");
    return wrong;
}

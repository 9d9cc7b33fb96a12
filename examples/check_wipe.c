/* Whether wipe.h wipes: a key file is loaded, published, opened, reported, derived and read with, and then this program's own memory
 * is looked through for eight elements of the support in a row. Without wiping they are found; with it they must not be. Linux. */
#include <stdio.h>
#include <stdlib.h>

#include "shearcotter.h"
#include "wipe.h"

enum { M = 12, N = 3488, T = 64, NONE = 0xFFFF, IN_A_ROW = 8 };

static uint8_t file[SHEARCOTTER_FILE_BYTES(N, T)];
static uint8_t public_key[SHEARCOTTER_PUBLIC_BYTES(M, N, T)];
static uint8_t work[SHEARCOTTER_WORK_BYTES(M, N, T)];
static uint8_t pattern[SHEARCOTTER_PATTERN_BYTES(N)], pattern_read[SHEARCOTTER_PATTERN_BYTES(N)];
static uint8_t capsule[SHEARCOTTER_CAPSULE_BYTES(M, T)], dense[SHEARCOTTER_PATTERN_BYTES(N)];

static FILE *opened(const char *name)
{
    FILE *stream = fopen(name, "rb");
    if (stream == NULL) {
        perror(name);
        exit(2);
    }
    setvbuf(stream, NULL, _IONBF, 0);
    return stream;
}

static void expect(int holds, const char *what)
{
    if (!holds) {
        fprintf(stderr, "check_wipe: %s\n", what);
        exit(2);
    }
}

static void read_key(const char *name, uint8_t *bytes)
{
    FILE *stream = opened(name);
    expect(fread(bytes, 1, sizeof file, stream) == sizeof file, "the key file is too short");
    fclose(stream);
}

/* Holds copies of the key file and wipes them at the end of their life, where a plain memset would be left out. */
static WIPE_APART void hold_key(const char *name)
{
    uint8_t copies[4][sizeof file];
    for (size_t i = 0; i < 4; i++) {
        read_key(name, copies[i]);
    }
    wipe(copies, sizeof copies);
}

/* Loads, publishes, locks, opens, reports, derives and reads, a dense word last, which takes the most stack; this is left as it is. */
static WIPE_APART void use_key(const char *name)
{
    read_key(name, file);
    shearcotter_reply reply = shearcotter_load(shearcotter_fresh(), SHEARCOTTER_A, file, sizeof file);
    reply = shearcotter_publish_small(reply.station, SHEARCOTTER_A, public_key, sizeof public_key, work, sizeof work);
    expect(reply.refused == SHEARCOTTER_ACCEPTED, shearcotter_words(reply.refused));
    reply = shearcotter_publish(reply.station, SHEARCOTTER_A, public_key, sizeof public_key, work, sizeof work);
    for (size_t i = 0; i < T; i++) {
        pattern[6 * i] = 1;
    }
    expect(shearcotter_lock(M, N, T, public_key, sizeof public_key, pattern, sizeof pattern, capsule, sizeof capsule) == 0,
           "the pattern is not locked");
    reply = shearcotter_open(reply.station, SHEARCOTTER_A, capsule, sizeof capsule, pattern, sizeof pattern);
    expect(reply.refused == SHEARCOTTER_ACCEPTED, shearcotter_words(reply.refused));
    uint8_t record;
    shearcotter_reported reported = shearcotter_report(reply.station, SHEARCOTTER_A, capsule, sizeof capsule, &record, 1);
    expect(reported.counts[SHEARCOTTER_ACCEPTED] == 1, shearcotter_words(reported.refused));
    shearcotter_derived derived = shearcotter_session(reported.station, SHEARCOTTER_A, capsule, sizeof capsule, pattern, sizeof pattern);
    expect(derived.refused == SHEARCOTTER_ACCEPTED, shearcotter_words(derived.refused));
    reply = shearcotter_read_marked(derived.station, SHEARCOTTER_A, pattern, sizeof pattern, pattern, sizeof pattern, pattern_read,
                                    sizeof pattern_read);
    expect(reply.refused == SHEARCOTTER_ACCEPTED && reply.ones == 0, shearcotter_words(reply.refused));
    memset(dense, 0x55, sizeof dense);
    reply = shearcotter_read_marked(reply.station, SHEARCOTTER_A, dense, sizeof dense, pattern, sizeof pattern, pattern_read,
                                    sizeof pattern_read);
    expect(reply.refused == SHEARCOTTER_NO_CODE_WORD, "a word that no code word is near is read");
}

/* The element that comes after each in the support; the support itself is not kept. */
static uint16_t after[1 << M];

static void learn(const char *name)
{
    FILE *stream = opened(name);
    unsigned last = 0, element;
    fseek(stream, 3, SEEK_SET);
    memset(after, 0xFF, sizeof after);
    for (size_t i = 0; i < N; i++, last = element) {
        element = (unsigned)fgetc(stream);
        element += (unsigned)fgetc(stream) << 8;
        expect(element < 1 << M, "not a key file");
        if (i > 0) {
            after[last] = (uint16_t)element;
        }
    }
    fclose(stream);
}

/* Whether the bytes are elements of the support in a row. */
static int in_a_row(const uint8_t *bytes)
{
    for (int i = 0; i + 1 < IN_A_ROW; i++) {
        unsigned element = bytes[2 * i] + 256u * bytes[2 * i + 1], next = bytes[2 * i + 2] + 256u * bytes[2 * i + 3];
        if (element >= 1 << M || after[element] == NONE || after[element] != next) {
            return 0;
        }
    }
    return 1;
}

static size_t found_from(FILE *memory, unsigned long first, unsigned long end)
{
    uint8_t bytes[2 * IN_A_ROW] = {0}, block[4096];
    size_t found = 0;
    if (fseek(memory, (long)first, SEEK_SET) != 0) {
        return 0;
    }
    for (; first < end; first += sizeof block) {
        expect(fread(block, 1, sizeof block, memory) == sizeof block, "memory that cannot be read");
        for (size_t i = 0; i < sizeof block; i++) {
            memmove(bytes, bytes + 1, sizeof bytes - 1);
            bytes[sizeof bytes - 1] = block[i];
            found += (size_t)in_a_row(bytes);
        }
    }
    wipe(bytes, sizeof bytes);
    wipe(block, sizeof block);
    return found;
}

/* How many places of this program's writable memory hold a part of the support. */
static WIPE_APART size_t found(void)
{
    FILE *maps = opened("/proc/self/maps"), *memory = opened("/proc/self/mem");
    char line[512], rights[5];
    unsigned long first, end;
    size_t sum = 0;
    while (fgets(line, sizeof line, maps) != NULL) {
        if (sscanf(line, "%lx-%lx %4s", &first, &end, rights) == 3 && strcmp(rights, "rw-p") == 0) {
            sum += found_from(memory, first, end);
        }
    }
    fclose(memory);
    fclose(maps);
    return sum;
}

static void wipe_buffers(void)
{
    wipe(file, sizeof file);
    wipe(work, sizeof work);
    wipe(pattern, sizeof pattern);
    wipe(pattern_read, sizeof pattern_read);
}

int main(int count, char **words)
{
    expect(count == 2, "usage: check_wipe KEY_OF_MCELIECE348864");
    learn(words[1]);
    use_key(words[1]);
    size_t in_all = found();
    wipe_buffers();
    size_t on_stack = found();
    wipe_stack();
    size_t left = found();
    hold_key(words[1]);
    size_t held = found();
    printf("parts of the support in memory: %zu, buffers wiped: %zu, stack wiped: %zu, a wiped variable: %zu\n", in_all, on_stack,
           left, held);
    return !(in_all > on_stack && on_stack > 0 && left == 0 && held == 0);
}

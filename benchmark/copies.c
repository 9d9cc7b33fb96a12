/* Counts the bytes of stations, slots and their arrays that each station call copies, in stations, behind its number: memcpy and
   memmove are replaced by ones that count. The caller's own copies, of the argument and of the reply, are left out. */
#include <stdio.h>
#include <string.h>

#include "shearcotter.h"

enum { ARRAY = 2 * SHEARCOTTER_MOST_PLACES, CAPSULE = SHEARCOTTER_CAPSULE_BYTES(12, 64), PATTERN = SHEARCOTTER_PATTERN_BYTES(3488) };
enum { SMALL = SHEARCOTTER_SMALL_WORK_BYTES(12, 64) };

static uint8_t file[1 << 15], network[SHEARCOTTER_NETWORK_BYTES(12, 64)], public_key[1 << 19], work[1 << 19];
static uint8_t row[1 << 10], out[1 << 10];
static shearcotter_station station;
static shearcotter_reply reply;
static shearcotter_reported reported;
static shearcotter_derived derived;
static size_t copied;
static int counting, failed;

/* The call decodes nothing and checks no key. */
static int plain;

/* The recipient that the calls name, and what the name is in print. */
static uint8_t name = SHEARCOTTER_A;
static const char *const names[] = {[SHEARCOTTER_A] = "A", [SHEARCOTTER_B] = "B"};

/* A station, a slot or its key, whose support and g lie side by side, or a support alone. The decoder and the key's check also copy
   arrays of a support's size that are none: where they may run, a support is known by its numbers. */
static int counts(const void *from, size_t n)
{
    if (n != ARRAY)
        return n >= ARRAY + sizeof station.a.key.g;
    return plain || memcmp(from, station.a.key.support, ARRAY) == 0 || memcmp(from, station.b.key.support, ARRAY) == 0;
}

void *memmove(void *to, const void *from, size_t n)
{
    unsigned char *d = to;
    const unsigned char *s = from;
    copied += counting && counts(from, n) ? n : 0;
    if (d < s)
        for (size_t i = 0; i < n; i++)
            d[i] = s[i];
    else
        while (n--)
            d[n] = s[n];
    return to;
}

void *memcpy(void *restrict to, const void *restrict from, size_t n) { return memmove(to, from, n); }

/* The caller's copies: the argument, before the call, and the reply, after it. One station in and one out may be copied besides. */
static void say(const char *call, size_t reply_size, int number, int wrong)
{
    counting = 0;
    size_t tenths = (10 * (copied - sizeof station - reply_size) + sizeof station / 2) / sizeof station;
    printf("%s %-22s %2d  %zu.%zu\n", names[name], call, number, tenths / 10, tenths % 10);
    failed |= wrong || tenths > 20;
}

#define COUNT_IN(reply, of, call, number) \
    do { \
        copied = 0, counting = 1, reply = call; \
        say(of, sizeof reply, reply.refused, reply.refused != number); \
        station = reply.station; \
    } while (0)
#define COUNT(of, call, number) COUNT_IN(reply, of, call, number)
#define COUNT_REPORT(of, call, number) COUNT_IN(reported, of, call, number)
#define COUNT_SESSION(of, call, number) COUNT_IN(derived, of, call, number)

/* The calls with a byte that is no name, and on a slot without a key; nothing is decoded. */
static void refused(uint8_t at, int number, size_t size)
{
    plain = 1;
    if (number == 35) {
        COUNT("load, refused", shearcotter_load(station, at, file, size), number);
        COUNT("load_network, refused", shearcotter_load_network(station, at, network, sizeof network), number);
    }
    COUNT("publish, refused", shearcotter_publish(station, at, public_key, sizeof public_key, work, sizeof work), number);
    COUNT("publish_small, refused", shearcotter_publish_small(station, at, public_key, sizeof public_key, work, sizeof work), number);
    COUNT("open, refused", shearcotter_open(station, at, row, 1, out, sizeof out), number);
    COUNT("read, refused", shearcotter_read(station, at, row, 1, out, sizeof out), number);
    COUNT("read_marked, refused", shearcotter_read_marked(station, at, row, 1, public_key, 1, out, sizeof out), number);
    COUNT_REPORT("report, refused", shearcotter_report(station, at, row, 1, out, sizeof out), number);
    COUNT_SESSION("session, refused", shearcotter_session(station, at, row, 1, out, 1), number);
    COUNT("drop, refused", shearcotter_drop(station, at), number);
    plain = 0;
}

/* Both loads and both forms of publish, and their refusals. */
static void published(size_t size)
{
    COUNT("load_network, refused", shearcotter_load_network(station, name, network, sizeof network - 1), 2);
    COUNT("load_network", shearcotter_load_network(station, name, network, sizeof network), 0);
    COUNT("load_network, refused", shearcotter_load_network(station, name, network, sizeof network), 22);
    station = shearcotter_drop(station, name).station;
    COUNT("load, refused", shearcotter_load(station, name, file, size - 1), 2);
    COUNT("load", shearcotter_load(station, name, file, size), 0);
    COUNT("load, refused", shearcotter_load(station, name, file, size), 22);
    COUNT("open, refused", shearcotter_open(station, name, row, CAPSULE, out, sizeof out), 24);
    COUNT("publish, refused", shearcotter_publish(station, name, public_key, 1, work, sizeof work), 10);
    COUNT("publish, refused", shearcotter_publish(station, name, public_key, sizeof public_key, work, 1), 11);
    COUNT("publish", shearcotter_publish(station, name, public_key, sizeof public_key, work, sizeof work), 0);
    COUNT("publish_small, refused", shearcotter_publish_small(station, name, public_key, 1, work, sizeof work), 10);
    COUNT("publish_small, refused", shearcotter_publish_small(station, name, public_key, sizeof public_key, work, SMALL - 1), 11);
    COUNT("publish_small", shearcotter_publish_small(station, name, public_key, sizeof public_key, work, SMALL), 0);
}

/* The code word with a one behind T's first column, and 2t marks where that has ones: with zeros there no code word is near. */
static void code_word(uint8_t *word, uint8_t *marks)
{
    int rows = 12 * 64, marked = 0;
    memset(word, 0, PATTERN);
    memset(marks, 0, PATTERN);
    word[rows / 8] = 1;
    for (int r = 0; r < rows; r++)
        if (public_key[(size_t)r * SHEARCOTTER_PATTERN_BYTES(3488 - rows)] & 1) {
            word[r / 8] |= (uint8_t)(1 << r % 8);
            marks[r / 8] |= (uint8_t)((marked++ < 2 * 64) << r % 8);
        }
}

/* The calls on the published key, with the capsule of a pattern of 64 ones, and with zeros, which do not open. */
static void keyed(void)
{
    uint8_t pattern[PATTERN] = {255, 255, 255, 255, 255, 255, 255, 255}, capsule[CAPSULE];
    failed |= shearcotter_lock(12, 3488, 64, public_key, SHEARCOTTER_PUBLIC_BYTES(12, 3488, 64), pattern, PATTERN, capsule, CAPSULE);
    COUNT("open", shearcotter_open(station, name, capsule, CAPSULE, out, sizeof out), 0);
    COUNT("open, refused", shearcotter_open(station, name, row, CAPSULE, out, sizeof out), 13);
    COUNT_REPORT("report, refused", shearcotter_report(station, name, row, 1, out, 0), 31);
    COUNT_REPORT("report", shearcotter_report(station, name, row, sizeof row, out, sizeof out), 0);
    COUNT_SESSION("session, refused", shearcotter_session(station, name, row, CAPSULE, pattern, 1), 33);
    COUNT_SESSION("session", shearcotter_session(station, name, capsule, CAPSULE, pattern, PATTERN), 0);
    COUNT_SESSION("session by the secret", shearcotter_session(station, name, row, CAPSULE, pattern, PATTERN), 0);
    COUNT("read, refused", shearcotter_read(station, name, row, 1, out, sizeof out), 8);
    COUNT("read", shearcotter_read(station, name, row, PATTERN, out, sizeof out), 0);
    COUNT("read_marked, refused", shearcotter_read_marked(station, name, row, PATTERN, pattern, 1, out, sizeof out), 37);
    COUNT("read_marked", shearcotter_read_marked(station, name, row, PATTERN, pattern, PATTERN, out, sizeof out), 0);
    uint8_t code[PATTERN], marks[PATTERN];
    code_word(code, marks);
    COUNT("read_marked by ones", shearcotter_read_marked(station, name, code, PATTERN, marks, PATTERN, out, sizeof out), 0);
    memset(row, 0x55, PATTERN);
    COUNT("read, refused", shearcotter_read(station, name, row, PATTERN, out, sizeof out), 14);
    COUNT("read_marked, refused", shearcotter_read_marked(station, name, row, PATTERN, pattern, PATTERN, out, sizeof out), 14);
    memset(row, 0, PATTERN);
    plain = 1;
    COUNT("drop", shearcotter_drop(station, name), 0);
    plain = 0;
}

int main(int count, char **words)
{
    FILE *key = count == 2 ? fopen(words[1], "rb") : NULL;
    size_t size = key ? fread(file, 1, sizeof file, key) : 0;
    failed |= shearcotter_to_network(file, size, network, sizeof network).refused;
    for (name = SHEARCOTTER_A; name <= SHEARCOTTER_B; name++) {
        reply = shearcotter_load(shearcotter_fresh(), SHEARCOTTER_A + SHEARCOTTER_B - name, file, size);
        station = reply.station;
        failed |= reply.refused;
        refused(3, 35, size);
        refused(name, 21, size);
        published(size);
        refused(3, 35, size);
        keyed();
    }
    puts(failed ? "copies: too many" : "copies: at most one station in and one out");
    return failed;
}

/* A key is loaded and published, a pattern locked, capsules opened and reported on: the bench key K1 of docs/FORMATS.md, for the
 * recipient A; then another key is loaded for B, and A's is dropped. Then both are asked whether they are exchange keys. Prints a
 * line for each row; exits with 1 where an answer is not the expected one. Secrets are wiped at the end. */
#include <stdio.h>
#include <string.h>

#include "shearcotter.h"
#include "wipe.h"

enum { M = 4, N = 6, T = 1 };

static const uint8_t k1[SHEARCOTTER_FILE_BYTES(N, T)] = {0x04, 0x06, 0x00, 0x01, 0x00, 0x09, 0x00, 0x0D, 0x00, 0x0F,
                                                         0x00, 0x0E, 0x00, 0x0B, 0x00, 0x01, 0x00, 0x00, 0x00};
static const uint8_t t_rows[SHEARCOTTER_PUBLIC_BYTES(M, N, T)] = {0x03, 0x01, 0x02, 0x00};
static const uint8_t pattern[SHEARCOTTER_PATTERN_BYTES(N)] = {0x10};
static const uint8_t locked[SHEARCOTTER_CAPSULE_BYTES(M, T)] = {0x03};
/* g = x^2 + x is x times x + 1. */
static const uint8_t split[SHEARCOTTER_FILE_BYTES(9, 2)] = {0x04, 0x09, 0x00, 0x02, 0x00, 0x03, 0x00, 0x04, 0x00,
                                                            0x05, 0x00, 0x06, 0x00, 0x07, 0x00, 0x08, 0x00, 0x09,
                                                            0x00, 0x0A, 0x00, 0x02, 0x00, 0x00, 0x00, 0x01, 0x00};

static int differences = 0;

/* Ends a line, and counts a difference where the answer is not the expected one. */
static void end(int same)
{
    puts(same ? "" : "  (differs)");
    differences += !same;
}

/* What a call answered: its number, or the bytes that it wrote; and what was expected. */
static void row(const char *name, uint8_t refused, const uint8_t *bytes, size_t length, uint8_t number,
                const uint8_t *expected)
{
    printf("%s:%s", name, refused == SHEARCOTTER_ACCEPTED && length == 0 ? " accepted" : "");
    if (refused != SHEARCOTTER_ACCEPTED) {
        printf(" refused %u, %s", refused, shearcotter_words(refused));
        end(refused == number);
        return;
    }
    for (size_t i = 0; i < length; i++) {
        printf(" %02X", bytes[i]);
    }
    end(number == SHEARCOTTER_ACCEPTED && memcmp(bytes, expected, length) == 0);
}

/* Opens a capsule of one byte: the pattern and its t ones; or the number, and then nothing is written. */
static void open_row(const char *name, shearcotter_station station, uint8_t capsule, uint8_t number)
{
    uint8_t out[sizeof pattern] = {0};
    shearcotter_reply reply = shearcotter_open(station, SHEARCOTTER_A, &capsule, 1, out, sizeof out);
    row(name, reply.refused, out, sizeof out, number, pattern);
    printf("  ones %u, state %u", reply.ones, reply.station.a.state);
    end(reply.ones == (number == SHEARCOTTER_ACCEPTED ? T : 0) && reply.station.a.state == SHEARCOTTER_PUBLISHED &&
        (number == SHEARCOTTER_ACCEPTED || out[0] == 0));
}

/* Reports on the capsules of the rows above with room for so many records: their numbers, and how many are opened. */
static void report_row(const char *name, shearcotter_station station, size_t room, uint8_t number)
{
    static const uint8_t capsules[] = {0x03, 0x00, 0x13};
    static const uint8_t expected[] = {SHEARCOTTER_ACCEPTED, SHEARCOTTER_NO_PATTERN, SHEARCOTTER_FILLER_SET};
    uint8_t records[SHEARCOTTER_CAPSULES(M, T, sizeof capsules)] = {0};
    shearcotter_reported reported = shearcotter_report(station, SHEARCOTTER_A, capsules, sizeof capsules, records, room);
    row(name, reported.refused, records, sizeof records, number, expected);
    size_t opened = reported.counts[SHEARCOTTER_ACCEPTED], refused = 0;
    for (size_t i = 1; i < SHEARCOTTER_BYTE_VALUES; i++) {
        refused += reported.counts[i];
    }
    printf("  total %zu opened %zu refused %zu", opened + refused, opened, refused);
    end(number == SHEARCOTTER_ACCEPTED ? opened == 1 && refused == 2 : opened + refused == 0 && records[1] == 0);
}

/* Publishes a key into no room: refused with 10 for an exchange key, and with 34 where only words are read with it. */
static void exchange_row(const char *name, const uint8_t *file, size_t length, uint8_t number)
{
    uint8_t none[2];
    shearcotter_reply reply = shearcotter_load(shearcotter_fresh(), SHEARCOTTER_A, file, length);
    reply = shearcotter_publish(reply.station, SHEARCOTTER_A, none, 0, none + 1, 0);
    row(name, reply.refused, file, 0, number, file);
}

/* What a call that names a recipient made of both slots: their states. */
static void states_row(const char *name, shearcotter_reply reply, uint8_t number, uint8_t a, uint8_t b)
{
    row(name, reply.refused, k1, 0, number, k1);
    printf("  state of A %u, of B %u", reply.station.a.state, reply.station.b.state);
    end(reply.station.a.state == a && reply.station.b.state == b);
}

/* The second recipient beside A, whose key is published; then A's key is dropped, and B's stays. */
static void second_recipient(shearcotter_station station)
{
    shearcotter_reply reply = shearcotter_load(station, SHEARCOTTER_B, split, sizeof split);
    states_row("B load", reply, SHEARCOTTER_ACCEPTED, SHEARCOTTER_PUBLISHED, SHEARCOTTER_LOADED);
    reply = shearcotter_drop(reply.station, 3);
    states_row("3 drop", reply, SHEARCOTTER_UNKNOWN_NAME, SHEARCOTTER_PUBLISHED, SHEARCOTTER_LOADED);
    reply = shearcotter_drop(reply.station, SHEARCOTTER_A);
    states_row("A drop", reply, SHEARCOTTER_ACCEPTED, SHEARCOTTER_EMPTY, SHEARCOTTER_LOADED);
}

/* All calls on the station: what it holds and what the calls leave lies below main's frame. */
static WIPE_APART void use_key(void)
{
    uint8_t public_key[sizeof t_rows];
    uint8_t work[SHEARCOTTER_WORK_BYTES(M, N, T)];
    uint8_t capsule[sizeof locked];

    shearcotter_reply reply = shearcotter_load(shearcotter_fresh(), SHEARCOTTER_A, k1, sizeof k1);
    row("P1 load", reply.refused, k1, 0, SHEARCOTTER_ACCEPTED, k1);

    reply = shearcotter_publish(reply.station, SHEARCOTTER_A, public_key, sizeof public_key, work, sizeof work);
    wipe(work, sizeof work);
    row("P2 publish", reply.refused, public_key, sizeof public_key, SHEARCOTTER_ACCEPTED, t_rows);

    uint8_t refused =
        shearcotter_lock(M, N, T, public_key, sizeof public_key, pattern, sizeof pattern, capsule, sizeof capsule);
    row("P3 lock 10", refused, capsule, sizeof capsule, SHEARCOTTER_ACCEPTED, locked);

    open_row("P4 open 03", reply.station, capsule[0], SHEARCOTTER_ACCEPTED);
    open_row("P5 open 00", reply.station, 0x00, SHEARCOTTER_NO_PATTERN);
    open_row("P7 open 13", reply.station, 0x13, SHEARCOTTER_FILLER_SET);

    report_row("report 03 00 13", reply.station, 3, SHEARCOTTER_ACCEPTED);
    report_row("report, two records", reply.station, 2, SHEARCOTTER_SHORT_RECORDS);

    second_recipient(reply.station);

    exchange_row("exchange key", k1, sizeof k1, SHEARCOTTER_SHORT_OUTPUT);
    exchange_row("reading-only key", split, sizeof split, SHEARCOTTER_REDUCIBLE_KEY);
}

int main(void)
{
    use_key();
    wipe_stack();
    return differences != 0;
}

/* Session keys, as Classic McEliece's decapsulation derives them: the bench key K1 of docs/FORMATS.md with the secret 15, a capsule
 * that opens, one that does not, and what is refused. Prints a line for each; exits with 1 where an answer is not the expected
 * one. Secrets are wiped at the end. */
#include <stdio.h>
#include <string.h>

#include "shearcotter.h"
#include "wipe.h"

enum { M = 4, N = 6, T = 1 };

static const uint8_t k1[SHEARCOTTER_FILE_BYTES(N, T)] = {0x04, 0x06, 0x00, 0x01, 0x00, 0x09, 0x00, 0x0D, 0x00, 0x0F,
                                                         0x00, 0x0E, 0x00, 0x0B, 0x00, 0x01, 0x00, 0x00, 0x00};
/* SHAKE256 of 01 10 03: of the pattern. */
static const uint8_t of_pattern[SHEARCOTTER_SESSION_BYTES] = {
    0xB5, 0xDE, 0xF7, 0x6B, 0xB1, 0x74, 0x04, 0x03, 0x0C, 0x17, 0xA3, 0x52, 0x7C, 0x93, 0xC3, 0xF2,
    0x6E, 0xE1, 0xAA, 0xFB, 0x50, 0x93, 0x0A, 0x53, 0x0D, 0x6D, 0xA4, 0xC0, 0x52, 0x38, 0xE2, 0x71};
/* SHAKE256 of 00 15 00: of the secret. */
static const uint8_t of_secret[SHEARCOTTER_SESSION_BYTES] = {
    0xF3, 0x2B, 0x24, 0x30, 0x0F, 0xE8, 0x76, 0x01, 0x4D, 0x9B, 0xCA, 0x23, 0x39, 0xE5, 0x47, 0xC8,
    0xC0, 0x52, 0xCC, 0x68, 0xA3, 0x43, 0x54, 0xF1, 0xCC, 0xC0, 0xCB, 0x88, 0x7B, 0xB4, 0xCD, 0x6D};
static const uint8_t zeros[SHEARCOTTER_SESSION_BYTES] = {0};

static int differences = 0;

/* What was answered: a number and zeros, or a key; and what was expected. */
static void row(const char *name, uint8_t refused, const uint8_t *key, uint8_t number, const uint8_t *expected)
{
    int same = refused == number && memcmp(key, expected, SHEARCOTTER_SESSION_BYTES) == 0;
    printf("%s:", name);
    if (refused != SHEARCOTTER_ACCEPTED) {
        printf(" refused %u, %s", refused, shearcotter_words(refused));
    }
    for (size_t i = 0; refused == SHEARCOTTER_ACCEPTED && i < SHEARCOTTER_SESSION_BYTES; i++) {
        printf(" %02X", key[i]);
    }
    puts(same ? "" : "  (differs)");
    differences += !same;
}

/* The session key of a capsule of one byte, with a secret of so many bytes. */
static void session_row(const char *name, shearcotter_station station, uint8_t capsule, size_t length, uint8_t number,
                        const uint8_t *expected)
{
    uint8_t secret[SHEARCOTTER_PATTERN_BYTES(N) + 1] = {0x15, 0x00};
    shearcotter_derived derived = shearcotter_session(station, SHEARCOTTER_A, &capsule, 1, secret, length);
    row(name, derived.refused, derived.key, number, expected);
}

/* All calls: what they hold and leave lies below main's frame. */
static WIPE_APART void use_key(void)
{
    static const uint8_t parts[] = {0x01, 0x10, 0x03};
    uint8_t public_key[SHEARCOTTER_PUBLIC_BYTES(M, N, T)], work[SHEARCOTTER_WORK_BYTES(M, N, T)], key[SHEARCOTTER_SESSION_BYTES];

    shearcotter_reply reply = shearcotter_load(shearcotter_fresh(), SHEARCOTTER_A, k1, sizeof k1);
    reply = shearcotter_publish(reply.station, SHEARCOTTER_A, public_key, sizeof public_key, work, sizeof work);

    session_row("session 03", reply.station, 0x03, 1, SHEARCOTTER_ACCEPTED, of_pattern);
    session_row("session 00", reply.station, 0x00, 1, SHEARCOTTER_ACCEPTED, of_secret);
    session_row("session 13", reply.station, 0x13, 1, SHEARCOTTER_FILLER_SET, zeros);
    session_row("session 03, longer secret", reply.station, 0x03, 2, SHEARCOTTER_BAD_SECRET, zeros);

    shearcotter_shake256(parts, sizeof parts, key, sizeof key);
    row("shake256 01 10 03", SHEARCOTTER_ACCEPTED, key, SHEARCOTTER_ACCEPTED, of_pattern);
}

int main(void)
{
    use_key();
    wipe_stack();
    return differences != 0;
}

/* A key file and the network file of the same key: the bench key K1 of docs/FORMATS.md is converted to a switching network and back,
 * the network file is loaded and published, and what is refused. Prints a line for each; exits with 1 where an answer is not the
 * expected one. Secrets are wiped at the end. */
#include <stdio.h>
#include <string.h>

#include "shearcotter.h"
#include "wipe.h"

enum { M = 4, N = 6, T = 1 };

static const uint8_t k1[SHEARCOTTER_FILE_BYTES(N, T)] = {0x04, 0x06, 0x00, 0x01, 0x00, 0x09, 0x00, 0x0D, 0x00, 0x0F,
                                                         0x00, 0x0E, 0x00, 0x0B, 0x00, 0x01, 0x00, 0x00, 0x00};
/* The same key, with 56 control bits. */
static const uint8_t network[SHEARCOTTER_NETWORK_BYTES(M, T)] = {0x04, 0x06, 0x00, 0x01, 0x00, 0x00, 0x00, 0x38, 0x00,
                                                                 0x00, 0x00, 0x60, 0x40, 0xB0, 0x7C, 0x33, 0xFC, 0x84};
static const uint8_t t_rows[SHEARCOTTER_PUBLIC_BYTES(M, N, T)] = {0x03, 0x01, 0x02, 0x00};

static int differences = 0;

/* What was answered: a number and no bytes, or those that were written; and what was expected. */
static void row(const char *name, uint8_t refused, const uint8_t *bytes, size_t length, uint8_t number, const uint8_t *expected,
                size_t needed)
{
    int same = refused == number && length == needed && memcmp(bytes, expected, needed) == 0;
    printf("%s:%s", name, refused == SHEARCOTTER_ACCEPTED && length == 0 ? " accepted" : "");
    if (refused != SHEARCOTTER_ACCEPTED) {
        printf(" refused %u, %s", refused, shearcotter_words(refused));
    }
    for (size_t i = 0; i < length; i++) {
        printf(" %02X", bytes[i]);
    }
    puts(same ? "" : "  (differs)");
    differences += !same;
}

/* Converts a file of either form, with so many bytes of room. */
static void convert_row(const char *name, const uint8_t *file, size_t length, size_t room, uint8_t number, const uint8_t *expected,
                        size_t needed)
{
    uint8_t out[sizeof k1] = {0};
    shearcotter_converted converted = length == sizeof k1 ? shearcotter_to_network(file, length, out, room)
                                                          : shearcotter_from_network(file, length, out, room);
    row(name, converted.refused, out, converted.length, number, expected, needed);
}

/* All calls: what they hold and leave lies below main's frame. */
static WIPE_APART void use_key(void)
{
    uint8_t public_key[SHEARCOTTER_PUBLIC_BYTES(M, N, T)], work[SHEARCOTTER_WORK_BYTES(M, N, T)], other[sizeof network];

    convert_row("to a network", k1, sizeof k1, sizeof network, SHEARCOTTER_ACCEPTED, network, sizeof network);
    convert_row("to a network, no room", k1, sizeof k1, sizeof network - 1, SHEARCOTTER_SHORT_OUTPUT, k1, 0);
    convert_row("from a network", network, sizeof network, sizeof k1, SHEARCOTTER_ACCEPTED, k1, sizeof k1);
    memcpy(other, network, sizeof other);
    other[5 + 2 * T] += 1;
    convert_row("from a network, bit count 57", other, sizeof other, sizeof k1, SHEARCOTTER_BAD_BIT_COUNT, k1, 0);

    shearcotter_reply reply = shearcotter_load_network(shearcotter_fresh(), SHEARCOTTER_A, network, sizeof network);
    row("load_network", reply.refused, network, 0, SHEARCOTTER_ACCEPTED, network, 0);
    reply = shearcotter_publish(reply.station, SHEARCOTTER_A, public_key, sizeof public_key, work, sizeof work);
    row("publish", reply.refused, public_key, sizeof public_key, SHEARCOTTER_ACCEPTED, t_rows, sizeof t_rows);
    reply = shearcotter_load_network(reply.station, SHEARCOTTER_B, k1, sizeof k1);
    row("load_network of a key file", reply.refused, network, 0, SHEARCOTTER_BAD_LENGTH, network, 0);
}

int main(void)
{
    use_key();
    wipe_stack();
    return differences != 0;
}

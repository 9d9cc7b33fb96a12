/* Words with unsteady places, as a chip's start-up pattern has them: the bench key K1 of docs/FORMATS.md, whose t is 1, reads words
 * with marks at these places, and what is refused. Prints a line for each; exits with 1 where an answer is not the expected one.
 * Secrets are wiped at the end. */
#include <stdio.h>

#include "shearcotter.h"
#include "wipe.h"

enum { N = 6, T = 1, ROOM = SHEARCOTTER_PATTERN_BYTES(N) };

static const uint8_t k1[SHEARCOTTER_FILE_BYTES(N, T)] = {0x04, 0x06, 0x00, 0x01, 0x00, 0x09, 0x00, 0x0D, 0x00, 0x0F,
                                                         0x00, 0x0E, 0x00, 0x0B, 0x00, 0x01, 0x00, 0x00, 0x00};

static int differences = 0;

/* Reads a word of one byte with its marks; the differences written, and how many of them are at unmarked places. */
static void row(const char *name, shearcotter_station station, uint8_t word, uint8_t marks, size_t room, uint8_t number,
                uint8_t expected, unsigned unmarked)
{
    uint8_t out[ROOM] = {0};
    shearcotter_reply reply = shearcotter_read_marked(station, SHEARCOTTER_A, &word, 1, &marks, 1, out, room);
    int same = reply.refused == number && out[0] == expected && reply.ones == unmarked;
    printf("%s: ", name);
    if (reply.refused == SHEARCOTTER_ACCEPTED) {
        printf("differences %02X, %u of them unmarked, code word %02X", out[0], reply.ones, (unsigned)(word ^ out[0]));
    } else {
        printf("refused %u, %s", reply.refused, shearcotter_words(reply.refused));
    }
    puts(same ? "" : "  (differs)");
    differences += !same;
}

/* All calls: what they hold and leave lies below main's frame. */
static WIPE_APART void use_key(void)
{
    shearcotter_reply reply = shearcotter_load(shearcotter_fresh(), SHEARCOTTER_A, k1, sizeof k1);
    differences += reply.refused != SHEARCOTTER_ACCEPTED;

    /* Two marks or one other difference: 2d + s is at most 2t, which is 2. */
    row("word 24", reply.station, 0x24, 0x00, ROOM, SHEARCOTTER_ACCEPTED, 0x01, 1);
    row("word 06", reply.station, 0x06, 0x00, ROOM, SHEARCOTTER_NO_CODE_WORD, 0x00, 0);
    row("word 06, marks 30", reply.station, 0x06, 0x30, ROOM, SHEARCOTTER_ACCEPTED, 0x30, 0);
    row("word 16, marks 30", reply.station, 0x16, 0x30, ROOM, SHEARCOTTER_ACCEPTED, 0x20, 0);
    row("word 06, marks 38", reply.station, 0x06, 0x38, ROOM, SHEARCOTTER_NO_CODE_WORD, 0x00, 0);
    row("word 06, marks 70", reply.station, 0x06, 0x70, ROOM, SHEARCOTTER_BAD_MARKS, 0x00, 0);
    row("word 06, marks 30, no room", reply.station, 0x06, 0x30, 0, SHEARCOTTER_SHORT_OUTPUT, 0x00, 0);
}

int main(void)
{
    use_key();
    wipe_stack();
    return differences != 0;
}

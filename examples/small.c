/* Publishes where there is little memory to lend: loads the key file KEY and writes its public key to OUT, worked out in 692,224 bytes,
 * which are enough for every key; shearcotter_publish takes up to 1,703,936. Exits with 1 where the key is refused, and with 2 where a
 * file fails. Secrets are wiped at the end. */
#include <stdio.h>

#include "shearcotter.h"
#include "wipe.h"

enum { MOST_M = 13, MOST_N = SHEARCOTTER_MOST_PLACES, MOST_T = SHEARCOTTER_MOST_ERRORS };

/* A byte more than the longest key file, so that a longer one is refused. */
static uint8_t file[SHEARCOTTER_FILE_BYTES(MOST_N, MOST_T) + 1];
static uint8_t public_key[SHEARCOTTER_PUBLIC_BYTES(MOST_M, MOST_N, MOST_T)];
static uint8_t work[SHEARCOTTER_SMALL_WORK_BYTES(MOST_M, MOST_T)];

/* The public key's length. */
static size_t written;

/* The bytes of the key file; none where it cannot be read. */
static size_t read_key(const char *name)
{
    FILE *stream = fopen(name, "rb");
    size_t length = 0;
    if (stream != NULL) {
        setvbuf(stream, NULL, _IONBF, 0);
        length = fread(file, 1, sizeof file, stream);
        fclose(stream);
    }
    return length;
}

/* The calls on the station, whose copies lie below main's frame; the number of the refusal. */
static WIPE_APART unsigned publish(size_t length)
{
    shearcotter_reply reply = shearcotter_load(shearcotter_fresh(), SHEARCOTTER_A, file, length);
    if (reply.refused == SHEARCOTTER_ACCEPTED) {
        reply = shearcotter_publish_small(reply.station, SHEARCOTTER_A, public_key, sizeof public_key, work, sizeof work);
        unsigned m = reply.station.a.key.m, n = reply.station.a.key.n, t = reply.station.a.key.t;
        written = SHEARCOTTER_PUBLIC_BYTES(m, n, t);
        printf("%u,%u,%u: %zu bytes of workspace, %zu for shearcotter_publish\n", m, n, t, SHEARCOTTER_SMALL_WORK_BYTES(m, t),
               SHEARCOTTER_WORK_BYTES(m, n, t));
    }
    return reply.refused;
}

int main(int count, char **words)
{
    if (count != 3) {
        fprintf(stderr, "usage: small KEY OUT\n");
        return 2;
    }
    size_t length = read_key(words[1]);
    if (length == 0) {
        perror(words[1]);
        return 2;
    }
    unsigned refused = publish(length);
    wipe(file, sizeof file);
    wipe(work, sizeof work);
    wipe_stack();
    if (refused != SHEARCOTTER_ACCEPTED) {
        fprintf(stderr, "%s: refused %u, %s\n", words[1], refused, shearcotter_words(refused));
        return 1;
    }
    FILE *out = fopen(words[2], "wb");
    if (out == NULL || fwrite(public_key, 1, written, out) != written || fclose(out) != 0) {
        perror(words[2]);
        return 2;
    }
    return 0;
}

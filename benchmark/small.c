/* Publishing with the small workspace at the standard's five shapes and at (4, 16, 2), against the first form with the same key, in
   turns: medians of many tries of processor time, in us, and their ratio. Each form is lent as much workspace as it needs. Fails where
   a ratio at one of the five is above `most_ratio`, or where the two do not write the same public key. At (4, 16, 2) the ratio has no
   limit: the small form first sets its arrays to zero, whatever the key, which is much beside a call of some 10 us. It was 1.05 to 1.10
   in three runs, and 1.27 in an earlier one. */
#include <stdio.h>
#include <stdlib.h>
#include <string.h>
#include <time.h>

#include "shearcotter.h"

enum { SHAPES = 6, TRIES = 21 };
enum { PLACES = SHEARCOTTER_MOST_PLACES, MOST_ROWS = 13 * SHEARCOTTER_MOST_ERRORS, WORD = PLACES / 8 };
static const double most_ratio = 1.2;
static const char *const names[SHAPES] = {"mceliece348864",  "mceliece460896",  "mceliece6688128",
                                          "mceliece6960119", "mceliece8192128", "4,16,2"};

static int m, n, t;
static uint8_t file[SHEARCOTTER_FILE_BYTES(PLACES, SHEARCOTTER_MOST_ERRORS)];
static uint8_t public_key[MOST_ROWS * WORD], other[MOST_ROWS * WORD], work[MOST_ROWS * WORD];
static shearcotter_station station;
static int wrong;

static double now(void)
{
    struct timespec c;
    clock_gettime(CLOCK_THREAD_CPUTIME_ID, &c);
    return c.tv_sec * 1e6 + c.tv_nsec / 1e3;
}

/* The key's file: one of the standard's shapes, or the bench key K2. */
static int read_key(int shape)
{
    if (shape == SHAPES - 1) {
        static const uint8_t k2[] = {4,  16, 0,  0, 0,  1, 0,  2, 0,  3, 0,  4, 0,  5, 0, 6, 0, 7, 0, 8, 0,
                                     9,  0,  10, 0, 11, 0, 12, 0, 13, 0, 14, 0, 15, 0, 2, 0, 8, 0, 1, 0};
        memcpy(file, k2, sizeof k2);
        m = 4, n = 16, t = 2;
        return sizeof k2 == SHEARCOTTER_FILE_BYTES(n, t);
    }
    shearcotter_shape s = shearcotter_shape_at((uint8_t)(shape + 1));
    m = s.m, n = s.n, t = s.t;
    char path[100];
    snprintf(path, sizeof path, "crates/key_vectors/data/%s.key", names[shape]);
    FILE *key = fopen(path, "rb");
    size_t size = key ? fread(file, 1, SHEARCOTTER_FILE_BYTES(n, t), key) : 0;
    if (key)
        fclose(key);
    return size == SHEARCOTTER_FILE_BYTES(n, t);
}

static int prepare(int shape)
{
    if (!read_key(shape))
        return 0;
    shearcotter_reply r = shearcotter_load(shearcotter_fresh(), SHEARCOTTER_A, file, SHEARCOTTER_FILE_BYTES(n, t));
    station = r.station;
    return r.refused == 0;
}

static void publish(void)
{
    size_t out = SHEARCOTTER_PUBLIC_BYTES(m, n, t), lent = SHEARCOTTER_WORK_BYTES(m, n, t);
    wrong += shearcotter_publish(station, SHEARCOTTER_A, public_key, out, work, lent).refused != 0;
}

static void publish_small(void)
{
    size_t out = SHEARCOTTER_PUBLIC_BYTES(m, n, t), lent = SHEARCOTTER_SMALL_WORK_BYTES(m, t);
    wrong += shearcotter_publish_small(station, SHEARCOTTER_A, other, out, work, lent).refused != 0;
}

static int rising(const void *x, const void *y)
{
    double a = *(const double *)x, b = *(const double *)y;
    return (a > b) - (a < b);
}

static double median(double *times)
{
    qsort(times, TRIES, sizeof *times, rising);
    return times[TRIES / 2];
}

/* Whether the ratio is as small as it may be. The bench key takes so little time that many calls are timed together. */
static int compare(int shape)
{
    static double small[TRIES], first[TRIES];
    int standard = shape < SHAPES - 1, together = standard ? 1 : 500;
    for (int try = 0; try < TRIES; try++) {
        memset(public_key, 0, sizeof public_key);
        memset(other, 0, sizeof other);
        double a = now();
        for (int i = 0; i < together; i++)
            publish_small();
        double b = now();
        for (int i = 0; i < together; i++)
            publish();
        double c = now();
        small[try] = (b - a) / together;
        first[try] = (c - b) / together;
        wrong += memcmp(public_key, other, sizeof other) != 0;
    }
    double ours = median(small), theirs = median(first);
    int slow = standard && ours > most_ratio * theirs;
    const char *note = slow ? "  SLOW" : standard ? "" : "  no limit";
    printf("%-15s  small %8.1f us, publish %8.1f, ratio %4.2f%s\n", names[shape], ours, theirs, ours / theirs, note);
    return !slow;
}

int main(void)
{
    int slow = 0;
    for (int shape = 0; shape < SHAPES; shape++) {
        if (!prepare(shape)) {
            fprintf(stderr, "the key %s cannot be read or loaded\n", names[shape]);
            return 1;
        }
        slow += !compare(shape);
    }
    printf("ratio at most %.1f at the standard's shapes; %d differences\n", most_ratio, wrong);
    return wrong != 0 || slow != 0;
}

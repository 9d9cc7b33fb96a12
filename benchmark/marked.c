/* Marked readings at the standard's five shapes and at (4, 16, 2), each against a plain read with the same key, in turns: medians of
   many tries of processor time, in us, and their ratios. The words: a code word with t differences and no marks, against a read of the
   same word; one with s marks and d differences elsewhere, 2d + s = 2t, whose reading with zeros at the marks succeeds, and one where
   only that with ones does, both against the read of t differences; and one that no code word is near, against a read that is refused.
   Fails where a ratio is above `most_ratio`, or an answer is not the expected one. */
#include <stdio.h>
#include <stdlib.h>
#include <string.h>
#include <time.h>

#include "shearcotter.h"

enum { SHAPES = 6, CASES = 4, TRIES = 101 };
enum { PLACES = SHEARCOTTER_MOST_PLACES, MOST_ROWS = 13 * SHEARCOTTER_MOST_ERRORS, WORD = PLACES / 8 };
static const double most_ratio = 2.2;
static const char *const names[SHAPES] = {"mceliece348864",  "mceliece460896",  "mceliece6688128",
                                          "mceliece6960119", "mceliece8192128", "4,16,2"};
static const char *const cases[CASES] = {"no marks", "by zeros", "by ones", "refused"};

static int m, n, t, rows;
static size_t file_bytes, word_bytes, row_bytes;
static uint8_t file[SHEARCOTTER_FILE_BYTES(PLACES, SHEARCOTTER_MOST_ERRORS)], public_key[MOST_ROWS * WORD], work[MOST_ROWS * WORD];
static uint8_t code[WORD], word[WORD], marks[WORD], plain[WORD], expected[WORD], out[WORD];
static shearcotter_station station;
static int wrong;

static double now(void)
{
    struct timespec c;
    clock_gettime(CLOCK_THREAD_CPUTIME_ID, &c);
    return c.tv_sec * 1e6 + c.tv_nsec / 1e3;
}

/* Fixed pseudorandom numbers. */
static uint64_t seed = 1;
static uint32_t next(void)
{
    seed ^= seed << 13, seed ^= seed >> 7, seed ^= seed << 17;
    return (uint32_t)(seed >> 32);
}

static int bit(const uint8_t *row, int i) { return row[i / 8] >> i % 8 & 1; }

static void turn(uint8_t *row, int i) { row[i / 8] = (uint8_t)(row[i / 8] ^ 1 << i % 8); }

/* The key's file: one of the standard's shapes, or the bench key K2. */
static int read_key(int shape)
{
    if (shape == SHAPES - 1) {
        static const uint8_t k2[] = {4,  16, 0,  0, 0,  1, 0,  2, 0,  3, 0,  4, 0,  5, 0, 6, 0, 7, 0, 8, 0,
                                     9,  0,  10, 0, 11, 0, 12, 0, 13, 0, 14, 0, 15, 0, 2, 0, 8, 0, 1, 0};
        memcpy(file, k2, sizeof k2);
        m = 4, n = 16, t = 2;
        return sizeof k2 == SHEARCOTTER_FILE_BYTES(n, t);
    }
    shearcotter_shape s = shearcotter_shape_at((uint8_t)(shape + 1));
    m = s.m, n = s.n, t = s.t;
    char path[100];
    snprintf(path, sizeof path, "crates/key_vectors/data/%s.key", names[shape]);
    FILE *key = fopen(path, "rb");
    size_t size = key ? fread(file, 1, SHEARCOTTER_FILE_BYTES(n, t), key) : 0;
    if (key)
        fclose(key);
    return size == SHEARCOTTER_FILE_BYTES(n, t);
}

/* The key is published, for T alone. */
static int prepare(int shape)
{
    if (!read_key(shape))
        return 0;
    rows = m * t;
    file_bytes = SHEARCOTTER_FILE_BYTES(n, t);
    word_bytes = SHEARCOTTER_PATTERN_BYTES(n);
    row_bytes = SHEARCOTTER_PUBLIC_BYTES(m, n, t) / (size_t)rows;
    shearcotter_reply r = shearcotter_load(shearcotter_fresh(), SHEARCOTTER_A, file, file_bytes);
    r = shearcotter_publish(r.station, SHEARCOTTER_A, public_key, sizeof public_key, work, sizeof work);
    station = r.station;
    return r.refused == 0;
}

/* A code word: a pseudorandom second part d behind T·d, drawn again until it has many zeros and ones. */
static void draw_code_word(void)
{
    int count = 0;
    while (count <= t || count >= n - t) {
        memset(code, 0, WORD);
        for (int i = rows; i < n; i++)
            if (next() & 1)
                turn(code, i);
        for (int r = 0; r < rows; r++)
            for (int i = 0; i < n - rows; i++)
                if (bit(public_key + (size_t)r * row_bytes, i) & bit(code, rows + i))
                    turn(code, r);
        for (int i = count = 0; i < n; i++)
            count += bit(code, i);
    }
}

/* `count` places that are not set in `used` nor in `row`, where the code word has that bit, or any for 2. */
static void choose(uint8_t *row, const uint8_t *used, int count, int of)
{
    while (count > 0) {
        int i = (int)(next() % (uint32_t)n);
        if (!bit(used, i) && !bit(row, i) && (of == 2 || bit(code, i) == of))
            turn(row, i), count--;
    }
}

/* The word and its marks, the differences, the plain word that it is compared with; d, or -1 where both are refused. */
static int make(int kind)
{
    int marked = kind == 0 ? 0 : t + t % 2, d = (2 * t - marked) / 2, at_ones = marked / 2 + (kind == 2);
    draw_code_word();
    memset(marks, 0, WORD);
    memset(expected, 0, WORD);
    memset(plain, 0, WORD);
    choose(marks, marks, at_ones, 1);
    choose(marks, marks, marked - at_ones, 0);
    choose(expected, marks, d, 2);
    choose(plain, plain, t, 2);
    for (int i = 0; i < n; i++)
        if (bit(marks, i) && (next() & 1))
            turn(expected, i);
    for (int i = 0; i < WORD; i++) {
        word[i] = code[i] ^ expected[i];
        plain[i] = kind == 0 ? word[i] : code[i] ^ plain[i];
    }
    if (kind < 3)
        return d;
    for (int i = 0; i < n; i++)
        if (!bit(word, i))
            turn(word, i);
    memcpy(plain, word, WORD);
    return -1;
}

static void read_marked(int d)
{
    memset(out, 0, WORD);
    shearcotter_reply r = shearcotter_read_marked(station, SHEARCOTTER_A, word, word_bytes, marks, word_bytes, out, WORD);
    wrong += d < 0 ? r.refused != SHEARCOTTER_NO_CODE_WORD : r.refused != 0 || r.ones != d || memcmp(out, expected, WORD) != 0;
}

static void read_plain(int d)
{
    memset(out, 0, WORD);
    shearcotter_reply r = shearcotter_read(station, SHEARCOTTER_A, plain, word_bytes, out, WORD);
    wrong += d < 0 ? r.refused != SHEARCOTTER_NO_CODE_WORD : r.refused != 0 || r.ones != t;
}

static int rising(const void *x, const void *y)
{
    double a = *(const double *)x, b = *(const double *)y;
    return (a > b) - (a < b);
}

static double median(double *times)
{
    qsort(times, TRIES, sizeof *times, rising);
    return times[TRIES / 2];
}

/* Whether the ratio is as small as it may be. Small keys take so little time that many calls are timed together. */
static int compare(int shape, int kind)
{
    static double marked[TRIES], read[TRIES];
    int d = make(kind), together = m == 4 ? 40 : 1;
    for (int try = 0; try < TRIES; try++) {
        double a = now();
        for (int i = 0; i < together; i++)
            read_marked(d);
        double b = now();
        for (int i = 0; i < together; i++)
            read_plain(d);
        double c = now();
        marked[try] = (b - a) / together;
        read[try] = (c - b) / together;
    }
    double ours = median(marked), theirs = median(read);
    int slow = ours > most_ratio * theirs;
    printf("%-15s  %-8s  marked %8.1f us, read %8.1f, ratio %4.2f%s\n", names[shape], cases[kind], ours, theirs, ours / theirs,
           slow ? "  SLOW" : "");
    return !slow;
}

int main(void)
{
    int slow = 0;
    for (int shape = 0; shape < SHAPES; shape++) {
        if (!prepare(shape)) {
            fprintf(stderr, "the key %s cannot be read or published\n", names[shape]);
            return 1;
        }
        for (int kind = 0; kind < CASES; kind++)
            slow += !compare(shape, kind);
    }
    printf("ratio at most %.1f; %d differences\n", most_ratio, wrong);
    return wrong != 0 || slow != 0;
}

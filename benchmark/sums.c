/* A read of the word of ones at (13, 8192, 128), and the same with g's value and inverse square worked out afresh at each place in
   each of the 2t sums, in one run: least processor times in ms. Fails where the second takes less than `least_ratio` times the first. */
#include <stdint.h>
#include <stdio.h>
#include <string.h>
#include <time.h>

typedef uint8_t reader(uint8_t m, uint16_t n, uint16_t t, const uint16_t *support, const uint16_t *g, const uint8_t *word,
                       size_t word_len, uint8_t *out, size_t out_len);
reader bench_read, bench_read_afresh;

enum { M = 13, N = 8192, T = 128, BYTES = 5 + 2 * N + 2 * T, WORD = N / 8, NO_CODE_WORD = 14, TRIES = 3, READS = 8 };
static const double least_ratio = 2;
static uint8_t file[BYTES + 1], ones[WORD], errors[WORD], before[WORD], out[WORD];
static uint16_t support[N], g[T];
static int differences;

static double now(void)
{
    struct timespec c;
    clock_gettime(CLOCK_THREAD_CPUTIME_ID, &c);
    return c.tv_sec * 1e3 + c.tv_nsec / 1e6;
}

/* One read: it answers the number and leaves these bytes in out. */
static void read_word(reader *f, const uint8_t *word, int number, const uint8_t *after, double *least)
{
    memcpy(out, before, WORD);
    double a = now();
    int answer = f(M, N, T, support, g, word, WORD, out, WORD);
    double x = now() - a;
    *least = *least == 0 || x < *least ? x : *least;
    differences += answer != number || memcmp(out, after, WORD) != 0;
}

int main(void)
{
    FILE *key = fopen("crates/key_vectors/data/mceliece8192128.key", "rb");
    if (!key || fread(file, 1, sizeof file, key) != BYTES) {
        fprintf(stderr, "bench: the key cannot be read\n");
        return 1;
    }
    for (int i = 0; i < N; i++)
        support[i] = (uint16_t)(file[3 + 2 * i] + 256 * file[4 + 2 * i]);
    for (int i = 0; i < T; i++)
        g[i] = (uint16_t)(file[5 + 2 * N + 2 * i] + 256 * file[6 + 2 * N + 2 * i]);
    memset(ones, 0xFF, WORD);
    memset(before, 0xA5, WORD);
    /* The zero word with t errors. */
    for (int i = 0; i < T; i++)
        errors[i * (WORD / T)] = (uint8_t)(1 << i % 8);
    double once = 0, afresh = 0, untimed = 0;
    read_word(bench_read, errors, 0, errors, &untimed);
    read_word(bench_read_afresh, errors, 0, errors, &untimed);
    for (int try = 0; try < TRIES; try++) {
        for (int i = 0; i < READS; i++)
            read_word(bench_read, ones, NO_CODE_WORD, before, &once);
        read_word(bench_read_afresh, ones, NO_CODE_WORD, before, &afresh);
    }
    printf("A read of the word of ones at (%d, %d, %d): %.3f ms, with g and 1/g^2 afresh in each sum %.3f ms, ratio %.1f, at least %.0f\n",
           M, N, T, once, afresh, afresh / once, least_ratio);
    printf("%d differences\n", differences);
    return differences != 0 || afresh < least_ratio * once;
}

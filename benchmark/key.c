/* The check of a (13, 8192, 128) key and its parts, against g at each place by scalar Horner in C, in one run. */
#include <stddef.h>
#include <stdint.h>
#include <stdio.h>
#include <stdbool.h>
#include <time.h>

#include "shearcotter.h"

bool bench_square(uint8_t m, const uint16_t *g, size_t g_len);
bool bench_distinct(const uint16_t *s, size_t s_len);
uint16_t bench_values(uint8_t m, const uint16_t *g, size_t g_len, const uint16_t *points, size_t points_len, size_t i);

enum { N = 8192, T = 128, BYTES = 5 + 2 * N + 2 * T, TRIES = 31 };
static uint8_t file[BYTES + 1], refused[BYTES];
static uint16_t support[N], g[T], theirs[N];

static double now(void)
{
    struct timespec t;
    clock_gettime(CLOCK_MONOTONIC, &t);
    return t.tv_sec * 1e3 + t.tv_nsec / 1e6;
}

/* a·b modulo x^13 + x^4 + x^3 + x + 1. */
static inline uint16_t product(uint16_t a, uint16_t b)
{
    uint16_t r = 0;
    for (int k = 12; k >= 0; k--) {
        uint16_t d = (uint16_t)(r << 1);
        r = (uint16_t)(d ^ ((d >> 13) & 1) * 0x201B ^ ((b >> k) & 1) * a);
    }
    return r;
}

__attribute__((noinline)) static uint16_t value(uint16_t a)
{
    uint16_t r = 1;
    for (int k = T - 1; k >= 0; k--)
        r = (uint16_t)(product(r, a) ^ g[k]);
    return r;
}

static uint8_t load_number(const uint8_t *f) { return shearcotter_load(shearcotter_fresh(), SHEARCOTTER_A, f, BYTES).refused; }

static double least(double x, double y) { return x < y ? x : y; }

int main(void)
{
    FILE *key = fopen("crates/key_vectors/data/mceliece8192128.key", "rb");
    if (!key || fread(file, 1, sizeof file, key) != BYTES) {
        fprintf(stderr, "the key cannot be read\n");
        return 1;
    }
    for (int i = 0; i < N; i++)
        support[i] = (uint16_t)(file[3 + 2 * i] + 256 * file[4 + 2 * i]);
    for (int i = 0; i < T; i++)
        g[i] = (uint16_t)(file[5 + 2 * N + 2 * i] + 256 * file[6 + 2 * N + 2 * i]);
    /* The same file with a first number that is no element: load reads it, and refuses it with 4 before the other checks. */
    for (int i = 0; i < BYTES; i++)
        refused[i] = file[i];
    refused[3] = refused[4] = 255;
    double load = 1e18, reading = 1e18, distinct = 1e18, square = 1e18, values = 1e18, scalar = 1e18;
    int wrong = 0;
    for (int try = 0; try < TRIES; try++) {
        double a = now();
        wrong += load_number(file) != 0;
        double b = now();
        wrong += bench_square(13, g, T);
        double c = now();
        int place = try * 269 % N;
        uint16_t ours = bench_values(13, g, T, support, N, (size_t)place);
        double d = now();
        for (int i = 0; i < N; i++)
            theirs[i] = value(support[i]);
        double e = now();
        wrong += load_number(refused) != 4;
        double f = now();
        wrong += !bench_distinct(support, N);
        double h = now();
        wrong += ours != theirs[place] || ours == 0;
        load = least(load, b - a);
        reading = least(reading, f - e);
        distinct = least(distinct, h - f);
        square = least(square, c - b);
        values = least(values, d - c);
        scalar = least(scalar, e - d);
    }
    printf("load and check %.2f ms: g at %d places %.2f, square test %.2f, distinctness %.3f, reading %.3f, the rest %.3f; g by scalar C %.2f ms, %.2f times load\n",
           load, N, values, square, distinct, reading, load - values - square - distinct - reading, scalar, scalar / load);
    printf("%d differences\n", wrong);
    return wrong != 0;
}

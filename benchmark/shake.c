/* SHAKE256 of the library, and in plain C by the compiler of this file, in turns: the least processor time of many tries, in µs. Fails
   where the library takes more than `most_ratio` times as long, or the two give other bytes. */
#include <stdio.h>
#include <string.h>
#include <time.h>

#include "shearcotter.h"

#ifdef __clang__
#define COMPILER __VERSION__
#else
#define COMPILER "gcc " __VERSION__
#endif

enum { LONG = 1 << 20, BLOCK = 136, LANES = BLOCK / 8, ROUNDS = 24, SHAPES = 5, TRIES = 100, FILLER = 0xA5 };
static const double most_ratio = 1.3;
static uint8_t input[LONG], ours[LONG + 1], plain[LONG + 1];
static int differences;

static const uint64_t constants[ROUNDS] = {
    0x0000000000000001, 0x0000000000008082, 0x800000000000808A, 0x8000000080008000, 0x000000000000808B, 0x0000000080000001,
    0x8000000080008081, 0x8000000000008009, 0x000000000000008A, 0x0000000000000088, 0x0000000080008009, 0x000000008000000A,
    0x000000008000808B, 0x800000000000008B, 0x8000000000008089, 0x8000000000008003, 0x8000000000008002, 0x8000000000000080,
    0x000000000000800A, 0x800000008000000A, 0x8000000080008081, 0x8000000000008080, 0x0000000080000001, 0x8000000080008008};

static inline uint64_t turned(uint64_t x, int k) { return x << k | x >> (64 - k); }

/* The step χ on a row. */
static inline void chi(uint64_t *row, uint64_t a, uint64_t b, uint64_t c, uint64_t d, uint64_t e)
{
    row[0] = a ^ (~b & c);
    row[1] = b ^ (~c & d);
    row[2] = c ^ (~d & e);
    row[3] = d ^ (~e & a);
    row[4] = e ^ (~a & b);
}

/* A round from a to b: lane (x, y) is at 5y + x. */
static inline void turn(const uint64_t *a, uint64_t *b, uint64_t constant)
{
    uint64_t c0 = a[0] ^ a[5] ^ a[10] ^ a[15] ^ a[20];
    uint64_t c1 = a[1] ^ a[6] ^ a[11] ^ a[16] ^ a[21];
    uint64_t c2 = a[2] ^ a[7] ^ a[12] ^ a[17] ^ a[22];
    uint64_t c3 = a[3] ^ a[8] ^ a[13] ^ a[18] ^ a[23];
    uint64_t c4 = a[4] ^ a[9] ^ a[14] ^ a[19] ^ a[24];
    uint64_t d0 = c4 ^ turned(c1, 1), d1 = c0 ^ turned(c2, 1), d2 = c1 ^ turned(c3, 1), d3 = c2 ^ turned(c4, 1), d4 = c3 ^ turned(c0, 1);
    chi(b, a[0] ^ d0, turned(a[6] ^ d1, 44), turned(a[12] ^ d2, 43), turned(a[18] ^ d3, 21), turned(a[24] ^ d4, 14));
    chi(b + 5, turned(a[3] ^ d3, 28), turned(a[9] ^ d4, 20), turned(a[10] ^ d0, 3), turned(a[16] ^ d1, 45), turned(a[22] ^ d2, 61));
    chi(b + 10, turned(a[1] ^ d1, 1), turned(a[7] ^ d2, 6), turned(a[13] ^ d3, 25), turned(a[19] ^ d4, 8), turned(a[20] ^ d0, 18));
    chi(b + 15, turned(a[4] ^ d4, 27), turned(a[5] ^ d0, 36), turned(a[11] ^ d1, 10), turned(a[17] ^ d2, 15), turned(a[23] ^ d3, 56));
    chi(b + 20, turned(a[2] ^ d2, 62), turned(a[8] ^ d3, 55), turned(a[14] ^ d4, 39), turned(a[15] ^ d0, 41), turned(a[21] ^ d1, 2));
    b[0] ^= constant;
}

static void permute(uint64_t *a)
{
    uint64_t b[25];
    for (int i = 0; i < ROUNDS; i += 2) {
        turn(a, b, constants[i]);
        turn(b, a, constants[i + 1]);
    }
}

static void absorb(uint64_t *a, const uint8_t *block)
{
    for (int i = 0; i < LANES; i++) {
        uint64_t lane;
        memcpy(&lane, block + 8 * i, 8);
        a[i] ^= lane;
    }
    permute(a);
}

static void plain_shake256(const uint8_t *in, size_t in_length, uint8_t *out, size_t out_length)
{
    uint64_t a[25] = {0};
    uint8_t last[BLOCK] = {0};
    for (; in_length >= BLOCK; in += BLOCK, in_length -= BLOCK)
        absorb(a, in);
    memcpy(last, in, in_length);
    last[in_length] = 0x1F;
    last[BLOCK - 1] |= 0x80;
    absorb(a, last);
    for (; out_length > BLOCK; out += BLOCK, out_length -= BLOCK) {
        memcpy(out, a, BLOCK);
        permute(a);
    }
    memcpy(out, a, out_length);
}

/* Both, of this many bytes in and out; nothing is written behind them. */
static void compare(size_t in_length, size_t out_length)
{
    memset(ours, FILLER, out_length + 1);
    memset(plain, FILLER, out_length + 1);
    shearcotter_shake256(input, in_length, ours, out_length);
    plain_shake256(input, in_length, plain, out_length);
    differences += memcmp(ours, plain, out_length + 1) != 0;
}

/* All lengths about the first blocks' ends. */
static void compare_lengths(void)
{
    for (size_t i = 0; i <= 3 * BLOCK + 1; i++)
        compare(i, 32);
    for (size_t i = 0; i <= 3 * BLOCK + 1; i++)
        compare(33, i);
    for (size_t i = BLOCK - 1; i <= BLOCK + 1; i++)
        for (size_t k = BLOCK - 1; k <= BLOCK + 1; k++)
            compare(i, k);
}

static double now(void)
{
    struct timespec c;
    clock_gettime(CLOCK_THREAD_CPUTIME_ID, &c);
    return c.tv_sec * 1e6 + c.tv_nsec / 1e3;
}

typedef void hash(const uint8_t *, size_t, uint8_t *, size_t);

/* As many calls as a long input has parts of this size. */
static void run(double *least, hash *volatile f, size_t in_length, uint8_t *out, size_t out_length)
{
    int calls = (int)(LONG / (in_length + out_length)) + 1;
    double a = now();
    for (int i = 0; i < calls; i++)
        f(input, in_length, out, out_length);
    double x = (now() - a) / calls;
    *least = *least == 0 || x < *least ? x : *least;
}

/* Both in turns; whether the library takes as little as it may. */
static int measure(const char *name, size_t in_length, size_t out_length)
{
    double a = 0, b = 0;
    compare(in_length, out_length);
    for (int try = 0; try < TRIES; try++) {
        run(&a, shearcotter_shake256, in_length, ours, out_length);
        run(&b, plain_shake256, in_length, plain, out_length);
    }
    printf("%-12s %8zu %8zu %10.2f %10.2f %6.2f\n", name, in_length, out_length, a, b, a / b);
    return a <= most_ratio * b;
}

int main(void)
{
    for (int i = 0; i < LONG; i++)
        input[i] = (uint8_t)(7 * i + i / 251);
    compare_lengths();
    printf("SHAKE256, and plain C by " COMPILER "\n");
    printf("%-12s %8s %8s %10s %10s %6s\n", "", "bytes in", "out", "ours, µs", "C, µs", "ratio");
    int quick = measure("long input", LONG, 32) & measure("long output", 32, LONG);
    for (int i = 1; i <= SHAPES; i++) {
        shearcotter_shape s = shearcotter_shape_at((uint8_t)i);
        size_t bytes = 1 + SHEARCOTTER_PATTERN_BYTES(s.n) + SHEARCOTTER_CAPSULE_BYTES(s.m, s.t);
        quick &= measure("session key", bytes, SHEARCOTTER_SESSION_BYTES);
    }
    printf("ratio at most %.1f; %d differences\n", most_ratio, differences);
    return differences != 0 || !quick;
}

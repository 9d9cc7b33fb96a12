/* Products in the field, Rattle's against the same shifts and masks written by hand in C, in one run. */
#include <stddef.h>
#include <stdint.h>
#include <stdio.h>
#include <time.h>

uint16_t bench_chain(uint8_t m, uint16_t a, uint16_t b, uint32_t n);
void bench_horner(uint8_t m, uint16_t *r, size_t r_len, const uint16_t *a, size_t a_len, uint16_t c);

/* a·b modulo f, m digits. */
static inline uint16_t product(unsigned m, uint16_t f, uint16_t a, uint16_t b)
{
    uint16_t r = 0;
    for (int k = 12; k >= 0; k--) {
        uint16_t d = (uint16_t)(r << 1);
        r = (uint16_t)(d ^ ((d >> m) & 1) * f ^ ((b >> k) & 1) * a);
    }
    return r;
}

__attribute__((noinline)) static uint16_t c_chain(unsigned m, uint16_t f, uint16_t a, uint16_t b, uint32_t n)
{
    uint16_t r = b;
    while (n--)
        r = product(m, f, r, a);
    return r;
}

__attribute__((noinline)) static void c_horner(unsigned m, uint16_t f, uint16_t *restrict r, const uint16_t *restrict a, size_t n, uint16_t c)
{
    for (size_t i = 0; i < n; i++)
        r[i] = product(m, f, r[i], a[i]) ^ c;
}

static double now(void)
{
    struct timespec t;
    clock_gettime(CLOCK_MONOTONIC, &t);
    return t.tv_sec * 1e9 + t.tv_nsec;
}

/* What the compiler must not know. */
static volatile uint16_t factor = 0x0FB5, start = 3;
static volatile unsigned width[3] = {4, 12, 13};
static volatile uint16_t modulus[3] = {0x13, 0x1009, 0x201B};

enum { PLACES = 8192, ROUNDS = 200, CHAIN = 200000, TRIES = 15 };
static uint16_t ours[PLACES], theirs[PLACES], points[PLACES];

static double least(double x, double y) { return x < y ? x : y; }

int main(void)
{
    int wrong = 0;
    for (int w = 0; w < 3; w++) {
        unsigned m = width[w];
        uint16_t f = modulus[w], mask = (uint16_t)((1u << m) - 1);
        uint16_t x0 = factor & mask, y0 = start;
        double rc = 1e18, cc = 1e18, rh = 1e18, ch = 1e18;
        for (int try = 0; try < TRIES; try++) {
            double t0 = now();
            uint16_t x = bench_chain((uint8_t)m, x0, y0, CHAIN);
            double t1 = now();
            uint16_t y = c_chain(m, f, x0, y0, CHAIN);
            double t2 = now();
            wrong += x != y;
            rc = least(rc, t1 - t0);
            cc = least(cc, t2 - t1);
            for (size_t i = 0; i < PLACES; i++) {
                ours[i] = theirs[i] = (uint16_t)(i * 40503u) & mask;
                points[i] = (uint16_t)(i * 30011u + 5) & mask;
            }
            t0 = now();
            for (int k = 0; k < ROUNDS; k++)
                bench_horner((uint8_t)m, ours, PLACES, points, PLACES, (uint16_t)k & mask);
            t1 = now();
            for (int k = 0; k < ROUNDS; k++)
                c_horner(m, f, theirs, points, PLACES, (uint16_t)k & mask);
            t2 = now();
            rh = least(rh, t1 - t0);
            ch = least(ch, t2 - t1);
            for (size_t i = 0; i < PLACES; i++)
                wrong += ours[i] != theirs[i];
        }
        printf("width %2u  one after the other: %6.2f ns, C %6.2f ns, ratio %4.2f   at each place: %6.3f ns, C %6.3f ns, ratio %4.2f\n", m,
               rc / CHAIN, cc / CHAIN, rc / cc, rh / ROUNDS / PLACES, ch / ROUNDS / PLACES, rh / ch);
    }
    printf("%d differences\n", wrong);
    return wrong != 0;
}

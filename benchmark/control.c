/* Control bits by plain C, after Bernstein, 'Verified fast formulas for control bits for permutation networks', 2020, with the paper's
   names: compositions by indexing, no sorting. */
#include <stdint.h>

enum { MOST = 8192 };

/* composeinv(c, pi): c[x] at pi[x]. */
static void composeinv(int n, uint16_t *restrict out, const uint16_t *restrict c, const uint16_t *restrict pi)
{
    for (int x = 0; x < n; x++) out[pi[x]] = c[x];
}

static void put_bit(uint8_t *row, int i, int b)
{
    row[i / 8] = (uint8_t)((row[i / 8] & ~(1 << i % 8)) | b << i % 8);
}

/* The least member of the cycle of each x, for m > 1: c is that of 2^i members, and p goes 2^i steps. The paper's q, with which it
   composes by sorting, is not needed. */
static void least(int m, const uint16_t *pi, const uint16_t *inverse, uint16_t *restrict c)
{
    static uint16_t tables[2][MOST], low[MOST];
    uint16_t *p = tables[0], *next = tables[1];
    int n = 1 << m;
    for (int x = 0; x < n; x++) {
        p[x] = pi[inverse[x ^ 1] ^ 1];
        c[x] = p[x] < x ? p[x] : (uint16_t)x;
    }
    for (int i = 1; i < m - 1; i++) {
        for (int x = 0; x < n; x++) next[x] = p[p[x]];
        uint16_t *old = p;
        p = next;
        next = old;
        for (int x = 0; x < n; x++) low[x] = c[p[x]] < c[x] ? c[p[x]] : c[x];
        for (int x = 0; x < n; x++) c[x] = low[x];
    }
}

/* The bits of pi, 2^m numbers: bit i at off + step * i. */
static void bits_of(int m, int off, int step, const uint16_t *pi, uint8_t *row)
{
    static uint16_t inverse[MOST], c[MOST], F[MOST], Fpi[MOST], L[MOST], M[MOST];
    uint16_t sub[MOST];
    int n = 1 << m, h = n / 2;
    if (m == 1) {
        put_bit(row, off, pi[0]);
        return;
    }
    for (int x = 0; x < n; x++) inverse[pi[x]] = (uint16_t)x;
    least(m, pi, inverse, c);
    for (int j = 0; j < h; j++) {
        int f = c[2 * j] % 2;
        put_bit(row, off + step * j, f);
        F[2 * j] = (uint16_t)(2 * j + f);
        F[2 * j + 1] = (uint16_t)(2 * j + 1 - f);
    }
    composeinv(n, Fpi, F, inverse);
    for (int k = 0; k < h; k++) {
        int l = Fpi[2 * k] % 2;
        put_bit(row, off + step * ((2 * m - 2) * h + k), l);
        L[2 * k] = (uint16_t)(2 * k + l);
        L[2 * k + 1] = (uint16_t)(2 * k + 1 - l);
    }
    composeinv(n, M, Fpi, L);
    for (int j = 0; j < h; j++) {
        sub[j] = M[2 * j] / 2;
        sub[h + j] = M[2 * j + 1] / 2;
    }
    bits_of(m - 1, off + step * h, 2 * step, sub, row);
    bits_of(m - 1, off + step * (h + 1), 2 * step, sub + h, row);
}

static void plain_control_bits(int m, const uint16_t *pi, uint8_t *row)
{
    bits_of(m, 0, 1, pi, row);
}

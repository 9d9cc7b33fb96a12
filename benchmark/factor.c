/* Whether g has a proper factor, at the standard's five shapes, against the same criterion in plain C, in one run: g has none if and
   only if no square divides it and the images of x, .., x^(t-1) under h -> h^(2^m) + h modulo g are independent. The least processor
   time of many tries, in ms. Fails where the test takes over 1.5 times what C takes, or longer than its bar. */
#include <stdbool.h>
#include <stddef.h>
#include <stdint.h>
#include <stdio.h>
#include <string.h>
#include <time.h>

bool bench_factor(uint8_t m, const uint16_t *g, size_t g_len);
bool bench_square(uint8_t m, const uint16_t *g, size_t g_len);

enum { MOST = 128, ROWS = 40, SHAPES = 5, TRIES = 201 };
static const struct {
    const char *name;
    uint8_t m;
    uint16_t f;
    size_t t;
    double bar;
} shapes[SHAPES] = {
    {"mceliece348864", 12, 0x1009, 64, 0.6},   {"mceliece460896", 13, 0x201B, 96, 1.4},   {"mceliece6688128", 13, 0x201B, 128, 2.8},
    {"mceliece6960119", 13, 0x201B, 119, 2.4}, {"mceliece8192128", 13, 0x201B, 128, 2.8},
};

/* The field: its width and modulus. */
static unsigned m;
static uint16_t f;

/* a·b modulo f. */
static inline uint16_t product(uint16_t a, uint16_t b)
{
    uint16_t r = 0;
    for (int k = 12; k >= 0; k--) {
        uint16_t d = (uint16_t)(r << 1);
        r = (uint16_t)(d ^ ((d >> m) & 1) * f ^ ((b >> k) & 1) * a);
    }
    return r;
}

/* a^(2^m - 2). */
static uint16_t inverse(uint16_t a)
{
    uint16_t r = product(a, a);
    for (unsigned k = 2; k < m; k++) {
        r = product(r, a);
        r = product(r, r);
    }
    return r;
}

/* A row's multiples by the numbers of four digits, and by those of the next three, the next three and the last three. */
typedef uint16_t table[ROWS][MOST];

__attribute__((noinline)) static void make_table(const uint16_t *row, size_t n, table t)
{
    static const int first[4] = {0, 16, 24, 32}, digits[4] = {4, 3, 3, 3};
    uint16_t power[MOST] = {0};
    memcpy(power, row, n * sizeof *row);
    for (int w = 0; w < 4; w++) {
        memset(t[first[w]], 0, sizeof t[0]);
        for (int k = 0; k < digits[w]; k++) {
            for (int e = 0; e < 1 << k; e++)
                for (int i = 0; i < MOST; i++)
                    t[first[w] + (1 << k) + e][i] = t[first[w] + e][i] ^ power[i];
            for (int i = 0; i < MOST; i++) {
                uint16_t d = (uint16_t)(power[i] << 1);
                power[i] = (uint16_t)(d ^ ((d >> m) & 1) * f);
            }
        }
    }
}

/* r + c·row, by the row's table. */
__attribute__((noinline)) static void add_multiple(const table t, uint16_t c, uint16_t *restrict r, size_t n)
{
    const uint16_t *p = t[c & 15], *q = t[16 + (c >> 4 & 7)], *u = t[24 + (c >> 7 & 7)], *v = t[32 + (c >> 10 & 7)];
    for (size_t i = 0; i < n; i++)
        r[i] ^= p[i] ^ q[i] ^ u[i] ^ v[i];
}

/* r becomes b, of 2·n coefficients, modulo g. */
static void reduce(const table g, uint16_t *b, size_t n, uint16_t *r)
{
    for (size_t j = 2 * n; j-- > n;)
        add_multiple(g, b[j], b + j - n, n);
    memcpy(r, b, n * sizeof *r);
}

static void square(const table g, uint16_t *r, size_t n)
{
    uint16_t b[2 * MOST] = {0};
    for (size_t i = 0; i < n; i++)
        b[2 * i] = product(r[i], r[i]);
    reduce(g, b, n, r);
}

static void multiply(const table y, const table g, uint16_t *r, size_t n)
{
    uint16_t b[2 * MOST] = {0};
    for (size_t i = 0; i < n; i++)
        add_multiple(y, r[i], b + i, n);
    reduce(g, b, n, r);
}

/* n - 1 rows are independent. */
static bool independent(uint16_t (*rows)[MOST], size_t n)
{
    static table t;
    for (size_t r = 0; r + 1 < n; r++) {
        size_t p = 0;
        while (p < n && rows[r][p] == 0)
            p++;
        if (p == n)
            return false;
        uint16_t w[MOST] = {0}, i = inverse(rows[r][p]);
        for (size_t k = 0; k < n; k++)
            w[k] = product(rows[r][k], i);
        make_table(w, n, t);
        for (size_t k = r + 1; k + 1 < n; k++)
            add_multiple(t, rows[k][p], rows[k], n);
    }
    return true;
}

/* Whether g, which no square divides, of degree 2 or more, has a proper factor. */
__attribute__((noinline)) static bool splits(const uint16_t *g, size_t n)
{
    static table by_g, by_y;
    static uint16_t rows[MOST][MOST];
    uint16_t w[MOST] = {0, 1};
    make_table(g, n, by_g);
    for (unsigned k = 0; k < m; k++)
        square(by_g, w, n);
    make_table(w, n, by_y);
    for (size_t r = 0; r + 1 < n; r++) {
        memcpy(rows[r], w, sizeof w);
        rows[r][r + 1] ^= 1;
        multiply(by_y, by_g, w, n);
    }
    return !independent(rows, n);
}

static double now(void)
{
    struct timespec t;
    clock_gettime(CLOCK_THREAD_CPUTIME_ID, &t);
    return t.tv_sec * 1e3 + t.tv_nsec / 1e6;
}

static double least(double x, double y) { return x < y ? x : y; }

/* g of a shape's key, the last numbers of its file. */
static bool read_g(const char *name, size_t t, uint16_t *g)
{
    char path[100];
    uint8_t bytes[2 * MOST];
    snprintf(path, sizeof path, "crates/key_vectors/data/%s.key", name);
    FILE *key = fopen(path, "rb");
    bool read = key && !fseek(key, -(long)(2 * t), SEEK_END) && fread(bytes, 2, t, key) == t;
    if (key)
        fclose(key);
    for (size_t i = 0; read && i < t; i++)
        g[i] = (uint16_t)(bytes[2 * i] + 256 * bytes[2 * i + 1]);
    return read;
}

int main(void)
{
    int wrong = 0, slow = 0;
    for (int s = 0; s < SHAPES; s++) {
        uint16_t g[MOST], other[MOST];
        size_t t = shapes[s].t;
        m = shapes[s].m;
        f = shapes[s].f;
        if (!read_g(shapes[s].name, t, g)) {
            fprintf(stderr, "the key %s cannot be read\n", shapes[s].name);
            return 1;
        }
        double ours = 1e18, squares = 1e18, theirs = 1e18;
        for (int try = 0; try < TRIES; try++) {
            /* The key's g has no factor; of the others, which differ in one coefficient, nearly all have one. */
            memcpy(other, g, sizeof g);
            other[0] ^= (uint16_t)(try + 1);
            wrong += bench_factor((uint8_t)m, other, t) != (bench_square((uint8_t)m, other, t) || splits(other, t));
            double a = now();
            bool has = bench_factor((uint8_t)m, g, t);
            double b = now();
            bool square_divides = bench_square((uint8_t)m, g, t);
            double c = now();
            bool split = splits(g, t);
            double d = now();
            wrong += has || square_divides || split;
            ours = least(ours, b - a);
            squares = least(squares, c - b);
            theirs = least(theirs, d - c);
        }
        double ratio = (ours - squares) / theirs;
        bool late = ratio > 1.5 || ours > shapes[s].bar;
        slow += late;
        printf("%-15s (%u,%3zu)  a factor of g: %5.2f ms, bar %.1f; without the square test %5.2f, C %5.2f, ratio %4.2f%s\n", shapes[s].name, m, t, ours,
               shapes[s].bar, ours - squares, theirs, ratio, late ? "  SLOW" : "");
    }
    printf("%d differences\n", wrong);
    return wrong != 0 || slow != 0;
}

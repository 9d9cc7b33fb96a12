/* Converting key files to switching networks and back at m = 13, against the standard's routine for control bits in plain C, in turns:
   the least processor time of many tries, in ms. To a network the library also checks the key and completes the permutation. Fails
   where that takes more than `most_ratio` times as long as the routine, or from a network more than `most_from` ms, or where the bits
   differ. */
#include <stdio.h>
#include <string.h>
#include <time.h>

#include "control.c"
#include "shearcotter.h"

enum { M = 13, N = 1 << M, MOST_T = SHEARCOTTER_MOST_ERRORS, SHAPES = 2, TRIES = 60 };
static const double most_ratio = 4.0, most_from = 1.0;
static const struct {
    const char *name;
    size_t n, t;
} shapes[SHAPES] = {{"mceliece8192128", 8192, 128}, {"mceliece6960119", 6960, 119}};

static uint8_t file[SHEARCOTTER_FILE_BYTES(N, MOST_T)], back[sizeof file], network[SHEARCOTTER_NETWORK_BYTES(M, MOST_T)];
static uint8_t bits[(2 * M - 1) * N / 16];
static uint16_t permutation[N];

static uint16_t reversed(uint16_t x)
{
    uint16_t r = 0;
    for (int i = 0; i < M; i++)
        r = (uint16_t)(r << 1 | (x >> i & 1));
    return r;
}

/* The network's values for the file's support, and the others in rising order. */
static void complete(size_t n)
{
    uint8_t used[N] = {0};
    for (size_t i = 0; i < n; i++) {
        permutation[i] = reversed((uint16_t)(file[3 + 2 * i] + 256 * file[4 + 2 * i]));
        used[permutation[i]] = 1;
    }
    for (size_t v = 0; v < N; v++)
        if (!used[v])
            permutation[n++] = (uint16_t)v;
}

static double now(void)
{
    struct timespec t;
    clock_gettime(CLOCK_THREAD_CPUTIME_ID, &t);
    return t.tv_sec * 1e3 + t.tv_nsec / 1e6;
}

static double less(double x, double y) { return x < y ? x : y; }

static int read_key(const char *name, size_t length)
{
    char path[100];
    snprintf(path, sizeof path, "crates/key_vectors/data/%s.key", name);
    FILE *key = fopen(path, "rb");
    size_t read = key ? fread(file, 1, length, key) : 0;
    if (key)
        fclose(key);
    return read == length;
}

int main(void)
{
    int wrong = 0, slow = 0;
    for (int s = 0; s < SHAPES; s++) {
        size_t n = shapes[s].n, t = shapes[s].t, length = SHEARCOTTER_FILE_BYTES(n, t), other = SHEARCOTTER_NETWORK_BYTES(M, t);
        if (!read_key(shapes[s].name, length)) {
            fprintf(stderr, "the key %s cannot be read\n", shapes[s].name);
            return 1;
        }
        complete(n);
        double to = 1e18, routine = 1e18, from = 1e18;
        for (int try = 0; try < TRIES; try++) {
            double a = now();
            shearcotter_converted there = shearcotter_to_network(file, length, network, sizeof network);
            double b = now();
            plain_control_bits(M, permutation, bits);
            double c = now();
            shearcotter_converted again = shearcotter_from_network(network, other, back, sizeof back);
            double d = now();
            wrong += there.refused || there.length != other || memcmp(network + other - sizeof bits, bits, sizeof bits) != 0;
            wrong += again.refused || again.length != length || memcmp(back, file, length) != 0;
            to = less(to, b - a);
            routine = less(routine, c - b);
            from = less(from, d - c);
        }
        int late = to > most_ratio * routine || from > most_from;
        slow += late;
        printf("%-15s  to a network %6.3f ms, the routine in C %6.3f, ratio %4.2f; from a network %5.3f ms%s\n", shapes[s].name, to, routine,
               to / routine, from, late ? "  SLOW" : "");
    }
    printf("ratio at most %.1f, from a network at most %.1f ms; %d differences\n", most_ratio, most_from, wrong);
    return wrong != 0 || slow != 0;
}

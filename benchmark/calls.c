/* Publishing, locking, opening, session keys and reading at the standard's five shapes, and a report beside as many opens at the last:
   the least processor time of many tries, in ms. Fails where a session key or a report takes too much of the opens' time.
   Standard input, where it has lines: a shape's name and the times of Bouncy Castle's decapsulation and encapsulation, or a size of
   Botan's McEliece, n,t, and the time of its decryption. */
#include <stdio.h>
#include <stdlib.h>
#include <string.h>
#include <time.h>

#include "shearcotter.h"

enum { SHAPES = 5, PLACES = SHEARCOTTER_MOST_PLACES, MOST_ROWS = 13 * SHEARCOTTER_MOST_ERRORS, WORD = PLACES / 8, CARD = 200 };
static const char *names[SHAPES] = {"mceliece348864", "mceliece460896", "mceliece6688128", "mceliece6960119", "mceliece8192128"};
/* Botan's sizes nearest to the first shapes; it has none near the last. */
enum { SIZES = 4 };
static const char *sizes[SIZES] = {"3408,67", "4624,95", "6624,115", "6624,115"};

/* One shape: its sizes, key and inputs. */
static int m, n, t, rows;
static size_t file_bytes, word_bytes, capsule_bytes, public_bytes, row_bytes;
static uint8_t file[SHEARCOTTER_FILE_BYTES(PLACES, SHEARCOTTER_MOST_ERRORS) + 1];
static uint8_t public_key[MOST_ROWS * WORD], again[MOST_ROWS * WORD], work[MOST_ROWS * WORD];
static uint8_t pattern[WORD], capsule[WORD], own[WORD], filled[WORD], errors[WORD], ones[WORD], out[WORD], zeros[WORD];
static uint8_t changed[WORD], secret[WORD];
static shearcotter_station station;
static int differences;

/* Least times: ours, then Bouncy Castle's, then Botan's. */
typedef struct {
    double load, publish, publish_small, lock, open, session, refused_open, refused_session, capsule_read, errors_read, refused_read;
    double decapsulate, encapsulate, decrypt;
} times;

static double now(void)
{
    struct timespec c;
    clock_gettime(CLOCK_THREAD_CPUTIME_ID, &c);
    return c.tv_sec * 1e3 + c.tv_nsec / 1e6;
}

static void lessen(double *least, double x) { *least = *least == 0 || x < *least ? x : *least; }

/* Fixed pseudorandom numbers. */
static uint64_t seed = 1;
static uint32_t next(void)
{
    seed ^= seed << 13, seed ^= seed >> 7, seed ^= seed << 17;
    return (uint32_t)(seed >> 32);
}

static int bit(const uint8_t *row, int i) { return row[i / 8] >> i % 8 & 1; }

static void set(uint8_t *row, int i, int v) { row[i / 8] = (uint8_t)((row[i / 8] & ~(1 << i % 8)) | v << i % 8); }

/* A pattern of t ones. */
static void draw(void)
{
    memset(pattern, 0, sizeof pattern);
    for (int k = 0; k < t;) {
        int i = (int)(next() % (uint32_t)n);
        k += !bit(pattern, i);
        set(pattern, i, 1);
    }
}

/* A code word: a pseudorandom second part d behind T·d. */
static void code_word(uint8_t *word)
{
    memset(word, 0, WORD);
    for (int i = rows; i < n; i++)
        set(word, i, (int)(next() & 1));
    for (int r = 0; r < rows; r++) {
        int x = 0;
        for (int i = 0; i < n - rows; i++)
            x ^= bit(public_key + (size_t)r * row_bytes, i) & bit(word, rows + i);
        set(word, r, x);
    }
}

static int read_key(int shape)
{
    char path[100];
    snprintf(path, sizeof path, "crates/key_vectors/data/%s.key", names[shape]);
    FILE *key = fopen(path, "rb");
    size_t size = key ? fread(file, 1, sizeof file, key) : 0;
    if (key)
        fclose(key);
    return size == file_bytes;
}

/* The shape's sizes, its key loaded and published, its inputs. */
static int prepare(int shape)
{
    shearcotter_shape s = shearcotter_shape_at((uint8_t)(shape + 1));
    m = s.m, n = s.n, t = s.t, rows = m * t;
    file_bytes = SHEARCOTTER_FILE_BYTES(n, t);
    word_bytes = SHEARCOTTER_PATTERN_BYTES(n);
    capsule_bytes = SHEARCOTTER_CAPSULE_BYTES(m, t);
    public_bytes = SHEARCOTTER_PUBLIC_BYTES(m, n, t);
    row_bytes = public_bytes / (size_t)rows;
    if (!read_key(shape))
        return 0;
    shearcotter_reply r = shearcotter_load(shearcotter_fresh(), SHEARCOTTER_A, file, file_bytes);
    r = shearcotter_publish(r.station, SHEARCOTTER_A, public_key, public_bytes, work, sizeof work);
    station = r.station;
    draw();
    differences += r.refused != 0;
    differences += shearcotter_lock((uint8_t)m, (uint16_t)n, (uint16_t)t, public_key, public_bytes, pattern, word_bytes, capsule, WORD) != 0;
    memset(filled, 0, WORD);
    memcpy(filled, capsule, capsule_bytes);
    code_word(errors);
    for (int i = 0; i < WORD; i++)
        errors[i] ^= pattern[i];
    memset(ones, 0, WORD);
    memset(secret, 0, WORD);
    for (int i = 0; i < n; i++) {
        set(ones, i, 1);
        set(secret, i, (int)(next() & 1));
    }
    memcpy(changed, capsule, WORD);
    changed[0] ^= 1;
    return 1;
}

/* One read of a word; it answers the number, and the pattern is found or the output unchanged. */
static void read_word(double *least, const uint8_t *word, int number)
{
    memset(out, 0, WORD);
    double a = now();
    shearcotter_reply r = shearcotter_read(station, SHEARCOTTER_A, word, word_bytes, out, WORD);
    lessen(least, now() - a);
    differences += r.refused != number || memcmp(out, number ? zeros : pattern, WORD) != 0;
}

/* One open of a capsule, likewise. */
static void open_capsule(double *least, const uint8_t *row, int number)
{
    memset(out, 0, WORD);
    double a = now();
    shearcotter_reply r = shearcotter_open(station, SHEARCOTTER_A, row, capsule_bytes, out, WORD);
    lessen(least, now() - a);
    differences += r.refused != number || memcmp(out, number ? zeros : pattern, WORD) != 0;
}

/* One session key of a capsule: SHAKE256 of the byte, the pattern or secret, and the capsule. */
static void derive(double *least, const uint8_t *row, uint8_t first, const uint8_t *middle)
{
    uint8_t text[1 + 2 * WORD], key[SHEARCOTTER_SESSION_BYTES];
    text[0] = first;
    memcpy(text + 1, middle, word_bytes);
    memcpy(text + 1 + word_bytes, row, capsule_bytes);
    shearcotter_shake256(text, 1 + word_bytes + capsule_bytes, key, sizeof key);
    double a = now();
    shearcotter_derived r = shearcotter_session(station, SHEARCOTTER_A, row, capsule_bytes, secret, word_bytes);
    lessen(least, now() - a);
    differences += r.refused != 0 || memcmp(r.key, key, sizeof key) != 0;
}

static void load_lock(times *x)
{
    double a = now();
    shearcotter_reply r = shearcotter_load(shearcotter_fresh(), SHEARCOTTER_A, file, file_bytes);
    double b = now();
    int y = shearcotter_lock((uint8_t)m, (uint16_t)n, (uint16_t)t, public_key, public_bytes, pattern, word_bytes, own, WORD);
    lessen(&x->lock, now() - b);
    lessen(&x->load, b - a);
    differences += r.refused != 0 || y != 0 || memcmp(own, capsule, capsule_bytes) != 0;
}

/* Both forms, in turns. */
static void publish(times *x)
{
    double a = now();
    shearcotter_reply r = shearcotter_publish(station, SHEARCOTTER_A, again, public_bytes, work, sizeof work);
    lessen(&x->publish, now() - a);
    differences += r.refused != 0 || memcmp(again, public_key, public_bytes) != 0;
    memset(again, 0, public_bytes);
    a = now();
    r = shearcotter_publish_small(station, SHEARCOTTER_A, again, public_bytes, work, SHEARCOTTER_SMALL_WORK_BYTES(m, t));
    lessen(&x->publish_small, now() - a);
    differences += r.refused != 0 || memcmp(again, public_key, public_bytes) != 0;
}

/* Opens and session keys in turns: what a call before leaves in caches is the same for both. */
static void open_and_derive(times *x)
{
    for (int try = 0; try < 200; try++) {
        open_capsule(&x->open, capsule, 0);
        derive(&x->session, capsule, 1, pattern);
    }
    for (int try = 0; try < 200; try++) {
        open_capsule(&x->refused_open, changed, SHEARCOTTER_NO_PATTERN);
        derive(&x->refused_session, changed, 0, secret);
    }
}

static void measure(times *x)
{
    open_and_derive(x);
    for (int try = 0; try < 40; try++) {
        load_lock(x);
        read_word(&x->capsule_read, filled, 0);
        read_word(&x->errors_read, errors, 0);
        read_word(&x->refused_read, ones, SHEARCOTTER_NO_CODE_WORD);
    }
    for (int try = 0; try < 5; try++)
        publish(x);
}

/* A report may take this part of the time that an open for each capsule takes. */
static const double most_of_opens = 0.75;
static uint8_t card[CARD * WORD], records[CARD];

/* Capsules of other patterns, back to back. */
static void fill_card(void)
{
    for (int i = 0; i < CARD; i++) {
        draw();
        differences += shearcotter_lock((uint8_t)m, (uint16_t)n, (uint16_t)t, public_key, public_bytes, pattern, word_bytes,
                                        card + (size_t)i * capsule_bytes, capsule_bytes) != 0;
    }
}

static void open_card(double *least)
{
    int opened = 0;
    double a = now();
    for (int i = 0; i < CARD; i++)
        opened += shearcotter_open(station, SHEARCOTTER_A, card + (size_t)i * capsule_bytes, capsule_bytes, out, WORD).refused == 0;
    lessen(least, now() - a);
    differences += opened != CARD;
}

static void report_card(double *least)
{
    double a = now();
    shearcotter_reported r = shearcotter_report(station, SHEARCOTTER_A, card, CARD * capsule_bytes, records, CARD);
    lessen(least, now() - a);
    differences += r.refused != 0 || r.counts[0] != CARD || memcmp(records, zeros, CARD) != 0;
}

/* Reports and opens in turns, at the shape that is prepared; whether a report takes as little as it may. */
static int report(void)
{
    double opens = 0, reports = 0;
    fill_card();
    for (int try = 0; try < 8; try++) {
        open_card(&opens);
        report_card(&reports);
    }
    printf("\nA report on %d capsules of %s: %.0f ms, an open for each %.0f ms, ratio %.2f, at most %.2f\n", CARD,
           names[SHAPES - 1], reports, opens, reports / opens, most_of_opens);
    return reports <= most_of_opens * opens;
}

/* What a refusal with 21 does, in C: the station passed by value and handed back. */
static shearcotter_reply hand_back(shearcotter_station s, uint8_t name, const uint8_t *row, size_t row_len, uint8_t *to, size_t to_len)
{
    (void)name, (void)row, (void)row_len, (void)to, (void)to_len;
    return (shearcotter_reply){.station = s, .refused = SHEARCOTTER_NO_KEY};
}

typedef shearcotter_reply call(shearcotter_station, uint8_t, const uint8_t *, size_t, uint8_t *, size_t);

/* A call on an empty station, in ns. */
static double passed_by_value(call *volatile f)
{
    double least = 0;
    shearcotter_station s = shearcotter_fresh();
    for (int try = 0; try < 50; try++) {
        double a = now();
        for (int i = 0; i < 1000; i++)
            differences += f(s, SHEARCOTTER_A, ones, word_bytes, out, WORD).refused != SHEARCOTTER_NO_KEY;
        lessen(&least, (now() - a) * 1e3);
    }
    return least;
}

static void peer_times(times *x)
{
    char line[100], name[40];
    double a, b;
    while (fgets(line, sizeof line, stdin)) {
        int words = sscanf(line, "%39s %lf %lf", name, &a, &b);
        for (int i = 0; i < SHAPES; i++)
            if (words == 3 && strcmp(name, names[i]) == 0)
                x[i].decapsulate = a, x[i].encapsulate = b;
        for (int i = 0; i < SIZES; i++)
            if (words == 2 && strcmp(name, sizes[i]) == 0)
                x[i].decrypt = a;
    }
}

static double time_at(const times *x, size_t offset) { return *(const double *)((const char *)x + offset); }

/* Times at the first shapes, and how many times as long the peer takes. */
static void ratio(const char *call, const char *peer, const times *x, int shapes, size_t ours, size_t theirs)
{
    printf("%-28s", call);
    for (int i = 0; i < shapes; i++) {
        double a = time_at(&x[i], ours), b = theirs ? time_at(&x[i], theirs) / a : 0;
        if (b)
            printf(" %9.3f %5.*f", a, b < 10 ? 2 : 1, b);
        else
            printf(" %9.3f      ", a);
    }
    printf("  %s\n", theirs && time_at(x, theirs) ? peer : "");
}

/* Botan's decryption, and our calls of the same use, at the shapes that one of its sizes is near to. */
static void botan(const times *x)
{
    printf("\n%-28s", "Botan's decryption, size n,t");
    for (int i = 0; i < SIZES; i++)
        printf(" %15s", sizes[i]);
    printf("\n");
    ratio("Botan, decrypt", "", x, SIZES, offsetof(times, decrypt), 0);
    ratio("open", "against Botan", x, SIZES, offsetof(times, open), offsetof(times, decrypt));
    ratio("read, code word, t errors", "against Botan", x, SIZES, offsetof(times, errors_read), offsetof(times, decrypt));
}

/* A session key may take this many times the time of an open. */
static const double most_of_open = 1.05;

/* The session key's times over the open's; whether all are as small as they may be. */
static int session_row(const char *capsules, const times *x, size_t session, size_t open)
{
    int quick = 1;
    printf("%-28s", capsules);
    for (int i = 0; i < SHAPES; i++) {
        double a = time_at(&x[i], session) / time_at(&x[i], open);
        quick &= a <= most_of_open;
        printf(" %15.3f", a);
    }
    printf("\n");
    return quick;
}

static int sessions(const times *x)
{
    printf("\nA session key's time over an open's, in turns, at most %.2f\n", most_of_open);
    int opened = session_row("capsule that opens", x, offsetof(times, session), offsetof(times, open));
    return session_row("capsule refused with 13", x, offsetof(times, refused_session), offsetof(times, refused_open)) && opened;
}

static void chart(const times *x)
{
    printf("\nDecapsulation by Bouncy Castle / ours, a mark for every four times faster:\n");
    for (int i = 0; i < SHAPES; i++) {
        double open = x[i].decapsulate / x[i].open, read = x[i].decapsulate / x[i].errors_read;
        printf("%-16s open %5.1f ", names[i], open);
        for (int k = 0; k < (int)open / 4; k++)
            putchar('#');
        printf("\n%-16s read %5.1f ", "", read);
        for (int k = 0; k < (int)read / 4; k++)
            putchar('#');
        printf("\n");
    }
}

int main(void)
{
    static times x[SHAPES];
    peer_times(x);
    for (int i = 0; i < SHAPES; i++) {
        if (!prepare(i)) {
            fprintf(stderr, "bench: the key of %s cannot be read\n", names[i]);
            return 1;
        }
        measure(&x[i]);
    }
    printf("%-28s", "ms, times faster than peer");
    for (int i = 0; i < SHAPES; i++)
        printf(" %15s", names[i]);
    printf("\n");
    size_t d = offsetof(times, decapsulate), e = offsetof(times, encapsulate);
    if (x[0].decapsulate) {
        ratio("Bouncy Castle, decapsulate", "", x, SHAPES, d, 0);
        ratio("Bouncy Castle, encapsulate", "", x, SHAPES, e, 0);
    }
    ratio("open", "against decapsulate", x, SHAPES, offsetof(times, open), d);
    ratio("session key", "against decapsulate", x, SHAPES, offsetof(times, session), d);
    ratio("open, refused with 13", "against decapsulate", x, SHAPES, offsetof(times, refused_open), d);
    ratio("session key of the secret", "against decapsulate", x, SHAPES, offsetof(times, refused_session), d);
    ratio("read, capsule and zeros", "against decapsulate", x, SHAPES, offsetof(times, capsule_read), d);
    ratio("read, code word, t errors", "against decapsulate", x, SHAPES, offsetof(times, errors_read), d);
    ratio("read, ones only, refused", "against decapsulate", x, SHAPES, offsetof(times, refused_read), d);
    ratio("lock", "against encapsulate", x, SHAPES, offsetof(times, lock), e);
    ratio("load", "", x, SHAPES, offsetof(times, load), 0);
    ratio("publish", "", x, SHAPES, offsetof(times, publish), 0);
    ratio("publish, small workspace", "", x, SHAPES, offsetof(times, publish_small), 0);
    if (x[0].decrypt)
        botan(x);
    if (x[0].decapsulate)
        chart(x);
    int quick = sessions(x);
    quick &= report();
    double read = passed_by_value(shearcotter_read), c = passed_by_value(hand_back);
    printf("A station passed by value and handed back: %.0f ns, by C %.0f ns, ratio %.2f\n%d differences\n", read, c, read / c, differences);
    return differences != 0 || !quick;
}

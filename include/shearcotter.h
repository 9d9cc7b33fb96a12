/* Goppa code capsules: field, keys, public key, locking, reading, also with marks, opening, reports, session keys, conversions of key
 * files. Link libshearcotter.a (x86-64).
 *
 * Rules for every call:
 * - Pointers are not null, also with length 0. A buffer that is written overlaps no other buffer of the call; buffers that are only
 *   read may overlap.
 * - A call with output writes from its start; bytes beyond those written keep their contents.
 * - A refusal writes nothing (but the workspace of either form of publish under 23) and hands the caller's station back unchanged.
 * - A call on a station names one of its two recipients, and leaves the other's slot as it is: enum shearcotter_name.
 * - Refusals are listed in the order in which they are looked for: the first whose condition holds is answered.
 * - Nothing is allocated or kept between calls, so calls may run at once in several threads.
 * - Stack: enum shearcotter_stack_kib.
 * - Secret are key files, stations, replies, patterns, session keys and the secrets lent for them, the workspace of either form of
 *   publish, and the stack that a call used. The calls wipe none of them: see 'Secrets' below.
 * - Where a key is drawn from a chip, the word read, the differences written and the corrected word are secret too, and the
 *   caller's to wipe.
 *
 * Key files, public keys, capsules, patterns, secrets, words and marks, byte by byte: docs/FORMATS.md.
 */
#ifndef SHEARCOTTER_H
#define SHEARCOTTER_H

#include <stddef.h>
#include <stdint.h>

/* The version, and as a number to compare. */
#define SHEARCOTTER_VERSION "0.1.0"
#define SHEARCOTTER_VERSION_NUMBER (0 * 10000 + 1 * 100 + 0)

#ifdef __cplusplus
extern "C" {
#endif

enum shearcotter_limit {
    SHEARCOTTER_MOST_PLACES = 8192,  /* n */
    SHEARCOTTER_MOST_ERRORS = 128,   /* t */
    SHEARCOTTER_LONGEST = 256,       /* elements in the list for a register */
    SHEARCOTTER_COEFFICIENTS = 257,  /* of a register's connection polynomial */
    SHEARCOTTER_BYTE_VALUES = 256,   /* that a report counts */
    SHEARCOTTER_SESSION_BYTES = 32   /* of a session key */
};

/* KiB of stack that a call takes, its argument and reply in the caller included: as measured at (13, 8192, 128), rounded up; the
 * calls of the field and shape_at take less than one. */
enum shearcotter_stack_kib {
    SHEARCOTTER_STACK_FRESH = 52,
    SHEARCOTTER_STACK_LOAD = 225,
    SHEARCOTTER_STACK_LOAD_NETWORK = 225,
    SHEARCOTTER_STACK_PUBLISH = 280,
    SHEARCOTTER_STACK_PUBLISH_SMALL = 160,
    SHEARCOTTER_STACK_LOCK = 2,
    SHEARCOTTER_STACK_OPEN = 304,
    SHEARCOTTER_STACK_READ = 304,
    SHEARCOTTER_STACK_READ_MARKED = 311,
    SHEARCOTTER_STACK_REPORT = 308,
    SHEARCOTTER_STACK_SESSION = 306,
    SHEARCOTTER_STACK_DROP = 98,
    SHEARCOTTER_STACK_REGISTER = 4,
    SHEARCOTTER_STACK_SHAKE = 2,
    SHEARCOTTER_STACK_TO_NETWORK = 224,
    SHEARCOTTER_STACK_FROM_NETWORK = 127
};

/* Byte lengths for the shape (m, n, t), with m*t < n. */
#define SHEARCOTTER_FILE_BYTES(n, t) (5 + 2 * (size_t)(n) + 2 * (size_t)(t))
#define SHEARCOTTER_NETWORK_BYTES(m, t) (9 + 2 * (size_t)(t) + ((2 * (size_t)(m) - 1) * ((size_t)1 << ((m) - 1)) + 7) / 8)
#define SHEARCOTTER_PATTERN_BYTES(n) (((size_t)(n) + 7) / 8)
#define SHEARCOTTER_CAPSULE_BYTES(m, t) (((size_t)(m) * (t) + 7) / 8)
#define SHEARCOTTER_PUBLIC_BYTES(m, n, t) ((size_t)(m) * (t) * (((size_t)(n) - (size_t)(m) * (t) + 7) / 8))

/* Byte lengths of the workspaces that publish and publish_small need. The small one goes by m and t alone, is at most 692224, and is
 * the smaller of the two where n is above 16*ceil(m*t/8), as at the standard's five shapes. */
#define SHEARCOTTER_WORK_BYTES(m, n, t) ((size_t)(m) * (t) * (((size_t)(n) + 7) / 8))
#define SHEARCOTTER_SMALL_WORK_BYTES(m, t) (2 * (size_t)(m) * (t) * SHEARCOTTER_CAPSULE_BYTES(m, t))

/* The number of capsules in so many bytes, and so the bytes of their records: a short last one counts. */
#define SHEARCOTTER_CAPSULES(m, t, bytes) \
    (((size_t)(bytes) + SHEARCOTTER_CAPSULE_BYTES(m, t) - 1) / SHEARCOTTER_CAPSULE_BYTES(m, t))

/* Of a slot. */
enum shearcotter_state {
    SHEARCOTTER_EMPTY = 0,
    SHEARCOTTER_LOADED = 1,
    SHEARCOTTER_PUBLISHED = 2  /* so is any other number; stations made by these calls have 0, 1 or 2 */
};

/* The recipients. Every call on a station but fresh takes such a byte; any other is refused with 35, before all else. What a call
 * answers and writes, and the slot that it leaves, go by the named recipient's slot alone; the other's slot is handed back as it
 * was. So leaving out all calls that name one of them changes nothing for the other. */
enum shearcotter_name {
    SHEARCOTTER_A = 1,
    SHEARCOTTER_B = 2
};

/* The refusals: X(name, number, words) for each. */
#define SHEARCOTTER_REFUSALS(X)                                                                         \
    /* caused by the input */                                                                           \
    X(SHEARCOTTER_BAD_WIDTH, 1, "width missing or not 4, 12, 13")                                       \
    X(SHEARCOTTER_BAD_LENGTH, 2, "key file ends too early or too late; register list over 256")         \
    X(SHEARCOTTER_BAD_SHAPE, 3, "shape out of limits; position not 1 to 5")                             \
    X(SHEARCOTTER_BAD_ELEMENT, 4, "element 2^m or more")                                                \
    X(SHEARCOTTER_ELEMENT_TWICE, 5, "support element twice")                                            \
    X(SHEARCOTTER_SQUARE_FACTOR, 6, "a square divides g")                                               \
    X(SHEARCOTTER_ROOT_IN_SUPPORT, 7, "some g(a_i) is 0")                                               \
    X(SHEARCOTTER_BAD_BYTES, 8, "word, capsule, pattern or public key of wrong byte length")            \
    /* an unused high bit of a last byte */                                                             \
    X(SHEARCOTTER_FILLER_SET, 9, "filler bit set")                                                      \
    X(SHEARCOTTER_SHORT_OUTPUT, 10, "output shorter than needed")                                       \
    X(SHEARCOTTER_SHORT_WORKSPACE, 11, "workspace shorter than needed")                                 \
    X(SHEARCOTTER_NOT_T_ONES, 12, "pattern to lock has not t ones")                                     \
    X(SHEARCOTTER_NO_PATTERN, 13, "no pattern for the capsule")                                         \
    X(SHEARCOTTER_NO_CODE_WORD, 14, "no code word within t places; with marks, none with 2d + s <= 2t") \
    /* caused by the named recipient's slot */                                                          \
    X(SHEARCOTTER_NO_KEY, 21, "no key")                                                                 \
    X(SHEARCOTTER_KEY_HELD, 22, "a key is held already")                                                \
    X(SHEARCOTTER_DEPENDENT_COLUMNS, 23, "the first m*t columns are dependent: no public key")          \
    X(SHEARCOTTER_NOT_PUBLISHED, 24, "not published")                                                   \
    /* a station not made by these calls */                                                             \
    X(SHEARCOTTER_UNSOUND_KEY, 25, "the kept key is not one that load accepts")                         \
    /* of a report */                                                                                   \
    X(SHEARCOTTER_SHORT_RECORDS, 31, "record buffer shorter than the number of capsules")               \
    /* of the field */                                                                                  \
    X(SHEARCOTTER_INVERSE_OF_ZERO, 32, "inverse of 0")                                                  \
    /* of a session key */                                                                              \
    X(SHEARCOTTER_BAD_SECRET, 33, "secret of wrong length or with filler set")                          \
    /* of a key that words are read with, and nothing else */                                           \
    X(SHEARCOTTER_REDUCIBLE_KEY, 34, "g has a proper factor")                                           \
    /* of every call on a station */                                                                    \
    X(SHEARCOTTER_UNKNOWN_NAME, 35, "a name other than A and B")                                        \
    /* of a network file */                                                                             \
    X(SHEARCOTTER_BAD_BIT_COUNT, 36, "bit count other than (2m-1)*2^(m-1)")                             \
    /* of a marked reading */                                                                           \
    X(SHEARCOTTER_BAD_MARKS, 37, "marks of wrong length or with filler set")

/* What `refused` says. */
#define SHEARCOTTER_NUMBER(name, number, words) name = number,
enum shearcotter_refusal { SHEARCOTTER_ACCEPTED = 0, SHEARCOTTER_REFUSALS(SHEARCOTTER_NUMBER) };
#undef SHEARCOTTER_NUMBER

/* The words of what `refused` says. */
static inline const char *shearcotter_words(unsigned refused)
{
    switch (refused) {
    case SHEARCOTTER_ACCEPTED:
        return "accepted";
#define SHEARCOTTER_CASE(name, number, words) \
    case name:                                \
        return words;
        SHEARCOTTER_REFUSALS(SHEARCOTTER_CASE)
#undef SHEARCOTTER_CASE
    default:
        return "a number that this version does not know";
    }
}

/* The support's first n and g's first t numbers are the key's. */
typedef struct {
    uint8_t m;
    uint16_t n;
    uint16_t t;
    uint16_t support[SHEARCOTTER_MOST_PLACES];
    uint16_t g[SHEARCOTTER_MOST_ERRORS];
} shearcotter_key;

/* A recipient's part of the station: empty, or with a key that is loaded or published. */
typedef struct {
    uint8_t state;
    shearcotter_key key;
} shearcotter_slot;

/* A slot for each recipient, owned by the caller and passed by value. Compare members, not bytes: padding is not kept. */
typedef struct {
    shearcotter_slot a;
    shearcotter_slot b;
} shearcotter_station;

/* The new station, the number of the refusal, 0 for none, and the number of ones that open or read wrote. Of read_marked `ones` is the
 * number of differences at unmarked places, which may be less than the number of ones that it wrote. */
typedef struct {
    shearcotter_station station;
    uint8_t refused;
    uint16_t ones;
} shearcotter_reply;

/* The caller's station, the number of the refusal, 0 for none, and how many of the records have each value; the counts are 0 where
 * it is refused. A reply of its own, and secret as the others are. */
typedef struct {
    shearcotter_station station;
    uint8_t refused;
    size_t counts[SHEARCOTTER_BYTE_VALUES];
} shearcotter_reported;

/* The caller's station, the number of the refusal, 0 for none, and the session key, zeros where it is refused. A reply of its own,
 * and secret as the others are. */
typedef struct {
    shearcotter_station station;
    uint8_t refused;
    uint8_t key[SHEARCOTTER_SESSION_BYTES];
} shearcotter_derived;

/* value is 0 where it is refused. */
typedef struct {
    uint8_t refused;
    uint16_t value;
} shearcotter_element;

/* m, n and t are 0 where it is refused. */
typedef struct {
    uint8_t refused;
    uint8_t m;
    uint16_t n;
    uint16_t t;
} shearcotter_shape;

/* Coefficients 0 to 256 of the connection polynomial, with 0 past the length; length and c are 0 where it is refused. */
typedef struct {
    uint8_t refused;
    size_t length;
    uint16_t c[SHEARCOTTER_COEFFICIENTS];
} shearcotter_register;

/* The number of the refusal, 0 for none, and how many bytes were written, 0 where it is refused. */
typedef struct {
    uint8_t refused;
    size_t length;
} shearcotter_converted;

/* The layout that the archive has, in bytes; a compiler that has another stops here. */
#if defined(__cplusplus) && __cplusplus >= 201103L
#define SHEARCOTTER_HOLDS(name, condition) static_assert(condition, #name);
#elif defined(__STDC_VERSION__) && __STDC_VERSION__ >= 201112L
#define SHEARCOTTER_HOLDS(name, condition) _Static_assert(condition, #name);
#else
#define SHEARCOTTER_HOLDS(name, condition) typedef char shearcotter_##name[(condition) ? 1 : -1];
#endif
#define SHEARCOTTER_SIZE(type, bytes) SHEARCOTTER_HOLDS(size_of_##type, sizeof(shearcotter_##type) == bytes)
#define SHEARCOTTER_OFFSET(type, member, bytes) \
    SHEARCOTTER_HOLDS(offset_of_##type##_##member, offsetof(shearcotter_##type, member) == bytes)

SHEARCOTTER_SIZE(key, 16646)
SHEARCOTTER_OFFSET(key, m, 0)
SHEARCOTTER_OFFSET(key, n, 2)
SHEARCOTTER_OFFSET(key, t, 4)
SHEARCOTTER_OFFSET(key, support, 6)
SHEARCOTTER_OFFSET(key, g, 16390)
SHEARCOTTER_SIZE(slot, 16648)
SHEARCOTTER_OFFSET(slot, state, 0)
SHEARCOTTER_OFFSET(slot, key, 2)
SHEARCOTTER_SIZE(station, 33296)
SHEARCOTTER_OFFSET(station, a, 0)
SHEARCOTTER_OFFSET(station, b, 16648)
SHEARCOTTER_SIZE(reply, 33300)
SHEARCOTTER_OFFSET(reply, station, 0)
SHEARCOTTER_OFFSET(reply, refused, 33296)
SHEARCOTTER_OFFSET(reply, ones, 33298)
SHEARCOTTER_SIZE(reported, 35352)
SHEARCOTTER_OFFSET(reported, station, 0)
SHEARCOTTER_OFFSET(reported, refused, 33296)
SHEARCOTTER_OFFSET(reported, counts, 33304)
SHEARCOTTER_SIZE(derived, 33330)
SHEARCOTTER_OFFSET(derived, station, 0)
SHEARCOTTER_OFFSET(derived, refused, 33296)
SHEARCOTTER_OFFSET(derived, key, 33297)
SHEARCOTTER_SIZE(element, 4)
SHEARCOTTER_OFFSET(element, refused, 0)
SHEARCOTTER_OFFSET(element, value, 2)
SHEARCOTTER_SIZE(shape, 6)
SHEARCOTTER_OFFSET(shape, refused, 0)
SHEARCOTTER_OFFSET(shape, m, 1)
SHEARCOTTER_OFFSET(shape, n, 2)
SHEARCOTTER_OFFSET(shape, t, 4)
SHEARCOTTER_SIZE(register, 536)
SHEARCOTTER_OFFSET(register, refused, 0)
SHEARCOTTER_OFFSET(register, length, 8)
SHEARCOTTER_OFFSET(register, c, 16)
SHEARCOTTER_SIZE(converted, 16)
SHEARCOTTER_OFFSET(converted, refused, 0)
SHEARCOTTER_OFFSET(converted, length, 8)

#undef SHEARCOTTER_OFFSET
#undef SHEARCOTTER_SIZE
#undef SHEARCOTTER_HOLDS

/* Secrets. On the stack the calls leave copies of the station, both slots, whichever was named; points of the pattern that they
 * found, what they hashed, and what a conversion worked out. Who holds a key wipes
 * - the bytes of a key file of either form after load, load_network or a conversion, those of the file that a conversion wrote after
 *   their use, and the workspace after either form of publish, refused or not;
 * - each pattern, session key, station and reply after its use, and after the last session the secret that was lent for it; drop
 *   hands back a station with a fresh slot, and the old station stays the caller's;
 * - the stack. Stations pass by value, so that the compiler makes copies without a name in the frame of the function that calls.
 *   All calls go into a function that is not inlined, and once that has returned its caller wipes the stack below its own frame:
 *   the call's KiB above, and what the function itself takes.
 * Compilers leave out a plain memset at the end of a variable's life. examples/wipe.h has both wipes; examples/open.c uses them.
 * Registers, swapped pages and core dumps are not reached. */

/* a + b in the field of width m. Refused: 1, 4. */
shearcotter_element shearcotter_add(uint8_t m, uint32_t a, uint32_t b);

/* a * b in the field of width m. Refused: 1, 4. */
shearcotter_element shearcotter_multiply(uint8_t m, uint32_t a, uint32_t b);

/* 1/a in the field of width m. Refused: 1, 4, 32. */
shearcotter_element shearcotter_invert(uint8_t m, uint32_t a);

/* Classic McEliece's shape at position 1 to 5: 348864, 460896, 6688128, 6960119, 8192128. Refused: 3. */
shearcotter_shape shearcotter_shape_at(uint8_t position);

/* The shortest register that generates the list, at most 256 elements of width m. Refused: 1, 2, 4. */
shearcotter_register shearcotter_shortest_register(uint8_t m, const uint16_t *list, size_t list_length);

/* Fills `out` with the first bytes of SHAKE256 (FIPS 202) of the input, both of any length. Nothing is refused. */
void shearcotter_shake256(const uint8_t *input, size_t input_length, uint8_t *out, size_t out_length);

/* Writes the capsule of a pattern with exactly t ones under a public key of the shape. Returns 0 or the refusal:
 * 1, 3, 8, 9, 12, 10. */
uint8_t shearcotter_lock(uint8_t m, uint16_t n, uint16_t t, const uint8_t *public_key, size_t public_length,
                         const uint8_t *pattern, size_t pattern_length, uint8_t *out, size_t out_length);

/* Writes the network file of a key file: SHEARCOTTER_NETWORK_BYTES(m, t), which are handed back. The network's other values, those
 * whose bits in reverse order the support has not, come behind in rising order, and the control bits are those of the standard's
 * routine. shearcotter_from_network gives the same key file back. Refused as load refuses the file, 22 and the name aside, then:
 * 1, 2, 3, 4, 5, 6, 7, 10. */
shearcotter_converted shearcotter_to_network(const uint8_t *file, size_t file_length, uint8_t *out, size_t out_length);

/* Writes the key file of a network file: SHEARCOTTER_FILE_BYTES(n, t), which are handed back. Converted forward
 * again, support and g are the same; spare settings may differ. Refused as load_network refuses the file, 22 and the
 * name aside, then: 1, 2, 36, 3, 4, 5, 6, 7, 10. */
shearcotter_converted shearcotter_from_network(const uint8_t *file, size_t file_length, uint8_t *out, size_t out_length);

/* The station with both slots empty, zeros only. */
shearcotter_station shearcotter_fresh(void);

/* Keeps the key of a key file in the named slot: m in a byte, n in two, low byte first, n elements of two, t in two, g_0 to g_(t-1)
 * of two. Afterwards loaded. A key whose g has a proper factor is kept too: words are read with it, and publish, open, report and
 * session refuse with 34.
 * Refused: 35, 22, 1, 2, 3, 4, 5, 6, 7. */
shearcotter_reply shearcotter_load(shearcotter_station station, uint8_t name, const uint8_t *file, size_t file_length);

/* Keeps the key of a network file in the named slot: m in a byte, n and t in two, g_0 to g_(t-1) of two, the bit count
 * (2m-1)*2^(m-1) in four, and the packed control bits; all low byte first. The support is the first n values that the switching
 * network sends out, their m bits in reverse order, as in Classic McEliece's field ordering. Afterwards loaded, as by
 * shearcotter_load of the file that shearcotter_from_network writes. 2 goes by m and t; 5 cannot hold.
 * Refused: 35, 22, 1, 2, 36, 3, 4, 5, 6, 7. */
shearcotter_reply shearcotter_load_network(shearcotter_station station, uint8_t name, const uint8_t *file, size_t file_length);

/* Writes the public key of the named key, row after row, worked out in the first SHEARCOTTER_WORK_BYTES of `work`: their contents
 * are free once 35, 21, 25, 34, 10, 11 are passed; every other byte of it stays. Afterwards published.
 * Refused: 35, 21, 25, 34, 10, 11, 23.
 * With both lengths 0 it only asks whether a loaded key is an exchange key, one whose g is irreducible: 34 says no and 10 yes. */
shearcotter_reply shearcotter_publish(shearcotter_station station, uint8_t name, uint8_t *out, size_t out_length, uint8_t *work,
                                      size_t work_length);

/* Publishes with another workspace, for a machine that cannot lend that of shearcotter_publish: the public key is worked out in the
 * first SHEARCOTTER_SMALL_WORK_BYTES of `work`, some columns after another. What it writes, the station and every refusal are those
 * of shearcotter_publish for the same key; only what is too short for 11 differs. The contents of these bytes are free once 35, 21,
 * 25, 34, 10, 11 are passed, under 23 too; every other byte of `work` stays. Afterwards published.
 * Refused: 35, 21, 25, 34, 10, 11, 23. */
shearcotter_reply shearcotter_publish_small(shearcotter_station station, uint8_t name, uint8_t *out, size_t out_length,
                                            uint8_t *work, size_t work_length);

/* Writes the pattern with exactly t ones that locks to the capsule under the named key, and counts its ones. The station stays.
 * Refused: 35, 21, 25, 34, 24, 8, 9, 10, 13. A sender must not learn of 13: docs/FORMATS.md, 'Classic McEliece's objects'. */
shearcotter_reply shearcotter_open(shearcotter_station station, uint8_t name, const uint8_t *capsule, size_t capsule_length,
                                   uint8_t *out, size_t out_length);

/* Reports on capsules that stand back to back: writes a record for each, in their order, and counts the records of each value.
 * The record is 0 where open gives a pattern under the named key, else the number that open refuses the capsule with: 8, 9 or 13. A
 * short tail is the last capsule, its record 8; an empty buffer has none. SHEARCOTTER_CAPSULES says how many there are: the length
 * divided by a capsule's, rounded up. No pattern is written, and the kept key is checked once. The station stays.
 * Refused: 35, 21, 25, 34, 24, 31: then no record is written and the counts are 0. A sender must not learn of a 13 here either. */
shearcotter_reported shearcotter_report(shearcotter_station station, uint8_t name, const uint8_t *capsules, size_t capsules_length,
                                        uint8_t *records, size_t records_length);

/* The session key of the capsule under the named key, as Classic McEliece's DECAP derives it: the first 32 bytes of SHAKE256 of the
 * byte 1, the pattern and the capsule; where open refuses with 13, of the byte 0, the secret and the capsule. A sender cannot tell
 * from the key which of the two it is, so that the caller has no 13 to hide; how long the call takes is not the same for both. The
 * station stays.
 * The secret is the standard's s: SHEARCOTTER_PATTERN_BYTES random bytes with clear filler. It stays the caller's, is as secret as
 * the key file, and is the same in every call with that key, so that a capsule that does not open has one key too.
 * Refused: 35, 21, 25, 34, 24, 8, 9, 33: then the key is zeros. 8 and 9 are about bytes that the sender knows. */
shearcotter_derived shearcotter_session(shearcotter_station station, uint8_t name, const uint8_t *capsule, size_t capsule_length,
                                        const uint8_t *secret, size_t secret_length);

/* Writes the pattern that turns the word into the code word of the named key within t places, and counts its ones. The station
 * stays. Refused: 35, 21, 25, 8, 9, 10, 14. */
shearcotter_reply shearcotter_read(shearcotter_station station, uint8_t name, const uint8_t *word, size_t word_length, uint8_t *out,
                                   size_t out_length);

/* Reads a word some of whose places are unsteady: their bits are known only to be 0 or 1. The marks are a packed row of n bits like
 * the word, SHEARCOTTER_PATTERN_BYTES, with a one at each such place; any number of them may be set. With s marked places and d
 * differences at unmarked ones, there is at most one code word of the named key with 2d + s <= 2t. Writes the places where the given
 * word differs from it, those at marked places included. `ones` in the reply is d, the differences at UNMARKED places alone: where
 * marked bits differ too, more ones are written. Where all marks are 0 it answers as shearcotter_read does. The station stays.
 * Refused: 35, 21, 25, 8, 9, 37, 10, 14. 37 is about the marks: their length or a filler bit set. 14: no code word has
 * 2d + s <= 2t. */
shearcotter_reply shearcotter_read_marked(shearcotter_station station, uint8_t name, const uint8_t *word, size_t word_length,
                                          const uint8_t *marks, size_t marks_length, uint8_t *out, size_t out_length);

/* Afterwards the named slot is that of a fresh station. Refused: 35, 21. */
shearcotter_reply shearcotter_drop(shearcotter_station station, uint8_t name);

#ifdef __cplusplus
}
#endif

#endif

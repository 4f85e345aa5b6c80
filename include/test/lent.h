/* What the C tests share: what is expected, and bytes that are lent for an answer, with others behind it. */
#ifndef LENT_H
#define LENT_H

#include "nuorpyts.h"

#include <stdio.h>
#include <string.h>

#define COUNT(rows) (sizeof(rows) / sizeof *(rows))

/* ---- what is expected */

static unsigned failures;
static const char *now = "";

static inline void expect(int holds, const char *what, const char *file, int line) {
    if (!holds) {
        printf("%s:%d, %s: not %s\n", file, line, now, what);
        failures++;
    }
}
#define EXPECT(holds) expect((holds), #holds, __FILE__, __LINE__)

/* The status of a test. */
static inline int expected(void) {
    if (failures > 0) {
        printf("%u expectations about include/nuorpyts.h do not hold\n", failures);
    }
    return failures > 0;
}

/* ---- lent bytes */

#define ROOM 1536u

static inline uint8_t filling(size_t at) { return (uint8_t)((at * 37 ^ 0xC3) & 0xFF); }

static inline void fill(uint8_t *bytes) {
    size_t i;
    for (i = 0; i < ROOM; i++) {
        bytes[i] = filling(i);
    }
}

/* Whether the bytes from one place up to another are as they were lent. */
static inline int is_filled_between(const uint8_t *bytes, size_t from, size_t to) {
    size_t i;
    for (i = from; i < to; i++) {
        if (bytes[i] != filling(i)) {
            return 0;
        }
    }
    return 1;
}

static inline int is_filled(const uint8_t *bytes, size_t from) { return is_filled_between(bytes, from, ROOM); }

/* A call that answers in `out` and `out_len`: 14 in a byte less than `size`, where no byte changes, and 0 in exactly `size` bytes, behind
 * which none does. */
#define SIZED(size, call)                    \
    do {                                     \
        size_t out_len = (size) - 1;         \
        fill(out);                           \
        EXPECT((call) == NUORPYTS_OUTSIDE);  \
        EXPECT(is_filled(out, 0));           \
        out_len = (size);                    \
        EXPECT((call) == NUORPYTS_OK);       \
        EXPECT(is_filled(out, (size)));      \
    } while (0)

/* ---- ranges */

static inline int has_range(const uint8_t *out, size_t start, size_t len) {
    return nuorpyts_read_number(out + NUORPYTS_RANGE_START) == start && nuorpyts_read_number(out + NUORPYTS_RANGE_LENGTH) == len;
}

#endif

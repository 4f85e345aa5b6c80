/* Calls on a state in a slot, as every walk has them: what it gives one by one and in batches of any room, and the codes that all of them
 * have in common. Every slice is lent with other bytes on both sides, none of which may change. */
#ifndef CALLS_H
#define CALLS_H

#include "lent.h"

/* ---- a walk's functions, by one shape */

/* What a call reads. */
struct read {
    const uint8_t *buffer;
    size_t len;
    const uint8_t *record;
    size_t record_len;
};

typedef uint32_t (*one_call)(const struct read *from, uint8_t *state, size_t state_len, uint8_t *out, size_t out_len);
typedef uint32_t (*many_call)(const struct read *from, uint8_t *state, size_t state_len, uint8_t *out, size_t out_len, uint8_t *count,
                              size_t count_len);

struct walk {
    const char *name;
    size_t size;  /* of a state */
    size_t ended; /* bytes of it that the end writes, each with 0 */
    size_t item;
    int by_record;
    one_call one;
    many_call many;
};

/* ---- items that are expected */

struct number {
    size_t place;
    int64_t value;
};

struct item {
    const struct number *numbers; /* all of them, so as many bytes are written */
    size_t count;
};
#define ITEM(numbers) {numbers, COUNT(numbers)}

static inline size_t bytes_of(const struct item *item) { return item->count * NUORPYTS_NUMBER_SIZE; }

static inline int has_numbers(const uint8_t *out, const struct item *item) {
    size_t i;
    for (i = 0; i < item->count; i++) {
        if (nuorpyts_read_signed(out + item->numbers[i].place) != item->numbers[i].value) {
            return 0;
        }
    }
    return 1;
}

/* ---- one call */

/* Bytes of a slice's array before the slice. */
#define LEFT 16u

/* A slot with a state and slices for items and their count. */
struct slices {
    uint8_t state[ROOM], out[ROOM], count[ROOM];
};

static inline void lend(struct slices *to, const uint8_t *state, size_t size) {
    fill(to->state);
    memcpy(to->state + LEFT, state, size);
    fill(to->out);
    fill(to->count);
}

/* Lengths of the slices that a call is lent. */
struct lengths {
    size_t state, out, count;
};

static inline uint32_t call(const struct walk *walk, const struct read *from, struct slices *to, struct lengths len, int batch) {
    return batch ? walk->many(from, to->state + LEFT, len.state, to->out + LEFT, len.out, to->count + LEFT, len.count)
                 : walk->one(from, to->state + LEFT, len.state, to->out + LEFT, len.out);
}

/* Nothing was given: the answer's slices are as they were lent. */
static inline int gave_nothing(const struct slices *to) { return is_filled(to->out, 0) && is_filled(to->count, 0); }

/* Nothing but the state's bytes changed in the slot's array. */
static inline int kept_around(const struct slices *to, const struct walk *walk) {
    return is_filled_between(to->state, 0, LEFT) && is_filled(to->state, LEFT + walk->size);
}

/* The slot's state is this one. */
static inline int holds_state(const struct slices *to, const struct walk *walk, const uint8_t *state) {
    return kept_around(to, walk) && memcmp(to->state + LEFT, state, walk->size) == 0;
}

/* The slot's state is the ended one: the bytes that the end writes are 0, and the others are as they were. */
static inline int holds_ended(const struct slices *to, const struct walk *walk, const uint8_t *before) {
    size_t i;
    for (i = 0; i < walk->ended; i++) {
        if (to->state[LEFT + i] != 0) {
            return 0;
        }
    }
    return kept_around(to, walk) && memcmp(to->state + LEFT + walk->ended, before + walk->ended, walk->size - walk->ended) == 0 &&
           nuorpyts_read_number(to->state + LEFT + NUORPYTS_STATE_PHASE) == NUORPYTS_PHASE_ENDED;
}

/* A call that gives nothing and leaves the ended state, behind which the next call says so. */
static inline void refuses(const struct walk *walk, const struct read *from, const uint8_t *state, struct lengths len, int batch,
                           uint32_t code) {
    struct slices to;
    uint8_t left[NUORPYTS_WALK_SIZE];
    lend(&to, state, walk->size);
    EXPECT(call(walk, from, &to, len, batch) == code);
    EXPECT(gave_nothing(&to) && holds_ended(&to, walk, state));
    memcpy(left, to.state + LEFT, walk->size);
    EXPECT(call(walk, from, &to, len, batch) == NUORPYTS_ENDED);
    EXPECT(gave_nothing(&to) && holds_state(&to, walk, left));
}

/* A call that gives nothing and leaves the state as it is. */
static inline void leaves(const struct walk *walk, const struct read *from, const uint8_t *state, struct lengths len, int batch,
                          uint32_t code) {
    struct slices to;
    lend(&to, state, walk->size);
    EXPECT(call(walk, from, &to, len, batch) == code);
    EXPECT(gave_nothing(&to) && holds_state(&to, walk, state));
}

/* ---- what a walk gives */

/* One item a call, in a slice that just holds it or is longer, and then `code`. */
static inline void gives_singly(const struct walk *walk, const struct read *from, const uint8_t *start, const struct item *items, size_t n,
                                size_t more, uint32_t code) {
    struct lengths len = {walk->size, walk->item + more, 0};
    uint8_t state[NUORPYTS_WALK_SIZE];
    size_t i;
    memcpy(state, start, walk->size);
    for (i = 0; i < n; i++) {
        struct slices to;
        lend(&to, state, walk->size);
        EXPECT(call(walk, from, &to, len, 0) == NUORPYTS_OK);
        EXPECT(has_numbers(to.out + LEFT, &items[i]));
        EXPECT(is_filled_between(to.out, 0, LEFT) && is_filled(to.out, LEFT + bytes_of(&items[i])));
        EXPECT(is_filled(to.count, 0) && kept_around(&to, walk));
        memcpy(state, to.state + LEFT, walk->size);
    }
    refuses(walk, from, state, len, 0, code);
}

/* The items of a batch, from number `first` on, and no byte changed between them. */
static inline void has_batch(const struct slices *to, const struct walk *walk, const struct item *items, size_t first, size_t n) {
    size_t at = LEFT, i;
    EXPECT(is_filled_between(to->out, 0, LEFT));
    for (i = first; i < first + n; i++) {
        EXPECT(has_numbers(to->out + at, &items[i]));
        EXPECT(is_filled_between(to->out, at + bytes_of(&items[i]), at + walk->item));
        at += walk->item;
    }
    EXPECT(is_filled(to->out, at));
    EXPECT(nuorpyts_read_number(to->count + LEFT) == n);
    EXPECT(is_filled_between(to->count, 0, LEFT) && is_filled(to->count, LEFT + NUORPYTS_COUNT_SIZE));
}

/* As many items a call as there is room for, and then `code`, which a call of its own tells. A byte less than one more item is no room. */
static inline void gives_in_batches(const struct walk *walk, const struct read *from, const uint8_t *start, const struct item *items,
                                    size_t n, size_t room, uint32_t code) {
    struct lengths len = {walk->size, (room + 1) * walk->item - 1, NUORPYTS_COUNT_SIZE};
    uint8_t state[NUORPYTS_WALK_SIZE];
    size_t i = 0;
    memcpy(state, start, walk->size);
    while (i < n) {
        struct slices to;
        size_t due = n - i < room ? n - i : room;
        lend(&to, state, walk->size);
        EXPECT(call(walk, from, &to, len, 1) == NUORPYTS_OK);
        has_batch(&to, walk, items, i, due);
        EXPECT(kept_around(&to, walk));
        memcpy(state, to.state + LEFT, walk->size);
        i += due;
    }
    refuses(walk, from, state, len, 1, code);
}

/* ---- what all walks refuse */

/* On a state that has something ahead; `batch` says by which kind of call. */
static inline void refuses_by_rule(const struct walk *walk, const struct read *from, const uint8_t *state, int batch) {
    struct lengths len = {walk->size, walk->item, NUORPYTS_COUNT_SIZE}, shorter = len;
    struct read other = *from;
    uint8_t changed[NUORPYTS_WALK_SIZE];
    const struct lengths none = {walk->size, 0, 0};
    const struct read nothing = {from->buffer, 0, from->record, 0};
    shorter.state--;
    leaves(walk, from, state, shorter, batch, NUORPYTS_OUTSIDE);
    /* an ended state, whatever its other numbers, the buffer, the record and the answer's slices are */
    memcpy(changed, state, walk->size);
    nuorpyts_write_number(changed + NUORPYTS_STATE_PHASE, NUORPYTS_PHASE_ENDED);
    leaves(walk, &nothing, changed, none, batch, NUORPYTS_ENDED);
    leaves(walk, from, changed, shorter, batch, NUORPYTS_OUTSIDE);
    /* no room, and no record */
    shorter = len;
    shorter.out--;
    refuses(walk, from, state, shorter, batch, NUORPYTS_OUTSIDE);
    if (batch) {
        shorter = len;
        shorter.count--;
        refuses(walk, from, state, shorter, batch, NUORPYTS_OUTSIDE);
    }
    other.record_len--;
    if (walk->by_record) {
        refuses(walk, &other, state, len, batch, NUORPYTS_OUTSIDE);
    }
    /* phases that there are not, and a buffer that the state passes */
    nuorpyts_write_number(changed + NUORPYTS_STATE_PHASE, 9);
    refuses(walk, from, changed, len, batch, NUORPYTS_OUTSIDE);
    nuorpyts_write_number(changed + NUORPYTS_STATE_PHASE, (uint64_t)1 << 32);
    refuses(walk, from, changed, len, batch, NUORPYTS_OUTSIDE);
    refuses(walk, &nothing, state, len, batch, NUORPYTS_OUTSIDE);
}

/* All of it: what a walk gives from a state on, by calls of every kind, and what it refuses. */
static inline void walks(const struct walk *walk, const struct read *from, const uint8_t *start, const struct item *items, size_t n,
                         uint32_t code) {
    size_t room;
    gives_singly(walk, from, start, items, n, 0, code);
    gives_singly(walk, from, start, items, n, walk->item, code);
    for (room = 1; room <= n + 1; room++) {
        gives_in_batches(walk, from, start, items, n, room, code);
    }
    refuses_by_rule(walk, from, start, 0);
    refuses_by_rule(walk, from, start, 1);
}

#endif

/* Holds the header's walks to the library: a block made by hand is walked plain and full, its elements' tags, references and members too,
 * one by one and in batches, and every number of every item stands at its place; and it is compared with blocks that differ in one byte.
 * calls.h has what all walks refuse. C99 and C++11. */
#include "calls.h"

/* ---- the block */

/* Strings "", "k" (6, 1), "v" (9, 1), "outer" (12, 5); granularity 101, offsets -5 and 6.
 * Group 0: two dense nodes in a message (21, 38), whose keys_vals 1 2 0 0 stand at 55 and whose info has one row; a node (61, 16).
 * Group 1: a way (81, 19), whose keys are 1 and 9, which is no string; a relation (102, 20). */
static const uint8_t block[] = {
    0x0A, 0x0F, 0x0A, 0x00, 0x0A, 0x01, 0x6B, 0x0A, 0x01, 0x76, 0x0A, 0x05, 0x6F, 0x75, 0x74, 0x65, 0x72, 0x12, 0x3A, 0x12,
    0x26, 0x0A, 0x02, 0x14, 0x02, 0x2A, 0x12, 0x0A, 0x01, 0x03, 0x12, 0x01, 0x0A, 0x1A, 0x01, 0x0E, 0x22, 0x01, 0x12, 0x2A,
    0x01, 0x02, 0x32, 0x01, 0x00, 0x42, 0x02, 0x02, 0x04, 0x4A, 0x02, 0x01, 0x01, 0x52, 0x04, 0x01, 0x02, 0x00, 0x00, 0x0A,
    0x10, 0x08, 0x0A, 0x12, 0x01, 0x01, 0x1A, 0x01, 0x02, 0x22, 0x02, 0x08, 0x02, 0x40, 0x08, 0x48, 0x07, 0x12, 0x2B, 0x1A,
    0x13, 0x08, 0x07, 0x12, 0x02, 0x01, 0x09, 0x1A, 0x02, 0x02, 0x02, 0x22, 0x02, 0x08, 0x04, 0x42, 0x03, 0x02, 0x02, 0x01,
    0x22, 0x14, 0x08, 0x08, 0x42, 0x04, 0x03, 0x00, 0x03, 0x03, 0x4A, 0x04, 0x14, 0x01, 0x04, 0x06, 0x52, 0x04, 0x00, 0x01,
    0x02, 0x07, 0x88, 0x01, 0x65, 0x98, 0x01, 0xFB, 0xFF, 0xFF, 0xFF, 0xFF, 0xFF, 0xFF, 0xFF, 0xFF, 0x01, 0xA0, 0x01, 0x06};

#define BUFFER NUORPYTS_BUFFER_SIZE(sizeof block)

static uint8_t buffer[BUFFER], record[NUORPYTS_RECORD_SIZE];
static const struct read whole = {buffer, BUFFER, record, NUORPYTS_RECORD_SIZE};

static void scan(void) {
    now = "scan";
    memcpy(buffer, block, sizeof block);
    EXPECT(nuorpyts_scan(buffer, BUFFER, sizeof block, record, sizeof record) == NUORPYTS_OK);
    EXPECT(nuorpyts_check(buffer, BUFFER, record, sizeof record) == NUORPYTS_OK);
}

/* ---- its elements */

#define PLACE(place) (NUORPYTS_ELEMENT_VIEW + (place))
#define HEAD(kind, group, start, len)                                                                                             \
    {NUORPYTS_ELEMENT_KIND, kind}, {NUORPYTS_ELEMENT_GROUP, group}, {NUORPYTS_ELEMENT_MESSAGE_START, start}, {                    \
        NUORPYTS_ELEMENT_MESSAGE_LENGTH, len                                                                                      \
    }
#define PART(place, present, start, len)                                                                                          \
    {PLACE(place) + NUORPYTS_PART_PRESENT, present}, {PLACE(place) + NUORPYTS_PART_START, start}, {                               \
        PLACE(place) + NUORPYTS_PART_LENGTH, len                                                                                  \
    }
#define NO_PART(place) PART(place, 0, 0, 0)
#define DENSE_NODE(id, lat, lon, tags, info)                                                                                      \
    HEAD(NUORPYTS_ELEMENT_DENSE_NODE, 0, 21, 38), {PLACE(NUORPYTS_DENSE_NODE_ID), id}, {PLACE(NUORPYTS_DENSE_NODE_LAT), lat},     \
        {PLACE(NUORPYTS_DENSE_NODE_LON), lon}, {PLACE(NUORPYTS_DENSE_NODE_TAGS_START), tags},                                     \
        {PLACE(NUORPYTS_DENSE_NODE_TAGS_END), 59}, {PLACE(NUORPYTS_DENSE_NODE_INFO), info}
#define NODE                                                                                                                      \
    HEAD(NUORPYTS_ELEMENT_NODE, 0, 61, 16), {PLACE(NUORPYTS_NODE_ID), 5}, {PLACE(NUORPYTS_NODE_LAT), 4}, {PLACE(NUORPYTS_NODE_LON), -4}, \
        PART(NUORPYTS_NODE_KEYS, 1, 65, 1), PART(NUORPYTS_NODE_VALS, 1, 68, 1)
#define WAY(info)                                                                                                                 \
    HEAD(NUORPYTS_ELEMENT_WAY, 1, 81, 19), {PLACE(NUORPYTS_WAY_ID), 7}, PART(NUORPYTS_WAY_KEYS, 1, 85, 2),                        \
        PART(NUORPYTS_WAY_VALS, 1, 89, 2), info, PART(NUORPYTS_WAY_REFS, 1, 97, 3), NO_PART(NUORPYTS_WAY_LAT),                    \
        NO_PART(NUORPYTS_WAY_LON), NO_PART(NUORPYTS_WAY_PINS)

static const struct number plain_first[] = {DENSE_NODE(10, 1, -1, 55, NUORPYTS_INFO_UNREAD)};
static const struct number plain_second[] = {DENSE_NODE(11, 3, -2, 58, NUORPYTS_INFO_UNREAD)};
static const struct number full_first[] = {DENSE_NODE(10, 1, -1, 55, NUORPYTS_INFO_READ),
                                           {PLACE(NUORPYTS_DENSE_NODE_VERSION), 3},
                                           {PLACE(NUORPYTS_DENSE_NODE_TIMESTAMP), 5},
                                           {PLACE(NUORPYTS_DENSE_NODE_CHANGESET), 7},
                                           {PLACE(NUORPYTS_DENSE_NODE_UID), 9},
                                           {PLACE(NUORPYTS_DENSE_NODE_USER_SID), 1},
                                           {PLACE(NUORPYTS_DENSE_NODE_VISIBLE), 0}};
static const struct number full_second[] = {DENSE_NODE(11, 3, -2, 58, NUORPYTS_INFO_MISSING)};
static const struct number plain_node[] = {NODE, NO_PART(NUORPYTS_NODE_INFO)};
static const struct number full_node[] = {NODE, PART(NUORPYTS_NODE_INFO, 1, 71, 2)};
static const struct number plain_way[] = {WAY(NO_PART(NUORPYTS_WAY_INFO))};
static const struct number full_way[] = {WAY(PART(NUORPYTS_WAY_INFO, 1, 93, 2))};
static const struct number relation[] = {HEAD(NUORPYTS_ELEMENT_RELATION, 1, 102, 20),
                                         {PLACE(NUORPYTS_RELATION_ID), 8},
                                         NO_PART(NUORPYTS_RELATION_KEYS),
                                         NO_PART(NUORPYTS_RELATION_VALS),
                                         NO_PART(NUORPYTS_RELATION_INFO),
                                         PART(NUORPYTS_RELATION_ROLES, 1, 106, 4),
                                         PART(NUORPYTS_RELATION_MEMIDS, 1, 112, 4),
                                         PART(NUORPYTS_RELATION_TYPES, 1, 118, 4)};
static const struct item plain[] = {ITEM(plain_first), ITEM(plain_second), ITEM(plain_node), ITEM(plain_way), ITEM(relation)};
static const struct item full[] = {ITEM(full_first), ITEM(full_second), ITEM(full_node), ITEM(full_way), ITEM(relation)};
enum { FIRST, SECOND, NODE_AT, WAY_AT, RELATION_AT };

/* ---- the walk, by step and by next */

static uint32_t step(const struct read *from, uint8_t *state, size_t state_len, uint8_t *out, size_t out_len) {
    return nuorpyts_step(from->buffer, from->len, from->record, from->record_len, state, state_len, out, out_len);
}
static uint32_t next(const struct read *from, uint8_t *state, size_t state_len, uint8_t *out, size_t out_len) {
    return nuorpyts_next(from->buffer, from->len, from->record, from->record_len, state, state_len, out, out_len);
}
static uint32_t steps(const struct read *from, uint8_t *state, size_t state_len, uint8_t *out, size_t out_len, uint8_t *count,
                      size_t count_len) {
    return nuorpyts_steps(from->buffer, from->len, from->record, from->record_len, state, state_len, out, out_len, count, count_len);
}
static const struct walk by_step = {"step", NUORPYTS_WALK_SIZE, NUORPYTS_NUMBER_SIZE, NUORPYTS_ELEMENT_SIZE, 1, step, steps};
static const struct walk by_next = {"next", NUORPYTS_WALK_SIZE, NUORPYTS_NUMBER_SIZE, NUORPYTS_ELEMENT_SIZE, 1, next, steps};

typedef uint32_t (*walk_start)(uint8_t *state, size_t state_len);

/* The state before the first group; a slot that is too short stays as it is. */
static void start(walk_start at, uint8_t *state) {
    fill(state);
    EXPECT(at(state + LEFT, NUORPYTS_WALK_SIZE - 1) == NUORPYTS_OUTSIDE && is_filled(state, 0));
    EXPECT(at(state + LEFT, NUORPYTS_WALK_SIZE) == NUORPYTS_OK);
    EXPECT(is_filled_between(state, 0, LEFT) && is_filled(state, LEFT + NUORPYTS_WALK_SIZE));
    EXPECT(nuorpyts_read_number(state + LEFT + NUORPYTS_STATE_PHASE) != NUORPYTS_PHASE_ENDED);
}

static void elements(const struct walk *walk) {
    uint8_t state[ROOM];
    now = walk->name;
    start(nuorpyts_walk, state);
    walks(walk, &whole, state + LEFT, plain, COUNT(plain), NUORPYTS_ENDED);
    start(nuorpyts_walk_full, state);
    walks(walk, &whole, state + LEFT, full, COUNT(full), NUORPYTS_ENDED);
    EXPECT(COUNT(plain_way) * NUORPYTS_NUMBER_SIZE == NUORPYTS_ELEMENT_SIZE);
    EXPECT(COUNT(full_first) * NUORPYTS_NUMBER_SIZE == PLACE(NUORPYTS_DENSE_NODE_SIZE));
}

/* A fresh state with one number changed, whichever that is: it is refused with 14 and ends, or the number does not matter and the first
 * element comes. Two of them matter: whether the walk is full, and its place. */
static void changed_states(void) {
    struct lengths len = {NUORPYTS_WALK_SIZE, NUORPYTS_ELEMENT_SIZE, NUORPYTS_COUNT_SIZE};
    uint8_t state[ROOM], changed[NUORPYTS_WALK_SIZE];
    size_t place, refusals = 0;
    now = "changed states";
    start(nuorpyts_walk, state);
    for (place = NUORPYTS_NUMBER_SIZE; place < NUORPYTS_WALK_SIZE; place += NUORPYTS_NUMBER_SIZE) {
        struct slices to;
        memcpy(changed, state + LEFT, NUORPYTS_WALK_SIZE);
        nuorpyts_write_number(changed + place, UINT64_MAX);
        lend(&to, changed, NUORPYTS_WALK_SIZE);
        if (call(&by_step, &whole, &to, len, 0) == NUORPYTS_OK) {
            EXPECT(has_numbers(to.out + LEFT, &plain[0]));
        } else {
            refuses(&by_step, &whole, changed, len, 0, NUORPYTS_OUTSIDE);
            refuses(&by_step, &whole, changed, len, 1, NUORPYTS_OUTSIDE);
            refusals++;
        }
    }
    EXPECT(refusals == 2);
}

/* A walk over the buffer with one byte changed: `n` elements, and then `code`. A batch that meets it gives the elements before it. */
static void refused_at(size_t place, uint8_t byte, size_t n, uint32_t code) {
    uint8_t changed[BUFFER], state[ROOM];
    struct read from = whole;
    memcpy(changed, buffer, BUFFER);
    changed[place] = byte;
    from.buffer = changed;
    start(nuorpyts_walk, state);
    gives_singly(&by_step, &from, state + LEFT, plain, n, 0, code);
    gives_in_batches(&by_step, &from, state + LEFT, plain, n, 4, code);
}

static void refused(void) {
    now = "a refused walk";
    /* a second dense node whose latitude is cut, a way whose first field is of wire type 6, and a group whose range passes the buffer */
    refused_at(48, 0x80, 1, NUORPYTS_VARINT_CUT);
    refused_at(81, 0x0E, 3, NUORPYTS_WIRE_TYPE);
    refused_at(NUORPYTS_GROUPTABLE_PLACE(sizeof block, 4) + NUORPYTS_ENTRY_SIZE + NUORPYTS_ENTRY_LENGTH + 3, 0x01, 3, NUORPYTS_OUTSIDE);
}

/* An element of the plain walk, by its number. */
static void element_at(size_t number, uint8_t *element) {
    uint8_t state[NUORPYTS_WALK_SIZE];
    size_t i;
    EXPECT(nuorpyts_walk(state, sizeof state) == NUORPYTS_OK);
    for (i = 0; i <= number; i++) {
        EXPECT(step(&whole, state, sizeof state, element, NUORPYTS_ELEMENT_SIZE) == NUORPYTS_OK);
    }
}

/* ---- tags */

static uint32_t tag(const struct read *from, uint8_t *state, size_t state_len, uint8_t *out, size_t out_len) {
    return nuorpyts_tag(from->buffer, from->len, from->record, from->record_len, state, state_len, out, out_len);
}
static uint32_t tags(const struct read *from, uint8_t *state, size_t state_len, uint8_t *out, size_t out_len, uint8_t *count,
                     size_t count_len) {
    return nuorpyts_tags(from->buffer, from->len, from->record, from->record_len, state, state_len, out, out_len, count, count_len);
}
static uint32_t raw_tag(const struct read *from, uint8_t *state, size_t state_len, uint8_t *out, size_t out_len) {
    return nuorpyts_raw_tag(from->buffer, from->len, state, state_len, out, out_len);
}
static uint32_t raw_tags(const struct read *from, uint8_t *state, size_t state_len, uint8_t *out, size_t out_len, uint8_t *count,
                         size_t count_len) {
    return nuorpyts_raw_tags(from->buffer, from->len, state, state_len, out, out_len, count, count_len);
}
static const struct walk by_tag = {"tags", NUORPYTS_TAGS_SIZE, NUORPYTS_TAGS_SIZE, NUORPYTS_TAG_SIZE, 1, tag, tags};
static const struct walk by_raw_tag = {"raw tags", NUORPYTS_TAGS_SIZE, NUORPYTS_TAGS_SIZE, NUORPYTS_RAW_TAG_SIZE, 0, raw_tag, raw_tags};

static const struct number shown[] = {{NUORPYTS_TAG_KEY, 1},        {NUORPYTS_TAG_VAL, 2},       {NUORPYTS_TAG_KEY_START, 6},
                                      {NUORPYTS_TAG_KEY_LENGTH, 1}, {NUORPYTS_TAG_VAL_START, 9}, {NUORPYTS_TAG_VAL_LENGTH, 1}};
static const struct number first_pair[] = {{NUORPYTS_RAW_TAG_KEY, 1}, {NUORPYTS_RAW_TAG_VAL, 2}};
static const struct number second_pair[] = {{NUORPYTS_RAW_TAG_KEY, 9}, {NUORPYTS_RAW_TAG_VAL, 2}};
static const struct item shown_tags[] = {ITEM(shown)};
static const struct item pairs[] = {ITEM(first_pair), ITEM(second_pair)};

/* ---- references and members */

static uint32_t ref(const struct read *from, uint8_t *state, size_t state_len, uint8_t *out, size_t out_len) {
    return nuorpyts_ref(from->buffer, from->len, state, state_len, out, out_len);
}
static uint32_t refs(const struct read *from, uint8_t *state, size_t state_len, uint8_t *out, size_t out_len, uint8_t *count,
                     size_t count_len) {
    return nuorpyts_refs(from->buffer, from->len, state, state_len, out, out_len, count, count_len);
}
static uint32_t member(const struct read *from, uint8_t *state, size_t state_len, uint8_t *out, size_t out_len) {
    return nuorpyts_member(from->buffer, from->len, from->record, from->record_len, state, state_len, out, out_len);
}
static uint32_t members(const struct read *from, uint8_t *state, size_t state_len, uint8_t *out, size_t out_len, uint8_t *count,
                        size_t count_len) {
    return nuorpyts_members(from->buffer, from->len, from->record, from->record_len, state, state_len, out, out_len, count, count_len);
}
static const struct walk by_ref = {"references", NUORPYTS_REFS_SIZE, NUORPYTS_REFS_SIZE, NUORPYTS_REF_SIZE, 0, ref, refs};
static const struct walk by_member = {"members", NUORPYTS_MEMBERS_SIZE, NUORPYTS_MEMBERS_SIZE, NUORPYTS_MEMBER_SIZE, 1, member, members};

static const struct number one[] = {{0, 1}}, two[] = {{0, 2}};
static const struct item references[] = {ITEM(one), ITEM(two), ITEM(one)};

#define MEMBER(role, what, type, id) \
    {{NUORPYTS_MEMBER_ROLE, role}, {NUORPYTS_MEMBER_CASE, what}, {NUORPYTS_MEMBER_TYPE, type}, {NUORPYTS_MEMBER_ID, id}}
static const struct number node_member[] = MEMBER(3, NUORPYTS_MEMBER_NODE, 0, 10);
static const struct number way_member[] = MEMBER(0, NUORPYTS_MEMBER_WAY, 1, 9);
static const struct number relation_member[] = MEMBER(3, NUORPYTS_MEMBER_RELATION, 2, 11);
static const struct number unknown_member[] = MEMBER(3, NUORPYTS_MEMBER_UNKNOWN, 7, 14);
static const struct item all_members[] = {ITEM(node_member), ITEM(way_member), ITEM(relation_member), ITEM(unknown_member)};

/* ---- their starts */

typedef uint32_t (*sub_start)(const uint8_t *element, size_t element_len, uint8_t *state, size_t state_len);

/* The code of a start in a slot that just holds the state; where it is not 0, the state has ended. */
static void starts(sub_start at, const struct walk *walk, const uint8_t *element, size_t len, uint32_t code, uint8_t *state) {
    fill(state);
    EXPECT(at(element, len, state + LEFT, walk->size - 1) == NUORPYTS_OUTSIDE && is_filled(state, 0));
    EXPECT(at(element, len, state + LEFT, walk->size) == code);
    EXPECT(is_filled_between(state, 0, LEFT) && is_filled(state, LEFT + walk->size));
    EXPECT(code == NUORPYTS_OK || nuorpyts_read_number(state + LEFT + NUORPYTS_STATE_PHASE) == NUORPYTS_PHASE_ENDED);
}

/* The walk over something of an element, from its start on, and the starts that are refused: an element that is too short, a kind that is
 * none, and a part, by its place, whose present is none. */
static void walks_from(sub_start at, const struct walk *walk, size_t number, const struct item *items, size_t n, size_t part) {
    uint8_t element[NUORPYTS_ELEMENT_SIZE], state[ROOM];
    now = walk->name;
    element_at(number, element);
    starts(at, walk, element, NUORPYTS_ELEMENT_SIZE, NUORPYTS_OK, state);
    walks(walk, &whole, state + LEFT, items, n, NUORPYTS_ENDED);
    starts(at, walk, element, NUORPYTS_ELEMENT_SIZE - 1, NUORPYTS_OUTSIDE, state);
    if (part > 0) {
        nuorpyts_write_number(element + PLACE(part) + NUORPYTS_PART_PRESENT, 2);
        starts(at, walk, element, NUORPYTS_ELEMENT_SIZE, NUORPYTS_OUTSIDE, state);
    }
    nuorpyts_write_number(element + NUORPYTS_ELEMENT_KIND, 4);
    starts(at, walk, element, NUORPYTS_ELEMENT_SIZE, NUORPYTS_OUTSIDE, state);
}

/* Of an element that has no such thing the ended state. */
static void starts_ended(sub_start at, const struct walk *walk, size_t number) {
    struct lengths len = {walk->size, walk->item, NUORPYTS_COUNT_SIZE};
    uint8_t element[NUORPYTS_ELEMENT_SIZE], state[ROOM];
    element_at(number, element);
    starts(at, walk, element, NUORPYTS_ELEMENT_SIZE, NUORPYTS_OK, state);
    leaves(walk, &whole, state + LEFT, len, 0, NUORPYTS_ENDED);
    leaves(walk, &whole, state + LEFT, len, 1, NUORPYTS_ENDED);
}

static void sub_walks(void) {
    walks_from(nuorpyts_start_tags, &by_tag, FIRST, shown_tags, COUNT(shown_tags), 0);
    walks_from(nuorpyts_start_tags, &by_tag, NODE_AT, shown_tags, COUNT(shown_tags), NUORPYTS_NODE_KEYS);
    walks_from(nuorpyts_start_tags, &by_tag, WAY_AT, shown_tags, COUNT(shown_tags), NUORPYTS_WAY_VALS);
    walks_from(nuorpyts_start_tags, &by_raw_tag, FIRST, pairs, 1, 0);
    walks_from(nuorpyts_start_tags, &by_raw_tag, WAY_AT, pairs, COUNT(pairs), NUORPYTS_WAY_KEYS);
    walks_from(nuorpyts_start_refs, &by_ref, WAY_AT, references, COUNT(references), NUORPYTS_WAY_REFS);
    walks_from(nuorpyts_start_members, &by_member, RELATION_AT, all_members, COUNT(all_members), NUORPYTS_RELATION_ROLES);
    walks_from(nuorpyts_start_members, &by_member, RELATION_AT, all_members, COUNT(all_members), NUORPYTS_RELATION_MEMIDS);
    walks_from(nuorpyts_start_members, &by_member, RELATION_AT, all_members, COUNT(all_members), NUORPYTS_RELATION_TYPES);
    starts_ended(nuorpyts_start_refs, &by_ref, FIRST);
    starts_ended(nuorpyts_start_refs, &by_ref, RELATION_AT);
    starts_ended(nuorpyts_start_members, &by_member, NODE_AT);
    starts_ended(nuorpyts_start_members, &by_member, WAY_AT);
}

/* ---- what goes with an element */

static int may_have_tags(size_t number, size_t len) {
    uint8_t element[NUORPYTS_ELEMENT_SIZE];
    element_at(number, element);
    return nuorpyts_has_tags(buffer, len, element);
}

static void has_tags(void) {
    now = "has tags";
    EXPECT(may_have_tags(FIRST, BUFFER) && !may_have_tags(SECOND, BUFFER));
    EXPECT(may_have_tags(NODE_AT, BUFFER) && may_have_tags(WAY_AT, BUFFER) && !may_have_tags(RELATION_AT, BUFFER));
    /* in a buffer that ends before the tags nothing is sure */
    EXPECT(may_have_tags(SECOND, 58) && !may_have_tags(SECOND, 59));
}

static void role(void) {
    uint8_t out[ROOM];
    size_t none[] = {4, INT32_MAX, (size_t)-1, (size_t)INT32_MIN}, wrong[] = {(size_t)INT32_MAX + 1, (size_t)INT32_MIN - 1, UINT32_MAX}, i;
    now = "role";
    SIZED(NUORPYTS_RANGE_SIZE, nuorpyts_role(buffer, BUFFER, record, sizeof record, 3, out, out_len));
    EXPECT(has_range(out, 12, 5));
    fill(out);
    for (i = 0; i < COUNT(none); i++) {
        EXPECT(nuorpyts_role(buffer, BUFFER, record, sizeof record, none[i], out, ROOM) == NUORPYTS_NONE);
    }
    for (i = 0; i < COUNT(wrong); i++) {
        EXPECT(nuorpyts_role(buffer, BUFFER, record, sizeof record, wrong[i], out, ROOM) == NUORPYTS_OUTSIDE);
    }
    EXPECT(nuorpyts_role(buffer, BUFFER, record, sizeof record - 1, 3, out, ROOM) == NUORPYTS_OUTSIDE);
    EXPECT(is_filled(out, 0));
}

static void nanodegrees(void) {
    uint8_t out[ROOM];
    now = "nanodegrees";
    SIZED(NUORPYTS_NANODEGREES_SIZE, nuorpyts_nanodegrees(record, sizeof record, 4, (size_t)-4, out, out_len));
    EXPECT(nuorpyts_read_signed(out + NUORPYTS_NANODEGREES_LAT) == 399 && nuorpyts_read_signed(out + NUORPYTS_NANODEGREES_LON) == -398);
    fill(out);
    EXPECT(nuorpyts_nanodegrees(record, sizeof record - 1, 4, 4, out, ROOM) == NUORPYTS_OUTSIDE && is_filled(out, 0));
}

/* ---- two blocks */

static uint32_t same(const struct read *a, const struct read *b, uint8_t *out, size_t out_len) {
    return nuorpyts_same_listing(a->buffer, a->len, a->record, a->record_len, b->buffer, b->len, b->record, b->record_len, out, out_len);
}

/* What is said of two blocks, both ways round. */
static void compares(const struct read *a, const struct read *b, uint64_t number) {
    uint8_t out[ROOM];
    SIZED(NUORPYTS_SAME_SIZE, same(a, b, out, out_len));
    EXPECT(nuorpyts_read_number(out) == number);
    SIZED(NUORPYTS_SAME_SIZE, same(b, a, out, out_len));
    EXPECT(nuorpyts_read_number(out) == number);
}

static void refuses_both(const struct read *a, const struct read *b, uint32_t code) {
    uint8_t out[ROOM];
    fill(out);
    EXPECT(same(a, b, out, ROOM) == code && is_filled(out, 0));
}

/* The block with one byte changed before its scan. */
static void scan_changed(struct read *to, uint8_t *bytes, uint8_t *rec, size_t place, uint8_t byte) {
    memcpy(bytes, block, sizeof block);
    bytes[place] = byte;
    EXPECT(nuorpyts_scan(bytes, BUFFER, sizeof block, rec, NUORPYTS_RECORD_SIZE) == NUORPYTS_OK);
    to->buffer = bytes;
    to->len = BUFFER;
    to->record = rec;
    to->record_len = NUORPYTS_RECORD_SIZE;
}

static void same_listing(void) {
    uint8_t bytes[BUFFER], rec[NUORPYTS_RECORD_SIZE], changed[BUFFER];
    struct read other, outside;
    now = "same listing";
    compares(&whole, &whole, NUORPYTS_SAME_YES);
    /* another version in the DenseInfo; another latitude, member's role and granularity */
    scan_changed(&other, bytes, rec, 29, 0x04);
    compares(&whole, &other, NUORPYTS_SAME_YES);
    scan_changed(&other, bytes, rec, 48, 0x06);
    compares(&whole, &other, NUORPYTS_SAME_NO);
    scan_changed(&other, bytes, rec, 106, 0x02);
    compares(&whole, &other, NUORPYTS_SAME_NO);
    scan_changed(&other, bytes, rec, 124, 0x66);
    compares(&whole, &other, NUORPYTS_SAME_NO);
    /* a latitude that is cut: the check's number, behind every 14 */
    scan_changed(&other, bytes, rec, 48, 0x80);
    refuses_both(&whole, &other, NUORPYTS_VARINT_CUT);
    refuses_both(&other, &whole, NUORPYTS_VARINT_CUT);
    outside = whole;
    outside.record_len--;
    refuses_both(&outside, &other, NUORPYTS_OUTSIDE);
    refuses_both(&other, &outside, NUORPYTS_OUTSIDE);
    outside = whole;
    outside.len = sizeof block;
    refuses_both(&outside, &other, NUORPYTS_OUTSIDE);
    refuses_both(&other, &outside, NUORPYTS_OUTSIDE);
    /* a table entry of a string that a tag shows, changed behind the scan */
    memcpy(changed, buffer, BUFFER);
    changed[NUORPYTS_STRINGTABLE_PLACE(sizeof block) + NUORPYTS_ENTRY_SIZE + NUORPYTS_ENTRY_LENGTH + 3] = 0x01;
    outside = whole;
    outside.buffer = changed;
    refuses_both(&whole, &outside, NUORPYTS_OUTSIDE);
    refuses_both(&outside, &outside, NUORPYTS_OUTSIDE);
}

int main(void) {
    scan();
    elements(&by_step);
    elements(&by_next);
    refused();
    changed_states();
    sub_walks();
    has_tags();
    role();
    nanodegrees();
    same_listing();
    return expected();
}

/* Holds the header to the library, but for walks, which walks.c does: every function is called through its declaration, every answer has
 * exactly its SIZE, every place holds the one number that stands there, and every code is given by a block that is known to give it. A
 * name, a size, a place or a code that is wrong in the header fails here. C99 and C++11. */
#include "lent.h"

#include <stdlib.h>

/* ---- parts */

static int has_part(const uint8_t *out, size_t start, size_t len) {
    return nuorpyts_read_number(out + NUORPYTS_PART_PRESENT) == 1 && nuorpyts_read_number(out + NUORPYTS_PART_START) == start &&
           nuorpyts_read_number(out + NUORPYTS_PART_LENGTH) == len;
}

static int has_no_part(const uint8_t *out) {
    return nuorpyts_read_number(out + NUORPYTS_PART_PRESENT) == 0 && nuorpyts_read_number(out + NUORPYTS_PART_START) == 0 &&
           nuorpyts_read_number(out + NUORPYTS_PART_LENGTH) == 0;
}

/* ---- the version, numbers and the words of codes */

static void version(void) {
    char text[40];
    now = "version";
    snprintf(text, sizeof text, "%u.%u.%u", NUORPYTS_VERSION_MAJOR, NUORPYTS_VERSION_MINOR, NUORPYTS_VERSION_PATCH);
    EXPECT(strcmp(text, NUORPYTS_VERSION) == 0);
}

static void numbers(void) {
    static const uint8_t counted[] = {8, 7, 6, 5, 4, 3, 2, 1};
    static const uint64_t values[] = {0, 1, 0x7FFFFFFFFFFFFFFF, 0x8000000000000000, 0xFFFFFFFFFFFFFFFF};
    static const int64_t signs[] = {0, 1, INT64_MAX, INT64_MIN, -1};
    uint8_t out[ROOM];
    size_t i;
    now = "numbers";
    EXPECT(sizeof counted == NUORPYTS_NUMBER_SIZE);
    EXPECT(nuorpyts_read_number(counted) == 0x0102030405060708);
    EXPECT(nuorpyts_read_entry(counted) == 0x05060708);
    EXPECT(nuorpyts_read_entry(counted + 4) == 0x01020304);
    fill(out);
    nuorpyts_write_number(out, 0x0102030405060708);
    EXPECT(memcmp(out, counted, sizeof counted) == 0 && is_filled(out, sizeof counted));
    for (i = 0; i < COUNT(values); i++) {
        nuorpyts_write_number(out, values[i]);
        EXPECT(nuorpyts_read_number(out) == values[i]);
        EXPECT(nuorpyts_read_signed(out) == signs[i]);
        nuorpyts_write_number(out, (uint64_t)signs[i]);
        EXPECT(nuorpyts_read_number(out) == values[i]);
    }
    memset(out, 0xFF, NUORPYTS_NUMBER_SIZE);
    EXPECT(nuorpyts_read_entry(out) == 0xFFFFFFFF);
}

/* Words that stand in the text of one code alone. */
static const struct worded {
    uint32_t code;
    const char *words;
} texts[] = {
    {NUORPYTS_OK, "success"},
    {NUORPYTS_BLOCK_TOO_LONG, "longer than 32 MiB"},
    {NUORPYTS_VARINT_CUT, "end inside a varint"},
    {NUORPYTS_VARINT_LONG, "ten bytes of a varint"},
    {NUORPYTS_TAG_VALUE, "a tag above"},
    {NUORPYTS_WIRE_TYPE, "wire type 6 or 7"},
    {NUORPYTS_PAST_END, "passes the end"},
    {NUORPYTS_GROUP_DEPTH, "seventeenth"},
    {NUORPYTS_GRANULARITY, "date granularity"},
    {NUORPYTS_SECOND_COLUMN, "second occurrence of a column"},
    {NUORPYTS_SECOND_INFO, "second Info"},
    {NUORPYTS_SECOND_DENSE, "second dense"},
    {NUORPYTS_COUNTS, "different counts"},
    {NUORPYTS_NO_ROOM, "too short for the tables"},
    {NUORPYTS_OUTSIDE, "outside the buffer"},
    {NUORPYTS_NONE, "no such string"},
    {NUORPYTS_ENDED, "no more"},
};

static const char *words_of(uint32_t code) {
    size_t i;
    for (i = 0; i < COUNT(texts); i++) {
        if (texts[i].code == code) {
            return texts[i].words;
        }
    }
    return "unknown code";
}

static void text_of(uint32_t code) {
    size_t i;
    EXPECT(strstr(nuorpyts_text(code), words_of(code)) != NULL);
    for (i = 0; i < COUNT(texts); i++) {
        EXPECT(texts[i].code == code || strstr(nuorpyts_text(code), texts[i].words) == NULL);
    }
}

static void text(void) {
    uint32_t code;
    now = "text";
    for (code = 0; code < 300; code++) {
        text_of(code);
    }
    text_of(UINT32_MAX);
}

/* ---- blocks */

/* Strings "" and "a" (4, 0), (6, 1); groups (9, 0), (11, 2), (15, 4); granularity 101, date granularity 1001, offsets -5 and 6. */
static const uint8_t known[] = {0x0A, 0x05, 0x0A, 0x00, 0x0A, 0x01, 0x61, 0x12, 0x00, 0x12, 0x02, 0x0A, 0x00, 0x12,
                                0x04, 0x1A, 0x02, 0x08, 0x07, 0x88, 0x01, 0x65, 0x90, 0x01, 0xE9, 0x07, 0x98, 0x01,
                                0xFB, 0xFF, 0xFF, 0xFF, 0xFF, 0xFF, 0xFF, 0xFF, 0xFF, 0x01, 0xA0, 0x01, 0x06};
static const size_t strings[][2] = {{4, 0}, {6, 1}};
static const size_t groups[][2] = {{9, 0}, {11, 2}, {15, 4}};

#define BUFFER NUORPYTS_BUFFER_SIZE(sizeof known)

static void scanned(uint8_t *buffer, uint8_t *out) {
    memset(buffer, 0xA5, BUFFER);
    memcpy(buffer, known, sizeof known);
    SIZED(NUORPYTS_RECORD_SIZE, nuorpyts_scan(buffer, BUFFER, sizeof known, out, out_len));
}

static void record(void) {
    uint8_t buffer[BUFFER], out[ROOM];
    now = "record";
    scanned(buffer, out);
    EXPECT(memcmp(buffer, known, sizeof known) == 0);
    EXPECT(nuorpyts_read_number(out + NUORPYTS_RECORD_BLOCK) == sizeof known);
    EXPECT(nuorpyts_read_number(out + NUORPYTS_RECORD_STRINGS) == COUNT(strings));
    EXPECT(nuorpyts_read_number(out + NUORPYTS_RECORD_STRINGTABLE) == NUORPYTS_STRINGTABLE_PLACE(sizeof known));
    EXPECT(nuorpyts_read_number(out + NUORPYTS_RECORD_GROUPS) == COUNT(groups));
    EXPECT(nuorpyts_read_number(out + NUORPYTS_RECORD_GROUPTABLE) == NUORPYTS_GROUPTABLE_PLACE(sizeof known, COUNT(strings)));
    EXPECT(nuorpyts_read_signed(out + NUORPYTS_RECORD_GRANULARITY) == 101);
    EXPECT(nuorpyts_read_signed(out + NUORPYTS_RECORD_DATEGRANULARITY) == 1001);
    EXPECT(nuorpyts_read_signed(out + NUORPYTS_RECORD_LATOFFSET) == -5);
    EXPECT(nuorpyts_read_signed(out + NUORPYTS_RECORD_LONOFFSET) == 6);
    EXPECT(NUORPYTS_RECORD_SIZE == 9 * NUORPYTS_NUMBER_SIZE);
}

static int has_entry(const uint8_t *table, size_t at, const size_t *range) {
    const uint8_t *entry = table + at * NUORPYTS_ENTRY_SIZE;
    return nuorpyts_read_entry(entry + NUORPYTS_ENTRY_START) == range[0] && nuorpyts_read_entry(entry + NUORPYTS_ENTRY_LENGTH) == range[1];
}

static void tables(void) {
    uint8_t buffer[BUFFER], record[ROOM], out[ROOM];
    size_t i;
    now = "tables";
    scanned(buffer, record);
    for (i = 0; i < COUNT(strings); i++) {
        EXPECT(has_entry(buffer + NUORPYTS_STRINGTABLE_PLACE(sizeof known), i, strings[i]));
        SIZED(NUORPYTS_RANGE_SIZE, nuorpyts_get(buffer, BUFFER, record, NUORPYTS_RECORD_SIZE, i, out, out_len));
        EXPECT(has_range(out, strings[i][0], strings[i][1]));
    }
    for (i = 0; i < COUNT(groups); i++) {
        EXPECT(has_entry(buffer + NUORPYTS_GROUPTABLE_PLACE(sizeof known, COUNT(strings)), i, groups[i]));
        SIZED(NUORPYTS_RANGE_SIZE, nuorpyts_group(buffer, BUFFER, record, NUORPYTS_RECORD_SIZE, i, out, out_len));
        EXPECT(has_range(out, groups[i][0], groups[i][1]));
    }
    EXPECT(nuorpyts_get(buffer, BUFFER, record, NUORPYTS_RECORD_SIZE, COUNT(strings), out, ROOM) == NUORPYTS_NONE);
    EXPECT(nuorpyts_group(buffer, BUFFER, record, NUORPYTS_RECORD_SIZE, COUNT(groups), out, ROOM) == NUORPYTS_OUTSIDE);
}

/* The record goes in with exactly its size. The block's length and the string table's place are one number after a scan: which is which is
 * told by what each of them changes. */
static void record_in(void) {
    uint8_t buffer[BUFFER], record[ROOM], out[ROOM];
    now = "record in";
    scanned(buffer, record);
    EXPECT(nuorpyts_check(buffer, BUFFER, record, NUORPYTS_RECORD_SIZE) == NUORPYTS_OK);
    EXPECT(nuorpyts_check(buffer, BUFFER, record, NUORPYTS_RECORD_SIZE - 1) == NUORPYTS_OUTSIDE);
    EXPECT(nuorpyts_get(buffer, BUFFER, record, NUORPYTS_RECORD_SIZE - 1, 0, out, ROOM) == NUORPYTS_OUTSIDE);
    EXPECT(nuorpyts_group(buffer, BUFFER, record, NUORPYTS_RECORD_SIZE - 1, 0, out, ROOM) == NUORPYTS_OUTSIDE);
    nuorpyts_write_number(record + NUORPYTS_RECORD_BLOCK, BUFFER + 1);
    EXPECT(nuorpyts_check(buffer, BUFFER, record, NUORPYTS_RECORD_SIZE) == NUORPYTS_OUTSIDE);
    EXPECT(nuorpyts_get(buffer, BUFFER, record, NUORPYTS_RECORD_SIZE, 0, out, ROOM) == NUORPYTS_OK);
    EXPECT(has_range(out, strings[0][0], strings[0][1]));
    nuorpyts_write_number(record + NUORPYTS_RECORD_BLOCK, sizeof known);
    nuorpyts_write_number(record + NUORPYTS_RECORD_STRINGTABLE, NUORPYTS_STRINGTABLE_PLACE(sizeof known) + NUORPYTS_ENTRY_SIZE);
    EXPECT(nuorpyts_check(buffer, BUFFER, record, NUORPYTS_RECORD_SIZE) == NUORPYTS_OK);
    EXPECT(nuorpyts_get(buffer, BUFFER, record, NUORPYTS_RECORD_SIZE, 0, out, ROOM) == NUORPYTS_OK);
    EXPECT(has_range(out, strings[1][0], strings[1][1]));
}

/* A block of empty groups needs the whole of NUORPYTS_BUFFER_SIZE. */
static void buffer_size(void) {
    uint8_t block[20], buffer[NUORPYTS_BUFFER_SIZE(sizeof block)], out[ROOM];
    size_t i;
    now = "buffer size";
    EXPECT(NUORPYTS_BUFFER_SIZE(NUORPYTS_BLOCK_LIMIT) == (size_t)NUORPYTS_BUFFER_TIMES * NUORPYTS_BLOCK_LIMIT);
    for (i = 0; i < sizeof block; i += 2) {
        block[i] = 0x12;
        block[i + 1] = 0x00;
    }
    memcpy(buffer, block, sizeof block);
    EXPECT(nuorpyts_scan(buffer, sizeof buffer - 1, sizeof block, out, ROOM) == NUORPYTS_NO_ROOM);
    EXPECT(nuorpyts_scan(buffer, sizeof buffer, sizeof block, out, ROOM) == NUORPYTS_OK);
}

static void kind_of(const uint8_t *group, size_t len, uint64_t kind) {
    uint8_t out[ROOM];
    SIZED(NUORPYTS_KIND_SIZE, nuorpyts_classify(group, 2, 0, len, out, out_len));
    EXPECT(nuorpyts_read_number(out) == kind);
}

static void kinds(void) {
    static const uint8_t first[][2] = {{0x0A, 0x00}, {0x12, 0x00}, {0x1A, 0x00}, {0x22, 0x00}, {0x2A, 0x00}};
    now = "kinds";
    kind_of(first[0], 0, NUORPYTS_KIND_EMPTY);
    kind_of(first[0], 2, NUORPYTS_KIND_NODES);
    kind_of(first[1], 2, NUORPYTS_KIND_DENSE_NODES);
    kind_of(first[2], 2, NUORPYTS_KIND_WAYS);
    kind_of(first[3], 2, NUORPYTS_KIND_RELATIONS);
    kind_of(first[4], 2, NUORPYTS_KIND_MIXED);
}

/* ---- codes: blocks that the scan or, behind it, the check refuses */

static const struct refused {
    uint32_t code;
    size_t len;
    uint8_t block[20];
} refusals[] = {
    {NUORPYTS_OK, 0, {0}},
    {NUORPYTS_VARINT_CUT, 1, {0x0A}},
    {NUORPYTS_VARINT_LONG, 10, {0xFF, 0xFF, 0xFF, 0xFF, 0xFF, 0xFF, 0xFF, 0xFF, 0xFF, 0xFF}},
    {NUORPYTS_TAG_VALUE, 1, {0x07}},
    {NUORPYTS_WIRE_TYPE, 1, {0x0E}},
    {NUORPYTS_PAST_END, 2, {0x0A, 0x01}},
    {NUORPYTS_GROUP_DEPTH, 17, {0x0B, 0x0B, 0x0B, 0x0B, 0x0B, 0x0B, 0x0B, 0x0B, 0x0B, 0x0B, 0x0B, 0x0B, 0x0B, 0x0B, 0x0B, 0x0B, 0x0B}},
    {NUORPYTS_GRANULARITY, 7, {0x88, 0x01, 0x80, 0x80, 0x80, 0x80, 0x08}},
    /* a way with two columns of references, a node with two infos, two dense messages, a way with a key and no value */
    {NUORPYTS_SECOND_COLUMN, 10, {0x12, 0x08, 0x1A, 0x06, 0x42, 0x01, 0x02, 0x42, 0x01, 0x02}},
    {NUORPYTS_SECOND_INFO, 12, {0x12, 0x0A, 0x0A, 0x08, 0x22, 0x02, 0x08, 0x01, 0x22, 0x02, 0x08, 0x01}},
    {NUORPYTS_SECOND_DENSE, 6, {0x12, 0x04, 0x12, 0x00, 0x12, 0x00}},
    {NUORPYTS_COUNTS, 7, {0x12, 0x05, 0x1A, 0x03, 0x12, 0x01, 0x05}},
};

static void codes(void) {
    uint8_t buffer[NUORPYTS_BUFFER_SIZE(20)], record[NUORPYTS_RECORD_SIZE];
    size_t i;
    now = "codes";
    for (i = 0; i < COUNT(refusals); i++) {
        uint32_t code;
        memcpy(buffer, refusals[i].block, sizeof refusals[i].block);
        code = nuorpyts_scan(buffer, sizeof buffer, refusals[i].len, record, sizeof record);
        if (code == NUORPYTS_OK) {
            code = nuorpyts_check(buffer, sizeof buffer, record, sizeof record);
        }
        EXPECT(code == refusals[i].code);
    }
    EXPECT(nuorpyts_scan(buffer, 2, 3, record, sizeof record) == NUORPYTS_OUTSIDE);
}

/* Of zeros, so that a block that is not too long is refused at its first tag. */
static void block_limit(void) {
    size_t len = (size_t)NUORPYTS_BLOCK_LIMIT + 1;
    uint8_t record[NUORPYTS_RECORD_SIZE];
    uint8_t *buffer = (uint8_t *)calloc(len, 1);
    now = "block limit";
    EXPECT(buffer != NULL);
    if (buffer != NULL) {
        EXPECT(nuorpyts_scan(buffer, len, len, record, sizeof record) == NUORPYTS_BLOCK_TOO_LONG);
        EXPECT(nuorpyts_scan(buffer, len, NUORPYTS_BLOCK_LIMIT, record, sizeof record) == NUORPYTS_TAG_VALUE);
    }
    free(buffer);
}

/* ---- views: each field of a message with the place where its numbers stand */

enum form { ZIGZAG, INT, OPTIONAL, PART };

static const size_t numbers_of[] = {1, 1, 2, 3};

struct row {
    enum form form;
    unsigned field;
    int64_t value; /* of a part, its length */
    size_t place;  /* of an optional number, that of its value */
    size_t present;
};

static const struct row node_rows[] = {
    {ZIGZAG, 1, -11, NUORPYTS_NODE_ID, 0}, {ZIGZAG, 8, 12, NUORPYTS_NODE_LAT, 0}, {ZIGZAG, 9, -13, NUORPYTS_NODE_LON, 0},
    {PART, 2, 2, NUORPYTS_NODE_KEYS, 0},   {PART, 3, 3, NUORPYTS_NODE_VALS, 0},   {PART, 4, 4, NUORPYTS_NODE_INFO, 0},
};
static const struct row way_rows[] = {
    {INT, 1, -11, NUORPYTS_WAY_ID, 0},  {PART, 2, 2, NUORPYTS_WAY_KEYS, 0}, {PART, 3, 3, NUORPYTS_WAY_VALS, 0},
    {PART, 4, 4, NUORPYTS_WAY_INFO, 0}, {PART, 8, 5, NUORPYTS_WAY_REFS, 0}, {PART, 9, 6, NUORPYTS_WAY_LAT, 0},
    {PART, 10, 7, NUORPYTS_WAY_LON, 0}, {PART, 20, 8, NUORPYTS_WAY_PINS, 0},
};
static const struct row relation_rows[] = {
    {INT, 1, -11, NUORPYTS_RELATION_ID, 0},    {PART, 2, 2, NUORPYTS_RELATION_KEYS, 0},
    {PART, 3, 3, NUORPYTS_RELATION_VALS, 0},   {PART, 4, 4, NUORPYTS_RELATION_INFO, 0},
    {PART, 8, 5, NUORPYTS_RELATION_ROLES, 0},  {PART, 9, 6, NUORPYTS_RELATION_MEMIDS, 0},
    {PART, 10, 7, NUORPYTS_RELATION_TYPES, 0},
};
static const struct row dense_nodes_rows[] = {
    {PART, 1, 2, NUORPYTS_DENSE_NODES_ID, 0},  {PART, 5, 3, NUORPYTS_DENSE_NODES_INFO, 0},
    {PART, 8, 4, NUORPYTS_DENSE_NODES_LAT, 0}, {PART, 9, 5, NUORPYTS_DENSE_NODES_LON, 0},
    {PART, 10, 6, NUORPYTS_DENSE_NODES_KEYS_VALS, 0},
};
static const struct row dense_info_rows[] = {
    {PART, 1, 2, NUORPYTS_DENSE_INFO_VERSION, 0},   {PART, 2, 3, NUORPYTS_DENSE_INFO_TIMESTAMP, 0},
    {PART, 3, 4, NUORPYTS_DENSE_INFO_CHANGESET, 0}, {PART, 4, 5, NUORPYTS_DENSE_INFO_UID, 0},
    {PART, 5, 6, NUORPYTS_DENSE_INFO_USER_SID, 0},  {PART, 6, 7, NUORPYTS_DENSE_INFO_VISIBLE, 0},
};
/* Visible is false, so that its value is no flag's number; `visible` has the other one. */
static const struct row info_rows[] = {
    {OPTIONAL, 1, 11, NUORPYTS_INFO_VERSION_VALUE, NUORPYTS_INFO_VERSION_PRESENT},
    {OPTIONAL, 2, -12, NUORPYTS_INFO_TIMESTAMP_VALUE, NUORPYTS_INFO_TIMESTAMP_PRESENT},
    {OPTIONAL, 3, 13, NUORPYTS_INFO_CHANGESET_VALUE, NUORPYTS_INFO_CHANGESET_PRESENT},
    {OPTIONAL, 4, 14, NUORPYTS_INFO_UID_VALUE, NUORPYTS_INFO_UID_PRESENT},
    {OPTIONAL, 5, 15, NUORPYTS_INFO_USER_SID_VALUE, NUORPYTS_INFO_USER_SID_PRESENT},
    {OPTIONAL, 6, 0, NUORPYTS_INFO_VISIBLE_VALUE, NUORPYTS_INFO_VISIBLE_PRESENT},
};

struct message {
    uint8_t bytes[ROOM];
    size_t len;
};

/* Messages begin here in their buffer. */
#define BEGIN 3u

static void put_varint(struct message *to, uint64_t value) {
    while (value > 0x7F) {
        to->bytes[to->len++] = (uint8_t)((value & 0x7F) | 0x80);
        value >>= 7;
    }
    to->bytes[to->len++] = (uint8_t)value;
}

/* The field with its value, or with a payload of so many bytes; where the payload begins. */
static size_t put_field(struct message *to, const struct row *row) {
    uint64_t value = (uint64_t)row->value;
    size_t start;
    put_varint(to, row->field * 8u + (row->form == PART ? 2u : 0u));
    put_varint(to, row->form != ZIGZAG ? value : row->value < 0 ? ~value * 2 + 1 : value * 2);
    start = to->len;
    if (row->form == PART) {
        memset(to->bytes + start, 0x01, (size_t)value);
        to->len += (size_t)value;
    }
    return start;
}

static int is_told(const uint8_t *out, const struct row *row, int present, size_t start) {
    int64_t value = nuorpyts_read_signed(out + row->place);
    if (row->form == PART) {
        return present ? has_part(out + row->place, start, (size_t)row->value) : has_no_part(out + row->place);
    }
    if (row->form == OPTIONAL && nuorpyts_read_number(out + row->present) != (present ? 1u : 0u)) {
        return 0;
    }
    return value == (present ? row->value : 0);
}

typedef uint32_t (*in_range)(const uint8_t *, size_t, size_t, size_t, uint8_t *, size_t);

struct view {
    const char *name;
    in_range read;
    size_t size;
    const struct row *rows;
    size_t count;
};

static const struct view views[] = {
    {"node", nuorpyts_node, NUORPYTS_NODE_SIZE, node_rows, COUNT(node_rows)},
    {"way", nuorpyts_way, NUORPYTS_WAY_SIZE, way_rows, COUNT(way_rows)},
    {"relation", nuorpyts_relation, NUORPYTS_RELATION_SIZE, relation_rows, COUNT(relation_rows)},
    {"dense nodes", nuorpyts_dense_nodes, NUORPYTS_DENSE_NODES_SIZE, dense_nodes_rows, COUNT(dense_nodes_rows)},
    {"dense info", nuorpyts_dense_info, NUORPYTS_DENSE_INFO_SIZE, dense_info_rows, COUNT(dense_info_rows)},
    {"info", nuorpyts_info, NUORPYTS_INFO_SIZE, info_rows, COUNT(info_rows)},
};

/* The view of a message that has those fields whose bits are set. */
static void view_of(const struct view *view, unsigned fields) {
    struct message message = {{0}, BEGIN};
    size_t starts[8], i;
    uint8_t out[ROOM];
    for (i = 0; i < view->count; i++) {
        starts[i] = fields >> i & 1 ? put_field(&message, &view->rows[i]) : 0;
    }
    SIZED(view->size, view->read(message.bytes, sizeof message.bytes, BEGIN, message.len - BEGIN, out, out_len));
    for (i = 0; i < view->count; i++) {
        EXPECT(is_told(out, &view->rows[i], fields >> i & 1, starts[i]));
    }
}

/* With all fields at once and with each alone, no two places can be taken for each other. */
static void view_whole(const struct view *view) {
    size_t told = 0, i;
    now = view->name;
    view_of(view, (1u << view->count) - 1);
    for (i = 0; i < view->count; i++) {
        view_of(view, 1u << i);
        told += numbers_of[view->rows[i].form];
    }
    EXPECT(told * NUORPYTS_NUMBER_SIZE == view->size);
}

static void visible(void) {
    static const uint8_t info[] = {0x30, 0x01};
    uint8_t out[ROOM];
    now = "visible";
    SIZED(NUORPYTS_INFO_SIZE, nuorpyts_info(info, sizeof info, 0, sizeof info, out, out_len));
    EXPECT(nuorpyts_read_number(out + NUORPYTS_INFO_VISIBLE_PRESENT) == 1);
    EXPECT(nuorpyts_read_number(out + NUORPYTS_INFO_VISIBLE_VALUE) == 1);
}

/* ---- a group's messages */

/* A node of 1 byte, a dense message of 2, a way of 3 and a relation of 4, whose payloads begin at 2, 5, 9 and 14; then a second way, at 20. */
static const uint8_t mixed[] = {0x0A, 0x01, 0x07, 0x12, 0x02, 0x07, 0x07, 0x1A, 0x03, 0x07, 0x07, 0x07,
                                0x22, 0x04, 0x07, 0x07, 0x07, 0x07, 0x1A, 0x01, 0x07};

static void dense(void) {
    uint8_t out[ROOM];
    now = "dense";
    SIZED(NUORPYTS_PART_SIZE, nuorpyts_dense(mixed, sizeof mixed, 0, sizeof mixed, out, out_len));
    EXPECT(has_part(out, 5, 2));
    EXPECT(NUORPYTS_PART_SIZE == 3 * NUORPYTS_NUMBER_SIZE);
}

static void first_state(uint8_t *state, size_t start, size_t len, uint32_t field) {
    fill(state);
    nuorpyts_messages_start(state, start, len, field);
    EXPECT(is_filled(state, NUORPYTS_MESSAGES_SIZE));
}

static int has_state(const uint8_t *state, uint64_t phase, uint64_t start, uint64_t len, uint64_t place, uint64_t field) {
    return nuorpyts_read_number(state + NUORPYTS_MESSAGES_PHASE) == phase && nuorpyts_read_number(state + NUORPYTS_MESSAGES_START) == start &&
           nuorpyts_read_number(state + NUORPYTS_MESSAGES_LENGTH) == len && nuorpyts_read_number(state + NUORPYTS_MESSAGES_PLACE) == place &&
           nuorpyts_read_number(state + NUORPYTS_MESSAGES_FIELD) == field && is_filled(state, NUORPYTS_MESSAGES_SIZE);
}

/* The ended state: five times 0. */
static int has_ended(const uint8_t *state) { return has_state(state, NUORPYTS_PHASE_ENDED, 0, 0, 0, 0); }

/* A call that gives no message: `out` stays as it is. */
static void gives_none(uint32_t code, const uint8_t *bytes, size_t len, uint8_t *state, size_t state_len, size_t out_len) {
    uint8_t out[ROOM];
    fill(out);
    EXPECT(nuorpyts_message(bytes, len, state, state_len, out, out_len) == code);
    EXPECT(is_filled(out, 0));
}

/* The first message of a field, and the states before and behind it. */
static void message_of(uint32_t field, size_t start, size_t len) {
    uint8_t buffer[BEGIN + sizeof mixed], state[ROOM], out[ROOM];
    memset(buffer, 0, BEGIN);
    memcpy(buffer + BEGIN, mixed, sizeof mixed);
    first_state(state, BEGIN, sizeof mixed, field);
    gives_none(NUORPYTS_OUTSIDE, buffer, sizeof buffer, state, NUORPYTS_MESSAGES_SIZE - 1, ROOM);
    EXPECT(has_state(state, NUORPYTS_PHASE_AT, BEGIN, sizeof mixed, 0, field));
    fill(out);
    EXPECT(nuorpyts_message(buffer, sizeof buffer, state, NUORPYTS_MESSAGES_SIZE, out, NUORPYTS_PART_SIZE) == NUORPYTS_OK);
    EXPECT(has_part(out, BEGIN + start, len) && is_filled(out, NUORPYTS_PART_SIZE));
    EXPECT(has_state(state, NUORPYTS_PHASE_AT, BEGIN, sizeof mixed, start + len, field));
}

/* The last message, the end, and what an ended state says: 101, whatever its other numbers, `out` and the buffer are. */
static void messages_end(void) {
    uint8_t state[ROOM], kept[ROOM], out[ROOM];
    first_state(state, 0, sizeof mixed, NUORPYTS_FIELD_WAY);
    EXPECT(nuorpyts_message(mixed, sizeof mixed, state, NUORPYTS_MESSAGES_SIZE, out, ROOM) == NUORPYTS_OK);
    EXPECT(nuorpyts_message(mixed, sizeof mixed, state, NUORPYTS_MESSAGES_SIZE, out, ROOM) == NUORPYTS_OK);
    EXPECT(has_part(out, 20, 1));
    gives_none(NUORPYTS_ENDED, mixed, sizeof mixed, state, NUORPYTS_MESSAGES_SIZE, ROOM);
    EXPECT(has_ended(state));
    gives_none(NUORPYTS_ENDED, mixed, sizeof mixed, state, NUORPYTS_MESSAGES_SIZE, ROOM);
    EXPECT(has_ended(state));
    fill(state);
    nuorpyts_write_number(state + NUORPYTS_MESSAGES_PHASE, NUORPYTS_PHASE_ENDED);
    memcpy(kept, state, ROOM);
    gives_none(NUORPYTS_ENDED, mixed, 0, state, NUORPYTS_MESSAGES_SIZE, 0);
    EXPECT(memcmp(kept, state, ROOM) == 0);
    gives_none(NUORPYTS_OUTSIDE, mixed, sizeof mixed, state, NUORPYTS_MESSAGES_SIZE - 1, ROOM);
    EXPECT(memcmp(kept, state, ROOM) == 0);
}

/* A message whose length passes the group ends the iteration, and it stays ended once the buffer is written anew. */
static void messages_cut(void) {
    uint8_t buffer[] = {0x0A, 0x0A, 0x00}, state[ROOM];
    first_state(state, 0, sizeof buffer, NUORPYTS_FIELD_NODE);
    gives_none(NUORPYTS_ENDED, buffer, sizeof buffer, state, NUORPYTS_MESSAGES_SIZE, ROOM);
    EXPECT(has_ended(state));
    buffer[1] = 0x01;
    gives_none(NUORPYTS_ENDED, buffer, sizeof buffer, state, NUORPYTS_MESSAGES_SIZE, ROOM);
    EXPECT(has_ended(state));
}

/* A state with one number changed, and an answer's slice: 14, and the state has ended. */
static void no_message(size_t place, uint64_t number, size_t out_len) {
    uint8_t state[ROOM];
    first_state(state, 0, sizeof mixed, NUORPYTS_FIELD_NODE);
    nuorpyts_write_number(state + place, number);
    gives_none(NUORPYTS_OUTSIDE, mixed, sizeof mixed, state, NUORPYTS_MESSAGES_SIZE, out_len);
    EXPECT(has_ended(state));
}

static void messages(void) {
    now = "messages";
    message_of(NUORPYTS_FIELD_NODE, 2, 1);
    message_of(NUORPYTS_FIELD_DENSE, 5, 2);
    message_of(NUORPYTS_FIELD_WAY, 9, 3);
    message_of(NUORPYTS_FIELD_RELATION, 14, 4);
    messages_end();
    messages_cut();
    no_message(NUORPYTS_MESSAGES_PHASE, NUORPYTS_PHASE_AT, NUORPYTS_PART_SIZE - 1);
    no_message(NUORPYTS_MESSAGES_PHASE, 2, ROOM);
    no_message(NUORPYTS_MESSAGES_PHASE, (uint64_t)1 << 32, ROOM);
    no_message(NUORPYTS_MESSAGES_FIELD, (uint64_t)1 << 32, ROOM);
    no_message(NUORPYTS_MESSAGES_START, 1, ROOM);
    no_message(NUORPYTS_MESSAGES_LENGTH, sizeof mixed + 1, ROOM);
    no_message(NUORPYTS_MESSAGES_PLACE, sizeof mixed + 1, ROOM);
    EXPECT(NUORPYTS_MESSAGES_SIZE == 5 * NUORPYTS_NUMBER_SIZE);
}

int main(void) {
    size_t i;
    version();
    numbers();
    text();
    record();
    tables();
    record_in();
    buffer_size();
    kinds();
    codes();
    block_limit();
    for (i = 0; i < COUNT(views); i++) {
        view_whole(&views[i]);
    }
    visible();
    dense();
    messages();
    return expected();
}

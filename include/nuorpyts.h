/* A reader for OSM PBF map blocks, for C99 and C++11 on x86-64.
 *
 * Numbers go in as themselves, bytes as a pointer and a length. Answers go into bytes that the caller lends: each number takes 8 bytes, the
 * lowest first, and several stand one behind the other. A signed number is its two's complement at 64 bits. Each answer has a SIZE in bytes,
 * and each of its numbers a place, where its bytes begin: nuorpyts_read_signed(way + NUORPYTS_WAY_ID).
 *
 * Every function that is linked returns a code: 0 for success, the number of a refusal, or one of the two codes above the refusals. Where
 * the code is not 0, no byte of any buffer changes, with one exception: a slot for a state, which stands for a value, then holds the ended
 * state, whose first number is 0. A slice for an answer that is too short gives 14 before anything else is looked at, but for a slot whose
 * state has ended. A longer one is fine: only the bytes that the answer takes are written.
 *
 * Every call ends, on all bytes and all arguments, and reads and writes nothing outside what it is lent. For that each pointer has to
 * point to as many bytes as its length says, where the length is 0 to anything but null, and bytes that a call may write must not overlap
 * others that it is lent. */
#ifndef NUORPYTS_H
#define NUORPYTS_H

#include <stddef.h>
#include <stdint.h>

#ifdef __cplusplus
extern "C" {
#endif

/* ---- the version of this header and its library */

#define NUORPYTS_VERSION_MAJOR 0u
#define NUORPYTS_VERSION_MINOR 2u
#define NUORPYTS_VERSION_PATCH 0u
#define NUORPYTS_VERSION "0.2.0"

/* ---- a number in an answer or a state */

#define NUORPYTS_NUMBER_SIZE 8u

/* The number whose 8 bytes begin here. */
static inline uint64_t nuorpyts_read_number(const uint8_t *from) {
    return (uint64_t)from[0] | (uint64_t)from[1] << 8 | (uint64_t)from[2] << 16 | (uint64_t)from[3] << 24 | (uint64_t)from[4] << 32 |
           (uint64_t)from[5] << 40 | (uint64_t)from[6] << 48 | (uint64_t)from[7] << 56;
}

/* The signed number whose 8 bytes begin here. */
static inline int64_t nuorpyts_read_signed(const uint8_t *from) {
    uint64_t value = nuorpyts_read_number(from);
    return value >> 63 == 0 ? (int64_t)value : -(int64_t)~value - 1;
}

/* Writes a number into the 8 bytes that begin here. A signed one is written as (uint64_t)value. */
static inline void nuorpyts_write_number(uint8_t *to, uint64_t value) {
    unsigned i;
    for (i = 0; i < NUORPYTS_NUMBER_SIZE; i++) {
        to[i] = (uint8_t)(value >> (8 * i) & 0xFF);
    }
}

/* ---- codes */

#define NUORPYTS_OK 0u
/* refusals */
#define NUORPYTS_BLOCK_TOO_LONG 1u
#define NUORPYTS_VARINT_CUT 2u
#define NUORPYTS_VARINT_LONG 3u
#define NUORPYTS_TAG_VALUE 4u
#define NUORPYTS_WIRE_TYPE 5u
#define NUORPYTS_PAST_END 6u
#define NUORPYTS_GROUP_DEPTH 7u
#define NUORPYTS_GRANULARITY 8u
#define NUORPYTS_SECOND_COLUMN 9u
#define NUORPYTS_SECOND_INFO 10u
#define NUORPYTS_SECOND_DENSE 11u
#define NUORPYTS_COUNTS 12u
#define NUORPYTS_NO_ROOM 13u
#define NUORPYTS_OUTSIDE 14u
/* neither success nor refusal */
#define NUORPYTS_NONE 100u
#define NUORPYTS_ENDED 101u

/* What a code means, in words. */
static inline const char *nuorpyts_text(uint32_t code) {
    switch (code) {
    case NUORPYTS_OK: return "success";
    case NUORPYTS_BLOCK_TOO_LONG: return "the block is longer than 32 MiB";
    case NUORPYTS_VARINT_CUT: return "the bytes end inside a varint, or before one that is due";
    case NUORPYTS_VARINT_LONG: return "ten bytes of a varint with the top bit set";
    case NUORPYTS_TAG_VALUE: return "a tag above 4294967295, or field number 0";
    case NUORPYTS_WIRE_TYPE: return "wire type 6 or 7, or an end tag that closes no group of its number";
    case NUORPYTS_PAST_END: return "a length or a fixed value passes the end, or the bytes end in a skipped group";
    case NUORPYTS_GROUP_DEPTH: return "a seventeenth skipped group inside sixteen";
    case NUORPYTS_GRANULARITY: return "a granularity or date granularity that is no int32";
    case NUORPYTS_SECOND_COLUMN: return "a second occurrence of a column that is not empty";
    case NUORPYTS_SECOND_INFO: return "a second Info or DenseInfo that is not empty";
    case NUORPYTS_SECOND_DENSE: return "a second dense field in a group";
    case NUORPYTS_COUNTS: return "columns of different counts";
    case NUORPYTS_NO_ROOM: return "the buffer is too short for the tables";
    case NUORPYTS_OUTSIDE:
        return "a length, range, table or state outside the buffer, a group number not below the count, or a slice that is too short";
    case NUORPYTS_NONE: return "there is no such string";
    case NUORPYTS_ENDED: return "there are no more";
    default: return "unknown code";
    }
}

/* ---- a block and the tables that the scan writes right behind it: an entry for each string, then one for each group */

#define NUORPYTS_BLOCK_LIMIT 33554432u /* the longest block that is read, in bytes */

#define NUORPYTS_ENTRY_SIZE 8u
#define NUORPYTS_ENTRY_START 0u  /* where the string or group begins in the buffer; 4 bytes, the lowest first */
#define NUORPYTS_ENTRY_LENGTH 4u /* its length, in the same way */
#define NUORPYTS_STRINGTABLE_PLACE(block) ((size_t)(block))
#define NUORPYTS_GROUPTABLE_PLACE(block, strings) ((size_t)(block) + NUORPYTS_ENTRY_SIZE * (size_t)(strings))

/* A number of a table entry, whose 4 bytes begin here. */
static inline uint32_t nuorpyts_read_entry(const uint8_t *from) {
    return (uint32_t)from[0] | (uint32_t)from[1] << 8 | (uint32_t)from[2] << 16 | (uint32_t)from[3] << 24;
}

/* A buffer that has room for a block of so many bytes and its tables, whatever the block holds: five times the block. The shortest string
 * and the shortest group take 2 bytes of the block and 8 of a table, so a block of nothing but empty groups needs all of it. */
#define NUORPYTS_BUFFER_TIMES 5u
#define NUORPYTS_BUFFER_SIZE(block) (NUORPYTS_BUFFER_TIMES * (size_t)(block))

/* ---- the record of a scanned block: 9 numbers */

#define NUORPYTS_RECORD_SIZE 72u
#define NUORPYTS_RECORD_BLOCK 0u            /* the block's length in bytes */
#define NUORPYTS_RECORD_STRINGS 8u          /* how many strings there are */
#define NUORPYTS_RECORD_STRINGTABLE 16u     /* where their table begins */
#define NUORPYTS_RECORD_GROUPS 24u          /* how many groups there are */
#define NUORPYTS_RECORD_GROUPTABLE 32u      /* where their table begins */
#define NUORPYTS_RECORD_GRANULARITY 40u     /* signed, in nanodegrees */
#define NUORPYTS_RECORD_DATEGRANULARITY 48u /* signed, in milliseconds */
#define NUORPYTS_RECORD_LATOFFSET 56u       /* signed, in nanodegrees */
#define NUORPYTS_RECORD_LONOFFSET 64u       /* signed, in nanodegrees */

/* ---- a range of the buffer: 2 numbers */

#define NUORPYTS_RANGE_SIZE 16u
#define NUORPYTS_RANGE_START 0u
#define NUORPYTS_RANGE_LENGTH 8u

/* ---- a group's kind: one number */

#define NUORPYTS_KIND_SIZE 8u
#define NUORPYTS_KIND_EMPTY 0u
#define NUORPYTS_KIND_NODES 1u
#define NUORPYTS_KIND_DENSE_NODES 2u
#define NUORPYTS_KIND_WAYS 3u
#define NUORPYTS_KIND_RELATIONS 4u
#define NUORPYTS_KIND_MIXED 5u

/* ---- blocks */

/* Scans the block in the first `block` bytes of the buffer.
 * Gives: the record, in 72 bytes of `out`.
 * Refuses: 14 where `out` is shorter than 72 bytes or `block` passes the buffer, 1 where the block is longer than 32 MiB, then what is
 * wrong with its fields or its string table, and 13 where the tables have no room behind the block; never 13 in a buffer of
 * NUORPYTS_BUFFER_SIZE(block) bytes.
 * Writes: the record, and right behind the block the tables. No other byte changes. */
uint32_t nuorpyts_scan(uint8_t *buffer, size_t buffer_len, size_t block, uint8_t *out, size_t out_len);

/* Finds a string by its number, from 0 on, in a scanned buffer.
 * Takes: the record's bytes as nuorpyts_scan gave them.
 * Gives: where the string stands in the buffer, a range, in 16 bytes of `out`. On what nuorpyts_scan left, string i is the i-th of the block's
 * last string table, by the block's bytes alone.
 * 100: the number is not below the record's string count, or its table entry passes the buffer.
 * Refuses: 14 where `out` is shorter than 16 bytes, `record` is shorter than 72 or has a granularity that is no int32, or the range
 * passes the buffer.
 * Writes: the 16 bytes. */
uint32_t nuorpyts_get(const uint8_t *buffer, size_t buffer_len, const uint8_t *record, size_t record_len, size_t index, uint8_t *out, size_t out_len);

/* Finds a group by its number, from 0 on, in a scanned buffer.
 * Takes: the record's bytes as nuorpyts_scan gave them.
 * Gives: where the group stands in the buffer, a range, in 16 bytes of `out`. On what nuorpyts_scan left, group i is the block's i-th, by the
 * block's bytes alone.
 * Refuses: 14 where `out` is shorter than 16 bytes, `record` is shorter than 72 or has a granularity that is no int32, the block or a
 * table of the record passes the buffer, the number is not below the record's group count, or the range passes the buffer.
 * Writes: the 16 bytes. */
uint32_t nuorpyts_group(const uint8_t *buffer, size_t buffer_len, const uint8_t *record, size_t record_len, size_t index, uint8_t *out, size_t out_len);

/* Says whether a scanned block may be walked.
 * Takes: the record's bytes as nuorpyts_scan gave them.
 * Gives: nothing but the code. On what nuorpyts_scan left, the code is by the block's bytes alone.
 * Refuses: 14 where `record` is shorter than 72 bytes or has a granularity that is no int32, the block or a table of the record passes the
 * buffer, or the range of any group does; then the first met in reading order: in each group 2 to 7 and 11 over its own fields, then in its
 * dense message, its nodes, its ways and its relations 2 to 7 where a field or a column cannot be read, 9 at a second column that is not
 * empty, 10 at a second info that is not empty, and 12 where columns that go together differ in count.
 * Writes: nothing. */
uint32_t nuorpyts_check(const uint8_t *buffer, size_t buffer_len, const uint8_t *record, size_t record_len);

/* Says what kind of elements a group holds, by its first byte.
 * Takes: the group's range, as nuorpyts_group gave it.
 * Gives: the kind, in 8 bytes of `out`.
 * Refuses: 14 where `out` is shorter than 8 bytes or the range passes the buffer.
 * Writes: the 8 bytes. */
uint32_t nuorpyts_classify(const uint8_t *buffer, size_t buffer_len, size_t start, size_t len, uint8_t *out, size_t out_len);

/* ---- the views of messages
 *
 * Each reads one message, in the `len` bytes from `start` on of the buffer, and puts the numbers of what it read into `out`.
 * Refuses: 14 where `out` is too short or the range passes the buffer, then the first met in reading order: 2 to 7 where a field cannot
 * be read, 9 at a second column that is not empty, 10 at a second info that is not empty.
 * Writes: the numbers. */

/* A part of a message is three numbers, from the part's place on: whether it is present, 0 or 1; its start, which counts from the buffer's
 * start; and its length. All three are 0 where it is not present: nuorpyts_read_number(way + NUORPYTS_WAY_REFS + NUORPYTS_PART_START). */
#define NUORPYTS_PART_SIZE 24u
#define NUORPYTS_PART_PRESENT 0u
#define NUORPYTS_PART_START 8u
#define NUORPYTS_PART_LENGTH 16u

/* Node: three signed numbers and three parts. */
#define NUORPYTS_NODE_SIZE 96u
#define NUORPYTS_NODE_ID 0u
#define NUORPYTS_NODE_LAT 8u
#define NUORPYTS_NODE_LON 16u
#define NUORPYTS_NODE_KEYS 24u
#define NUORPYTS_NODE_VALS 48u
#define NUORPYTS_NODE_INFO 72u
uint32_t nuorpyts_node(const uint8_t *buffer, size_t buffer_len, size_t start, size_t len, uint8_t *out, size_t out_len);

/* Way: a signed number and seven parts. Of several pins the last one stands. */
#define NUORPYTS_WAY_SIZE 176u
#define NUORPYTS_WAY_ID 0u
#define NUORPYTS_WAY_KEYS 8u
#define NUORPYTS_WAY_VALS 32u
#define NUORPYTS_WAY_INFO 56u
#define NUORPYTS_WAY_REFS 80u
#define NUORPYTS_WAY_LAT 104u
#define NUORPYTS_WAY_LON 128u
#define NUORPYTS_WAY_PINS 152u
uint32_t nuorpyts_way(const uint8_t *buffer, size_t buffer_len, size_t start, size_t len, uint8_t *out, size_t out_len);

/* Relation: a signed number and six parts. */
#define NUORPYTS_RELATION_SIZE 152u
#define NUORPYTS_RELATION_ID 0u
#define NUORPYTS_RELATION_KEYS 8u
#define NUORPYTS_RELATION_VALS 32u
#define NUORPYTS_RELATION_INFO 56u
#define NUORPYTS_RELATION_ROLES 80u
#define NUORPYTS_RELATION_MEMIDS 104u
#define NUORPYTS_RELATION_TYPES 128u
uint32_t nuorpyts_relation(const uint8_t *buffer, size_t buffer_len, size_t start, size_t len, uint8_t *out, size_t out_len);

/* DenseNodes: five parts. */
#define NUORPYTS_DENSE_NODES_SIZE 120u
#define NUORPYTS_DENSE_NODES_ID 0u
#define NUORPYTS_DENSE_NODES_INFO 24u
#define NUORPYTS_DENSE_NODES_LAT 48u
#define NUORPYTS_DENSE_NODES_LON 72u
#define NUORPYTS_DENSE_NODES_KEYS_VALS 96u
uint32_t nuorpyts_dense_nodes(const uint8_t *buffer, size_t buffer_len, size_t start, size_t len, uint8_t *out, size_t out_len);

/* DenseInfo: six parts. */
#define NUORPYTS_DENSE_INFO_SIZE 144u
#define NUORPYTS_DENSE_INFO_VERSION 0u
#define NUORPYTS_DENSE_INFO_TIMESTAMP 24u
#define NUORPYTS_DENSE_INFO_CHANGESET 48u
#define NUORPYTS_DENSE_INFO_UID 72u
#define NUORPYTS_DENSE_INFO_USER_SID 96u
#define NUORPYTS_DENSE_INFO_VISIBLE 120u
uint32_t nuorpyts_dense_info(const uint8_t *buffer, size_t buffer_len, size_t start, size_t len, uint8_t *out, size_t out_len);

/* Info: six numbers that may be absent, each as two: whether it is present, 0 or 1, and its value, which is signed, or 0 or 1 for visible,
 * and 0 where it is not present. A version or changeset of -1 is not present. */
#define NUORPYTS_INFO_SIZE 96u
#define NUORPYTS_INFO_VERSION_PRESENT 0u
#define NUORPYTS_INFO_VERSION_VALUE 8u
#define NUORPYTS_INFO_TIMESTAMP_PRESENT 16u
#define NUORPYTS_INFO_TIMESTAMP_VALUE 24u
#define NUORPYTS_INFO_CHANGESET_PRESENT 32u
#define NUORPYTS_INFO_CHANGESET_VALUE 40u
#define NUORPYTS_INFO_UID_PRESENT 48u
#define NUORPYTS_INFO_UID_VALUE 56u
#define NUORPYTS_INFO_USER_SID_PRESENT 64u
#define NUORPYTS_INFO_USER_SID_VALUE 72u
#define NUORPYTS_INFO_VISIBLE_PRESENT 80u
#define NUORPYTS_INFO_VISIBLE_VALUE 88u
uint32_t nuorpyts_info(const uint8_t *buffer, size_t buffer_len, size_t start, size_t len, uint8_t *out, size_t out_len);

/* ---- a group's messages, by their field */

#define NUORPYTS_FIELD_NODE 1u
#define NUORPYTS_FIELD_DENSE 2u
#define NUORPYTS_FIELD_WAY 3u
#define NUORPYTS_FIELD_RELATION 4u

/* Finds the dense message of the group in a range.
 * Gives: its part, in 24 bytes of `out`; an empty one is present.
 * Refuses: 14 where `out` is shorter than 24 bytes or the range passes the buffer, then 2 to 7, and 11 at a second dense field, before its
 * payload is read.
 * Writes: the 24 bytes. */
uint32_t nuorpyts_dense(const uint8_t *buffer, size_t buffer_len, size_t start, size_t len, uint8_t *out, size_t out_len);

/* The state of an iteration over a group's messages of one field: five numbers in a slot that the caller lends. An ended state says so in
 * its phase, whatever its other numbers are, and stays ended, whatever is written to the buffer. */
#define NUORPYTS_MESSAGES_SIZE 40u
#define NUORPYTS_MESSAGES_PHASE 0u
#define NUORPYTS_MESSAGES_START 8u   /* where the group begins in the buffer */
#define NUORPYTS_MESSAGES_LENGTH 16u /* its length */
#define NUORPYTS_MESSAGES_PLACE 24u  /* where the next field begins, counted from the group's start */
#define NUORPYTS_MESSAGES_FIELD 32u  /* the messages' field */
/* phases; no state has another */
#define NUORPYTS_PHASE_ENDED 0u
#define NUORPYTS_PHASE_AT 1u

/* Writes the state before the first message of a field, in 40 bytes; the group's range is as nuorpyts_group gave it. */
static inline void nuorpyts_messages_start(uint8_t *state, uint64_t start, uint64_t len, uint32_t field) {
    nuorpyts_write_number(state + NUORPYTS_MESSAGES_PHASE, NUORPYTS_PHASE_AT);
    nuorpyts_write_number(state + NUORPYTS_MESSAGES_START, start);
    nuorpyts_write_number(state + NUORPYTS_MESSAGES_LENGTH, len);
    nuorpyts_write_number(state + NUORPYTS_MESSAGES_PLACE, 0);
    nuorpyts_write_number(state + NUORPYTS_MESSAGES_FIELD, field);
}

/* Finds the next message of one field of a group.
 * Takes: a state, which nuorpyts_messages_start writes for the first call.
 * Gives: the message's part, in 24 bytes of `out`, and the state behind it, in `state`.
 * 101: the state has ended, which is told before `out` or the buffer are looked at, and leaves it as it is; or no such message comes before
 * the group's end or before a field that cannot be read.
 * Refuses: 14 where `state` is shorter than 40 bytes, which leaves it as it is; then where its phase is neither of the two or its field is
 * above 4294967295, `out` is shorter than 24 bytes, the group passes the buffer or the place passes the group.
 * Writes: with 0 the 24 bytes, and the state's 40. With 101 and 14, but for a state that has ended or is too short, the ended state: five
 * times 0. */
uint32_t nuorpyts_message(const uint8_t *buffer, size_t buffer_len, uint8_t *state, size_t state_len, uint8_t *out, size_t out_len);

/* ---- walks
 *
 * A walk hands out the elements of a scanned block one after the other: group by group its dense nodes, nodes, ways and relations. A plain
 * walk reads no metadata and hands out none of it; a full walk does. From each element there are walks over its tags, its references and
 * its members. All of them go in the same way: a start writes a state into a slot that the caller lends, and each call takes the state
 * from the slot, gives what comes next and leaves the state behind it there.
 *
 *     nuorpyts_walk(state, sizeof state);
 *     while ((code = nuorpyts_step(buffer, len, record, sizeof record, state, sizeof state, element, sizeof element)) == NUORPYTS_OK) {
 *         const uint8_t *view = element + NUORPYTS_ELEMENT_VIEW;
 *         if (nuorpyts_read_number(element + NUORPYTS_ELEMENT_KIND) == NUORPYTS_ELEMENT_WAY) {
 *             printf("way %lld:", (long long)nuorpyts_read_signed(view + NUORPYTS_WAY_ID));
 *             nuorpyts_start_refs(element, sizeof element, refs, sizeof refs);
 *             while (nuorpyts_ref(buffer, len, refs, sizeof refs, id, sizeof id) == NUORPYTS_OK) {
 *                 printf(" %lld", (long long)nuorpyts_read_signed(id));
 *             }
 *             printf("\n");
 *         }
 *     }
 *
 * Behind it `code` is 101, or the number at which the walk was refused. On what nuorpyts_scan left of a block that nuorpyts_check accepts,
 * it is 101, and so it is of each walk over an element's tags, references and members.
 *
 * Each walk has two kinds of calls, which may take turns on one state: one gives an item a call, the other as many as `out` has room for,
 * item after item, and puts their count into 8 bytes of `count`. The latter stops before the end and before a number: the next call tells
 * it. So a call with 0 gives one item at least, and behind fewer than there is room for comes the end or a number.
 *
 * What these calls have in common, in this order:
 * 14: `state` is shorter than the state's SIZE, which leaves it as it is.
 * 101: the state has ended, which is told before anything else is looked at, and leaves it as it is.
 * 14: there is no room for an item, `count` is shorter than 8 bytes, `record` is shorter than 72 bytes or has a granularity that is no
 * int32, the state has numbers that no state has, or something of the record or the state passes the buffer.
 * Then 101 where nothing more comes, or the number at which the next item is refused.
 * Writes: with 0 the items, the count, and the state behind the items; bytes behind the items are not written. With any other code, but
 * for a state that is too short or has ended, the ended state, and nothing else.
 *
 * The first number of every state is its phase, NUORPYTS_PHASE_ENDED where it has ended; the others are the library's own. So a slot of
 * zeros is an ended state, and a walk that was never started gives nothing. A state may be copied, and both then go on from there. */
#define NUORPYTS_STATE_PHASE 0u

/* The count of a batch: one number. */
#define NUORPYTS_COUNT_SIZE 8u

/* ---- elements */

/* The state of a walk. */
#define NUORPYTS_WALK_SIZE 272u

/* Writes the state before a block's first group, in a plain walk.
 * Refuses: 14 where `state` is shorter than 272 bytes, which leaves it as it is.
 * Writes: the state. */
uint32_t nuorpyts_walk(uint8_t *state, size_t state_len);

/* The same in a full walk. */
uint32_t nuorpyts_walk_full(uint8_t *state, size_t state_len);

/* An element: its kind, its group's number from 0 on, its message's range, and then the numbers of its kind, from NUORPYTS_ELEMENT_VIEW
 * on. For a node, a way and a relation they are those of its view; in a plain walk its Info is not present. Bytes behind the numbers of
 * its kind are not written. */
#define NUORPYTS_ELEMENT_SIZE 208u
#define NUORPYTS_ELEMENT_KIND 0u
#define NUORPYTS_ELEMENT_GROUP 8u
#define NUORPYTS_ELEMENT_MESSAGE_START 16u
#define NUORPYTS_ELEMENT_MESSAGE_LENGTH 24u
#define NUORPYTS_ELEMENT_VIEW 32u /* element + NUORPYTS_ELEMENT_VIEW + NUORPYTS_WAY_ID */
/* kinds */
#define NUORPYTS_ELEMENT_DENSE_NODE 0u
#define NUORPYTS_ELEMENT_NODE 1u
#define NUORPYTS_ELEMENT_WAY 2u
#define NUORPYTS_ELEMENT_RELATION 3u

/* Dense node, which has no message of its own: its range is that of the group's dense message. Its id and raw position are signed and
 * stand where a node has them. Its tags are in keys_vals: where they begin in the buffer, and where the column ends. Whether there is
 * metadata says NUORPYTS_DENSE_NODE_INFO; the numbers behind it are written where it is 2. All of them are signed but visible, which is 0
 * or 1. */
#define NUORPYTS_DENSE_NODE_SIZE 96u
#define NUORPYTS_DENSE_NODE_ID 0u
#define NUORPYTS_DENSE_NODE_LAT 8u
#define NUORPYTS_DENSE_NODE_LON 16u
#define NUORPYTS_DENSE_NODE_TAGS_START 24u
#define NUORPYTS_DENSE_NODE_TAGS_END 32u
#define NUORPYTS_DENSE_NODE_INFO 40u
#define NUORPYTS_DENSE_NODE_VERSION 48u
#define NUORPYTS_DENSE_NODE_TIMESTAMP 56u
#define NUORPYTS_DENSE_NODE_CHANGESET 64u
#define NUORPYTS_DENSE_NODE_UID 72u
#define NUORPYTS_DENSE_NODE_USER_SID 80u
#define NUORPYTS_DENSE_NODE_VISIBLE 88u
/* whether there is metadata */
#define NUORPYTS_INFO_UNREAD 0u  /* a plain walk reads none */
#define NUORPYTS_INFO_MISSING 1u /* the message has none for this node */
#define NUORPYTS_INFO_READ 2u

/* Finds the next element of a block.
 * Takes: the record's bytes as nuorpyts_scan gave them, and a state, which nuorpyts_walk or nuorpyts_walk_full writes for the first call.
 * Gives: the element, in 208 bytes of `out`, and the state behind it, in `state`. On what nuorpyts_scan left of a block that
 * nuorpyts_check accepts, the elements are the block's own, by its bytes alone.
 * 101: the state has ended, or no element comes before the end.
 * Refuses: 14 where a walk's calls do, and where the range of a group that the walk comes to passes the buffer; then the first met in
 * reading order: in a group 2 to 7 and 11 over its own fields, then in its dense message and, in a full walk, the fields of its DenseInfo,
 * and in each node, way and relation 2 to 7, 9 and 10 where a field cannot be read; for each dense node 2 and 3 where its id, its
 * position, in a full walk its metadata, or its tags cannot be read, and 12 where ids, lats and lons differ in count.
 * Writes: with 0 the numbers of the element, and the state. With 101 and a number, but for a state that has ended or is too short, the
 * state's phase alone, which is then 0. */
uint32_t nuorpyts_step(const uint8_t *buffer, size_t buffer_len, const uint8_t *record, size_t record_len, uint8_t *state, size_t state_len, uint8_t *out, size_t out_len);

/* The same. */
uint32_t nuorpyts_next(const uint8_t *buffer, size_t buffer_len, const uint8_t *record, size_t record_len, uint8_t *state, size_t state_len, uint8_t *out, size_t out_len);

/* The same for as many elements as `out` has room for, each in 208 bytes; their count in 8 bytes of `count`. */
uint32_t nuorpyts_steps(const uint8_t *buffer, size_t buffer_len, const uint8_t *record, size_t record_len, uint8_t *state, size_t state_len, uint8_t *out, size_t out_len, uint8_t *count, size_t count_len);

/* ---- a position in nanodegrees: 2 signed numbers */

#define NUORPYTS_NANODEGREES_SIZE 16u
#define NUORPYTS_NANODEGREES_LAT 0u
#define NUORPYTS_NANODEGREES_LON 8u

/* Turns a raw position into nanodegrees: the record's offset and its granularity times the raw number, at 64 bits.
 * Takes: the record's bytes as nuorpyts_scan gave them, and a node's two raw numbers, as nuorpyts_read_number reads them.
 * Gives: latitude and longitude, in 16 bytes of `out`.
 * Refuses: 14 where `out` is shorter than 16 bytes, or `record` is shorter than 72 or has a granularity that is no int32.
 * Writes: the 16 bytes. */
uint32_t nuorpyts_nanodegrees(const uint8_t *record, size_t record_len, size_t lat, size_t lon, uint8_t *out, size_t out_len);

/* ---- an element's tags */

/* The state of a walk over an element's tags: five numbers. */
#define NUORPYTS_TAGS_SIZE 40u

/* 0 where an element surely has no tags, so that a walk over them need not be started; of an element that a walk gave from the same
 * buffer. Where it is not 0, there may be none all the same. */
static inline int nuorpyts_has_tags(const uint8_t *buffer, size_t buffer_len, const uint8_t *element) {
    const uint8_t *view = element + NUORPYTS_ELEMENT_VIEW;
    uint64_t kind = nuorpyts_read_number(element + NUORPYTS_ELEMENT_KIND);
    if (kind == NUORPYTS_ELEMENT_DENSE_NODE) {
        uint64_t start = nuorpyts_read_number(view + NUORPYTS_DENSE_NODE_TAGS_START);
        uint64_t end = nuorpyts_read_number(view + NUORPYTS_DENSE_NODE_TAGS_END);
        return start != end && (start >= buffer_len || buffer[start] != 0);
    }
    /* a relation has its keys where a way has them */
    view += kind == NUORPYTS_ELEMENT_NODE ? NUORPYTS_NODE_KEYS : NUORPYTS_WAY_KEYS;
    return nuorpyts_read_number(view + NUORPYTS_PART_PRESENT) != 0;
}

/* Writes the state before an element's first tag.
 * Takes: the element's 208 bytes as a walk gave them.
 * Refuses: 14 where `state` is shorter than 40 bytes, which leaves it as it is; then where `element` is shorter than 208, or has a kind
 * or, for its keys or vals, a present that is none.
 * Writes: with 0 the state; with 14, but for a state that is too short, the ended one: five times 0. */
uint32_t nuorpyts_start_tags(const uint8_t *element, size_t element_len, uint8_t *state, size_t state_len);

/* A tag: the numbers of its key and its value in the string table, and the ranges of the two texts in the buffer. */
#define NUORPYTS_TAG_SIZE 48u
#define NUORPYTS_TAG_KEY 0u
#define NUORPYTS_TAG_VAL 8u
#define NUORPYTS_TAG_KEY_START 16u
#define NUORPYTS_TAG_KEY_LENGTH 24u
#define NUORPYTS_TAG_VAL_START 32u
#define NUORPYTS_TAG_VAL_LENGTH 40u

/* Finds the next tag that is shown.
 * Takes: the record's bytes as nuorpyts_scan gave them, and a state, which nuorpyts_start_tags writes for the first call.
 * Gives: the tag, in 48 bytes of `out`, and the state behind it, in `state`.
 * 101: the state has ended, there is no further pair, or the next one has a number that is not below the record's string count or whose
 * table entry passes the buffer.
 * Refuses: 14 where a walk's calls do; then 2 and 3 of the two numbers, 12 where there is only one of them, of a dense node 2; then 14
 * where the range of either text passes the buffer.
 * Writes: as a walk's calls do; the ended state is five times 0. */
uint32_t nuorpyts_tag(const uint8_t *buffer, size_t buffer_len, const uint8_t *record, size_t record_len, uint8_t *state, size_t state_len, uint8_t *out, size_t out_len);

/* The same for as many tags as `out` has room for, each in 48 bytes; their count in 8 bytes of `count`. */
uint32_t nuorpyts_tags(const uint8_t *buffer, size_t buffer_len, const uint8_t *record, size_t record_len, uint8_t *state, size_t state_len, uint8_t *out, size_t out_len, uint8_t *count, size_t count_len);

/* A pair as it is stored: the numbers of its key and its value. */
#define NUORPYTS_RAW_TAG_SIZE 16u
#define NUORPYTS_RAW_TAG_KEY 0u
#define NUORPYTS_RAW_TAG_VAL 8u

/* Finds the next pair of an element's tags, whether it is shown or not, by its numbers alone; so no record is asked for.
 * Takes: a state, which nuorpyts_start_tags writes for the first call.
 * Gives: the pair, in 16 bytes of `out`, and the state behind it, in `state`.
 * 101: the state has ended, or there is no further pair.
 * Refuses: 14 where a walk's calls do; then 2 and 3 of the two numbers, 12 where there is only one of them, of a dense node 2.
 * Writes: as a walk's calls do; the ended state is five times 0. */
uint32_t nuorpyts_raw_tag(const uint8_t *buffer, size_t buffer_len, uint8_t *state, size_t state_len, uint8_t *out, size_t out_len);

/* The same for as many pairs as `out` has room for, each in 16 bytes; their count in 8 bytes of `count`. */
uint32_t nuorpyts_raw_tags(const uint8_t *buffer, size_t buffer_len, uint8_t *state, size_t state_len, uint8_t *out, size_t out_len, uint8_t *count, size_t count_len);

/* ---- a way's references */

/* The state of a walk over references: four numbers. */
#define NUORPYTS_REFS_SIZE 32u

/* Writes the state before a way's first reference; of an element that is no way, the ended one.
 * Takes: the element's 208 bytes as a walk gave them.
 * Refuses: 14 where `state` is shorter than 32 bytes, which leaves it as it is; then where `element` is shorter than 208, or has a kind
 * or, for a way's references, a present that is none.
 * Writes: with 0 the state; with 14, but for a state that is too short, the ended one: four times 0. */
uint32_t nuorpyts_start_refs(const uint8_t *element, size_t element_len, uint8_t *state, size_t state_len);

/* A reference: the signed id of a node. */
#define NUORPYTS_REF_SIZE 8u

/* Finds the next reference.
 * Takes: a state, which nuorpyts_start_refs writes for the first call.
 * Gives: the reference, in 8 bytes of `out`, and the state behind it, in `state`.
 * 101: the state has ended, or there is no further reference.
 * Refuses: 14 where a walk's calls do; then 2 and 3 of the stored number.
 * Writes: as a walk's calls do; the ended state is four times 0. */
uint32_t nuorpyts_ref(const uint8_t *buffer, size_t buffer_len, uint8_t *state, size_t state_len, uint8_t *out, size_t out_len);

/* The same for as many references as `out` has room for, each in 8 bytes; their count in 8 bytes of `count`. */
uint32_t nuorpyts_refs(const uint8_t *buffer, size_t buffer_len, uint8_t *state, size_t state_len, uint8_t *out, size_t out_len, uint8_t *count, size_t count_len);

/* ---- a relation's members */

/* The state of a walk over members: eight numbers. */
#define NUORPYTS_MEMBERS_SIZE 64u

/* Writes the state before a relation's first member; of an element that is no relation, the ended one.
 * Takes: the element's 208 bytes as a walk gave them.
 * Refuses: 14 where `state` is shorter than 64 bytes, which leaves it as it is; then where `element` is shorter than 208, or has a kind
 * or, for a relation's roles, memids or types, a present that is none.
 * Writes: with 0 the state; with 14, but for a state that is too short, the ended one: eight times 0. */
uint32_t nuorpyts_start_members(const uint8_t *element, size_t element_len, uint8_t *state, size_t state_len);

/* A member: the signed number of its role, what it is, the signed number of its type, which is the same but where it is unknown, and its
 * signed id. */
#define NUORPYTS_MEMBER_SIZE 32u
#define NUORPYTS_MEMBER_ROLE 0u
#define NUORPYTS_MEMBER_CASE 8u
#define NUORPYTS_MEMBER_TYPE 16u
#define NUORPYTS_MEMBER_ID 24u
/* what a member is */
#define NUORPYTS_MEMBER_NODE 0u
#define NUORPYTS_MEMBER_WAY 1u
#define NUORPYTS_MEMBER_RELATION 2u
#define NUORPYTS_MEMBER_UNKNOWN 3u

/* Finds the next member.
 * Takes: the record's bytes as nuorpyts_scan gave them, and a state, which nuorpyts_start_members writes for the first call.
 * Gives: the member, in 32 bytes of `out`, and the state behind it, in `state`.
 * 101: the state has ended, or there is no further member.
 * Refuses: 14 where a walk's calls do; then 2 and 3 of role, id and type, and 12 where there are only some of them.
 * Writes: as a walk's calls do; the ended state is eight times 0. */
uint32_t nuorpyts_member(const uint8_t *buffer, size_t buffer_len, const uint8_t *record, size_t record_len, uint8_t *state, size_t state_len, uint8_t *out, size_t out_len);

/* The same for as many members as `out` has room for, each in 32 bytes; their count in 8 bytes of `count`. */
uint32_t nuorpyts_members(const uint8_t *buffer, size_t buffer_len, const uint8_t *record, size_t record_len, uint8_t *state, size_t state_len, uint8_t *out, size_t out_len, uint8_t *count, size_t count_len);

/* Finds the text of a role.
 * Takes: the record's bytes as nuorpyts_scan gave them, and the role's number, as nuorpyts_read_number reads it from a member.
 * Gives: where the text stands in the buffer, a range, in 16 bytes of `out`.
 * 100: the number is negative or not below the record's string count, or its table entry passes the buffer.
 * Refuses: 14 where `out` is shorter than 16 bytes, the number is no int32, `record` is shorter than 72 or has a granularity that is no
 * int32, or the range passes the buffer.
 * Writes: the 16 bytes. */
uint32_t nuorpyts_role(const uint8_t *buffer, size_t buffer_len, const uint8_t *record, size_t record_len, size_t role, uint8_t *out, size_t out_len);

/* ---- whether two blocks list the same: one number */

#define NUORPYTS_SAME_SIZE 8u
#define NUORPYTS_SAME_NO 0u
#define NUORPYTS_SAME_YES 1u

/* Says whether two scanned blocks list the same: granularity, offsets and the number of groups, and what plain walks give of them, element by
 * element: group, kind, id, raw position, tags, references and members, tags and roles by their texts.
 * Takes: the buffer of each block, with the record's bytes as nuorpyts_scan gave them. Both may be the same.
 * Gives: 1 where they do and 0 where they do not, in 8 bytes of `out`. On what nuorpyts_scan left of two blocks that nuorpyts_check accepts,
 * it is 1 exactly where they store the same: metadata, date granularity, strings that nothing shows, unknown fields and longer spellings
 * of a number make no difference.
 * Refuses: 14 where `out` is shorter than 8 bytes, either record is shorter than 72 or has a granularity that is no int32, a block or a table
 * of a record passes its buffer, or the range of any group does; then what nuorpyts_check refuses of the first block, then what it refuses
 * of the second; then 14 where the walks come to a text whose range passes the buffer, which no scan leaves.
 * Writes: the 8 bytes. */
uint32_t nuorpyts_same_listing(const uint8_t *first, size_t first_len, const uint8_t *first_record, size_t first_record_len, const uint8_t *second, size_t second_len, const uint8_t *second_record, size_t second_record_len, uint8_t *out, size_t out_len);

#ifdef __cplusplus
}
#endif

#endif

/* Checks a block and reads it: its strings, its groups with their kinds, and by a walk its ways with their references and tags. C99 and
 * C++11. */
#include "nuorpyts.h"

#include <stdio.h>

/* A string table with "", "name" and "path", and a group with one way, whose id is 7, whose name is "path" and whose references are stored
 * as 02 02 01. */
static const uint8_t map_block[] = {0x0A, 0x0E, 0x0A, 0x00, 0x0A, 0x04, 'n',  'a',  'm',  'e',  0x0A, 0x04, 'p',  'a',  't',  'h',  0x12,
                                    0x0F, 0x1A, 0x0D, 0x08, 0x07, 0x12, 0x01, 0x01, 0x1A, 0x01, 0x02, 0x42, 0x03, 0x02, 0x02, 0x01};

static void print_strings(const uint8_t *buffer, size_t len, const uint8_t *record) {
    uint8_t range[NUORPYTS_RANGE_SIZE];
    size_t i;
    for (i = 0; nuorpyts_get(buffer, len, record, NUORPYTS_RECORD_SIZE, i, range, sizeof range) == NUORPYTS_OK; i++) {
        printf("string %u: \"%.*s\"\n", (unsigned)i, (int)nuorpyts_read_number(range + NUORPYTS_RANGE_LENGTH),
               (const char *)buffer + nuorpyts_read_number(range + NUORPYTS_RANGE_START));
    }
}

static void print_groups(const uint8_t *buffer, size_t len, const uint8_t *record) {
    uint8_t range[NUORPYTS_RANGE_SIZE];
    uint8_t kind[NUORPYTS_KIND_SIZE];
    size_t i;
    for (i = 0; nuorpyts_group(buffer, len, record, NUORPYTS_RECORD_SIZE, i, range, sizeof range) == NUORPYTS_OK; i++) {
        uint32_t code = nuorpyts_classify(buffer, len, (size_t)nuorpyts_read_number(range + NUORPYTS_RANGE_START),
                                          (size_t)nuorpyts_read_number(range + NUORPYTS_RANGE_LENGTH), kind, sizeof kind);
        if (code == NUORPYTS_OK) {
            printf("group %u: kind %u\n", (unsigned)i, (unsigned)nuorpyts_read_number(kind));
        }
    }
}

static void print_references(const uint8_t *buffer, size_t len, const uint8_t *element) {
    uint8_t state[NUORPYTS_REFS_SIZE];
    uint8_t id[NUORPYTS_REF_SIZE];
    nuorpyts_start_refs(element, NUORPYTS_ELEMENT_SIZE, state, sizeof state);
    while (nuorpyts_ref(buffer, len, state, sizeof state, id, sizeof id) == NUORPYTS_OK) {
        printf(" %lld", (long long)nuorpyts_read_signed(id));
    }
}

/* Up to four tags a call. */
static void print_tags(const uint8_t *buffer, size_t len, const uint8_t *record, const uint8_t *element) {
    uint8_t state[NUORPYTS_TAGS_SIZE];
    uint8_t tags[4 * NUORPYTS_TAG_SIZE];
    uint8_t n[NUORPYTS_COUNT_SIZE];
    nuorpyts_start_tags(element, NUORPYTS_ELEMENT_SIZE, state, sizeof state);
    while (nuorpyts_tags(buffer, len, record, NUORPYTS_RECORD_SIZE, state, sizeof state, tags, sizeof tags, n, sizeof n) == NUORPYTS_OK) {
        uint64_t i;
        for (i = 0; i < nuorpyts_read_number(n); i++) {
            const uint8_t *tag = tags + i * NUORPYTS_TAG_SIZE;
            printf(", %.*s=%.*s", (int)nuorpyts_read_number(tag + NUORPYTS_TAG_KEY_LENGTH),
                   (const char *)buffer + nuorpyts_read_number(tag + NUORPYTS_TAG_KEY_START),
                   (int)nuorpyts_read_number(tag + NUORPYTS_TAG_VAL_LENGTH),
                   (const char *)buffer + nuorpyts_read_number(tag + NUORPYTS_TAG_VAL_START));
        }
    }
}

/* Walks the block, and says where that was refused; a block that is accepted never is. */
static void print_ways(const uint8_t *buffer, size_t len, const uint8_t *record) {
    uint8_t state[NUORPYTS_WALK_SIZE];
    uint8_t element[NUORPYTS_ELEMENT_SIZE];
    uint32_t code;
    nuorpyts_walk(state, sizeof state);
    while ((code = nuorpyts_step(buffer, len, record, NUORPYTS_RECORD_SIZE, state, sizeof state, element, sizeof element)) == NUORPYTS_OK) {
        if (nuorpyts_read_number(element + NUORPYTS_ELEMENT_KIND) == NUORPYTS_ELEMENT_WAY) {
            printf("way %lld:", (long long)nuorpyts_read_signed(element + NUORPYTS_ELEMENT_VIEW + NUORPYTS_WAY_ID));
            print_references(buffer, len, element);
            if (nuorpyts_has_tags(buffer, len, element)) {
                print_tags(buffer, len, record, element);
            }
            printf("\n");
        }
    }
    if (code != NUORPYTS_ENDED) {
        printf("refused with %u: %s\n", (unsigned)code, nuorpyts_text(code));
    }
}

int main(void) {
    /* the block, and behind it room for its tables */
    uint8_t buffer[NUORPYTS_BUFFER_SIZE(sizeof map_block)];
    uint8_t record[NUORPYTS_RECORD_SIZE];
    size_t i;
    uint32_t code;
    for (i = 0; i < sizeof map_block; i++) {
        buffer[i] = map_block[i];
    }
    code = nuorpyts_scan(buffer, sizeof buffer, sizeof map_block, record, sizeof record);
    if (code == NUORPYTS_OK) {
        code = nuorpyts_check(buffer, sizeof buffer, record, sizeof record);
    }
    if (code != NUORPYTS_OK) {
        printf("refused with %u: %s\n", (unsigned)code, nuorpyts_text(code));
        return 1;
    }
    print_strings(buffer, sizeof buffer, record);
    print_groups(buffer, sizeof buffer, record);
    print_ways(buffer, sizeof buffer, record);
    return 0;
}

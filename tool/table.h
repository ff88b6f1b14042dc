/* The table of a bundle that the library refuses, so that a message can quote from it. Every bound is checked here. */
#ifndef TOOL_TABLE_H
#define TOOL_TABLE_H

#include "file.h"

/* Magic, number of entries, then for each entry a row of three words (offset, size, length of the ID) and the ID. */
#define BUNDLE_MAGIC "__CLANG_OFFLOAD_BUNDLE__"
enum { MAGIC_LENGTH = 24, WORD = 8, TABLE_AT = MAGIC_LENGTH + WORD, ROW_LENGTH = 3 * WORD };

struct row {
    uint64_t offset;
    uint64_t size;
    struct bytes id;
};

/* Reads the row of an entry and its ID; 0 where they do not lie wholly in the bundle. */
int read_row(struct bytes bundle, uint64_t index, struct row *row);

/* A word, little-endian. */
uint64_t get_word(const uint8_t *at);
void put_word(uint8_t *at, uint64_t value);

#endif

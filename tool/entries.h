/* The entries of an accepted bundle. */
#ifndef TOOL_ENTRIES_H
#define TOOL_ENTRIES_H

#include "entry_id.h"

#include <stdio.h>

struct entry {
    uint64_t offset;
    uint64_t size;
    struct bytes spelled; /* its ID */
    struct canonical id;
};

struct entries {
    size_t count;
    struct entry list[OFFLOAD_ENTRIES];
};

/* Reads the entries of a bundle that this reading accepts, and so the general rules too. */
void read_entries(const struct reading *reading, struct bytes bundle, struct entries *entries);

/* The length of the longest canonical ID, for columns. */
int longest_id(const struct entries *entries);

/* Prints an ID, with blanks up to a width. */
void print_id(FILE *out, struct bytes id, int width);

#endif

/* Entry IDs and device names: their canonical form, which the library makes, and its parts. */
#ifndef TOOL_ENTRY_ID_H
#define TOOL_ENTRY_ID_H

#include "file.h"
#include "reading.h"

/* The canonical form of an ID, length bytes. */
struct canonical {
    uint8_t bytes[OFFLOAD_ID_LIMIT];
    size_t length;
};

/* Makes the canonical form of an ID; 0, and the form is empty, where the ID breaks the rules. */
int canonical_form(const struct reading *reading, struct bytes id, struct canonical *form);

struct bytes canonical_bytes(const struct canonical *form);

/* The fields of a canonical form, in its order. */
enum field { KIND, ARCH, VENDOR, SYSTEM, ENVIRONMENT, PROCESSOR, FIELDS };

/* A canonical form, cut: kind-arch-vendor-system-environment-processor, of which only the processor may have hyphens, then its features, with a colon
 * between two. */
struct parts {
    struct bytes fields[FIELDS];
    struct bytes features;
};

struct parts parts_of(const struct canonical *form);

/* The first field in which two IDs differ, FIELDS where there is none. hip and hipv4 are one kind. */
enum field first_difference(const struct parts *left, const struct parts *right);

/* Takes the first feature, its sign as the last byte, off features that are not empty. */
struct bytes next_feature(struct bytes *features);

/* A feature without its sign. */
struct bytes feature_name(struct bytes feature);

/* Whether two lists of features, each in byte order, have the same names. */
int same_names(struct bytes left, struct bytes right);

#endif

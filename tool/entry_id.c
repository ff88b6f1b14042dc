#include "entry_id.h"

#include "table.h"
#include "text.h"

#include <string.h>

enum { ID_AT = TABLE_AT + ROW_LENGTH, ROOM = ID_AT + OFFLOAD_ID_LIMIT };

/* A bundle with one entry, of this ID and an empty image. */
static struct bytes bundle_of(struct bytes id, uint8_t *bundle) {
    struct bytes whole = {bundle, ID_AT + id.length};
    memcpy(bundle, BUNDLE_MAGIC, MAGIC_LENGTH);
    put_word(bundle + MAGIC_LENGTH, 1);
    put_word(bundle + TABLE_AT, whole.length);
    put_word(bundle + TABLE_AT + WORD, 0);
    put_word(bundle + TABLE_AT + 2 * WORD, id.length);
    memcpy(bundle + ID_AT, id.start, id.length);
    return whole;
}

int canonical_form(const struct reading *reading, struct bytes id, struct canonical *form) {
    uint8_t bundle[ROOM], normal[ROOM];
    struct bytes whole;
    uint64_t length;
    form->length = 0;
    if (id.length == 0 || id.length > OFFLOAD_ID_LIMIT)
        return 0;
    whole = bundle_of(id, bundle);
    length = reading->normalise(whole.start, whole.length, normal, sizeof normal).length;
    if (length == 0)
        return 0;
    form->length = (size_t)length - ID_AT;
    memcpy(form->bytes, normal + ID_AT, form->length);
    return 1;
}

struct bytes canonical_bytes(const struct canonical *form) {
    struct bytes bytes = {form->bytes, form->length};
    return bytes;
}

struct parts parts_of(const struct canonical *form) {
    struct bytes rest = canonical_bytes(form);
    struct parts parts;
    int field;
    for (field = KIND; field < PROCESSOR; field++)
        parts.fields[field] = cut(&rest, '-');
    parts.fields[PROCESSOR] = cut(&rest, ':');
    parts.features = rest;
    return parts;
}

/* The kind that a kind is compared as: hip and hipv4 are one kind. */
static struct bytes compared_kind(struct bytes kind) {
    return same_bytes(kind, text_bytes("hipv4")) ? text_bytes("hip") : kind;
}

static int same_kind(struct bytes left, struct bytes right) {
    return same_bytes(compared_kind(left), compared_kind(right));
}

enum field first_difference(const struct parts *left, const struct parts *right) {
    int field;
    if (!same_kind(left->fields[KIND], right->fields[KIND]))
        return KIND;
    for (field = ARCH; field < FIELDS; field++)
        if (!same_bytes(left->fields[field], right->fields[field]))
            break;
    return field;
}

struct bytes next_feature(struct bytes *features) {
    return cut(features, ':');
}

struct bytes feature_name(struct bytes feature) {
    feature.length -= feature.length > 0;
    return feature;
}

int same_names(struct bytes left, struct bytes right) {
    while (left.length > 0 && right.length > 0)
        if (!same_bytes(feature_name(next_feature(&left)), feature_name(next_feature(&right))))
            return 0;
    return left.length == right.length;
}

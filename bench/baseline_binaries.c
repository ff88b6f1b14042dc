/* The rules for offload binaries laid end to end, and for recovering them from damaged ones, in plain C. */
#include "baseline.h"

#include <string.h>

enum { OK = 0, LENGTH = 1, ROOM = 12, HEAD, SPAN, KIND, STRINGS, IMAGE, MANY, END };
enum { BINARIES = 64, STRING_LIMIT = 256 };
static const uint64_t limit = 1073741824;
static const uint8_t magic_and_version[8] = {0x10, 0xFF, 0x10, 0xAD, 1, 0, 0, 0};

static uint64_t word(const uint8_t *at) {
    uint64_t value;
    memcpy(&value, at, 8); /* x86-64 is little-endian */
    return value;
}

static uint64_t half(const uint8_t *at) {
    return (uint64_t)at[0] | (uint64_t)at[1] << 8;
}

/* Whether a part lies between byte 32 of a binary and its end. */
static int lies_inside(uint64_t start, uint64_t length, uint64_t size) {
    return start >= 32 && start <= size && length <= size - start;
}

/* 13. */
static int bad_head(const uint8_t *at, uint64_t left) {
    return left < 32 || memcmp(at, magic_and_version, 8) != 0;
}

/* 14. */
static int bad_span(const uint8_t *at, uint64_t left) {
    uint64_t size = word(at + 8);
    return size < 72 || size > left || word(at + 24) != 40 || !lies_inside(word(at + 16), 40, size);
}

/* The length of the string at an offset, or above the limit where there is none. */
static uint64_t string_length(const uint8_t *binary, uint64_t size, uint64_t offset) {
    uint64_t most;
    const uint8_t *zero;
    if (offset < 32 || offset >= size)
        return STRING_LIMIT + 1;
    most = size - offset <= STRING_LIMIT ? size - offset : STRING_LIMIT + 1;
    zero = memchr(binary + offset, 0, most);
    return zero == NULL ? STRING_LIMIT + 1 : (uint64_t)(zero - (binary + offset));
}

static int stands_before(const uint8_t *binary, const struct pair *pairs, uint64_t k) {
    uint64_t j;
    for (j = 0; j < k; j++)
        if (pairs[j].key_length == pairs[k].key_length &&
            memcmp(binary + pairs[j].key_place, binary + pairs[k].key_place, pairs[k].key_length) == 0)
            return 1;
    return 0;
}

/* 16: reads the pairs, with places counted from the binary's first byte. */
static int read_pairs(const uint8_t *binary, uint64_t size, const uint8_t *entry, struct binary *read) {
    uint64_t table = word(entry + 8), count = word(entry + 16), k;
    if (count > PAIRS || (count > 0 && !lies_inside(table, 16 * count, size)))
        return 0;
    for (k = 0; k < count; k++) {
        struct pair *pair = &read->pairs[k];
        pair->key_place = word(binary + table + 16 * k);
        pair->text_place = word(binary + table + 16 * k + 8);
        pair->key_length = string_length(binary, size, pair->key_place);
        pair->text_length = string_length(binary, size, pair->text_place);
        if (pair->key_length == 0 || pair->key_length > STRING_LIMIT || pair->text_length > STRING_LIMIT || stands_before(binary, read->pairs, k))
            return 0;
    }
    read->count = count;
    return 1;
}

/* Moves the places to the container's first byte. */
static void move_places(struct binary *read, uint64_t first) {
    uint64_t k;
    read->image_place += first;
    for (k = 0; k < read->count; k++) {
        read->pairs[k].key_place += first;
        read->pairs[k].text_place += first;
    }
}

/* 13 to 17, of the binary whose bytes and those behind it are `left` many. */
static uint64_t read_binary(const uint8_t *binary, uint64_t left, struct binary *read) {
    const uint8_t *entry;
    if (bad_head(binary, left))
        return HEAD;
    if (bad_span(binary, left))
        return SPAN;
    read->size = word(binary + 8);
    entry = binary + word(binary + 16);
    read->image_kind = half(entry);
    read->offload_kind = half(entry + 2);
    if (read->image_kind > 5 || read->offload_kind > 3)
        return KIND;
    if (!read_pairs(binary, read->size, entry, read))
        return STRINGS;
    read->flags = word(entry) >> 32;
    read->image_place = word(entry + 24);
    read->image_length = word(entry + 32);
    return lies_inside(read->image_place, read->image_length, read->size) ? OK : IMAGE;
}

/* 1, 19, 18, then the binary. */
static uint64_t read_next(const uint8_t *bytes, size_t length, const struct cursor *cursor, struct binary *read) {
    if (length > limit)
        return LENGTH;
    if (cursor->at == length)
        return END;
    if (cursor->taken == BINARIES)
        return MANY;
    return read_binary(bytes + cursor->at, length - cursor->at, read);
}

void baseline_next(const uint8_t *bytes, size_t length, struct cursor *cursor, struct binary *read) {
    uint64_t number = read_next(bytes, length, cursor, read);
    if (number != OK) {
        read->number = number;
        read->place = number == LENGTH ? 0 : cursor->at;
        return;
    }
    read->number = OK;
    read->place = 0;
    read->first = cursor->at;
    move_places(read, cursor->at);
    cursor->at += read->size;
    cursor->taken++;
}

/* What is found and what is skipped, each in rising order, and how many bytes are found. */
struct search {
    struct part found[BINARIES], skipped[BINARIES + 1];
    uint64_t count, spans, copied;
};

/* The first magic from a position on, or null. Its last byte is looked for, which is rare in most files. */
static const uint8_t *find_magic(const uint8_t *at, const uint8_t *end) {
    if (end - at < 32)
        return NULL;
    for (at += 3; (at = memchr(at, magic_and_version[3], (size_t)(end - at))) != NULL; at++)
        if (memcmp(at - 3, magic_and_version, 4) == 0)
            return at - 3;
    return NULL;
}

/* The first binary from a position on, or null. */
static const uint8_t *find_binary(const uint8_t *at, const uint8_t *end, struct binary *read) {
    while ((at = find_magic(at, end)) != NULL && read_binary(at, (uint64_t)(end - at), read) != OK)
        at++;
    return at;
}

static void skip(struct search *search, uint64_t from, uint64_t to) {
    if (from < to)
        search->skipped[search->spans++] = (struct part){from, to - from};
}

/* 18: the place of the 65th binary, or 0 where there are no more than 64. */
static uint64_t find_all(const uint8_t *bytes, size_t length, struct search *search) {
    const uint8_t *end = bytes + length, *at = bytes, *binary;
    struct binary read;
    while ((binary = find_binary(at, end, &read)) != NULL) {
        uint64_t first = (uint64_t)(binary - bytes);
        if (search->count == BINARIES)
            return first;
        skip(search, (uint64_t)(at - bytes), first);
        search->found[search->count++] = (struct part){first, read.size};
        search->copied += read.size;
        at = binary + read.size;
    }
    skip(search, (uint64_t)(at - bytes), length);
    return 0;
}

static void write_found(const uint8_t *bytes, const struct search *search, uint8_t *out, struct part *spans) {
    uint64_t k;
    for (k = 0; k < search->count; k++) {
        memcpy(out, bytes + search->found[k].start, search->found[k].length);
        out += search->found[k].length;
    }
    memcpy(spans, search->skipped, search->spans * sizeof *spans);
}

struct recovered baseline_recover(const uint8_t *bytes, size_t length, uint8_t *out, size_t room,
                                  struct part *spans, size_t span_room) {
    struct search search;
    uint64_t many;
    search.count = search.spans = search.copied = 0;
    if (length > limit)
        return (struct recovered){LENGTH, 0, 0, 0};
    many = find_all(bytes, length, &search);
    if (many != 0)
        return (struct recovered){MANY, many, 0, 0};
    if (search.copied > room || search.spans > span_room)
        return (struct recovered){ROOM, 0, 0, 0};
    write_found(bytes, &search, out, spans);
    return (struct recovered){OK, 0, search.copied, search.spans};
}

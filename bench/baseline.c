/* The rules for bundles, in plain C. One pass over each ID; an ID that is canonical already is used where it stands; equal IDs and equal
 * targets are found through hash tables, so that the work grows with the number of entries and not with its square. An image below or above all
 * earlier ones overlaps none; one between them is compared with each. */
#include "baseline.h"
#include "baseline_processors.h"

#include <limits.h>
#include <string.h>

enum { OK, LENGTH, MAGIC, COUNT, TABLE, ID, RANGE, TWICE, MIXED, QUERY, NONE, BIG, ROOM, OVERLAP = 21, RACK = 23 };
enum { ENTRIES = 64, ID_LIMIT = 256, FEATURES = 8, NAMES = 16, SLOTS = 128 };
enum { COMPARE_LIMIT = 32768, REPORT_LIMIT = 33168 };
static const uint64_t limit = 1073741824;
static const uint8_t magic[24] = "__CLANG_OFFLOAD_BUNDLE__";

/* How IDs are read: by the general rules, or by the profile for AMD's GPUs. */
enum reading { GENERAL, AMDGPU };

/* Kinds as they are compared: hip and hipv4 are one. */
enum kind { NO_KIND, HOST, HIP, OPENMP };

/* An entry ID in canonical form: the target (kind to processor) and after it the features. The hashes are of the kind and of the text after it. */
struct id {
    const uint8_t *text;
    uint32_t length;
    uint32_t target;
    enum kind kind;
    uint32_t kind_length;
    uint64_t hash;
    uint64_t target_hash;
};

struct entry {
    uint64_t offset;
    uint64_t size;
    const uint8_t *id;
    uint32_t id_length;
};

struct bundle {
    uint64_t count;
    struct entry entries[ENTRIES];
    struct id ids[ENTRIES];
    uint8_t scratch[ENTRIES][ID_LIMIT]; /* canonical forms that stand nowhere else */
};

struct refusal {
    uint64_t number, place;
};

static uint64_t word(const uint8_t *at) {
    uint64_t value;
    memcpy(&value, at, 8); /* x86-64 is little-endian */
    return value;
}

/* Classes of bytes. */
enum { FIELD = 1, NAME = 2, DASH = 4 };
static const uint8_t classes[256] = {
    ['a' ... 'z'] = FIELD | NAME, ['0' ... '9'] = FIELD | NAME, ['_'] = FIELD | NAME, ['A' ... 'Z'] = FIELD, ['.'] = FIELD, ['-'] = DASH,
};

/* Where an ID's parts lie: dashes[k] ends field k, `target` ends the last one. The processor lies between `processor` and `target`, which are equal
 * where there is none. The canonical form has `missing` dashes more than the text, before the processor, and the processor by its primary name. */
struct parts {
    enum kind kind;
    uint32_t fields;
    uint32_t dashes[6];
    uint32_t target;
    uint32_t processor;
    uint32_t missing;
    const uint8_t *primary;
    uint32_t primary_length;
    uint32_t features;
    struct feature {
        uint32_t start, length; /* name and sign */
    } feature[FEATURES];
    int sorted;
};

static enum kind read_kind(const uint8_t *kind, uint32_t length) {
    switch (length) {
    case 3:
        return memcmp(kind, "hip", 3) == 0 ? HIP : NO_KIND;
    case 4:
        return memcmp(kind, "host", 4) == 0 ? HOST : NO_KIND;
    case 5:
        return memcmp(kind, "hipv4", 5) == 0 ? HIP : NO_KIND;
    case 6:
        return memcmp(kind, "openmp", 6) == 0 ? OPENMP : NO_KIND;
    }
    return NO_KIND;
}

/* The fields: four or more, the first a kind and the next three not empty. The sixth runs on, dashes included. */
static int read_target(const uint8_t *id, uint32_t length, struct parts *parts) {
    uint32_t at = 0, fields = 0;
    for (; at < length && fields < 5; at++) {
        if (classes[id[at]] & FIELD)
            continue;
        if (id[at] != '-')
            break;
        parts->dashes[fields++] = at;
    }
    while (at < length && classes[id[at]] & (FIELD | DASH))
        at++;
    if (at < length && id[at] != ':')
        return 0;
    parts->target = at;
    parts->dashes[fields++] = at;
    parts->fields = fields;
    parts->kind = read_kind(id, parts->dashes[0]);
    if (fields < 4 || parts->kind == NO_KIND)
        return 0;
    return parts->dashes[1] > parts->dashes[0] + 1 && parts->dashes[2] > parts->dashes[1] + 1 && parts->dashes[3] > parts->dashes[2] + 1;
}

/* Whether a processor starts with the fifth field. */
static int starts_processor(const uint8_t *field, uint32_t length) {
    return length >= 3 && (memcmp(field, "gfx", 3) == 0 || memcmp(field, "sm_", 3) == 0);
}

/* The processor, which neither begins nor ends with a dash: from the fifth field on, else from the sixth. */
static int read_processor(const uint8_t *id, struct parts *parts) {
    uint32_t fifth = parts->dashes[3] + 1;
    if (parts->fields > 4 && starts_processor(id + fifth, parts->target - fifth)) {
        parts->processor = fifth;
        parts->missing = 1;
    } else {
        parts->processor = parts->fields == 6 ? parts->dashes[4] + 1 : parts->target;
        parts->missing = 6 - parts->fields;
    }
    parts->primary = id + parts->processor;
    parts->primary_length = parts->target - parts->processor;
    return parts->processor == parts->target || (id[parts->processor] != '-' && id[parts->target - 1] != '-');
}

/* Below 0, 0 or above 0: the byte order of two features' names. */
static int compare_names(const uint8_t *id, struct feature a, struct feature b) {
    uint32_t a_length = a.length - 1, b_length = b.length - 1;
    int order = memcmp(id + a.start, id + b.start, a_length < b_length ? a_length : b_length);
    return order != 0 ? order : (int)a_length - (int)b_length;
}

/* Puts a feature where it belongs. 0 if its name is there already. */
static int insert_feature(const uint8_t *id, struct parts *parts, struct feature feature) {
    uint32_t k = parts->features++;
    for (; k > 0; k--) {
        int order = compare_names(id, parts->feature[k - 1], feature);
        if (order == 0)
            return 0;
        if (order < 0)
            break;
        parts->feature[k] = parts->feature[k - 1];
        parts->sorted = 0;
    }
    parts->feature[k] = feature;
    return 1;
}

/* The features after the target: each a colon, a name and a sign. */
static int read_features(const uint8_t *id, uint32_t length, struct parts *parts) {
    uint32_t at = parts->target;
    parts->features = 0;
    parts->sorted = 1;
    while (at < length) {
        uint32_t start = at + 1;
        for (at = start; at < length && classes[id[at]] & NAME; at++)
            ;
        if (at == start || at == length || (id[at] != '+' && id[at] != '-') || parts->features == FEATURES)
            return 0;
        at++;
        if (at < length && id[at] != ':')
            return 0;
        if (!insert_feature(id, parts, (struct feature){start, at - start}))
            return 0;
    }
    return 1;
}

/* Whether the profile is for this ID: a device's kind, arch amdgcn, and a processor. */
static int in_profile(const uint8_t *id, const struct parts *parts) {
    const uint8_t *arch = id + parts->dashes[0] + 1;
    return parts->kind != HOST && parts->processor < parts->target && parts->dashes[1] - parts->dashes[0] == 7 && memcmp(arch, "amdgcn", 6) == 0;
}

static int is_feature(const uint8_t *name, uint32_t length, const char *wanted, uint32_t wanted_length) {
    return length == wanted_length && memcmp(name, wanted, wanted_length) == 0;
}

/* The profile: the processor is known and gets its primary name, and it supports every feature. */
static int read_profile(const uint8_t *id, struct parts *parts) {
    const struct processor *processor = find_processor(parts->primary, parts->primary_length);
    uint32_t k;
    if (processor == NULL)
        return 0;
    for (k = 0; k < parts->features; k++) {
        const uint8_t *name = id + parts->feature[k].start;
        uint32_t length = parts->feature[k].length - 1;
        if (!(processor->sramecc && is_feature(name, length, "sramecc", 7)) && !(processor->xnack && is_feature(name, length, "xnack", 5)))
            return 0;
    }
    if (processor->alternative) {
        parts->primary = (const uint8_t *)processor->primary;
        parts->primary_length = processor->primary_length;
    }
    return 1;
}

static uint64_t mix(uint64_t hash, uint64_t word) {
    hash = (hash ^ word) * 0x9E3779B97F4A7C15;
    return hash ^ hash >> 32;
}

/* Hashes the bytes from `at` on. The last word may hold earlier bytes too, but none of the kind: 8 or more follow it. */
static uint64_t hash_from(uint64_t hash, const uint8_t *text, uint32_t at, uint32_t length) {
    for (; at + 8 < length; at += 8)
        hash = mix(hash, word(text + at));
    return mix(hash, word(text + length - 8));
}

/* Writes the target with its dashes, and the features in order. */
static void write_canonical(const uint8_t *id, const struct parts *parts, uint8_t *out) {
    uint32_t k;
    memcpy(out, id, parts->processor);
    memset(out + parts->processor, '-', parts->missing);
    out += parts->processor + parts->missing;
    memcpy(out, parts->primary, parts->primary_length);
    out += parts->primary_length;
    for (k = 0; k < parts->features; k++) {
        *out++ = ':';
        memcpy(out, id + parts->feature[k].start, parts->feature[k].length);
        out += parts->feature[k].length;
    }
}

/* Reads an ID, with room for its canonical form. 0 if it breaks the rules. */
static int read_id(enum reading reading, const uint8_t *id, uint32_t length, uint8_t *scratch, struct id *read) {
    struct parts parts;
    if (!read_target(id, length, &parts) || !read_processor(id, &parts) || !read_features(id, length, &parts))
        return 0;
    if (parts.features > 0 && parts.processor == parts.target)
        return 0;
    if (reading == AMDGPU && in_profile(id, &parts) && !read_profile(id, &parts))
        return 0;
    read->target = parts.processor + parts.missing + parts.primary_length;
    read->length = read->target + length - parts.target;
    if (read->length > ID_LIMIT)
        return 0;
    read->text = id;
    if (parts.missing > 0 || !parts.sorted || parts.primary != id + parts.processor) {
        write_canonical(id, &parts, scratch);
        read->text = scratch;
    }
    read->kind = parts.kind;
    read->kind_length = parts.dashes[0];
    read->target_hash = hash_from(parts.kind, read->text, read->kind_length, read->target);
    read->hash = hash_from(read->target_hash, read->text, read->target, read->length);
    return 1;
}

/* 1 to 3. */
static uint64_t read_head(const uint8_t *bytes, size_t length) {
    if (length > limit)
        return LENGTH;
    if (length < 24 || memcmp(bytes, magic, 24) != 0)
        return MAGIC;
    return length < 32 || word(bytes + 24) > ENTRIES ? COUNT : OK;
}

/* 4, and the table's end. */
static struct refusal read_table(const uint8_t *bytes, size_t length, struct bundle *bundle, size_t *end) {
    size_t at = 32;
    uint64_t k;
    bundle->count = word(bytes + 24);
    for (k = 0; k < bundle->count; k++) {
        struct entry *entry = &bundle->entries[k];
        uint64_t id_length;
        if (length - at < 24)
            return (struct refusal){TABLE, k};
        id_length = word(bytes + at + 16);
        if (id_length == 0 || id_length > ID_LIMIT || id_length > length - at - 24)
            return (struct refusal){TABLE, k};
        *entry = (struct entry){word(bytes + at), word(bytes + at + 8), bytes + at + 24, (uint32_t)id_length};
        at += 24 + id_length;
    }
    *end = at;
    return (struct refusal){OK, 0};
}

/* 5 and 6. */
static struct refusal read_entries(enum reading reading, struct bundle *bundle, size_t end, size_t length) {
    uint64_t k;
    for (k = 0; k < bundle->count; k++)
        if (!read_id(reading, bundle->entries[k].id, bundle->entries[k].id_length, bundle->scratch[k], &bundle->ids[k]))
            return (struct refusal){ID, k};
    for (k = 0; k < bundle->count; k++) {
        const struct entry *entry = &bundle->entries[k];
        if (entry->offset < end || entry->offset > length || entry->size > length - entry->offset)
            return (struct refusal){RANGE, k};
    }
    return (struct refusal){OK, 0};
}

/* Images that are not empty and share no byte: first bytes and ends. Ends are within the size limit, so an int holds them. */
struct spans {
    int count;
    int starts[ENTRIES], ends[ENTRIES];
};

/* Whether an image shares a byte with one of them: no early way out, so that the compiler can take four at a time. */
static int share_a_byte(const struct spans *spans, int start, int end) {
    int shared = 0, k;
    for (k = 0; k < spans->count; k++)
        shared |= (spans->starts[k] < end) & (spans->ends[k] > start);
    return shared;
}

static int have(const struct spans *spans, int start, int end) {
    int k;
    for (k = 0; k < spans->count; k++)
        if (spans->starts[k] == start && spans->ends[k] == end)
            return 1;
    return 0;
}

/* 21. */
static struct refusal compare_images(const struct bundle *bundle) {
    struct spans spans;
    int low = INT_MAX, high = 0;
    uint64_t k;
    spans.count = 0;
    for (k = 0; k < bundle->count; k++) {
        int start = (int)bundle->entries[k].offset, end = start + (int)bundle->entries[k].size;
        if (start == end)
            continue;
        if (start < high && end > low && share_a_byte(&spans, start, end)) {
            if (have(&spans, start, end))
                continue;
            return (struct refusal){OVERLAP, k};
        }
        low = start < low ? start : low;
        high = end > high ? end : high;
        spans.starts[spans.count] = start;
        spans.ends[spans.count++] = end;
    }
    return (struct refusal){OK, 0};
}

/* Equal in the kind as it is compared, and in the text after it up to these ends. */
static int same_up_to(const struct id *a, uint32_t a_end, const struct id *b, uint32_t b_end) {
    uint32_t length = a_end - a->kind_length;
    return a->kind == b->kind && length == b_end - b->kind_length && memcmp(a->text + a->kind_length, b->text + b->kind_length, length) == 0;
}

static int same_target(const struct id *a, const struct id *b) {
    return a->target_hash == b->target_hash && same_up_to(a, a->target, b, b->target);
}

static int same_meaning(const struct id *a, const struct id *b) {
    return a->hash == b->hash && same_up_to(a, a->length, b, b->length);
}

static int is_sign(uint8_t byte) {
    return byte == '+' || byte == '-';
}

/* Of IDs with the same target: the features are equal but for signs. */
static int same_names(const struct id *a, const struct id *b) {
    const uint8_t *one = a->text + a->target, *other = b->text + b->target;
    uint32_t k, length = a->length - a->target;
    if (length != b->length - b->target)
        return 0;
    for (k = 0; k < length; k++)
        if (one[k] != other[k] && !(is_sign(one[k]) && is_sign(other[k])))
            return 0;
    return 1;
}

/* A hash table of entry indices: 0 is free, k + 1 is entry k. */
typedef uint8_t table[SLOTS];

/* The index of an entry with the same meaning, or with the same target; else k, which is put in. */
static uint64_t find_or_put(table table, const struct id *ids, uint64_t k, uint64_t hash, int (*same)(const struct id *, const struct id *)) {
    uint64_t slot = hash % SLOTS;
    for (; table[slot] != 0; slot = (slot + 1) % SLOTS)
        if (same(&ids[table[slot] - 1], &ids[k]))
            return table[slot] - 1;
    table[slot] = (uint8_t)(k + 1);
    return k;
}

/* 7 and 8. Entries of one target are compared with the first of them: before the lowest mixed one all state the same names. */
static struct refusal compare_entries(const struct bundle *bundle) {
    table meanings = {0}, targets = {0};
    struct refusal refusal = {OK, 0};
    uint64_t k;
    for (k = 0; k < bundle->count; k++) {
        const struct id *id = &bundle->ids[k];
        uint64_t first;
        if (find_or_put(meanings, bundle->ids, k, id->hash, same_meaning) != k)
            return (struct refusal){TWICE, k};
        first = find_or_put(targets, bundle->ids, k, id->target_hash, same_target);
        if (refusal.number == OK && !same_names(&bundle->ids[first], id))
            refusal = (struct refusal){MIXED, k};
    }
    return refusal;
}

static struct refusal read_bundle(enum reading reading, const uint8_t *bytes, size_t length, struct bundle *bundle) {
    struct refusal refusal = {read_head(bytes, length), 0};
    size_t end;
    if (refusal.number == OK)
        refusal = read_table(bytes, length, bundle, &end);
    if (refusal.number == OK)
        refusal = read_entries(reading, bundle, end, length);
    if (refusal.number == OK)
        refusal = compare_images(bundle);
    if (refusal.number == OK)
        refusal = compare_entries(bundle);
    return refusal;
}

static struct checked check(enum reading reading, const uint8_t *bytes, size_t length) {
    struct bundle bundle;
    struct refusal refusal = read_bundle(reading, bytes, length, &bundle);
    return (struct checked){refusal.number, refusal.place, refusal.number == OK ? bundle.count : 0};
}

struct checked baseline_check(const uint8_t *bytes, size_t length) {
    return check(GENERAL, bytes, length);
}

struct checked baseline_amdgpu_check(const uint8_t *bytes, size_t length) {
    return check(AMDGPU, bytes, length);
}

/* The length of the feature at `at`: its colon, name and sign. */
static uint32_t feature_length(const struct id *id, uint32_t at) {
    uint32_t end = at + 1;
    while (!is_sign(id->text[end]))
        end++;
    return end + 1 - at;
}

/* Every feature of the entry is one of the device's. Both are in byte order. */
static int compatible(const struct id *entry, const struct id *device) {
    uint32_t at = entry->target, from = device->target;
    if (!same_target(entry, device))
        return 0;
    while (at < entry->length && from < device->length) {
        uint32_t length = feature_length(entry, at), other = feature_length(device, from);
        if (length == other && memcmp(entry->text + at, device->text + from, length) == 0)
            at += length;
        from += other;
    }
    return at == entry->length;
}

/* Reads a device name, with room for its canonical form. 0 if it breaks the rules. */
static int read_name(enum reading reading, const uint8_t *name, size_t length, uint8_t *scratch, struct id *device) {
    return length > 0 && length <= ID_LIMIT && read_id(reading, name, (uint32_t)length, scratch, device);
}

/* What a bundle has for a device. */
static struct slot find_entry(const struct bundle *bundle, const struct id *device) {
    uint64_t k;
    for (k = 0; k < bundle->count; k++)
        if (compatible(&bundle->ids[k], device))
            return (struct slot){OK, k, bundle->entries[k].offset, bundle->entries[k].size};
    return (struct slot){NONE, 0, 0, 0};
}

/* What a bundle has for a device name. */
static struct slot find(enum reading reading, const struct bundle *bundle, const uint8_t *name, size_t name_length) {
    uint8_t scratch[ID_LIMIT];
    struct id device;
    if (!read_name(reading, name, name_length, scratch, &device))
        return (struct slot){QUERY, 0, 0, 0};
    return find_entry(bundle, &device);
}

static struct picked pick(enum reading reading, const uint8_t *bytes, size_t length, const uint8_t *name, size_t name_length) {
    struct bundle bundle;
    struct refusal refusal = read_bundle(reading, bytes, length, &bundle);
    struct slot slot;
    if (refusal.number != OK)
        return (struct picked){refusal.number, refusal.place, 0, 0, 0};
    slot = find(reading, &bundle, name, name_length);
    return (struct picked){slot.number, 0, slot.index, slot.position, slot.size};
}

struct picked baseline_pick(const uint8_t *bytes, size_t length, const uint8_t *name, size_t name_length) {
    return pick(GENERAL, bytes, length, name, name_length);
}

struct picked baseline_amdgpu_pick(const uint8_t *bytes, size_t length, const uint8_t *name, size_t name_length) {
    return pick(AMDGPU, bytes, length, name, name_length);
}

/* The slot of a part of the buffer. */
static struct slot find_part(const struct bundle *bundle, const uint8_t *buffer, size_t length, struct part part) {
    if (part.start > length || part.length > length - part.start)
        return (struct slot){QUERY, 0, 0, 0};
    return find(GENERAL, bundle, buffer + part.start, part.length);
}

struct picked_each baseline_pick_each(const uint8_t *bytes, size_t length, const uint8_t *buffer, size_t buffer_length,
                                      const struct part *names, size_t count, struct slot *slots, size_t room) {
    struct bundle bundle;
    struct refusal refusal = read_bundle(GENERAL, bytes, length, &bundle);
    uint64_t word = 0, k;
    if (refusal.number == OK && count > NAMES)
        refusal.number = RACK;
    if (refusal.number == OK && count > room)
        refusal.number = ROOM;
    if (refusal.number != OK)
        return (struct picked_each){refusal.number, refusal.place, 0, 0, 0};
    for (k = 0; k < count; k++) {
        slots[k] = find_part(&bundle, buffer, buffer_length, names[k]);
        if (slots[k].number == OK)
            word |= (uint64_t)1 << slots[k].index;
    }
    return (struct picked_each){OK, 0, count, word, (uint64_t)__builtin_popcountll(word)};
}

struct looked_up baseline_lookup(const uint8_t *patch, size_t patch_length, const uint8_t *main_bundle, size_t main_length,
                                 const uint8_t *name, size_t name_length) {
    const uint8_t *bytes[2] = {patch, main_bundle};
    const size_t lengths[2] = {patch_length, main_length};
    struct bundle bundles[2];
    uint8_t scratch[ID_LIMIT];
    struct id device;
    uint64_t k;
    for (k = 0; k < 2; k++) {
        struct refusal refusal = read_bundle(GENERAL, bytes[k], lengths[k], &bundles[k]);
        if (refusal.number != OK)
            return (struct looked_up){refusal.number, refusal.place, k + 1, 0, 0};
    }
    if (!read_name(GENERAL, name, name_length, scratch, &device))
        return (struct looked_up){QUERY, 0, 0, 0, 0};
    for (k = 0; k < 2; k++) {
        struct slot slot = find_entry(&bundles[k], &device);
        if (slot.number == OK)
            return (struct looked_up){OK, 0, k + 1, slot.position, slot.size};
    }
    return (struct looked_up){NONE, 0, 0, 0, 0};
}

struct located baseline_entry(const uint8_t *bytes, size_t length, uint64_t index) {
    struct bundle bundle;
    struct refusal refusal = read_bundle(GENERAL, bytes, length, &bundle);
    const struct entry *entry;
    if (refusal.number != OK)
        return (struct located){refusal.number, refusal.place, 0, 0, 0, 0};
    if (index >= bundle.count)
        return (struct located){NONE, 0, 0, 0, 0, 0};
    entry = &bundle.entries[index];
    return (struct located){OK, 0, entry->offset, entry->size, (uint64_t)(entry->id - bytes), entry->id_length};
}

/* Below 0, 0 or above 0: the byte order of two IDs. */
static int compare_ids(const struct id *a, const struct id *b) {
    int order = memcmp(a->text, b->text, a->length < b->length ? a->length : b->length);
    return order != 0 ? order : (int)a->length - (int)b->length;
}

/* The entries in byte order of their IDs, by binary insertion. */
static void sort(const struct bundle *bundle, uint8_t order[ENTRIES]) {
    uint64_t k;
    for (k = 0; k < bundle->count; k++) {
        uint64_t low = 0, high = k;
        while (low < high) {
            uint64_t middle = (low + high) / 2;
            if (compare_ids(&bundle->ids[order[middle]], &bundle->ids[k]) < 0)
                low = middle + 1;
            else
                high = middle;
        }
        memmove(order + low + 1, order + low, k - low);
        order[low] = (uint8_t)k;
    }
}

/* The length of the normal form, with the length of its table. */
static uint64_t normal_length(const struct bundle *bundle, uint64_t *table) {
    uint64_t images = 0, k;
    *table = 32;
    for (k = 0; k < bundle->count; k++) {
        *table += 24 + bundle->ids[k].length;
        images += bundle->entries[k].size;
    }
    return *table + images;
}

static void put(uint8_t *at, uint64_t value) {
    memcpy(at, &value, 8);
}

static void write_normal(const uint8_t *bytes, const struct bundle *bundle, uint64_t image, uint8_t *out) {
    uint8_t order[ENTRIES], *row = out + 32;
    uint64_t k;
    sort(bundle, order);
    memcpy(out, magic, 24);
    put(out + 24, bundle->count);
    for (k = 0; k < bundle->count; k++) {
        const struct entry *entry = &bundle->entries[order[k]];
        const struct id *id = &bundle->ids[order[k]];
        put(row, image);
        put(row + 8, entry->size);
        put(row + 16, id->length);
        memcpy(row + 24, id->text, id->length);
        memcpy(out + image, bytes + entry->offset, entry->size);
        row += 24 + id->length;
        image += entry->size;
    }
}

static struct written normalise(enum reading reading, const uint8_t *bytes, size_t length, uint8_t *out, size_t room) {
    struct bundle bundle;
    struct refusal refusal = read_bundle(reading, bytes, length, &bundle);
    uint64_t table, normal;
    if (refusal.number != OK)
        return (struct written){refusal.number, refusal.place, 0};
    normal = normal_length(&bundle, &table);
    if (normal > limit)
        return (struct written){BIG, 0, 0};
    if (normal > room)
        return (struct written){ROOM, 0, 0};
    write_normal(bytes, &bundle, table, out);
    return (struct written){OK, 0, normal};
}

struct written baseline_normalise(const uint8_t *bytes, size_t length, uint8_t *out, size_t room) {
    return normalise(GENERAL, bytes, length, out, room);
}

struct written baseline_amdgpu_normalise(const uint8_t *bytes, size_t length, uint8_t *out, size_t room) {
    return normalise(AMDGPU, bytes, length, out, room);
}

/* One of the two bundles that a report is about, and its entries in byte order of their IDs. */
struct side {
    const uint8_t *bytes;
    struct bundle bundle;
    uint8_t order[ENTRIES];
};

static uint64_t read_side(const uint8_t *bytes, size_t length, struct side *side) {
    struct refusal refusal = {LENGTH, 0};
    if (length <= COMPARE_LIMIT)
        refusal = read_bundle(GENERAL, bytes, length, &side->bundle);
    side->bytes = bytes;
    if (refusal.number == OK)
        sort(&side->bundle, side->order);
    return refusal.number;
}

static uint8_t *put_text(uint8_t *at, const void *text, size_t length) {
    memcpy(at, text, length);
    return at + length;
}

/* The number and a newline. */
static uint8_t *put_number(uint8_t *at, uint64_t number) {
    uint8_t digits[21], *first = digits + 20;
    *first = '\n';
    do
        *--first = (uint8_t)('0' + number % 10);
    while ((number /= 10) > 0);
    return put_text(at, first, (size_t)(digits + 21 - first));
}

/* A letter and an ID, and what stands behind it. */
static uint8_t *put_id(uint8_t *at, char letter, const struct id *id, char behind) {
    *at++ = (uint8_t)letter;
    *at++ = ' ';
    at = put_text(at, id->text, id->length);
    *at++ = (uint8_t)behind;
    return at;
}

/* The first of so many bytes at which two images differ, or how many there are. */
static uint64_t first_difference(const uint8_t *a, const uint8_t *b, uint64_t length) {
    uint64_t at = 0;
    while (length - at >= 64 && memcmp(a + at, b + at, 64) == 0)
        at += 64;
    while (at < length && a[at] == b[at])
        at++;
    return at;
}

/* The line of an ID that both have, where the images differ. */
static uint8_t *put_difference(uint8_t *at, const struct side *left, uint64_t i, const struct side *right, uint64_t k) {
    const struct entry *a = &left->bundle.entries[i], *b = &right->bundle.entries[k];
    uint64_t shorter = a->size < b->size ? a->size : b->size;
    uint64_t first = first_difference(left->bytes + a->offset, right->bytes + b->offset, shorter);
    if (first == a->size && first == b->size)
        return at;
    return put_number(put_id(at, 'D', &left->bundle.ids[i], ' '), first);
}

static const struct id *id_in_order(const struct side *side, uint64_t k) {
    return &side->bundle.ids[side->order[k]];
}

/* Below 0, 0 or above 0: whether the next line is about an ID of the left, of both or of the right. One has IDs left. */
static int whose_is_next(const struct side *left, uint64_t i, const struct side *right, uint64_t k) {
    if (i == left->bundle.count)
        return 1;
    return k == right->bundle.count ? -1 : compare_ids(id_in_order(left, i), id_in_order(right, k));
}

/* The lines of two bundles, and how many they are. */
static uint8_t *put_differences(uint8_t *at, const struct side *left, const struct side *right) {
    uint64_t i = 0, k = 0, lines = 0;
    while (i < left->bundle.count || k < right->bundle.count) {
        const uint8_t *from = at;
        int order = whose_is_next(left, i, right, k);
        if (order < 0)
            at = put_id(at, 'L', id_in_order(left, i), '\n');
        else if (order > 0)
            at = put_id(at, 'R', id_in_order(right, k), '\n');
        else
            at = put_difference(at, left, left->order[i], right, right->order[k]);
        lines += at > from;
        i += order <= 0;
        k += order >= 0;
    }
    return put_number(put_text(at, "differences ", 12), lines);
}

uint64_t baseline_report(const uint8_t *left, size_t left_length, const uint8_t *right, size_t right_length,
                         uint8_t *out, size_t room) {
    struct side sides[2];
    uint8_t scratch[REPORT_LIMIT], *text = room < REPORT_LIMIT ? scratch : out, *end;
    uint64_t number = read_side(left, left_length, &sides[0]), length;
    if (number != OK)
        end = put_number(put_text(text, "refused left ", 13), number);
    else if ((number = read_side(right, right_length, &sides[1])) != OK)
        end = put_number(put_text(text, "refused right ", 14), number);
    else
        end = put_differences(text, &sides[0], &sides[1]);
    length = (uint64_t)(end - text);
    if (text == scratch && length <= room)
        memcpy(out, scratch, length);
    return length;
}

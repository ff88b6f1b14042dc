/* Uses the library through include/offload.h alone, built as C99 and as C++: every call and every inline function, accepted
 * and refused, and each constant on both sides of its limit. What the profile does not concern is asked in both readings. */
#include "offload.h"

#include <inttypes.h>
#include <stdio.h>
#include <stdlib.h>
#include <string.h>

enum { IMAGE = 5, BODY = 10, SPACE = 8192, OTHER = 7, SLOTS = OFFLOAD_NAMES + 4, SPANS = OFFLOAD_BINARIES + 4, REPORT = OFFLOAD_REPORT_LIMIT + 4 };

static const char host[] = "host-x86_64-unknown-linux-gnu", card[] = "hip-amdgcn-amd-amdhsa-gfx906:xnack-";

/* The calls that read IDs by the general rules, or by the profile for AMD's GPUs. */
struct reading {
    const char *name;
    struct offload_check_answer (*check)(const uint8_t *, size_t);
    uint64_t (*check_number)(const uint8_t *, size_t);
    uint64_t (*check_place)(const uint8_t *, size_t);
    uint64_t (*check_count)(const uint8_t *, size_t);
    struct offload_pick_answer (*pick)(const uint8_t *, size_t, const uint8_t *, size_t);
    uint64_t (*pick_number)(const uint8_t *, size_t, const uint8_t *, size_t);
    uint64_t (*pick_place)(const uint8_t *, size_t, const uint8_t *, size_t);
    uint64_t (*pick_index)(const uint8_t *, size_t, const uint8_t *, size_t);
    uint64_t (*pick_position)(const uint8_t *, size_t, const uint8_t *, size_t);
    uint64_t (*pick_size)(const uint8_t *, size_t, const uint8_t *, size_t);
    struct offload_normalise_answer (*normalise)(const uint8_t *, size_t, uint8_t *, size_t);
    uint64_t (*normalise_number)(const uint8_t *, size_t, uint8_t *, size_t);
    uint64_t (*normalise_place)(const uint8_t *, size_t, uint8_t *, size_t);
    uint64_t (*normalise_length)(const uint8_t *, size_t, uint8_t *, size_t);
};

static const struct reading general = {
    "general", offload_check, offload_check_number, offload_check_place, offload_check_count,
    offload_pick, offload_pick_number, offload_pick_place, offload_pick_index, offload_pick_position, offload_pick_size,
    offload_normalise, offload_normalise_number, offload_normalise_place, offload_normalise_length,
};

static const struct reading profile = {
    "amdgpu", offload_amdgpu_check, offload_amdgpu_check_number, offload_amdgpu_check_place, offload_amdgpu_check_count,
    offload_amdgpu_pick, offload_amdgpu_pick_number, offload_amdgpu_pick_place, offload_amdgpu_pick_index, offload_amdgpu_pick_position,
    offload_amdgpu_pick_size,
    offload_amdgpu_normalise, offload_amdgpu_normalise_number, offload_amdgpu_normalise_place, offload_amdgpu_normalise_length,
};

/* The reading that is asked. */
static const struct reading *by = &general;

static int wrong;

static void expect(const char *what, const char *which, uint64_t got, uint64_t want) {
    if (got == want)
        return;
    printf("%s, %s: %s: %" PRIu64 " and not %" PRIu64 "\n", by->name, what, which, got, want);
    wrong = 1;
}

/* What each family answers: the inline function, and each call. */

static void check(const char *what, const uint8_t *bundle, size_t length, uint64_t number, uint64_t place, uint64_t count) {
    struct offload_check_answer answer = by->check(bundle, length);
    expect(what, "check, number", answer.number, number);
    expect(what, "check, place", answer.place, place);
    expect(what, "check, count", answer.count, count);
    expect(what, "check_number", by->check_number(bundle, length), number);
    expect(what, "check_place", by->check_place(bundle, length), place);
    expect(what, "check_count", by->check_count(bundle, length), count);
}

/* An entry is read by the general rules alone, which refuse no bundle that the profile accepts. */
static void entry(const char *what, const uint8_t *bundle, size_t length, size_t index, uint64_t number, uint64_t place,
                  uint64_t position, uint64_t size, uint64_t id_position, uint64_t id_length) {
    struct offload_entry_answer answer = offload_entry(bundle, length, index);
    expect(what, "entry, number", answer.number, number);
    expect(what, "entry, place", answer.place, place);
    expect(what, "entry, position", answer.position, position);
    expect(what, "entry, size", answer.size, size);
    expect(what, "entry, id_position", answer.id_position, id_position);
    expect(what, "entry, id_length", answer.id_length, id_length);
    expect(what, "entry_number", offload_entry_number(bundle, length, index), number);
    expect(what, "entry_place", offload_entry_place(bundle, length, index), place);
    expect(what, "entry_position", offload_entry_position(bundle, length, index), position);
    expect(what, "entry_size", offload_entry_size(bundle, length, index), size);
    expect(what, "entry_id_position", offload_entry_id_position(bundle, length, index), id_position);
    expect(what, "entry_id_length", offload_entry_id_length(bundle, length, index), id_length);
}

static void pick(const char *what, const uint8_t *bundle, size_t length, const char *device, uint64_t number, uint64_t place,
                 uint64_t index, uint64_t position, uint64_t size) {
    const uint8_t *name = (const uint8_t *)device;
    size_t name_length = strlen(device);
    struct offload_pick_answer answer = by->pick(bundle, length, name, name_length);
    expect(what, "pick, number", answer.number, number);
    expect(what, "pick, place", answer.place, place);
    expect(what, "pick, index", answer.index, index);
    expect(what, "pick, position", answer.position, position);
    expect(what, "pick, size", answer.size, size);
    expect(what, "pick_number", by->pick_number(bundle, length, name, name_length), number);
    expect(what, "pick_place", by->pick_place(bundle, length, name, name_length), place);
    expect(what, "pick_index", by->pick_index(bundle, length, name, name_length), index);
    expect(what, "pick_position", by->pick_position(bundle, length, name, name_length), position);
    expect(what, "pick_size", by->pick_size(bundle, length, name, name_length), size);
}

/* What is asked for several names, which are parts of a text: there is room for this many slots. */
struct query {
    const uint8_t *bundle;
    size_t length;
    const char *text;
    size_t text_length;
    const struct offload_part *names;
    size_t count, room;
};

typedef uint64_t each(const uint8_t *, size_t, const uint8_t *, size_t, const struct offload_part *, size_t, struct offload_slot *, size_t);

static void expect_slot(const char *what, const struct offload_slot *got, const struct offload_slot *want) {
    expect(what, "slot, number", got->number, want->number);
    expect(what, "slot, index", got->index, want->index);
    expect(what, "slot, position", got->position, want->position);
    expect(what, "slot, size", got->size, want->size);
}

/* The first slots are these, and all others unchanged. */
static void expect_slots(const char *what, const struct offload_slot *got, const struct offload_slot *want, uint64_t written) {
    struct offload_slot unchanged;
    size_t i;
    memset(&unchanged, OTHER, sizeof unchanged);
    for (i = 0; i < SLOTS; i++)
        expect_slot(what, &got[i], i < written ? &want[i] : &unchanged);
}

/* A call returns this number, and leaves these slots. */
static void each_number(const char *what, const char *which, each *call, const struct query *query, uint64_t number,
                        const struct offload_slot *slots, uint64_t written) {
    struct offload_slot out[SLOTS];
    memset(out, OTHER, sizeof out);
    expect(what, which,
           call(query->bundle, query->length, (const uint8_t *)query->text, query->text_length, query->names, query->count, out, query->room), number);
    expect_slots(what, out, slots, written);
}

/* The slot of a name is what the pick for it alone gives. */
static void single(const char *what, const struct query *query, size_t name, const struct offload_slot *want) {
    const uint8_t *text = (const uint8_t *)query->text + query->names[name].start;
    struct offload_pick_answer answer = offload_pick(query->bundle, query->length, text, query->names[name].length);
    struct offload_slot slot = {0, 0, 0, 0};
    slot.number = answer.number;
    slot.index = answer.index;
    slot.position = answer.position;
    slot.size = answer.size;
    expect_slot(what, &slot, want);
}

static void pick_each(const char *what, const struct query *query, uint64_t number, uint64_t place, const struct offload_slot *slots, uint64_t written,
                      uint64_t word, uint64_t taken) {
    struct offload_slot out[SLOTS];
    struct offload_pick_each_answer answer;
    size_t i;
    memset(out, OTHER, sizeof out);
    answer = offload_pick_each(query->bundle, query->length, (const uint8_t *)query->text, query->text_length, query->names, query->count, out,
                               query->room);
    expect_slots(what, out, slots, written);
    expect(what, "pick_each, number", answer.number, number);
    expect(what, "pick_each, place", answer.place, place);
    expect(what, "pick_each, slots", answer.slots, written);
    expect(what, "pick_each, word", answer.word, word);
    expect(what, "pick_each, taken", answer.taken, taken);
    each_number(what, "pick_each_number", offload_pick_each_number, query, number, slots, written);
    each_number(what, "pick_each_place", offload_pick_each_place, query, place, slots, written);
    each_number(what, "pick_each_slots", offload_pick_each_slots, query, written, slots, written);
    each_number(what, "pick_each_word", offload_pick_each_word, query, word, slots, written);
    each_number(what, "pick_each_taken", offload_pick_each_taken, query, taken, slots, written);
    for (i = 0; i < written; i++)
        if (query->names[i].start <= query->text_length && query->names[i].length <= query->text_length - query->names[i].start)
            single(what, query, i, &slots[i]);
}

/* Two bundles, the patch before the main one. */
struct pair {
    const uint8_t *patch;
    size_t patch_length;
    const uint8_t *main_bundle;
    size_t main_length;
};

typedef uint64_t look(const uint8_t *, size_t, const uint8_t *, size_t, const uint8_t *, size_t);

static void lookup_number(const char *what, const char *which, look *call, const struct pair *pair, const char *device, uint64_t want) {
    uint64_t got = call(pair->patch, pair->patch_length, pair->main_bundle, pair->main_length, (const uint8_t *)device, strlen(device));
    expect(what, which, got, want);
}

/* How many of a bundle's bytes are compared: a bundle may be very long. */
static size_t compared(size_t length) {
    size_t most = SPACE;
    return length < most ? length : most;
}

/* An accepted lookup gives what a pick from that bundle gives, and the image itself; a refused one gives no image. Neither bundle is changed. */
static void lookup(const char *what, const struct pair *pair, const char *device, uint64_t number, uint64_t place, uint64_t bundle, uint64_t position,
                   uint64_t size) {
    static uint8_t patch[SPACE], main_bundle[SPACE];
    const uint8_t *image = number != OFFLOAD_OK ? NULL : (bundle == OFFLOAD_PATCH ? pair->patch : pair->main_bundle) + position;
    struct offload_lookup_answer answer;
    memcpy(patch, pair->patch, compared(pair->patch_length));
    memcpy(main_bundle, pair->main_bundle, compared(pair->main_length));
    answer = offload_lookup(pair->patch, pair->patch_length, pair->main_bundle, pair->main_length, (const uint8_t *)device, strlen(device));
    expect(what, "lookup, number", answer.number, number);
    expect(what, "lookup, place", answer.place, place);
    expect(what, "lookup, bundle", answer.bundle, bundle);
    expect(what, "lookup, position", answer.position, position);
    expect(what, "lookup, size", answer.size, size);
    expect(what, "lookup, image", answer.image == image, 1);
    lookup_number(what, "lookup_number", offload_lookup_number, pair, device, number);
    lookup_number(what, "lookup_place", offload_lookup_place, pair, device, place);
    lookup_number(what, "lookup_bundle", offload_lookup_bundle, pair, device, bundle);
    lookup_number(what, "lookup_position", offload_lookup_position, pair, device, position);
    lookup_number(what, "lookup_size", offload_lookup_size, pair, device, size);
    expect(what, "lookup, bytes of the patch", (uint64_t)memcmp(patch, pair->patch, compared(pair->patch_length)), 0);
    expect(what, "lookup, bytes of the main bundle", (uint64_t)memcmp(main_bundle, pair->main_bundle, compared(pair->main_length)), 0);
}

/* The output, of this many bytes, holds these, and is otherwise unchanged; it is then made fresh again. */
static void output_holds(const char *what, uint8_t *out, size_t space, const uint8_t *bytes, size_t length) {
    size_t i;
    expect(what, "bytes written", (uint64_t)memcmp(out, bytes, length), 0);
    for (i = length; i < space; i++)
        expect(what, "a byte beyond", out[i], OTHER);
    memset(out, OTHER, space);
}

static void holds(const char *what, uint8_t *out, const uint8_t *bytes, size_t length) { output_holds(what, out, SPACE, bytes, length); }

/* An output of `room` bytes; `normal` are the bytes that are written, `written` their number. */
static void normalise(const char *what, const uint8_t *bundle, size_t length, size_t room, uint64_t number, uint64_t place,
                      const uint8_t *normal, size_t written) {
    static uint8_t out[SPACE];
    struct offload_normalise_answer answer;
    memset(out, OTHER, SPACE);
    answer = by->normalise(bundle, length, out, room);
    holds(what, out, normal, written);
    expect(what, "normalise, number", answer.number, number);
    expect(what, "normalise, place", answer.place, place);
    expect(what, "normalise, length", answer.length, written);
    expect(what, "normalise_number", by->normalise_number(bundle, length, out, room), number);
    holds(what, out, normal, written);
    expect(what, "normalise_place", by->normalise_place(bundle, length, out, room), place);
    holds(what, out, normal, written);
    expect(what, "normalise_length", by->normalise_length(bundle, length, out, room), written);
    holds(what, out, normal, written);
}

/* Two bundles to compare. */
struct sides {
    const uint8_t *left;
    size_t left_length;
    const uint8_t *right;
    size_t right_length;
};

/* The report on two bundles, in an output of `room` bytes: all of it, or nothing. */
static void compare_into(const char *what, const struct sides *sides, size_t room, const char *report) {
    static uint8_t out[REPORT];
    size_t length = strlen(report);
    memset(out, OTHER, REPORT);
    expect(what, "compare_length", offload_compare_length(sides->left, sides->left_length, sides->right, sides->right_length, out, room), length);
    output_holds(what, out, REPORT, (const uint8_t *)report, room < length ? 0 : length);
}

static void compare(const char *what, const struct sides *sides, const char *report) {
    static uint8_t left[SPACE], right[SPACE];
    const size_t length = strlen(report), rooms[] = {length, length + 1, OFFLOAD_REPORT_LIMIT, REPORT, length - 1, length / 2, 1, 0};
    size_t i;
    memcpy(left, sides->left, compared(sides->left_length));
    memcpy(right, sides->right, compared(sides->right_length));
    for (i = 0; i < sizeof rooms / sizeof *rooms; i++)
        compare_into(what, sides, rooms[i], report);
    expect(what, "compare, bytes of the left", (uint64_t)memcmp(left, sides->left, compared(sides->left_length)), 0);
    expect(what, "compare, bytes of the right", (uint64_t)memcmp(right, sides->right, compared(sides->right_length)), 0);
}

/* Offload binaries, perhaps damaged: there is room for this many bytes and spans. */
struct sequence {
    const uint8_t *bytes;
    size_t length, room, span_room;
};

/* What is found in them, end to end, and what is skipped; nothing of either where a call is refused. */
struct recovery {
    const uint8_t *binaries;
    size_t length;
    const struct offload_part *spans;
    size_t count;
};

/* The memory that is lent. */
struct lent {
    uint8_t out[SPACE];
    struct offload_part spans[SPANS];
};

typedef uint64_t recover_call(const uint8_t *, size_t, uint8_t *, size_t, struct offload_part *, size_t);

static struct lent *fresh_lent(void) {
    static struct lent lent;
    memset(&lent, OTHER, sizeof lent);
    return &lent;
}

/* What is lent has what is found and skipped, and is otherwise unchanged. */
static void holds_recovery(const char *what, struct lent *lent, const struct recovery *want) {
    struct offload_part unchanged;
    size_t i;
    memset(&unchanged, OTHER, sizeof unchanged);
    holds(what, lent->out, want->binaries, want->length);
    for (i = 0; i < SPANS; i++) {
        const struct offload_part *part = i < want->count ? &want->spans[i] : &unchanged;
        expect(what, "span, start", lent->spans[i].start, part->start);
        expect(what, "span, length", lent->spans[i].length, part->length);
    }
}

static void recover_number(const char *what, const char *which, recover_call *call, const struct sequence *sequence, uint64_t number,
                           const struct recovery *want) {
    struct lent *lent = fresh_lent();
    expect(what, which, call(sequence->bytes, sequence->length, lent->out, sequence->room, lent->spans, sequence->span_room), number);
    holds_recovery(what, lent, want);
}

static void recover(const char *what, const struct sequence *sequence, uint64_t number, uint64_t place, const struct recovery *want) {
    static uint8_t before[SPACE];
    struct lent *lent = fresh_lent();
    struct offload_recover_answer answer;
    memcpy(before, sequence->bytes, compared(sequence->length));
    answer = offload_recover(sequence->bytes, sequence->length, lent->out, sequence->room, lent->spans, sequence->span_room);
    holds_recovery(what, lent, want);
    expect(what, "recover, number", answer.number, number);
    expect(what, "recover, place", answer.place, place);
    expect(what, "recover, length", answer.length, want->length);
    expect(what, "recover, spans", answer.spans, want->count);
    recover_number(what, "recover_number", offload_recover_number, sequence, number, want);
    recover_number(what, "recover_place", offload_recover_place, sequence, place, want);
    recover_number(what, "recover_length", offload_recover_length, sequence, want->length, want);
    recover_number(what, "recover_spans", offload_recover_spans, sequence, want->count, want);
    expect(what, "recover, bytes read", (uint64_t)memcmp(before, sequence->bytes, compared(sequence->length)), 0);
}

/* Bundles. */

static void put_word(uint8_t *out, uint64_t value) {
    int i;
    for (i = 0; i < 8; i++)
        out[i] = (uint8_t)(value >> (8 * i));
}

/* An image: its size, and how many bytes after the table's end it starts. */
struct span {
    size_t start, size;
};

/* A table with these IDs and images. The table's end. */
static size_t make_table(uint8_t *out, size_t count, const char *const *ids, const struct span *images) {
    size_t i, end = 32, at = 32;
    for (i = 0; i < count; i++)
        end += 24 + strlen(ids[i]);
    memcpy(out, "__CLANG_OFFLOAD_BUNDLE__", 24);
    put_word(out + 24, count);
    for (i = 0; i < count; i++) {
        size_t length = strlen(ids[i]);
        put_word(out + at, end + images[i].start);
        put_word(out + at + 8, images[i].size);
        put_word(out + at + 16, length);
        memcpy(out + at + 24, ids[i], length);
        at += 24 + length;
    }
    return end;
}

/* Two entries, with images of 5 bytes, packed. The length. */
static size_t make_two(uint8_t *out, const char *id0, const char *image0, const char *id1, const char *image1) {
    static const struct span images[2] = {{0, IMAGE}, {IMAGE, IMAGE}};
    const char *ids[2];
    size_t end;
    ids[0] = id0;
    ids[1] = id1;
    end = make_table(out, 2, ids, images);
    memcpy(out + end, image0, IMAGE);
    memcpy(out + end + IMAGE, image1, IMAGE);
    return end + 2 * IMAGE;
}

/* `count` entries with these images. The table's end. */
static size_t make_many(uint8_t *out, size_t count, const struct span *images) {
    static char texts[OFFLOAD_ENTRIES + 1][16];
    const char *ids[OFFLOAD_ENTRIES + 1];
    size_t i;
    for (i = 0; i < count; i++) {
        sprintf(texts[i], "host-a%02u-b-c", (unsigned)i);
        ids[i] = texts[i];
    }
    return make_table(out, count, ids, images);
}

/* `count` entries that share one image of this size. The table's end. */
static size_t make_shared(uint8_t *out, size_t count, size_t size) {
    struct span images[OFFLOAD_ENTRIES + 1];
    size_t i;
    memset(images, 0, sizeof images);
    for (i = 0; i < count; i++)
        images[i].size = size;
    return make_many(out, count, images);
}

/* A canonical ID of this length. */
static const char *long_id(size_t length) {
    static char text[OFFLOAD_ID_LIMIT + 2];
    memset(text, 'c', length);
    memcpy(text, "hip-a-b-", 8);
    memcpy(text + length - 2, "--", 3);
    return text;
}

/* Cases. */

static void two_entries(void) {
    static uint8_t bundle[SPACE], normal[SPACE];
    size_t length = make_two(bundle, host, "HOST.", card, "CARD.");
    size_t written = make_two(normal, "hip-amdgcn-amd-amdhsa--gfx906:xnack-", "CARD.", "host-x86_64-unknown-linux-gnu-", "HOST.");
    const char *gfx906 = "hip-amdgcn-amd-amdhsa-gfx906";

    check("two entries", bundle, length, OFFLOAD_OK, 0, 2);
    check("a byte short", bundle, length - 1, OFFLOAD_RANGE, 1, 0);
    check("table cut", bundle, 100, OFFLOAD_TABLE, 1, 0);
    check("no count", bundle, 31, OFFLOAD_COUNT, 0, 0);
    check("no magic", bundle, 23, OFFLOAD_MAGIC, 0, 0);
    check("no bytes", bundle, 0, OFFLOAD_MAGIC, 0, 0);

    entry("entry 0", bundle, length, 0, OFFLOAD_OK, 0, 144, IMAGE, 56, strlen(host));
    entry("entry 1", bundle, length, 1, OFFLOAD_OK, 0, 149, IMAGE, 109, strlen(card));
    entry("entry 2", bundle, length, 2, OFFLOAD_NONE, 0, 0, 0, 0, 0);
    entry("the last index", bundle, length, SIZE_MAX, OFFLOAD_NONE, 0, 0, 0, 0, 0);
    entry("entry 0, a byte short", bundle, length - 1, 0, OFFLOAD_RANGE, 1, 0, 0, 0, 0);

    pick("the card", bundle, length, card, OFFLOAD_OK, 0, 1, 149, IMAGE);
    pick("more is stated", bundle, length, "hip-amdgcn-amd-amdhsa--gfx906:sramecc+:xnack-", OFFLOAD_OK, 0, 1, 149, IMAGE);
    pick("less is stated", bundle, length, gfx906, OFFLOAD_NONE, 0, 0, 0, 0);
    pick("no name", bundle, length, "", OFFLOAD_QUERY, 0, 0, 0, 0);
    pick("the card, a byte short", bundle, length - 1, card, OFFLOAD_RANGE, 1, 0, 0, 0);

    normalise("normal form", bundle, length, SPACE, OFFLOAD_OK, 0, normal, written);
    normalise("room enough", bundle, length, length + 2 * OFFLOAD_ENTRIES, OFFLOAD_OK, 0, normal, written);
    normalise("room exact", bundle, length, written, OFFLOAD_OK, 0, normal, written);
    normalise("a byte less room", bundle, length, written - 1, OFFLOAD_ROOM, 0, normal, 0);
    normalise("no room", bundle, length, 0, OFFLOAD_ROOM, 0, normal, 0);
    normalise("again", normal, written, written, OFFLOAD_OK, 0, normal, written);
    normalise("normal form, a byte short", bundle, length - 1, SPACE, OFFLOAD_RANGE, 1, normal, 0);

    check("bad ID", bundle, make_two(bundle, host, "HOST.", "hip-amdgcn", "CARD."), OFFLOAD_ID, 1, 0);
    check("two spellings", bundle, make_two(bundle, gfx906, "ONE..", "hip-amdgcn-amd-amdhsa--gfx906", "TWO.."), OFFLOAD_TWICE, 1, 0);
    check("other features", bundle, make_two(bundle, gfx906, "ONE..", card, "TWO.."), OFFLOAD_MIXED, 1, 0);
}

/* One entry of this ID, with this text as its image. The length. */
static size_t make_text(uint8_t *out, const char *id, const char *text) {
    struct span image = {0, 0};
    size_t end;
    image.size = strlen(text);
    end = make_table(out, 1, &id, &image);
    memcpy(out + end, text, image.size);
    return end + image.size;
}

static size_t make_one(uint8_t *out, const char *id) { return make_text(out, id, "IMAGE"); }

/* An entry of the one kind, picked by the name with the other; its normal form keeps the kind. */
static void across(const char *id, const char *other) {
    static uint8_t bundle[SPACE];
    size_t length = make_one(bundle, id);
    pick("the kind as spelled", bundle, length, id, OFFLOAD_OK, 0, 0, length - IMAGE, IMAGE);
    pick("the other spelling", bundle, length, other, OFFLOAD_OK, 0, 0, length - IMAGE, IMAGE);
    pick("another kind", bundle, length, "openmp-a-b-c--gfx906:xnack-", OFFLOAD_NONE, 0, 0, 0, 0);
    normalise("the kind is kept", bundle, length, length, OFFLOAD_OK, 0, bundle, length);
}

/* hip and hipv4 are one kind; hip and openmp are two. */
static void kinds(void) {
    static uint8_t bundle[SPACE];
    const char *hip = "hip-a-b-c--gfx906:xnack-", *hipv4 = "hipv4-a-b-c--gfx906:xnack-";
    across(hip, hipv4);
    across(hipv4, hip);
    check("both kinds", bundle, make_two(bundle, hip, "ONE..", hipv4, "TWO.."), OFFLOAD_TWICE, 1, 0);
    check("both, the other way", bundle, make_two(bundle, hipv4, "ONE..", hip, "TWO.."), OFFLOAD_TWICE, 1, 0);
    check("other features across", bundle, make_two(bundle, hip, "ONE..", "hipv4-a-b-c--gfx906", "TWO.."), OFFLOAD_MIXED, 1, 0);
    check("the other sign across", bundle, make_two(bundle, hipv4, "ONE..", "hip-a-b-c--gfx906:xnack+", "TWO.."), OFFLOAD_OK, 0, 2);
    check("two kinds", bundle, make_two(bundle, hip, "ONE..", "openmp-a-b-c--gfx906", "TWO.."), OFFLOAD_OK, 0, 2);
}

/* An ID that keeps the rules, and its canonical form: each as an entry, picked by the other as a device name. */
static void reads(const char *id, const char *canonical) {
    static uint8_t bundle[SPACE], normal[SPACE];
    size_t length = make_one(bundle, id), written = make_one(normal, canonical);
    check(id, bundle, length, OFFLOAD_OK, 0, 1);
    entry(id, bundle, length, 0, OFFLOAD_OK, 0, length - IMAGE, IMAGE, 56, strlen(id));
    pick(id, bundle, length, canonical, OFFLOAD_OK, 0, 0, length - IMAGE, IMAGE);
    pick(id, normal, written, id, OFFLOAD_OK, 0, 0, written - IMAGE, IMAGE);
    normalise(id, bundle, length, SPACE, OFFLOAD_OK, 0, normal, written);
}

/* A text that this reading refuses: as an entry, and as a device name. */
static void refuses_here(const char *id) {
    static uint8_t bundle[SPACE];
    size_t length = make_two(bundle, host, "HOST.", id, "CARD.");
    check(id, bundle, length, OFFLOAD_ID, 1, 0);
    pick(id, bundle, length, host, OFFLOAD_ID, 1, 0, 0, 0);
    normalise(id, bundle, length, SPACE, OFFLOAD_ID, 1, bundle, 0);
    pick(id, bundle, make_one(bundle, host), id, OFFLOAD_QUERY, 0, 0, 0, 0);
}

/* A text that is no ID. */
static void refuses(const char *id) {
    static uint8_t bundle[SPACE];
    size_t length = make_two(bundle, host, "HOST.", id, "CARD.");
    refuses_here(id);
    entry(id, bundle, length, 0, OFFLOAD_ID, 1, 0, 0, 0, 0);
}

/* The processor starts with the fifth field or with the sixth, and runs on; no hyphen is at its ends. */
static void processors(void) {
    static const char *const read[][2] = {
        {"hip-amdgcn-amd-amdhsa-gfx9-generic", "hip-amdgcn-amd-amdhsa--gfx9-generic"},
        {"hip-a-b-c-gfx9-4-generic:xnack-:sramecc+", "hip-a-b-c--gfx9-4-generic:sramecc+:xnack-"},
        {"hip-a-b-c-gnu-gfx9-generic:xnack-", "hip-a-b-c-gnu-gfx9-generic:xnack-"},
        {"hip-a-b-c-gfxenv-gfx906", "hip-a-b-c--gfxenv-gfx906"},
        {"hip-a-b-c-gfx9--x", "hip-a-b-c--gfx9--x"},
        {"hip-a-b-c-sm_90-a", "hip-a-b-c--sm_90-a"},
        {"hip-a-b-c-gf-x-y", "hip-a-b-c-gf-x-y"},
        {"hip-a-b-c--1-2-3-4-5-6-7-8-9", "hip-a-b-c--1-2-3-4-5-6-7-8-9"},
        {"hip-a-b-c-gnu-", "hip-a-b-c-gnu-"},
    };
    static const char *const refused[] = {
        "hip-a-b-c-gfxenv-", "hip-a-b-c-sm_70-", "hip-a-b-c-gfx9-generic-", "hip-a-b-c-gfx9-generic-:xnack-",
        "hip-a-b-c-gnu--", "hip-a-b-c-gnu--x", "hip-a-b-c-gnu-x-", "hip-a-b-c---", "hip-a-b-c---gfx9", "hip-a-b-c-gnu-:xnack-",
    };
    static uint8_t bundle[SPACE];
    const char *spelled = "hip-a-b-c-gfx9-generic:xnack-", *canonical = "hip-a-b-c--gfx9-generic:xnack-", *other = "hip-a-b-c--gfx11-generic";
    size_t length = make_two(bundle, spelled, "ONE..", other, "TWO.."), i;
    for (i = 0; i < sizeof read / sizeof *read; i++)
        reads(read[i][0], read[i][1]);
    for (i = 0; i < sizeof refused / sizeof *refused; i++)
        refuses(refused[i]);
    pick("a generic processor", bundle, length, canonical, OFFLOAD_OK, 0, 0, length - 2 * IMAGE, IMAGE);
    pick("another generic processor", bundle, length, "hip-a-b-c-gfx11-generic:xnack-", OFFLOAD_OK, 0, 1, length - IMAGE, IMAGE);
    pick("no entry's generic processor", bundle, length, "hip-a-b-c--gfx12-generic:xnack-", OFFLOAD_NONE, 0, 0, 0, 0);
    pick("a processor without its end", bundle, length, "hip-a-b-c--gfx9:xnack-", OFFLOAD_NONE, 0, 0, 0, 0);
    check("a generic processor in two spellings", bundle, make_two(bundle, spelled, "ONE..", canonical, "TWO.."), OFFLOAD_TWICE, 1, 0);
    check("other features in another spelling", bundle, make_two(bundle, canonical, "ONE..", "hip-a-b-c-gfx9-generic", "TWO.."), OFFLOAD_MIXED, 1, 0);
}

/* Where images may lie, in bundles of two entries that have BODY bytes after the table. */

static const char *const two_ids[2] = {"hip-a-b-c--gfx1", "hip-a-b-c--gfx2"};

/* Every call accepts, and gives these images. */
static void accepted_images(const char *what, const struct span *images) {
    static uint8_t bundle[SPACE], normal[SPACE];
    struct span packed[2] = {{0, 0}, {0, 0}};
    size_t end = make_table(bundle, 2, two_ids, images), length = end + BODY, i;
    packed[0].size = packed[1].start = images[0].size;
    packed[1].size = images[1].size;
    memcpy(bundle + end, "0123456789", BODY);
    make_table(normal, 2, two_ids, packed);
    check(what, bundle, length, OFFLOAD_OK, 0, 2);
    for (i = 0; i < 2; i++) {
        size_t position = end + images[i].start, size = images[i].size;
        entry(what, bundle, length, i, OFFLOAD_OK, 0, position, size, 56 + 39 * i, 15);
        pick(what, bundle, length, two_ids[i], OFFLOAD_OK, 0, i, position, size);
        memcpy(normal + end + packed[i].start, bundle + position, size);
    }
    normalise(what, bundle, length, SPACE, OFFLOAD_OK, 0, normal, end + images[0].size + images[1].size);
}

/* Every call refuses entry 1, before it asks more than the check does. */
static void refused_images(const char *what, const struct span *images, uint64_t number) {
    static uint8_t bundle[SPACE];
    size_t length = make_table(bundle, 2, two_ids, images) + BODY;
    check(what, bundle, length, number, 1, 0);
    entry(what, bundle, length, 0, number, 1, 0, 0, 0, 0);
    entry(what, bundle, length, 2, number, 1, 0, 0, 0, 0);
    pick(what, bundle, length, two_ids[0], number, 1, 0, 0, 0);
    pick(what, bundle, length, "hip-a-b-c--gfx3", number, 1, 0, 0, 0);
    pick(what, bundle, length, "", number, 1, 0, 0, 0);
    normalise(what, bundle, length, SPACE, number, 1, bundle, 0);
    normalise(what, bundle, length, 0, number, 1, bundle, 0);
}

static void two_images(void) {
    static const struct {
        const char *what;
        struct span images[2];
        int overlap;
    } cases[] = {
        {"the same span", {{2, 4}, {2, 4}}, 0},
        {"the same byte", {{9, 1}, {9, 1}}, 0},
        {"touching", {{2, 4}, {6, 4}}, 0},
        {"touching bytes", {{4, 1}, {5, 1}}, 0},
        {"a gap", {{0, 4}, {5, 5}}, 0},
        {"empty inside", {{2, 4}, {4, 0}}, 0},
        {"empty at the start", {{2, 4}, {2, 0}}, 0},
        {"empty at the end", {{0, 10}, {10, 0}}, 0},
        {"both empty", {{3, 0}, {3, 0}}, 0},
        {"one byte in common", {{2, 4}, {5, 4}}, 1},
        {"one byte not in common", {{2, 4}, {3, 4}}, 1},
        {"inside", {{2, 4}, {3, 2}}, 1},
        {"the same start", {{2, 4}, {2, 3}}, 1},
        {"the same end", {{2, 4}, {3, 3}}, 1},
        {"the first byte of all", {{0, 10}, {0, 1}}, 1},
        {"the last byte of all", {{0, 10}, {9, 1}}, 1},
    };
    static const struct span outside[2] = {{2, 4}, {5, 6}}, wraps[2] = {{2, 4}, {3, SIZE_MAX}};
    size_t i;
    for (i = 0; i < sizeof cases / sizeof *cases; i++) {
        struct span turned[2];
        turned[0] = cases[i].images[1];
        turned[1] = cases[i].images[0];
        if (cases[i].overlap) {
            refused_images(cases[i].what, cases[i].images, OFFLOAD_OVERLAP);
            refused_images(cases[i].what, turned, OFFLOAD_OVERLAP);
        } else {
            accepted_images(cases[i].what, cases[i].images);
            accepted_images(cases[i].what, turned);
        }
    }
    refused_images("one byte in common, and past the end", outside, OFFLOAD_RANGE);
    refused_images("a sum that wraps", wraps, OFFLOAD_RANGE);
}

/* Three entries, the last with this image: each number is tried over all of them before the next. */
static void three_images(const char *what, const char *id0, const char *id1, const char *id2, size_t start, size_t size, uint64_t number, uint64_t place) {
    static uint8_t bundle[SPACE];
    struct span images[3] = {{0, 4}, {4, 3}, {0, 0}};
    const char *ids[3];
    ids[0] = id0;
    ids[1] = id1;
    ids[2] = id2;
    images[2].start = start;
    images[2].size = size;
    check(what, bundle, make_table(bundle, 3, ids, images) + BODY, number, place, 0);
}

static void order(void) {
    const char *one = two_ids[0], *two = two_ids[1];
    three_images("ID before OVERLAP", one, two, "host-a-b", 6, 2, OFFLOAD_ID, 2);
    three_images("RANGE before OVERLAP", one, two, host, 6, BODY, OFFLOAD_RANGE, 2);
    three_images("OVERLAP before TWICE", one, one, host, 6, 2, OFFLOAD_OVERLAP, 2);
    three_images("OVERLAP before MIXED", one, "hip-a-b-c--gfx1:xnack-", host, 6, 2, OFFLOAD_OVERLAP, 2);
    three_images("TWICE, and images that touch", one, one, host, 7, 2, OFFLOAD_TWICE, 1);
    three_images("OVERLAP, not with the entry before", one, two, host, 0, 3, OFFLOAD_OVERLAP, 2);
}

/* As many images as there can be, packed in one of four orders. Then each in turn is moved by a byte, onto the next; the later entry is the place. */
static void many_images(void) {
    static uint8_t bundle[SPACE];
    struct span images[OFFLOAD_ENTRIES];
    size_t last = OFFLOAD_ENTRIES - 1, way, i, next, length;
    for (way = 0; way < 4; way++) {
        for (i = 0; i <= last; i++) {
            size_t scattered = i * 37 % OFFLOAD_ENTRIES, inwards = i % 2 == 0 ? i / 2 : last - i / 2;
            images[i].start = IMAGE * (way == 0 ? i : way == 1 ? last - i : way == 2 ? scattered : inwards);
            images[i].size = IMAGE;
        }
        length = make_many(bundle, OFFLOAD_ENTRIES, images) + OFFLOAD_ENTRIES * IMAGE + 1;
        check("many images", bundle, length, OFFLOAD_OK, 0, OFFLOAD_ENTRIES);
        for (i = 0; i <= last; i++) {
            next = 0;
            while (next <= last && images[next].start != images[i].start + IMAGE)
                next++;
            images[i].start++;
            make_many(bundle, OFFLOAD_ENTRIES, images);
            images[i].start--;
            if (next <= last)
                check("one of many images moved", bundle, length, OFFLOAD_OVERLAP, i > next ? i : next, 0);
            else
                check("the last of many images moved", bundle, length, OFFLOAD_OK, 0, OFFLOAD_ENTRIES);
        }
    }
}

static void limits(void) {
    static uint8_t bundle[SPACE];
    size_t length = make_two(bundle, host, "HOST.", long_id(OFFLOAD_ID_LIMIT), "CARD."), large = 17 << 20, end;
    uint8_t *many;
    check("the longest ID", bundle, length, OFFLOAD_OK, 0, 2);
    pick("the longest name", bundle, length, long_id(OFFLOAD_ID_LIMIT), OFFLOAD_OK, 0, 1, length - IMAGE, IMAGE);
    pick("a name too long", bundle, length, long_id(OFFLOAD_ID_LIMIT + 1), OFFLOAD_QUERY, 0, 0, 0, 0);
    check("an ID too long", bundle, make_two(bundle, host, "HOST.", long_id(OFFLOAD_ID_LIMIT + 1), "CARD."), OFFLOAD_TABLE, 1, 0);
    check("the most entries", bundle, make_shared(bundle, OFFLOAD_ENTRIES, 0), OFFLOAD_OK, 0, OFFLOAD_ENTRIES);
    check("an entry too many", bundle, make_shared(bundle, OFFLOAD_ENTRIES + 1, 0), OFFLOAD_COUNT, 0, 0);

    many = (uint8_t *)calloc(OFFLOAD_LIMIT + 1, 1); /* zeros that are hardly ever looked at */
    if (many == NULL)
        exit(3);
    check("the longest container", many, OFFLOAD_LIMIT, OFFLOAD_MAGIC, 0, 0);
    check("a byte too long", many, OFFLOAD_LIMIT + 1, OFFLOAD_LENGTH, 0, 0);
    end = make_shared(many, OFFLOAD_ENTRIES, large);
    check("entries that share one image", many, end + large, OFFLOAD_OK, 0, OFFLOAD_ENTRIES);
    normalise("a normal form too long", many, end + large, 0, OFFLOAD_BIG, 0, many, 0);
    free(many);
}

/* Several names. */

/* A slot for each name. */
static void accepted_names(const char *what, const struct query *query, const struct offload_slot *slots, uint64_t word, uint64_t taken) {
    pick_each(what, query, OFFLOAD_OK, 0, slots, query->count, word, taken);
}

/* No slot. */
static void refused_names(const char *what, const struct query *query, uint64_t number, uint64_t place) {
    pick_each(what, query, number, place, NULL, 0, 0, 0);
}

/* Names for a bundle of two entries: the host, the card as hipv4, the card without its feature, "h", and the card again. */
static void two_entries_names(void) {
    static const char text[] = "host-x86_64-unknown-linux-gnu,hipv4-amdgcn-amd-amdhsa-gfx906:xnack-";
    static const struct offload_part names[] = {{0, 29}, {30, 37}, {30, 30}, {0, 1}, {30, 37}};
    static const struct offload_slot slots[] = {
        {OFFLOAD_OK, 0, 144, IMAGE}, {OFFLOAD_OK, 1, 149, IMAGE}, {OFFLOAD_NONE, 0, 0, 0}, {OFFLOAD_QUERY, 0, 0, 0}, {OFFLOAD_OK, 1, 149, IMAGE},
    };
    static uint8_t bundle[SPACE];
    size_t length = make_two(bundle, host, "HOST.", card, "CARD.");
    struct query query = {bundle, length, text, sizeof text - 1, names, 0, SLOTS};

    accepted_names("no name", &query, slots, 0, 0);
    query.room = 0;
    accepted_names("no name and no slot", &query, slots, 0, 0);
    query.count = query.room = 1;
    accepted_names("one name", &query, slots, 1, 1);
    query.count = 2;
    refused_names("two names, one slot", &query, OFFLOAD_ROOM, 0);
    query.room = 0;
    refused_names("two names, no slot", &query, OFFLOAD_ROOM, 0);
    query.length = length - 1;
    refused_names("no slot, and a byte short", &query, OFFLOAD_RANGE, 1);
    query.room = SLOTS;
    refused_names("a byte short", &query, OFFLOAD_RANGE, 1);
    query.length = 23;
    refused_names("no magic", &query, OFFLOAD_MAGIC, 0);
    query.length = length;
    accepted_names("two names", &query, slots, 3, 2);
    query.count = 5;
    accepted_names("two names for one entry", &query, slots, 3, 2);
    query.names = names + 1;
    query.count = 4;
    accepted_names("the second entry alone", &query, slots + 1, 2, 1);
    query.names = names + 2;
    query.count = 2;
    accepted_names("neither entry", &query, slots + 2, 0, 0);
}

/* Parts of a buffer: the one name in it, and others; then parts that are not in it. Some have a sum that wraps, as that of the name which starts 8 bytes
 * before the buffer. */
static void parts_of_a_buffer(void) {
    static const char around[] = "host-a-b-c..host-a-b-c";
    static const struct offload_part inside[] = {{4, 10}, {4, 9}, {5, 9}, {0, 14}, {4, 0}, {14, 0}};
    static const struct offload_part outside[] = {
        {4, 11}, {5, 10}, {14, 1}, {15, 0}, {15, 10}, {UINT64_MAX, 0}, {UINT64_MAX, 1}, {UINT64_MAX - 7, 10}, {4, UINT64_MAX}, {4, UINT64_MAX - 1},
    };
    static uint8_t bundle[SPACE];
    struct offload_slot slots[OFFLOAD_NAMES];
    struct query query = {bundle, make_one(bundle, "host-a-b-c"), around + 8, 14, outside, sizeof outside / sizeof *outside, SLOTS};
    size_t i;
    memset(slots, 0, sizeof slots);
    for (i = 0; i < OFFLOAD_NAMES; i++)
        slots[i].number = OFFLOAD_QUERY;
    accepted_names("parts outside", &query, slots, 0, 0);
    query.names = inside;
    query.count = 1;
    query.text_length--;
    accepted_names("a byte outside", &query, slots, 0, 0);
    query.text_length = 0;
    accepted_names("a buffer of no bytes", &query, slots, 0, 0);
    query.text_length = 14;
    query.count = sizeof inside / sizeof *inside;
    slots[0].number = OFFLOAD_OK;
    slots[0].position = query.length - IMAGE;
    slots[0].size = IMAGE;
    accepted_names("parts inside", &query, slots, 1, 1);
}

/* As many names as there can be, of the last of as many entries as there can be, and a name too many. */
static void many_names(void) {
    enum { NAME = 12 }; /* the length of each */
    static uint8_t bundle[SPACE];
    static char text[OFFLOAD_ENTRIES * NAME + 1];
    struct offload_part names[OFFLOAD_NAMES + 1];
    struct offload_slot slots[OFFLOAD_NAMES + 1];
    size_t end = make_shared(bundle, OFFLOAD_ENTRIES, IMAGE), i;
    struct query query = {bundle, end + IMAGE, text, sizeof text - 1, names, OFFLOAD_NAMES, OFFLOAD_NAMES};
    for (i = 0; i < OFFLOAD_ENTRIES; i++)
        sprintf(text + i * NAME, "host-a%02u-b-c", (unsigned)i);
    for (i = 0; i <= OFFLOAD_NAMES; i++) {
        size_t entry = OFFLOAD_ENTRIES - 1 - i;
        names[i].start = entry * NAME;
        names[i].length = NAME;
        slots[i].number = OFFLOAD_OK;
        slots[i].index = entry;
        slots[i].position = end;
        slots[i].size = IMAGE;
    }
    accepted_names("the most names", &query, slots, UINT64_C(0xFFFF) << 48, OFFLOAD_NAMES);
    query.room = OFFLOAD_NAMES - 1;
    refused_names("a slot short", &query, OFFLOAD_ROOM, 0);
    query.count = OFFLOAD_NAMES + 1;
    refused_names("a name too many, slots short", &query, OFFLOAD_RACK, 0);
    query.room = SLOTS;
    refused_names("a name too many", &query, OFFLOAD_RACK, 0);
    query.length--;
    refused_names("a name too many, and a byte short", &query, OFFLOAD_RANGE, 0);
    query.length++;
    query.count = 2;
    names[1].start = slots[1].index = 0;
    accepted_names("the last entry and the first", &query, slots, UINT64_C(1) << 63 | 1, 2);
}

/* A name of the most bytes and one of a byte more; a bundle of no entries, and one whose images overlap. */
static void other_bundles_names(void) {
    static const struct offload_part names[] = {{0, OFFLOAD_ID_LIMIT}, {0, OFFLOAD_ID_LIMIT + 1}};
    static const struct span overlap[2] = {{2, 4}, {5, 4}};
    static uint8_t bundle[SPACE];
    struct offload_slot slots[2] = {{OFFLOAD_OK, 0, 0, IMAGE}, {OFFLOAD_QUERY, 0, 0, 0}};
    char text[OFFLOAD_ID_LIMIT + 1];
    struct query query = {bundle, make_one(bundle, long_id(OFFLOAD_ID_LIMIT)), text, sizeof text, names, 2, SLOTS};
    memcpy(text, long_id(OFFLOAD_ID_LIMIT), sizeof text);
    slots[0].position = query.length - IMAGE;
    accepted_names("the longest name, and one too long", &query, slots, 1, 1);
    query.length = make_shared(bundle, 0, 0);
    memset(&slots[0], 0, sizeof slots[0]);
    slots[0].number = OFFLOAD_NONE;
    accepted_names("no entries", &query, slots, 0, 0);
    query.length = make_table(bundle, 2, two_ids, overlap) + BODY;
    refused_names("images that overlap", &query, OFFLOAD_OVERLAP, 1);
}

/* The profile has no call for several names. */
static void several_names(void) {
    by = &general;
    two_entries_names();
    parts_of_a_buffer();
    many_names();
    other_bundles_names();
}

/* Two bundles. */

/* The image for a device, in the bundle of this number. */
static void found(const char *what, const struct pair *pair, const char *device, uint64_t bundle, size_t position, size_t size) {
    lookup(what, pair, device, OFFLOAD_OK, 0, bundle, position, size);
}

/* QUERY, or NONE: no bundle is named. */
static void not_found(const char *what, const struct pair *pair, const char *device, uint64_t number) {
    lookup(what, pair, device, number, 0, 0, 0, 0);
}

/* A bundle is refused, for every device: one of the card, one of the host, one that no entry fits, and no name. */
static void refused_pair(const char *what, const struct pair *pair, uint64_t number, uint64_t place, uint64_t bundle) {
    lookup(what, pair, card, number, place, bundle, 0, 0);
    lookup(what, pair, host, number, place, bundle, 0, 0);
    lookup(what, pair, "hip-amdgcn-amd-amdhsa-gfx906", number, place, bundle, 0, 0);
    lookup(what, pair, "", number, place, bundle, 0, 0);
}

/* A patch of the card, as hipv4, and a main bundle of host and card. */
static void patch_and_main(void) {
    static uint8_t patch[SPACE], main_bundle[SPACE];
    const char *hipv4 = "hipv4-amdgcn-amd-amdhsa-gfx906:xnack-", *gfx906 = "hip-amdgcn-amd-amdhsa-gfx906";
    size_t length = make_two(main_bundle, host, "HOST.", card, "CARD."), patch_length = make_one(patch, hipv4), at = patch_length - IMAGE;
    struct pair pair = {patch, patch_length, main_bundle, length}, turned = {main_bundle, length, patch, patch_length};
    struct pair same = {main_bundle, length, main_bundle, length};

    found("the patch", &pair, card, OFFLOAD_PATCH, at, IMAGE);
    found("the patch, the other kind", &pair, hipv4, OFFLOAD_PATCH, at, IMAGE);
    found("the patch, more is stated", &pair, "hip-amdgcn-amd-amdhsa--gfx906:sramecc+:xnack-", OFFLOAD_PATCH, at, IMAGE);
    found("the main bundle", &pair, host, OFFLOAD_MAIN, 144, IMAGE);
    not_found("neither, less is stated", &pair, gfx906, OFFLOAD_NONE);
    not_found("neither, another kind", &pair, "openmp-amdgcn-amd-amdhsa-gfx906:xnack-", OFFLOAD_NONE);
    not_found("no name", &pair, "", OFFLOAD_QUERY);
    not_found("a name too long", &pair, long_id(OFFLOAD_ID_LIMIT + 1), OFFLOAD_QUERY);
    found("turned, the card", &turned, card, OFFLOAD_PATCH, 149, IMAGE);
    found("turned, the host", &turned, host, OFFLOAD_PATCH, 144, IMAGE);
    found("one bundle as both", &same, card, OFFLOAD_PATCH, 149, IMAGE);
    not_found("one bundle as both, neither", &same, gfx906, OFFLOAD_NONE);

    pair.patch_length = make_one(patch, "hip-amdgcn-amd-amdhsa-gfx906:xnack+");
    found("a patch of the other sign", &pair, card, OFFLOAD_MAIN, 149, IMAGE);
    pair.patch_length = make_one(patch, "hip-amdgcn-amd-amdhsa-gfx906:sramecc+");
    found("a patch of other features", &pair, card, OFFLOAD_MAIN, 149, IMAGE);
    found("a patch of other features, stated", &pair, "hip-amdgcn-amd-amdhsa--gfx906:sramecc+", OFFLOAD_PATCH, pair.patch_length - IMAGE, IMAGE);
    pair.main_length--;
    lookup("the patch, and a byte short", &pair, "hip-amdgcn-amd-amdhsa--gfx906:sramecc+", OFFLOAD_RANGE, 1, OFFLOAD_MAIN, 0, 0);
}

/* Empty images, bundles of no entries, and the most entries in both. */
static void sizes_of_pairs(void) {
    static const struct span empty = {0, 0};
    static uint8_t patch[SPACE], main_bundle[SPACE];
    const char *id = card;
    size_t length = make_two(main_bundle, host, "HOST.", card, "CARD."), end = make_table(patch, 1, &id, &empty);
    struct pair pair = {patch, end, main_bundle, length}, turned = {main_bundle, length, patch, end};
    found("an empty image of the patch", &pair, card, OFFLOAD_PATCH, end, 0);
    found("beside an empty image", &pair, host, OFFLOAD_MAIN, 144, IMAGE);
    found("an empty image of the main bundle, not reached", &turned, card, OFFLOAD_PATCH, 149, IMAGE);
    turned.patch_length = make_one(main_bundle, host);
    found("an empty image of the main bundle", &turned, card, OFFLOAD_MAIN, end, 0);

    pair.main_length = make_one(main_bundle, card);
    pair.patch_length = make_shared(patch, 0, 0);
    found("a patch of no entries", &pair, card, OFFLOAD_MAIN, pair.main_length - IMAGE, IMAGE);
    not_found("a patch of no entries, neither", &pair, host, OFFLOAD_NONE);
    turned.main_length = pair.patch_length;
    turned.patch_length = pair.main_length;
    found("a main bundle of no entries", &turned, card, OFFLOAD_PATCH, turned.patch_length - IMAGE, IMAGE);
    pair.main_length = make_shared(main_bundle, 0, 0);
    not_found("no entries at all", &pair, card, OFFLOAD_NONE);
    not_found("no entries at all, no name", &pair, "", OFFLOAD_QUERY);

    end = make_shared(patch, OFFLOAD_ENTRIES, IMAGE);
    pair.patch_length = end + IMAGE;
    pair.main_length = make_one(main_bundle, long_id(OFFLOAD_ID_LIMIT));
    found("the last of many entries", &pair, "host-a63-b-c", OFFLOAD_PATCH, end, IMAGE);
    found("the longest name", &pair, long_id(OFFLOAD_ID_LIMIT), OFFLOAD_MAIN, pair.main_length - IMAGE, IMAGE);
    pair.patch_length = make_shared(patch, 10, IMAGE) + IMAGE;
    end = make_shared(main_bundle, OFFLOAD_ENTRIES, IMAGE);
    pair.main_length = end + IMAGE;
    found("an entry of both", &pair, "host-a09-b-c", OFFLOAD_PATCH, pair.patch_length - IMAGE, IMAGE);
    found("the next entry", &pair, "host-a10-b-c", OFFLOAD_MAIN, end, IMAGE);
    found("the last of many entries of the main bundle", &pair, "host-a63-b-c", OFFLOAD_MAIN, end, IMAGE);
    not_found("an entry of neither", &pair, "host-a64-b-c", OFFLOAD_NONE);
}

/* Bundles that share bytes: the main one is the image of the patch. */
static void nested_pair(void) {
    static uint8_t patch[SPACE], inner[SPACE];
    struct span image = {0, 0};
    const char *id = card;
    struct pair pair;
    size_t end;
    image.size = make_two(inner, host, "HOST.", card, "CARD.");
    end = make_table(patch, 1, &id, &image);
    memcpy(patch + end, inner, image.size);
    pair.patch = patch;
    pair.patch_length = end + image.size;
    pair.main_bundle = patch + end;
    pair.main_length = image.size;
    found("the image that is the main bundle", &pair, card, OFFLOAD_PATCH, end, image.size);
    found("an image inside it", &pair, host, OFFLOAD_MAIN, 144, IMAGE);
}

/* A bundle that this number refuses, at entry 1 where a place is named. The length. */
static size_t make_refused(uint8_t *out, uint64_t number) {
    static const struct span overlap[2] = {{2, 4}, {5, 4}};
    size_t length = make_two(out, host, "HOST.", card, "CARD.");
    switch (number) {
    case OFFLOAD_MAGIC:
        return 23;
    case OFFLOAD_COUNT:
        return 31;
    case OFFLOAD_TABLE:
        return 100;
    case OFFLOAD_ID:
        return make_two(out, host, "HOST.", "hip-amdgcn", "CARD.");
    case OFFLOAD_RANGE:
        return length - 1;
    case OFFLOAD_OVERLAP:
        return make_table(out, 2, two_ids, overlap) + BODY;
    case OFFLOAD_TWICE:
        return make_two(out, card, "ONE..", "hipv4-amdgcn-amd-amdhsa-gfx906:xnack-", "TWO..");
    default: /* OFFLOAD_MIXED */
        return make_two(out, card, "ONE..", "hipv4-amdgcn-amd-amdhsa-gfx906", "TWO..");
    }
}

static const uint64_t refusing[] = {
    OFFLOAD_MAGIC, OFFLOAD_COUNT, OFFLOAD_TABLE, OFFLOAD_ID, OFFLOAD_RANGE, OFFLOAD_OVERLAP, OFFLOAD_TWICE, OFFLOAD_MIXED,
};
enum { REFUSING = sizeof refusing / sizeof *refusing };

/* Each number refuses either bundle beside a sound one, and where both are refused the patch is named. */
static void refused_pairs(void) {
    static uint8_t sound[SPACE], first[SPACE], second[SPACE];
    size_t length = make_two(sound, host, "HOST.", card, "CARD."), i, k;
    for (i = 0; i < REFUSING; i++) {
        uint64_t place = refusing[i] > OFFLOAD_COUNT;
        struct pair patch = {first, make_refused(first, refusing[i]), sound, length};
        struct pair main_bundle = {sound, length, first, patch.patch_length};
        refused_pair(offload_name(refusing[i]), &patch, refusing[i], place, OFFLOAD_PATCH);
        refused_pair(offload_name(refusing[i]), &main_bundle, refusing[i], place, OFFLOAD_MAIN);
        for (k = 0; k < REFUSING; k++) {
            struct pair both = {first, patch.patch_length, second, make_refused(second, refusing[k])};
            refused_pair(offload_name(refusing[i]), &both, refusing[i], place, OFFLOAD_PATCH);
        }
    }
}

/* A byte too many. */
static void long_pairs(void) {
    static uint8_t sound[SPACE], refused[SPACE];
    size_t length = make_two(sound, host, "HOST.", card, "CARD."), refused_length = make_refused(refused, OFFLOAD_RANGE);
    uint8_t *many = (uint8_t *)calloc(OFFLOAD_LIMIT + 1, 1);
    struct pair patch = {many, OFFLOAD_LIMIT + 1, sound, length}, main_bundle = {sound, length, many, OFFLOAD_LIMIT + 1};
    struct pair both = {many, OFFLOAD_LIMIT + 1, many, OFFLOAD_LIMIT};
    if (many == NULL)
        exit(3);
    refused_pair("the patch too long", &patch, OFFLOAD_LENGTH, 0, OFFLOAD_PATCH);
    refused_pair("the main bundle too long", &main_bundle, OFFLOAD_LENGTH, 0, OFFLOAD_MAIN);
    refused_pair("both refused, the patch too long", &both, OFFLOAD_LENGTH, 0, OFFLOAD_PATCH);
    both.patch_length = OFFLOAD_LIMIT;
    both.main_length = OFFLOAD_LIMIT + 1;
    refused_pair("both refused, the main bundle too long", &both, OFFLOAD_MAGIC, 0, OFFLOAD_PATCH);
    main_bundle.patch = refused;
    main_bundle.patch_length = refused_length;
    refused_pair("the patch a byte short, the main bundle too long", &main_bundle, OFFLOAD_RANGE, 1, OFFLOAD_PATCH);
    memcpy(many, sound, length); /* zeros may follow */
    patch.patch_length = OFFLOAD_LIMIT;
    found("the longest patch", &patch, card, OFFLOAD_PATCH, 149, IMAGE);
    free(many);
}

/* The profile has no call for two bundles. */
static void two_bundles(void) {
    by = &general;
    patch_and_main();
    sizes_of_pairs();
    nested_pair();
    refused_pairs();
    long_pairs();
}

/* Two bundles that are compared. */

/* One entry in each, of these IDs and with these images. */
static void differ(const char *what, const char *id0, const char *image0, const char *id1, const char *image1, const char *report) {
    static uint8_t left[SPACE], right[SPACE];
    struct sides sides = {left, make_text(left, id0, image0), right, make_text(right, id1, image1)};
    compare(what, &sides, report);
}

/* The one entry that they have differs from this byte on. */
static void differ_at(const char *what, const char *left, const char *right, const char *report) {
    differ(what, host, left, "host-x86_64-unknown-linux-gnu-", right, report);
    differ(what, host, right, host, left, report);
}

static void compared_images(void) {
    static const char two[] = "D host-x86_64-unknown-linux-gnu- 2\ndifferences 1\n", zero[] = "D host-x86_64-unknown-linux-gnu- 0\ndifferences 1\n";
    expect("the case of the request", "length", sizeof two - 1, 49);
    differ_at("the case of the request", "\1\2\3", "\1\2\4", two);
    differ_at("the shorter length", "\1\2\3", "\1\2", two);
    differ_at("more than one byte", "\1\2\3\4", "\1\2\4\3\2", two);
    differ_at("no byte", "", "\1", zero);
    differ_at("a high byte", "\377\1", "\177\1", zero);
    differ_at("ten bytes", "0123456789", "0123456789.", "D host-x86_64-unknown-linux-gnu- 10\ndifferences 1\n");
    differ_at("equal", "IMAGE", "IMAGE", "differences 0\n");
    differ_at("equal, empty", "", "", "differences 0\n");
}

/* The canonical IDs rise, and the kind counts as it is spelled. */
static void compared_ids(void) {
    static const char card_line[] = "D hip-amdgcn-amd-amdhsa--gfx906:xnack- 0\n", host_line[] = "D host-x86_64-unknown-linux-gnu- 4\n";
    static uint8_t left[SPACE], right[SPACE];
    struct sides sides = {left, make_two(left, host, "HOST.", card, "CARD."), right, 0};
    char report[SPACE];
    differ("hip and hipv4", "hip-a-b-c-gfx1", "IMAGE", "hipv4-a-b-c-gfx1", "IMAGE", "L hip-a-b-c--gfx1\nR hipv4-a-b-c--gfx1\ndifferences 2\n");
    differ("hipv4 and hip", "hipv4-a-b-c-gfx1", "IMAGE", "hip-a-b-c-gfx1", "IMAGE", "R hip-a-b-c--gfx1\nL hipv4-a-b-c--gfx1\ndifferences 2\n");
    differ("another sign", "hip-a-b-c-gfx1:y+:x-", "1", "hip-a-b-c-gfx1:x+:y+", "1", "R hip-a-b-c--gfx1:x+:y+\nL hip-a-b-c--gfx1:x-:y+\ndifferences 2\n");
    differ("a prefix", "hip-a-b-c-gfx10", "1", "hip-a-b-c-gfx1", "1", "R hip-a-b-c--gfx1\nL hip-a-b-c--gfx10\ndifferences 2\n");
    differ("another spelling", "hip-a-b-c-gfx1:y+:x-", "1", "hip-a-b-c--gfx1:x-:y+", "1", "differences 0\n");

    sides.right_length = make_two(right, card, "CARD.", host, "HOST.");
    compare("another order", &sides, "differences 0\n");
    sides.right_length = make_two(right, card, "card.", host, "HOST!");
    sprintf(report, "%s%sdifferences 2\n", card_line, host_line);
    compare("another order, other images", &sides, report);
    sides.right_length = make_two(right, card, "card.", "host-a-b-c", "HOST.");
    sprintf(report, "%sR host-a-b-c--\nL host-x86_64-unknown-linux-gnu-\ndifferences 3\n", card_line);
    compare("all three", &sides, report);
}

/* Bundles of no entries, and bundles that share bytes: one bundle twice, and one that is an image of the other. */
static void compared_bytes(void) {
    static uint8_t none[SPACE], left[SPACE];
    struct span image = {0, 0};
    const char *id = card;
    struct sides empty = {none, make_table(none, 0, NULL, NULL), none, 32}, both = {none, 32, left, make_one(left, host)};
    size_t end;
    compare("no entries", &empty, "differences 0\n");
    compare("the right has one", &both, "R host-x86_64-unknown-linux-gnu-\ndifferences 1\n");
    empty.left = both.right;
    empty.left_length = both.right_length;
    compare("the left has one", &empty, "L host-x86_64-unknown-linux-gnu-\ndifferences 1\n");
    both.left = both.right;
    both.left_length = both.right_length;
    compare("the same bytes", &both, "differences 0\n");
    image.size = make_one(none, host);
    end = make_table(left, 1, &id, &image);
    memcpy(left + end, none, image.size);
    both.left_length = end + image.size;
    both.right = left + end;
    both.right_length = image.size;
    compare("one inside the other", &both, "L hip-amdgcn-amd-amdhsa--gfx906:xnack-\nR host-x86_64-unknown-linux-gnu-\ndifferences 2\n");
}

static void refused_side(const struct sides *sides, const char *side, uint64_t number) {
    char report[32];
    sprintf(report, "refused %s %u\n", side, (unsigned)number);
    compare(offload_name(number), sides, report);
}

/* Each number refuses either bundle beside a sound one, and where both are refused the left is named. */
static void refused_sides(void) {
    static uint8_t sound[SPACE], first[SPACE], second[SPACE];
    size_t length = make_two(sound, host, "HOST.", card, "CARD."), i, k;
    for (i = 0; i < REFUSING; i++) {
        struct sides left = {first, make_refused(first, refusing[i]), sound, length}, right = {sound, length, first, left.left_length};
        refused_side(&left, "left", refusing[i]);
        refused_side(&right, "right", refusing[i]);
        for (k = 0; k < REFUSING; k++) {
            struct sides both = {first, left.left_length, second, make_refused(second, refusing[k])};
            refused_side(&both, "left", refusing[i]);
        }
    }
}

/* The longest bundles that are compared, and a byte too many. */
static void compared_lengths(void) {
    static uint8_t many[OFFLOAD_COMPARE_LIMIT + 1], small[SPACE]; /* zeros may follow */
    struct sides left = {many, make_one(many, host), small, make_one(small, host)}, right = {small, left.right_length, many, 0};
    struct sides both = {many, 0, many, 0};
    left.left_length = right.right_length = both.left_length = both.right_length = OFFLOAD_COMPARE_LIMIT;
    compare("the longest left", &left, "differences 0\n");
    compare("the longest right", &right, "differences 0\n");
    compare("the longest both", &both, "differences 0\n");
    left.left_length++;
    right.right_length++;
    refused_side(&left, "left", OFFLOAD_LENGTH);
    refused_side(&right, "right", OFFLOAD_LENGTH);
    both.right_length++;
    refused_side(&both, "right", OFFLOAD_LENGTH);
    both.left_length++;
    refused_side(&both, "left", OFFLOAD_LENGTH);
    left.right_length--;
    refused_side(&left, "left", OFFLOAD_LENGTH);
    right.left_length--;
    refused_side(&right, "left", OFFLOAD_RANGE);
}

/* The most entries, with IDs of the most bytes: the k-th has its number and this letter in its system. They share this image. The length. */
static size_t make_longest(uint8_t *out, char (*texts)[OFFLOAD_ID_LIMIT + 1], char letter, const char *image) {
    const char *ids[OFFLOAD_ENTRIES];
    struct span images[OFFLOAD_ENTRIES];
    size_t size = strlen(image), i, end;
    for (i = 0; i < OFFLOAD_ENTRIES; i++) {
        memcpy(texts[i], long_id(OFFLOAD_ID_LIMIT), OFFLOAD_ID_LIMIT + 1);
        texts[i][8] = (char)('0' + i / 10);
        texts[i][9] = (char)('0' + i % 10);
        texts[i][10] = letter;
        ids[i] = texts[i];
        images[i].start = 0;
        images[i].size = size;
    }
    end = make_table(out, OFFLOAD_ENTRIES, ids, images);
    memcpy(out + end, image, size);
    return end + size;
}

/* The longest report, a difference in every image, and none. */
static void longest_reports(void) {
    static uint8_t left[OFFLOAD_COMPARE_LIMIT], right[OFFLOAD_COMPARE_LIMIT];
    static char left_ids[OFFLOAD_ENTRIES][OFFLOAD_ID_LIMIT + 1], right_ids[OFFLOAD_ENTRIES][OFFLOAD_ID_LIMIT + 1], report[REPORT];
    struct sides sides = {left, make_longest(left, left_ids, 'l', "IMAGE"), right, make_longest(right, right_ids, 'r', "IMAGE")};
    size_t at = 0, i;
    for (i = 0; i < OFFLOAD_ENTRIES; i++)
        at += (size_t)sprintf(report + at, "L %s\nR %s\n", left_ids[i], right_ids[i]);
    sprintf(report + at, "differences 128\n");
    expect("the longest report", "length", strlen(report), OFFLOAD_REPORT_LIMIT);
    compare("the longest report", &sides, report);
    sides.right_length = make_longest(right, right_ids, 'l', "IMAGE");
    compare("the most entries, equal", &sides, "differences 0\n");
    sides.right_length = make_longest(right, right_ids, 'l', "IMAG.");
    for (i = 0, at = 0; i < OFFLOAD_ENTRIES; i++)
        at += (size_t)sprintf(report + at, "D %s 4\n", left_ids[i]);
    sprintf(report + at, "differences 64\n");
    compare("every image", &sides, report);
}

/* The profile has no call for it. */
static void compared_bundles(void) {
    by = &general;
    compared_images();
    compared_ids();
    compared_bytes();
    refused_sides();
    compared_lengths();
    longest_reports();
}

/* Offload binaries. */

static const uint8_t no_bytes[1] = {0};
static const struct recovery nothing = {no_bytes, 0, NULL, 0};

/* With this room the call is refused, and writes nothing. */
static void refused_recovery(const char *what, const uint8_t *bytes, size_t length, size_t room, size_t span_room, uint64_t number, uint64_t place) {
    struct sequence sequence = {bytes, length, room, span_room};
    recover(what, &sequence, number, place, &nothing);
}

/* The call is accepted with as much room as is needed, and with more; with a byte less, or a span less, it is refused. */
static void recovers(const char *what, const uint8_t *bytes, size_t length, const struct recovery *want) {
    struct sequence exact = {bytes, length, want->length, want->count}, more = {bytes, length, SPACE, SPANS};
    recover(what, &exact, OFFLOAD_OK, 0, want);
    recover(what, &more, OFFLOAD_OK, 0, want);
    if (want->length > 0)
        refused_recovery(what, bytes, length, want->length - 1, SPANS, OFFLOAD_ROOM, 0);
    if (want->count > 0)
        refused_recovery(what, bytes, length, SPACE, want->count - 1, OFFLOAD_ROOM, 0);
}

/* What is found is a sequence that is not damaged, and with what is skipped it is all there is. */
static void finds(const char *what, const uint8_t *bytes, size_t length, const uint8_t *binaries, size_t found, const struct offload_part *spans,
                  size_t count) {
    struct recovery want = {binaries, found, spans, count}, again = {binaries, found, NULL, 0};
    uint64_t total = found;
    size_t i;
    for (i = 0; i < count; i++)
        total += spans[i].length;
    expect(what, "bytes found and skipped", total, length);
    recovers(what, bytes, length, &want);
    recovers(what, binaries, found, &again);
}

static void finds_all(const char *what, const uint8_t *bytes, size_t length) {
    finds(what, bytes, length, bytes, length, NULL, 0);
}

/* A binary with so many string pairs and an image so long, with the highest kinds. Its size, a multiple of 8. */
static size_t make_binary(uint8_t *out, size_t pairs, size_t image) {
    size_t at = 72 + 16 * pairs, image_at = (at + 9 * pairs + 7) / 8 * 8, size = (image_at + image + 7) / 8 * 8, i;
    memset(out, 0, size);
    memcpy(out, "\x10\xff\x10\xad\1", 5);
    put_word(out + 8, size);
    put_word(out + 16, 32);
    put_word(out + 24, 40);
    put_word(out + 32, 3 << 16 | 5);
    put_word(out + 40, 72);
    put_word(out + 48, pairs);
    put_word(out + 56, image_at);
    put_word(out + 64, image);
    for (i = 0; i < pairs; i++, at += 9) {
        put_word(out + 72 + 16 * i, at);
        put_word(out + 80 + 16 * i, at + 4);
        sprintf((char *)out + at, "k%02u", (unsigned)i);
        memcpy(out + at + 4, "text", 5);
    }
    memset(out + image_at, 'I', image);
    return size;
}

/* Three of them. */
enum { FIRST = 72, SECOND = 136, THIRD = 120, THREE = FIRST + SECOND + THIRD };

static size_t make_three(uint8_t *out) {
    size_t first = make_binary(out, 0, 0), second = make_binary(out + first, 2, IMAGE);
    return first + second + make_binary(out + first + second, 1, 11);
}

/* `count` binaries, the smallest there are, with a byte before each where `gap` is 1: that with which a binary begins. The length. */
static size_t make_row(uint8_t *out, size_t count, size_t gap) {
    size_t length = 0, i;
    for (i = 0; i < count; i++) {
        memset(out + length, 0x10, gap);
        length += gap + make_binary(out + length + gap, 0, 0);
    }
    return length;
}

static void sound_sequences(void) {
    static uint8_t bytes[SPACE];
    finds_all("no bytes", bytes, 0);
    expect("three", "length", make_three(bytes), THREE);
    finds_all("three", bytes, THREE);
    bytes[FIRST + SECOND - 8] ^= 1;
    finds_all("another image", bytes, THREE);
    put_word(bytes + FIRST + 8, SECOND + THIRD);
    finds_all("a size that takes in the next", bytes, THREE);
    finds_all("the most string pairs", bytes, make_binary(bytes, 32, IMAGE));
}

/* Each of 13 to 17 skips the second of three, whatever else it holds. */
static void damaged_sequences(void) {
    static const struct {
        const char *what;
        size_t at; /* the word that is damaged */
        uint64_t value;
    } cases[] = {
        {"magic", 0, UINT64_C(0x1AD10FF11)},
        {"magic, its last byte", 0, UINT64_C(0x1AC10FF10)},
        {"version", 0, UINT64_C(0x2AD10FF10)},
        {"size under 72", 8, 71},
        {"size 0", 8, 0},
        {"size a byte past the end", 8, SECOND + THIRD + 1},
        {"the highest size", 8, UINT64_MAX},
        {"entry in the header", 16, 31},
        {"entry past the end", 16, SECOND - 39},
        {"entry, a sum that wraps", 16, UINT64_MAX - 8},
        {"entry size", 24, 41},
        {"image kind", 32, 6},
        {"offload kind", 32, 4 << 16},
        {"string table in the header", 40, 31},
        {"string table past the end", 40, SECOND - 31},
        {"string table, a sum that wraps", 40, UINT64_MAX - 15},
        {"string pairs", 48, 33},
        {"string pairs, a product that wraps", 48, UINT64_C(1) << 60},
        {"a key in the header", 72, 31},
        {"a key past the end", 72, SECOND},
        {"an empty key", 72, 107},
        {"the same key", 88, 104},
        {"a text in the header", 80, 31},
        {"a text past the end", 96, UINT64_MAX},
        {"image in the header", 56, 31},
        {"image past the end", 64, SECOND - 128 + 1},
        {"image, a sum that wraps", 64, UINT64_MAX - 100},
    };
    static const struct offload_part span = {FIRST, SECOND};
    static uint8_t bytes[SPACE], found[SPACE];
    size_t i;
    for (i = 0; i < sizeof cases / sizeof *cases; i++) {
        make_three(found);
        make_three(bytes);
        put_word(bytes + FIRST + cases[i].at, cases[i].value);
        memmove(found + FIRST, found + FIRST + SECOND, THIRD);
        finds(cases[i].what, bytes, THREE, found, FIRST + THIRD, &span, 1);
    }
}

/* A front or an end that is missing, of every length: what is whole in the rest is found. */
static void cut_sequences(void) {
    static const size_t ends[] = {0, FIRST, FIRST + SECOND, THREE};
    static uint8_t bytes[SPACE];
    size_t cut, k;
    make_three(bytes);
    for (cut = 0; cut <= THREE; cut++) {
        struct offload_part span = {0, 0};
        for (k = 3; ends[k] > cut; k--)
            ;
        span.start = ends[k];
        span.length = cut - ends[k];
        finds("an end is missing", bytes, cut, bytes, ends[k], &span, span.length > 0);
        for (k = 0; ends[k] < cut; k++)
            ;
        span.start = 0;
        span.length = ends[k] - cut;
        finds("a front is missing", bytes + cut, THREE - cut, bytes + ends[k], THREE - ends[k], &span, span.length > 0);
    }
}

/* More than one span, and binaries inside the image of another. */
static void other_sequences(void) {
    static const struct offload_part ends[2] = {{0, FIRST}, {FIRST + SECOND, THIRD}}, all = {0, THREE};
    static uint8_t bytes[SPACE], three[SPACE];
    struct offload_part front = {0, 72};
    size_t length;
    make_three(three);
    make_three(bytes);
    bytes[0] ^= 1;
    bytes[FIRST + SECOND] ^= 1;
    finds("the second alone", bytes, THREE, three + FIRST, SECOND, ends, 2);
    bytes[FIRST] ^= 1;
    finds("none", bytes, THREE, no_bytes, 0, &all, 1);
    refused_recovery("none, and no room for the span", bytes, THREE, 0, 0, OFFLOAD_ROOM, 0);
    memset(bytes, 0x10, THREE);
    finds("no binary", bytes, THREE, no_bytes, 0, &all, 1);
    length = make_binary(bytes, 0, THREE);
    memcpy(bytes + 72, three, THREE);
    finds_all("binaries in an image", bytes, length);
    bytes[0] ^= 1;
    finds("binaries in the image of a damaged one", bytes, length, three, THREE, &front, 1);
    length = make_binary(bytes, 33, 0);
    memcpy(bytes + length, three, THREE);
    front.length = length;
    finds("a string pair too many", bytes, length + THREE, three, THREE, &front, 1);
}

/* A key, and a text, of the most bytes and of a byte more: the end of an image, with the zero byte behind it. */
static void long_strings(void) {
    static uint8_t bytes[SPACE];
    struct offload_part all = {0, 0};
    size_t at;
    for (at = 72; at <= 80; at += 8) {
        all.length = make_binary(bytes, 1, 263);
        put_word(bytes + at, all.length - 1 - 256);
        finds_all("a string of the most bytes", bytes, all.length);
        put_word(bytes + at, all.length - 1 - 257);
        finds("a string too long", bytes, all.length, no_bytes, 0, &all, 1);
    }
}

/* Binaries at every distance from the first byte, from each other and from the end, since positions are looked at in blocks. */
static void far_apart(void) {
    static uint8_t bytes[SPACE], row[SPACE];
    size_t most = make_row(row, 2, 0), k;
    for (k = 1; k <= 200; k++) {
        struct offload_part spans[3] = {{0, k}, {72 + k, k}, {2 * (72 + k), k}};
        memset(bytes, k % 2 ? 0x10 : 0xad, 2 * (72 + k) + k);
        memcpy(bytes + k, row, 72);
        memcpy(bytes + 72 + 2 * k, row, 72);
        finds("two far apart", bytes, 2 * (72 + k) + k, row, most, spans, 3);
    }
}

/* 64 binaries and as many spans as there can be; a 65th, whatever the room is; and a container that is too long. */
static void many_binaries(void) {
    static uint8_t bytes[SPACE], row[SPACE];
    struct offload_part spans[OFFLOAD_BINARIES + 1];
    size_t most = make_row(row, OFFLOAD_BINARIES, 0), length, i;
    uint8_t *many;
    finds_all("the most binaries", row, most);
    for (i = 0; i <= OFFLOAD_BINARIES; i++) {
        spans[i].start = i * (72 + 1);
        spans[i].length = 1;
    }
    length = make_row(bytes, OFFLOAD_BINARIES, 1);
    finds("the most binaries, a byte before each", bytes, length, row, most, spans, OFFLOAD_BINARIES);
    bytes[length] = 0x10;
    finds("the most spans", bytes, length + 1, row, most, spans, OFFLOAD_BINARIES + 1);
    make_row(bytes, OFFLOAD_BINARIES + 1, 1);
    refused_recovery("a binary too many, a byte before each", bytes, length + 1 + 72, SPACE, SPANS, OFFLOAD_MANY, length + 1);
    refused_recovery("a binary too many, no room", bytes, length + 1 + 72, 0, 0, OFFLOAD_MANY, length + 1);
    length = make_row(bytes, OFFLOAD_BINARIES + 1, 0);
    refused_recovery("a binary too many", bytes, length, SPACE, SPANS, OFFLOAD_MANY, most);
    refused_recovery("a binary too many, and more", bytes, length + 100, SPACE, SPANS, OFFLOAD_MANY, most);
    spans[0].start = most;
    spans[0].length = 71;
    finds("a byte of the 65th missing", bytes, length - 1, row, most, spans, 1);
    spans[0].start = 0;
    spans[0].length = 72;
    bytes[0] ^= 1;
    finds("65, the first damaged", bytes, length, row, most, spans, 1);

    many = (uint8_t *)calloc(OFFLOAD_LIMIT + 1, 1); /* zeros that are hardly ever looked at */
    if (many == NULL)
        exit(3);
    make_row(many, OFFLOAD_BINARIES + 1, 0);
    refused_recovery("the longest container", many, OFFLOAD_LIMIT, SPACE, SPANS, OFFLOAD_MANY, most);
    refused_recovery("a byte too long", many, OFFLOAD_LIMIT + 1, SPACE, SPANS, OFFLOAD_LENGTH, 0);
    refused_recovery("a byte too long, no room", many, OFFLOAD_LIMIT + 1, 0, 0, OFFLOAD_LENGTH, 0);
    free(many);
}

/* IDs have no part in it. */
static void recovered_binaries(void) {
    by = &general;
    sound_sequences();
    damaged_sequences();
    cut_sequences();
    other_sequences();
    long_strings();
    far_apart();
    many_binaries();
}

/* The profile. */

/* An ID that both readings take, with the canonical form that each makes. */
static void reads_as(const char *id, const char *plain, const char *strict) {
    by = &general;
    reads(id, plain);
    by = &profile;
    reads(id, strict);
}

/* An ID that the profile alone refuses. */
static void profile_refuses(const char *id) {
    static uint8_t bundle[SPACE];
    size_t length = make_two(bundle, host, "HOST.", id, "CARD.");
    by = &general;
    check(id, bundle, length, OFFLOAD_OK, 0, 2);
    entry(id, bundle, length, 1, OFFLOAD_OK, 0, length - IMAGE, IMAGE, 56 + strlen(host) + 24, strlen(id));
    by = &profile;
    refuses_here(id);
}

static void profile_ids(void) {
    static const char *const renamed[][2] = {
        {"hip-amdgcn-amd-amdhsa--fiji", "hip-amdgcn-amd-amdhsa--gfx803"},
        {"openmp-amdgcn-a-b-gnu-polaris11", "openmp-amdgcn-a-b-gnu-gfx803"},
        {"hipv4-amdgcn-amd-amdhsa--stoney:xnack+", "hipv4-amdgcn-amd-amdhsa--gfx810:xnack+"},
    };
    static const char *const read[][2] = {
        {"hip-amdgcn-amd-amdhsa-gfx906:xnack+:sramecc-", "hip-amdgcn-amd-amdhsa--gfx906:sramecc-:xnack+"},
        {"hipv4-amdgcn-amd-amdhsa-gfx10-1-generic:xnack-", "hipv4-amdgcn-amd-amdhsa--gfx10-1-generic:xnack-"},
        /* Not the profile's: another kind, another arch, no processor. */
        {"host-amdgcn-amd-amdhsa--fiji:f+", "host-amdgcn-amd-amdhsa--fiji:f+"},
        {"hip-amdgcn1-amd-amdhsa--fiji:f+", "hip-amdgcn1-amd-amdhsa--fiji:f+"},
        {"hip-amdgc-amd-amdhsa-gfx907", "hip-amdgc-amd-amdhsa--gfx907"},
        {"hip-amdgcn-amd-amdhsa-fiji", "hip-amdgcn-amd-amdhsa-fiji-"},
        {"openmp-amdgcn-amd-amdhsa", "openmp-amdgcn-amd-amdhsa--"},
    };
    static const char *const refused[] = {
        "hip-amdgcn-amd-amdhsa--gfx907", "hip-amdgcn-amd-amdhsa-gfx907", "hipv4-amdgcn-a-b-gnu-gfx9-4-generic", "openmp-amdgcn-amd-amdhsa--Fiji",
        "hip-amdgcn-amd-amdhsa--fij", "hip-amdgcn-amd-amdhsa--fijii", "hip-amdgcn-amd-amdhsa--gfx803-fiji", "hip-amdgcn-amd-amdhsa--x",
        "hip-amdgcn-amd-amdhsa--gfx900:sramecc+", "hip-amdgcn-amd-amdhsa--gfx1030:xnack-", "hip-amdgcn-amd-amdhsa--gfx906:cumode+",
        "hip-amdgcn-amd-amdhsa--gfx906:sramecc+:xnack+:z+", "hip-amdgcn-amd-amdhsa--fiji:xnack+", "hip-amdgcn-amd-amdhsa--gfx90a:xnac+",
    };
    size_t i;
    for (i = 0; i < sizeof renamed / sizeof *renamed; i++)
        reads_as(renamed[i][0], renamed[i][0], renamed[i][1]);
    for (i = 0; i < sizeof read / sizeof *read; i++)
        reads_as(read[i][0], read[i][1], read[i][1]);
    for (i = 0; i < sizeof refused / sizeof *refused; i++)
        profile_refuses(refused[i]);
}

/* An ID of this length with this processor. */
static const char *profile_id(size_t length, const char *processor) {
    static char vendor[OFFLOAD_ID_LIMIT], text[2][OFFLOAD_ID_LIMIT + 1];
    static int turn;
    memset(vendor, 'v', sizeof vendor);
    turn = 1 - turn;
    snprintf(text[turn], sizeof text[turn], "hip-amdgcn-%.*s-s--%s", (int)(length - 15 - strlen(processor)), vendor, processor);
    return text[turn];
}

/* The form with the primary has at most 256 bytes, and so has the text. */
static void profile_lengths(void) {
    const char *id = profile_id(254, "fiji");
    reads_as(id, id, profile_id(256, "gfx803"));
    id = profile_id(256, "polaris10");
    reads_as(id, id, profile_id(253, "gfx803"));
    id = profile_id(256, "gfx803");
    reads_as(id, id, id);
    profile_refuses(profile_id(255, "fiji"));
    profile_refuses(profile_id(256, "fiji"));
    profile_refuses(profile_id(256, "verde"));
}

/* Two names of one processor are one meaning. */
static void profile_names(void) {
    static uint8_t bundle[SPACE], normal[SPACE];
    const char *fiji = "hip-amdgcn-amd-amdhsa--fiji", *gfx803 = "hip-amdgcn-amd-amdhsa--gfx803", *polaris10 = "hipv4-amdgcn-amd-amdhsa--polaris10";
    const char *carrizo = "hip-amdgcn-amd-amdhsa--carrizo:xnack-", *gfx801 = "hip-amdgcn-amd-amdhsa--gfx801";
    size_t length = make_two(bundle, host, "HOST.", fiji, "CARD.");
    size_t written = make_two(normal, gfx803, "CARD.", "host-x86_64-unknown-linux-gnu-", "HOST.");

    by = &general;
    pick("another name, in general", bundle, length, gfx803, OFFLOAD_NONE, 0, 0, 0, 0);
    by = &profile;
    pick("the name as spelled", bundle, length, fiji, OFFLOAD_OK, 0, 1, length - IMAGE, IMAGE);
    pick("the primary", bundle, length, gfx803, OFFLOAD_OK, 0, 1, length - IMAGE, IMAGE);
    pick("another alternative, the other kind", bundle, length, polaris10, OFFLOAD_OK, 0, 1, length - IMAGE, IMAGE);
    pick("another processor", bundle, length, carrizo, OFFLOAD_NONE, 0, 0, 0, 0);
    pick("an unknown processor", bundle, length, "hip-amdgcn-amd-amdhsa--gfx907", OFFLOAD_QUERY, 0, 0, 0, 0);
    pick("an unknown processor, a byte short", bundle, length - 1, "hip-amdgcn-amd-amdhsa--gfx907", OFFLOAD_RANGE, 1, 0, 0, 0);
    normalise("the primary is written", bundle, length, SPACE, OFFLOAD_OK, 0, normal, written);
    normalise("room for the primary", bundle, length, written, OFFLOAD_OK, 0, normal, written);
    normalise("a byte less room", bundle, length, written - 1, OFFLOAD_ROOM, 0, normal, 0);
    normalise("again", normal, written, written, OFFLOAD_OK, 0, normal, written);

    by = &general;
    check("two names, in general", bundle, make_two(bundle, fiji, "ONE..", gfx803, "TWO.."), OFFLOAD_OK, 0, 2);
    by = &profile;
    check("two names", bundle, make_two(bundle, fiji, "ONE..", gfx803, "TWO.."), OFFLOAD_TWICE, 1, 0);
    check("two alternatives, two kinds", bundle, make_two(bundle, fiji, "ONE..", polaris10, "TWO.."), OFFLOAD_TWICE, 1, 0);
    check("other features", bundle, make_two(bundle, carrizo, "ONE..", gfx801, "TWO.."), OFFLOAD_MIXED, 1, 0);
    length = make_two(bundle, carrizo, "ONE..", "hip-amdgcn-amd-amdhsa--gfx801:xnack+", "TWO..");
    check("the other sign", bundle, length, OFFLOAD_OK, 0, 2);
    pick("the second of two names", bundle, length, "hip-amdgcn-amd-amdhsa--carrizo:xnack+", OFFLOAD_OK, 0, 1, length - IMAGE, IMAGE);
}

static void named(uint64_t number, const char *name) {
    expect(name, "offload_name", (uint64_t)strcmp(offload_name(number), name), 0);
}

static void names(void) {
    char version[32];
    named(OFFLOAD_OK, "OK");
    named(OFFLOAD_LENGTH, "LENGTH");
    named(OFFLOAD_MAGIC, "MAGIC");
    named(OFFLOAD_COUNT, "COUNT");
    named(OFFLOAD_TABLE, "TABLE");
    named(OFFLOAD_ID, "ID");
    named(OFFLOAD_RANGE, "RANGE");
    named(OFFLOAD_TWICE, "TWICE");
    named(OFFLOAD_MIXED, "MIXED");
    named(OFFLOAD_QUERY, "QUERY");
    named(OFFLOAD_NONE, "NONE");
    named(OFFLOAD_BIG, "BIG");
    named(OFFLOAD_ROOM, "ROOM");
    named(OFFLOAD_HEAD, "HEAD");
    named(OFFLOAD_SPAN, "SPAN");
    named(OFFLOAD_KIND, "KIND");
    named(OFFLOAD_STRINGS, "STRINGS");
    named(OFFLOAD_IMAGE, "IMAGE");
    named(OFFLOAD_MANY, "MANY");
    named(OFFLOAD_END, "END");
    named(OFFLOAD_END + 1, "UNKNOWN");
    named(OFFLOAD_OVERLAP, "OVERLAP");
    named(OFFLOAD_OVERLAP + 1, "UNKNOWN");
    named(OFFLOAD_RACK, "RACK");
    named(OFFLOAD_RACK + 1, "UNKNOWN");
    named(UINT64_MAX, "UNKNOWN");
    sprintf(version, "%d.%d.%d", OFFLOAD_VERSION_MAJOR, OFFLOAD_VERSION_MINOR, OFFLOAD_VERSION_PATCH);
    expect("version", version, (uint64_t)strcmp(version, OFFLOAD_VERSION), 0);
}

/* What both readings answer alike. */
static void alike(const struct reading *reading) {
    by = reading;
    two_entries();
    kinds();
    processors();
    two_images();
    order();
    many_images();
    limits();
}

int main(void) {
    alike(&general);
    alike(&profile);
    several_names();
    two_bundles();
    compared_bundles();
    recovered_binaries();
    profile_ids();
    profile_lengths();
    profile_names();
    names();
    return wrong;
}

/* The stack that each call takes on bundles of 64 entries, or on 64 offload binaries, the most there can be, measured on a painted one: below the 64 KiB
 * that the header names. */
#include "offload.h"

#include <pthread.h>
#include <stdio.h>
#include <stdlib.h>
#include <string.h>

enum { STACK = 1 << 20, LIMIT = 64 << 10, PAINT = 0xA5, IMAGE = 100000 };
enum { PAIRS = 32, KEY = 256, BINARY = 72 + PAIRS * (16 + KEY + 1) }; /* string pairs in a binary, the length of each, and that of the binary */

static const char device[] = "hip-amdgcn-amd-amdhsa--gfx906:f0+:f1+:f2+:f3+:f4+:f5+";
static const char profile_device[] = "hip-amdgcn-amd-amdhsa-e15-carrizo:xnack+";
static uint8_t bundle[32 + OFFLOAD_ENTRIES * (24 + sizeof device) + IMAGE], normal[32 + OFFLOAD_ENTRIES * (24 + sizeof device + IMAGE)];
static uint8_t patch[sizeof bundle]; /* as many entries, and none for the device */
static const size_t length = sizeof bundle;
static uint8_t left[OFFLOAD_COMPARE_LIMIT], right[OFFLOAD_COMPARE_LIMIT], other[OFFLOAD_COMPARE_LIMIT]; /* other has the IDs of left, and another image */
static uint8_t binaries[OFFLOAD_BINARIES * (1 + BINARY) + 1], recovered[sizeof binaries];

static void word(uint8_t *out, uint64_t value) {
    int i;
    for (i = 0; i < 8; i++)
        out[i] = (uint8_t)(value >> (8 * i));
}

/* The ID of entry k: the k-th setting of six features, spelled backwards so that they have to be sorted. */
static size_t general_id(char *out, unsigned k) {
    size_t size = (size_t)sprintf(out, "hip-amdgcn-amd-amdhsa--gfx906");
    int feature;
    for (feature = 5; feature >= 0; feature--)
        size += (size_t)sprintf(out + size, ":f%d%c", feature, k >> feature & 1 ? '+' : '-');
    return size;
}

/* One that the profile takes: in each of 16 environments two settings of a processor by its alternative name, and two of features to be sorted. */
static size_t profile_id(char *out, unsigned k) {
    const char *format = k & 2 ? "hip-amdgcn-amd-amdhsa-e%02u-gfx906:xnack%c:sramecc+" : "hip-amdgcn-amd-amdhsa-e%02u-carrizo:xnack%c";
    return (size_t)sprintf(out, format, k / 4, k & 1 ? '+' : '-');
}

/* One as long as it may be, with as many features, spelled backwards: the k-th setting of them, with this letter in the arch. */
static size_t longest_id(char *out, unsigned k, char letter) {
    size_t size = 0;
    int feature;
    memset(out, letter, OFFLOAD_ID_LIMIT);
    memcpy(out, "hip-", 4);
    memcpy(out + OFFLOAD_ID_LIMIT - 44, "-b-c--gfx906", 12);
    for (feature = 7; feature >= 0; feature--, size += 4) {
        char text[5];
        sprintf(text, ":f%d%c", feature, k >> feature & 1 ? '+' : '-');
        memcpy(out + OFFLOAD_ID_LIMIT - 32 + size, text, 4);
    }
    return OFFLOAD_ID_LIMIT;
}

static size_t left_id(char *out, unsigned k) { return longest_id(out, k, 'a'); }

/* No ID of the left: each comes after all of them. */
static size_t right_id(char *out, unsigned k) { return longest_id(out, k, 'b'); }

/* A bundle of the most entries, which share one image, up to this end. */
static void make_bundle(uint8_t *out, size_t end, size_t image, size_t (*id)(char *, unsigned)) {
    uint8_t *row = out + 32;
    unsigned k;
    memcpy(out, "__CLANG_OFFLOAD_BUNDLE__", 24);
    word(out + 24, OFFLOAD_ENTRIES);
    for (k = 0; k < OFFLOAD_ENTRIES; k++) {
        size_t size = id((char *)row + 24, k);
        word(row, end - image);
        word(row + 8, image);
        word(row + 16, size);
        row += 24 + size;
    }
}

/* A binary with the most string pairs, each of which is a key and a text in one. The keys are as long as they may be, and differ in their last bytes. */
static void make_binary(uint8_t *out) {
    size_t key = 72 + 16 * PAIRS, i;
    memcpy(out, "\x10\xff\x10\xad\1", 5);
    word(out + 8, BINARY);
    word(out + 16, 32);
    word(out + 24, 40);
    word(out + 40, 72);
    word(out + 48, PAIRS);
    word(out + 56, BINARY);
    for (i = 0; i < PAIRS; i++, key += KEY + 1) {
        word(out + 72 + 16 * i, key);
        word(out + 80 + 16 * i, key);
        memset(out + key, 'k', KEY);
        out[key + KEY - 1] = (uint8_t)('A' + i);
    }
}

/* The most binaries, and a byte before, between and behind them: the most spans. */
static void make_binaries(void) {
    size_t k;
    for (k = 0; k < OFFLOAD_BINARIES; k++)
        make_binary(binaries + 1 + k * (BINARY + 1));
}

static void *nothing(void *out) { return out; }

static void *check(void *out) {
    *(uint64_t *)out = offload_check_number(bundle, length);
    return out;
}

static void *entry_at(void *out) {
    *(uint64_t *)out = offload_entry_number(bundle, length, OFFLOAD_ENTRIES - 1);
    return out;
}

static void *pick(void *out) {
    *(uint64_t *)out = offload_pick_number(bundle, length, (const uint8_t *)device, sizeof device - 1);
    return out;
}

static void *pick_each(void *out) {
    static struct offload_part names[OFFLOAD_NAMES];
    static struct offload_slot slots[OFFLOAD_NAMES];
    int i;
    for (i = 0; i < OFFLOAD_NAMES; i++)
        names[i].length = sizeof device - 1;
    *(uint64_t *)out = offload_pick_each_number(bundle, length, (const uint8_t *)device, sizeof device - 1, names, OFFLOAD_NAMES, slots, OFFLOAD_NAMES);
    return out;
}

/* The patch answers. */
static void *lookup_patch(void *out) {
    *(uint64_t *)out = offload_lookup_number(bundle, length, patch, length, (const uint8_t *)device, sizeof device - 1);
    return out;
}

/* The main bundle answers. */
static void *lookup_main(void *out) {
    *(uint64_t *)out = offload_lookup_number(patch, length, bundle, length, (const uint8_t *)device, sizeof device - 1);
    return out;
}

static void *normalise(void *out) {
    *(uint64_t *)out = offload_normalise_number(bundle, length, normal, sizeof normal);
    return out;
}

static void *profile_check(void *out) {
    *(uint64_t *)out = offload_amdgpu_check_number(bundle, length);
    return out;
}

static void *profile_pick(void *out) {
    *(uint64_t *)out = offload_amdgpu_pick_number(bundle, length, (const uint8_t *)profile_device, sizeof profile_device - 1);
    return out;
}

static void *profile_normalise(void *out) {
    *(uint64_t *)out = offload_amdgpu_normalise_number(bundle, length, normal, sizeof normal);
    return out;
}

/* Two bundles to compare: with the IDs of the left, and with others. */
static void make_compared(void) {
    const size_t image = OFFLOAD_COMPARE_LIMIT - 32 - OFFLOAD_ENTRIES * (24 + OFFLOAD_ID_LIMIT);
    make_bundle(left, sizeof left, image, left_id);
    make_bundle(right, sizeof right, image, right_id);
    make_bundle(other, sizeof other, image, left_id);
    other[sizeof other - 1] = 1;
}

/* The answer is 0 where the report has the length that it must have. */
static void compared(void *out, const uint8_t *bytes, uint64_t report) {
    static uint8_t room[OFFLOAD_REPORT_LIMIT];
    *(uint64_t *)out = offload_compare_length(left, sizeof left, bytes, sizeof left, room, sizeof room) - report;
}

static void *compare_ids(void *out) {
    compared(out, right, OFFLOAD_REPORT_LIMIT);
    return out;
}

/* Every line is D, the ID and 14815, the last byte of the image. */
static void *compare_images(void *out) {
    compared(out, other, OFFLOAD_ENTRIES * (2 + OFFLOAD_ID_LIMIT + 7) + sizeof "differences 64");
    return out;
}

/* Every binary is found: where one were not, the answer would not be 0. */
static void *recover(void *out) {
    static struct offload_part spans[OFFLOAD_BINARIES + 1];
    uint64_t found = offload_recover_length(binaries, sizeof binaries, recovered, sizeof recovered, spans, OFFLOAD_BINARIES + 1);
    *(uint64_t *)out = found - OFFLOAD_BINARIES * BINARY;
    return out;
}

/* The bytes of its stack that a thread touches, and its answer. */
static size_t depth(void *(*call)(void *), uint64_t *answer) {
    pthread_attr_t attributes;
    pthread_t thread;
    uint8_t *stack;
    size_t untouched = 0;
    if (posix_memalign((void **)&stack, 4096, STACK))
        exit(3);
    memset(stack, PAINT, STACK);
    if (pthread_attr_init(&attributes) || pthread_attr_setstack(&attributes, stack, STACK) || pthread_create(&thread, &attributes, call, answer) ||
        pthread_join(thread, NULL))
        exit(3);
    while (untouched < STACK && stack[untouched] == PAINT)
        untouched++;
    pthread_attr_destroy(&attributes);
    free(stack);
    return STACK - untouched;
}

int main(void) {
    static const struct {
        const char *name;
        void *(*call)(void *);
        size_t (*id)(char *, unsigned); /* of the bundle, where there is one */
    } calls[] = {
        {"check", check, general_id},
        {"entry", entry_at, general_id},
        {"pick", pick, general_id},
        {"pick for 16 names", pick_each, general_id},
        {"lookup, in the patch", lookup_patch, general_id},
        {"lookup, in the main bundle", lookup_main, general_id},
        {"normalise", normalise, general_id},
        {"compare, other IDs", compare_ids, NULL},
        {"compare, other images", compare_images, NULL},
        {"check by the profile", profile_check, profile_id},
        {"pick by the profile", profile_pick, profile_id},
        {"normalise by the profile", profile_normalise, profile_id},
        {"recover", recover, NULL},
    };
    size_t base, i;
    uint64_t answer = 0;
    int wrong = 0;
    base = depth(nothing, &answer);
    make_bundle(patch, length, IMAGE, profile_id);
    make_compared();
    make_binaries();
    for (i = 0; i < sizeof calls / sizeof *calls; i++) {
        size_t bytes;
        if (calls[i].id != NULL)
            make_bundle(bundle, length, IMAGE, calls[i].id);
        bytes = depth(calls[i].call, &answer) - base;
        printf("stack of %s: %zu bytes\n", calls[i].name, bytes);
        if (bytes >= LIMIT || answer != OFFLOAD_OK) {
            printf("wrong: answer %llu, at most %d bytes\n", (unsigned long long)answer, LIMIT - 1);
            wrong = 1;
        }
    }
    return wrong;
}

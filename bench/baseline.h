/* The rules of docs/RULES.md in plain C, written to be fast: what the library's speed is compared with. Not proved. */
#ifndef BASELINE_H
#define BASELINE_H

#include <stddef.h>
#include <stdint.h>

struct checked {
    uint64_t number, place, count;
};

struct picked {
    uint64_t number, place, index, position, size;
};

/* A part of a buffer. */
struct part {
    uint64_t start, length;
};

/* What a pick gives for one of several names. */
struct slot {
    uint64_t number, index, position, size;
};

struct picked_each {
    uint64_t number, place, slots, word, taken;
};

/* The patch is bundle 1, the main one 2. */
struct looked_up {
    uint64_t number, place, bundle, position, size;
};

struct located {
    uint64_t number, place, position, size, id_position, id_length;
};

struct written {
    uint64_t number, place, length;
};

struct checked baseline_check(const uint8_t *bundle, size_t length);
struct picked baseline_pick(const uint8_t *bundle, size_t length, const uint8_t *device, size_t device_length);
struct picked_each baseline_pick_each(const uint8_t *bundle, size_t length, const uint8_t *buffer, size_t buffer_length,
                                      const struct part *names, size_t count, struct slot *slots, size_t room);
struct looked_up baseline_lookup(const uint8_t *patch, size_t patch_length, const uint8_t *main_bundle, size_t main_length,
                                 const uint8_t *device, size_t device_length);
struct located baseline_entry(const uint8_t *bundle, size_t length, uint64_t index);
struct written baseline_normalise(const uint8_t *bundle, size_t length, uint8_t *out, size_t room);
/* The length of the report on two bundles. */
uint64_t baseline_report(const uint8_t *left, size_t left_length, const uint8_t *right, size_t right_length,
                         uint8_t *out, size_t room);

/* By the profile for AMD's GPUs. */
struct checked baseline_amdgpu_check(const uint8_t *bundle, size_t length);
struct picked baseline_amdgpu_pick(const uint8_t *bundle, size_t length, const uint8_t *device, size_t device_length);
struct written baseline_amdgpu_normalise(const uint8_t *bundle, size_t length, uint8_t *out, size_t room);

enum { PAIRS = 32 };

struct pair {
    uint64_t key_place, key_length, text_place, text_length;
};

/* Where `number` is not 0, only `place` counts beside it. */
struct binary {
    uint64_t number, place, first, size, image_kind, offload_kind, flags, image_place, image_length, count;
    struct pair pairs[PAIRS];
};

struct cursor {
    uint64_t at, taken;
};

void baseline_next(const uint8_t *bytes, size_t length, struct cursor *cursor, struct binary *read);

struct recovered {
    uint64_t number, place, length, spans;
};

struct recovered baseline_recover(const uint8_t *bytes, size_t length, uint8_t *out, size_t room,
                                  struct part *spans, size_t span_room);

#endif

/* How IDs are read: by the general rules, or by a profile, which has calls of its own. */
#ifndef TOOL_READING_H
#define TOOL_READING_H

#include "offload.h"

struct reading {
    const char *profile; /* its name; null for the general rules */
    struct offload_check_answer (*check)(const uint8_t *bundle, size_t length);
    struct offload_pick_answer (*pick)(const uint8_t *bundle, size_t length, const uint8_t *device, size_t device_length);
    struct offload_pick_each_answer (*pick_each)(const uint8_t *bundle, size_t length, const uint8_t *buffer, size_t buffer_length,
                                                 const struct offload_part *names, size_t count, struct offload_slot *slots, size_t slot_count);
    struct offload_lookup_answer (*lookup)(const uint8_t *patch, size_t patch_length, const uint8_t *main_bundle, size_t main_length,
                                           const uint8_t *device, size_t device_length);
    struct offload_normalise_answer (*normalise)(const uint8_t *bundle, size_t length, uint8_t *out, size_t room);
};

#define AMDGPU "amdgpu" /* the name of the one profile there is */

extern const struct reading general_reading, amdgpu_reading;

/* Whether a number that a pick or a lookup gives refuses a bundle, whatever the device is. */
int refuses_bundle(uint64_t number);

#endif

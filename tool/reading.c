#include "reading.h"

static struct offload_slot amdgpu_slot(const uint8_t *bundle, size_t length, const uint8_t *device, size_t device_length) {
    struct offload_pick_answer pick = offload_amdgpu_pick(bundle, length, device, device_length);
    struct offload_slot slot = {pick.number, pick.index, pick.position, pick.size};
    return slot;
}

/* What offload_pick_each does, by the profile, for which the library has no such call: one pick after another. Every name lies in the buffer, and there
 * are slots for as many names as may be. */
static struct offload_pick_each_answer amdgpu_pick_each(const uint8_t *bundle, size_t length, const uint8_t *buffer, size_t buffer_length,
                                                        const struct offload_part *names, size_t count, struct offload_slot *slots,
                                                        size_t slot_count) {
    struct offload_check_answer check = offload_amdgpu_check(bundle, length);
    struct offload_pick_each_answer answer = {check.number, check.place, 0, 0, 0};
    (void)buffer_length;
    (void)slot_count;
    if (answer.number == OFFLOAD_OK && count > OFFLOAD_NAMES)
        answer.number = OFFLOAD_RACK;
    for (; answer.number == OFFLOAD_OK && answer.slots < count; answer.slots++) {
        const struct offload_part *name = &names[answer.slots];
        struct offload_slot slot = amdgpu_slot(bundle, length, buffer + name->start, name->length);
        if (slot.number == OFFLOAD_OK)
            answer.word |= UINT64_C(1) << slot.index;
        slots[answer.slots] = slot;
    }
    answer.taken = (uint64_t)__builtin_popcountll(answer.word);
    return answer;
}

int refuses_bundle(uint64_t number) {
    return number != OFFLOAD_OK && number != OFFLOAD_QUERY && number != OFFLOAD_NONE;
}

/* What offload_lookup does, by the profile, for which the library has no such call. The answer is that of one of two picks: of the main bundle where it
 * is refused and the patch is not, or where the patch has no image. */
static struct offload_lookup_answer amdgpu_lookup(const uint8_t *patch, size_t patch_length, const uint8_t *main_bundle, size_t main_length,
                                                  const uint8_t *device, size_t device_length) {
    struct offload_pick_answer first = offload_amdgpu_pick(patch, patch_length, device, device_length);
    struct offload_pick_answer second = offload_amdgpu_pick(main_bundle, main_length, device, device_length);
    int in_main = first.number == OFFLOAD_NONE || (!refuses_bundle(first.number) && refuses_bundle(second.number));
    struct offload_pick_answer pick = in_main ? second : first;
    struct offload_lookup_answer answer = {pick.number, pick.place, 0, pick.position, pick.size, NULL};
    if (pick.number == OFFLOAD_OK || refuses_bundle(pick.number))
        answer.bundle = in_main ? OFFLOAD_MAIN : OFFLOAD_PATCH;
    if (pick.number == OFFLOAD_OK)
        answer.image = (in_main ? main_bundle : patch) + pick.position;
    return answer;
}

const struct reading general_reading = {NULL, offload_check, offload_pick, offload_pick_each, offload_lookup, offload_normalise};

const struct reading amdgpu_reading = {AMDGPU, offload_amdgpu_check, offload_amdgpu_pick, amdgpu_pick_each, amdgpu_lookup, offload_amdgpu_normalise};

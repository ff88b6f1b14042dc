#include "commands.h"

#include "message.h"
#include "object.h"
#include "text.h"

#include <inttypes.h>
#include <stdlib.h>
#include <string.h>

/* What a device gets: an image, or a refusal. */
struct outcome {
    uint64_t number, place;
    const struct input *file; /* the bundle that holds the image, or that is refused */
    uint64_t index;           /* of the entry; 0 where there is a patch */
    uint64_t offset;          /* of the image in its bundle */
    struct bytes image;
};

static struct outcome picked(const struct request *request, const struct offload_slot *slot, uint64_t place) {
    const struct input *file = &request->files[0];
    struct bytes image = {file->bytes.start + slot->position, (size_t)slot->size};
    struct outcome outcome = {slot->number, place, file, slot->index, slot->position, image};
    return outcome;
}

/* From the one bundle that there is. */
static struct outcome pick_from_one(const struct request *request, const char *name) {
    struct bytes bundle = request->files[0].bytes, device = text_bytes(name);
    struct offload_pick_answer answer = request->reading->pick(bundle.start, bundle.length, device.start, device.length);
    struct offload_slot slot = {answer.number, answer.index, answer.position, answer.size};
    return picked(request, &slot, answer.place);
}

/* From the patch, or from the main bundle. */
static struct outcome pick_from_two(const struct request *request, const char *name) {
    struct bytes patch = request->patch.bytes, other = request->files[0].bytes, device = text_bytes(name);
    struct offload_lookup_answer answer =
        request->reading->lookup(patch.start, patch.length, other.start, other.length, device.start, device.length);
    const struct input *file = answer.bundle == OFFLOAD_PATCH ? &request->patch : &request->files[0];
    struct bytes image = {answer.image, (size_t)answer.size};
    struct outcome outcome = {answer.number, answer.place, file, 0, answer.position, image};
    return outcome;
}

static void print_image(const struct request *request, const struct outcome *outcome) {
    if (has_patch(request))
        fputs(outcome->file == &request->patch ? "patch" : "main", request->answer);
    else
        fprintf(request->answer, "entry %" PRIu64, outcome->index);
    fprintf(request->answer, ", offset %" PRIu64 ", size %zu\n", outcome->offset, outcome->image.length);
}

static void put_image(struct json *object, const struct request *request, const char *device, const struct outcome *outcome) {
    put_number(object, outcome->number);
    json_text(object, "device", device);
    if (has_patch(request))
        put_bundle(object, request, outcome->file);
    else
        json_number(object, "index", outcome->index);
    json_number(object, "offset", outcome->offset);
    json_number(object, "size", outcome->image.length);
}

/* One device. */

static void tell_image(const struct request *request, const struct outcome *outcome) {
    struct json object;
    if (!request->json) {
        print_image(request, outcome);
        return;
    }
    object = open_object(request);
    put_image(&object, request, request->operands[1], outcome);
    json_close(&object);
}

static enum status pick_one(const struct request *request) {
    const char *device = request->operands[1], *failure = NULL;
    struct outcome outcome = (has_patch(request) ? pick_from_two : pick_from_one)(request, device);
    if (outcome.number != OFFLOAD_OK)
        return refuse(request, outcome.file, device, outcome.number, outcome.place);
    if (request->output != NULL)
        failure = file_write(request->output, outcome.image);
    if (failure != NULL)
        return cannot_write(request, request->output, failure);
    tell_image(request, &outcome);
    return ACCEPTED;
}

/* Several devices. */

/* Device names, one after another in one buffer. */
struct names {
    struct offload_part *parts; /* in memory of their own; null where there is not enough */
    size_t count;
    uint8_t *buffer; /* behind the parts */
    size_t length;
};

static size_t total_length(char **texts, size_t count) {
    size_t i, length = 0;
    for (i = 0; i < count; i++)
        length += strlen(texts[i]);
    return length;
}

static struct names collect_names(char **devices, size_t count) {
    struct names names = {calloc(1, count * sizeof *names.parts + total_length(devices, count)), count, NULL, 0};
    size_t i;
    if (names.parts == NULL)
        return names;
    names.buffer = (uint8_t *)(names.parts + count);
    for (i = 0; i < count; i++) {
        struct offload_part part = {names.length, strlen(devices[i])};
        memcpy(names.buffer + part.start, devices[i], part.length);
        names.parts[i] = part;
        names.length += part.length;
    }
    return names;
}

static void print_outcome(const struct request *request, const char *device, const struct outcome *outcome) {
    print_plain(request->answer, text_bytes(device));
    fputs(": ", request->answer);
    if (outcome->number == OFFLOAD_OK)
        print_image(request, outcome);
    else
        fprintf(request->answer, "%" PRIu64 " %s\n", outcome->number, offload_name(outcome->number));
}

/* What each of several devices gets. */
struct outcomes {
    const struct outcome *list;
    size_t count;
    uint64_t taken; /* how many entries are; not told where there is a patch */
};

/* Why some devices get no image, on standard error; then a line for each device, and how many entries are taken. */
static void print_outcomes(const struct request *request, const struct outcomes *outcomes) {
    char **devices = request->operands + 1;
    size_t i;
    for (i = 0; i < outcomes->count; i++)
        if (outcomes->list[i].number != OFFLOAD_OK)
            refuse(request, outcomes->list[i].file, devices[i], outcomes->list[i].number, 0);
    for (i = 0; i < outcomes->count; i++)
        print_outcome(request, devices[i], &outcomes->list[i]);
    if (!has_patch(request))
        fprintf(request->answer, "entries taken: %" PRIu64 "\n", outcomes->taken);
}

/* The same in one object. */
static void put_outcomes(const struct request *request, const struct outcomes *outcomes) {
    char **devices = request->operands + 1;
    struct json object = open_object(request), list;
    size_t i;
    put_number(&object, OFFLOAD_OK);
    list = json_open_list(&object, "devices");
    for (i = 0; i < outcomes->count; i++) {
        const struct outcome *outcome = &outcomes->list[i];
        struct json item = json_open_item(&list);
        if (outcome->number == OFFLOAD_OK)
            put_image(&item, request, devices[i], outcome);
        else
            put_refusal(&item, request, devices[i], outcome->number);
        json_close(&item);
    }
    json_close(&list);
    if (!has_patch(request))
        json_number(&object, "taken", outcomes->taken);
    json_close(&object);
}

/* A device name that is refused counts more than a device without an image. */
static enum status tell_outcomes(const struct request *request, const struct outcomes *outcomes) {
    enum status status = ACCEPTED;
    size_t i;
    (request->json ? put_outcomes : print_outcomes)(request, outcomes);
    for (i = 0; i < outcomes->count && status != REFUSED; i++)
        if (outcomes->list[i].number != OFFLOAD_OK)
            status = outcomes->list[i].number == OFFLOAD_NONE ? NO_IMAGE : REFUSED;
    return status;
}

static enum status no_memory(const struct request *request) {
    return cannot_read(request, request->files[0].path, "Not enough memory");
}

/* In one call, which takes at most 16 names. */
static enum status pick_each_from_one(const struct request *request) {
    struct bytes bundle = request->files[0].bytes;
    struct names names = collect_names(request->operands + 1, (size_t)request->count - 1);
    struct offload_slot slots[OFFLOAD_NAMES];
    struct outcome list[OFFLOAD_NAMES];
    struct offload_pick_each_answer answer;
    struct outcomes outcomes = {list, names.count, 0};
    size_t i;
    if (names.parts == NULL)
        return no_memory(request);
    answer = request->reading->pick_each(bundle.start, bundle.length, names.buffer, names.length, names.parts, names.count, slots, OFFLOAD_NAMES);
    free(names.parts);
    if (answer.number != OFFLOAD_OK)
        return refuse(request, &request->files[0], NULL, answer.number, answer.place);
    for (i = 0; i < names.count; i++)
        list[i] = picked(request, &slots[i], 0);
    outcomes.taken = answer.taken;
    return tell_outcomes(request, &outcomes);
}

/* In a call for each. A bundle that is refused is so for every device, and is told once. */
static enum status pick_each_from_two(const struct request *request) {
    size_t count = (size_t)request->count - 1, i;
    struct outcome *list = malloc(count * sizeof *list);
    struct outcomes outcomes = {list, count, 0};
    enum status status;
    if (list == NULL)
        return no_memory(request);
    for (i = 0; i < count; i++)
        list[i] = pick_from_two(request, request->operands[i + 1]);
    if (refuses_bundle(list[0].number))
        status = refuse(request, list[0].file, NULL, list[0].number, list[0].place);
    else
        status = tell_outcomes(request, &outcomes);
    free(list);
    return status;
}

enum status pick(const struct request *request) {
    if (request->count > 2)
        return has_patch(request) ? pick_each_from_two(request) : pick_each_from_one(request);
    return pick_one(request);
}

#include "commands.h"

#include "message.h"
#include "object.h"

#include <inttypes.h>
#include <stdlib.h>

enum status check(const struct request *request) {
    struct bytes bundle = request->files[0].bytes;
    struct offload_check_answer answer = request->reading->check(bundle.start, bundle.length);
    struct json object;
    if (answer.number != OFFLOAD_OK)
        return refuse(request, &request->files[0], NULL, answer.number, answer.place);
    if (!request->json) {
        fprintf(request->answer, "accepted, entries %" PRIu64 "\n", answer.count);
        return ACCEPTED;
    }
    object = open_object(request);
    put_number(&object, OFFLOAD_OK);
    json_number(&object, "entries", answer.count);
    json_close(&object);
    return ACCEPTED;
}

/* Makes the normal form of a bundle that lacks nothing but room, in memory of its own; null where there is not enough.
 * An ID grows by two bytes at most, so the first room is enough unless entries share one image; then it is doubled. */
static uint8_t *normal_form(const struct reading *reading, struct bytes bundle, size_t *length) {
    size_t room = bundle.length + 2 * OFFLOAD_ENTRIES;
    for (;; room *= 2) {
        uint8_t *out = malloc(room);
        *length = out == NULL ? 0 : (size_t)reading->normalise(bundle.start, bundle.length, out, room).length;
        if (out == NULL || *length > 0)
            return out;
        free(out);
    }
}

static void tell_length(const struct request *request, uint64_t length) {
    struct json object;
    if (!request->json) {
        fprintf(request->answer, "written, length %" PRIu64 "\n", length);
        return;
    }
    object = open_object(request);
    put_number(&object, OFFLOAD_OK);
    json_number(&object, "length", length);
    json_close(&object);
}

static enum status write_normal_form(const struct request *request) {
    size_t length;
    uint8_t *normal = normal_form(request->reading, request->files[0].bytes, &length);
    struct bytes content = {normal, length};
    const char *failure = normal == NULL ? "Not enough memory" : file_write(request->output, content);
    free(normal);
    if (failure != NULL)
        return cannot_write(request, request->output, failure);
    tell_length(request, length);
    return ACCEPTED;
}

enum status normalise(const struct request *request) {
    struct bytes bundle = request->files[0].bytes;
    uint8_t none[1];
    struct offload_normalise_answer answer = request->reading->normalise(bundle.start, bundle.length, none, 0);
    if (answer.number == OFFLOAD_ROOM)
        return write_normal_form(request);
    return refuse(request, &request->files[0], NULL, answer.number, answer.place);
}

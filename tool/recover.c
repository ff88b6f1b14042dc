#include "commands.h"

#include "message.h"
#include "object.h"
#include "table.h"

#include <inttypes.h>
#include <stdlib.h>

enum { SPANS = OFFLOAD_BINARIES + 1 }; /* the most that can be skipped */

/* What is found in a file, and what is skipped. */
struct found {
    struct bytes binaries; /* end to end, each whole */
    const struct offload_part *spans;
    size_t count; /* of the spans */
};

/* How many binaries there are: each has its size in its second word. */
static uint64_t count_binaries(struct bytes binaries) {
    uint64_t count = 0;
    size_t at;
    for (at = 0; at < binaries.length; at += (size_t)get_word(binaries.start + at + WORD))
        count++;
    return count;
}

/* Whether there is no binary in a file that is not empty. */
static int is_nothing(const struct found *found) {
    return found->binaries.length == 0 && found->count > 0;
}

static void print_found(const struct request *request, const struct found *found) {
    size_t i;
    for (i = 0; i < found->count; i++)
        fprintf(request->answer, "skipped, start %" PRIu64 ", length %" PRIu64 "\n", found->spans[i].start, found->spans[i].length);
    if (is_nothing(found))
        print_nothing_found(request);
    else
        fprintf(request->answer, "written, binaries %" PRIu64 ", length %zu\n", count_binaries(found->binaries), found->binaries.length);
}

static void put_spans(struct json *object, const struct found *found) {
    struct json list = json_open_list(object, "spans");
    size_t i;
    for (i = 0; i < found->count; i++) {
        struct json item = json_open_item(&list);
        json_number(&item, "start", found->spans[i].start);
        json_number(&item, "length", found->spans[i].length);
        json_close(&item);
    }
    json_close(&list);
}

static void put_found(const struct request *request, const struct found *found) {
    struct json object = open_object(request);
    put_number(&object, OFFLOAD_OK);
    json_number(&object, "binaries", count_binaries(found->binaries));
    json_number(&object, "length", found->binaries.length);
    put_spans(&object, found);
    if (is_nothing(found))
        put_nothing_found(&object, request);
    json_close(&object);
}

/* Writes what is found, and tells it. Where that is nothing, the file is likely the wrong one: no output is emptied then. */
static enum status write_found(const struct request *request, const struct found *found) {
    const char *failure = is_nothing(found) ? NULL : file_write(request->output, found->binaries);
    if (failure != NULL)
        return cannot_write(request, request->output, failure);
    (request->json ? put_found : print_found)(request, found);
    return is_nothing(found) ? NOTHING_FOUND : found->count > 0 ? SKIPPED : ACCEPTED;
}

static enum status recover_into(const struct request *request, uint8_t *out, size_t room) {
    struct bytes file = request->files[0].bytes;
    struct offload_part spans[SPANS];
    struct offload_recover_answer answer = offload_recover(file.start, file.length, out, room, spans, SPANS);
    struct found found = {{out, (size_t)answer.length}, spans, (size_t)answer.spans};
    return answer.number == OFFLOAD_OK ? write_found(request, &found) : refuse(request, &request->files[0], NULL, answer.number, answer.place);
}

/* As much room as the file has bytes is enough; one that is too long is refused, and needs none. */
enum status recover(const struct request *request) {
    size_t length = request->files[0].bytes.length, room = length > OFFLOAD_LIMIT ? 0 : length;
    uint8_t *out = malloc(room + 1); /* null only where there is not enough memory */
    enum status status = out == NULL ? cannot_write(request, request->output, "Not enough memory") : recover_into(request, out, room);
    free(out);
    return status;
}

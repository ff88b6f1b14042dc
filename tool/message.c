#include "message.h"

#include "finding.h"
#include "object.h"
#include "offload.h"
#include "text.h"

#include <inttypes.h>
#include <string.h>

static const char *input_name(const char *path) {
    return strcmp(path, "-") == 0 ? "standard input" : path;
}

static const char *output_name(const char *path) {
    return strcmp(path, "-") == 0 ? "standard output" : path;
}

/* What is refused: the file, or both where neither has an image, the number with its name, and the entry, the byte or the device. */
static void print_subject(const struct request *request, const struct finding *finding) {
    fputs("offload: ", stderr);
    if (has_patch(request) && finding->number == OFFLOAD_NONE)
        fprintf(stderr, "%s and ", input_name(request->patch.path));
    fputs(input_name(finding->file->path), stderr);
    if (finding->number != OFFLOAD_OK)
        fprintf(stderr, ": %" PRIu64 " %s", finding->number, offload_name(finding->number));
    if (finding->has_place)
        fprintf(stderr, ", %s %" PRIu64, finding->refusal.names == NAMES_BYTE ? "byte" : "entry", finding->place);
    if (finding->has_row) {
        putc(' ', stderr);
        print_quoted(stderr, finding->row.id);
    }
    if (finding->has_row && finding->refusal.names == NAMES_IMAGE)
        fprintf(stderr, " (offset %" PRIu64 ", size %" PRIu64 " in a file of %zu bytes)", finding->row.offset, finding->row.size,
                finding->file->bytes.length);
    if (finding->device != NULL) {
        fputs(", device ", stderr);
        print_quoted(stderr, text_bytes(finding->device));
    }
}

static struct bytes fault_bytes(const struct finding *finding) {
    struct bytes bytes = {finding->fault.bytes, finding->fault.length};
    return bytes;
}

static void print_finding(const struct request *request, const struct finding *finding) {
    print_subject(request, finding);
    fprintf(stderr, ": %s", finding->refusal.sentence);
    if (finding->fault.length > 0) {
        fputs(" It is ", stderr);
        print_quoted(stderr, fault_bytes(finding));
        putc('.', stderr);
    }
    if (finding->has_earlier) {
        fprintf(stderr, " It is entry %" PRIu64 " ", finding->earlier);
        print_quoted(stderr, finding->earlier_row.id);
        if (finding->refusal.names == NAMES_IMAGE)
            fprintf(stderr, " (offset %" PRIu64 ", size %" PRIu64 ")", finding->earlier_row.offset, finding->earlier_row.size);
        putc('.', stderr);
    }
    if (finding->looks.like != NULL)
        fprintf(stderr, " It looks like %s.", finding->looks.like);
    fprintf(stderr, "\n  %s\n", finding->refusal.advice);
    if (finding->kept != NULL)
        fprintf(stderr, "  %s is left as it was.\n", finding->kept);
}

static void put_row(struct json *object, const struct finding *finding) {
    json_bytes(object, "id", finding->row.id);
    if (finding->refusal.names == NAMES_IMAGE) {
        json_number(object, "offset", finding->row.offset);
        json_number(object, "size", finding->row.size);
    }
    if (finding->has_earlier) {
        json_number(object, "earlier", finding->earlier);
        json_bytes(object, "earlier_id", finding->earlier_row.id);
    }
    if (finding->has_earlier && finding->refusal.names == NAMES_IMAGE) {
        json_number(object, "earlier_offset", finding->earlier_row.offset);
        json_number(object, "earlier_size", finding->earlier_row.size);
    }
}

static void put_advice(struct json *object, const struct finding *finding) {
    json_text(object, "sentence", finding->refusal.sentence);
    if (finding->looks.like != NULL)
        json_text(object, "looks_like", finding->looks.like);
    json_text(object, "advice", finding->refusal.advice);
    if (finding->kept != NULL)
        json_text(object, "kept", finding->kept);
}

static void put_finding(struct json *object, const struct request *request, const struct finding *finding) {
    put_number(object, finding->number);
    if (compares(request) || (has_patch(request) && finding->refusal.names != NAMES_DEVICE))
        put_bundle(object, request, finding->file);
    if (finding->has_place)
        json_number(object, "place", finding->place);
    if (finding->has_row)
        put_row(object, finding);
    if (finding->device != NULL)
        json_text(object, "device", finding->device);
    if (finding->fault.length > 0)
        json_bytes(object, finding->fault.kind == UNKNOWN_PROCESSOR ? "processor" : "feature", fault_bytes(finding));
    put_advice(object, finding);
}

enum status refuse(const struct request *request, const struct input *file, const char *device, uint64_t number, uint64_t place) {
    struct finding finding = find_out(request, file, device, number, place);
    struct json object;
    if (request->json) {
        object = open_object(request);
        put_finding(&object, request, &finding);
        json_close(&object);
    } else {
        print_finding(request, &finding);
    }
    return number == OFFLOAD_NONE ? NO_IMAGE : REFUSED;
}

void put_refusal(struct json *object, const struct request *request, const char *device, uint64_t number) {
    struct finding finding = find_out(request, &request->files[0], device, number, 0);
    put_finding(object, request, &finding);
}

static struct finding nothing_found(const struct request *request) {
    return find_out(request, &request->files[0], NULL, OFFLOAD_OK, 0);
}

void print_nothing_found(const struct request *request) {
    struct finding finding = nothing_found(request);
    print_finding(request, &finding);
}

void put_nothing_found(struct json *object, const struct request *request) {
    struct finding finding = nothing_found(request);
    put_advice(object, &finding);
}

static enum status fail(const struct request *request, const char *what, const char *path, const char *name, const char *why) {
    struct json object;
    if (!request->json) {
        fprintf(stderr, "offload: cannot %s %s: %s\n", what, name, why);
        return FILE_FAILURE;
    }
    object = json_open(request->answer);
    json_text(&object, "file", path);
    json_text(&object, "cannot", what);
    json_text(&object, "reason", why);
    json_close(&object);
    return FILE_FAILURE;
}

enum status cannot_read(const struct request *request, const char *path, const char *why) {
    return fail(request, "read", path, input_name(path), why);
}

enum status cannot_write(const struct request *request, const char *path, const char *why) {
    return fail(request, "write", path, output_name(path), why);
}

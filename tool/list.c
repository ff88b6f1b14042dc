#include "commands.h"

#include "entries.h"
#include "json.h"
#include "message.h"
#include "text.h"

#include <inttypes.h>

static int spelled_otherwise(const struct entry *entry) {
    return !same_bytes(canonical_bytes(&entry->id), entry->spelled);
}

static void print_entry(FILE *out, size_t index, const struct entry *entry, int width) {
    fprintf(out, "%5zu %10" PRIu64 " %10" PRIu64 "  ", index, entry->offset, entry->size);
    print_id(out, canonical_bytes(&entry->id), spelled_otherwise(entry) ? width : 0);
    if (spelled_otherwise(entry)) {
        fputs("  ", out);
        print_id(out, entry->spelled, 0);
    }
    putc('\n', out);
}

static void print_entries(FILE *out, const struct entries *entries) {
    size_t i;
    int width = longest_id(entries);
    fprintf(out, "%5s %10s %10s  %-*s  %s\n", "INDEX", "OFFSET", "SIZE", width, "ID", "SPELLED");
    for (i = 0; i < entries->count; i++)
        print_entry(out, i, &entries->list[i], width);
}

static void put_entry(FILE *out, size_t index, const struct entry *entry) {
    struct json object = json_open(out);
    json_number(&object, "index", index);
    json_number(&object, "offset", entry->offset);
    json_number(&object, "size", entry->size);
    json_bytes(&object, "id", canonical_bytes(&entry->id));
    if (spelled_otherwise(entry))
        json_bytes(&object, "spelled", entry->spelled);
    json_close(&object);
}

static void put_entries(FILE *out, const struct entries *entries) {
    size_t i;
    for (i = 0; i < entries->count; i++)
        put_entry(out, i, &entries->list[i]);
}

enum status list(const struct request *request) {
    struct bytes bundle = request->files[0].bytes;
    struct offload_check_answer answer = request->reading->check(bundle.start, bundle.length);
    struct entries entries;
    if (answer.number != OFFLOAD_OK)
        return refuse(request, &request->files[0], NULL, answer.number, answer.place);
    read_entries(request->reading, bundle, &entries);
    (request->json ? put_entries : print_entries)(request->answer, &entries);
    return ACCEPTED;
}

#include "entries.h"

static struct entry read_entry(const struct reading *reading, struct bytes bundle, size_t index) {
    struct offload_entry_answer answer = offload_entry(bundle.start, bundle.length, index);
    struct bytes spelled = {bundle.start + answer.id_position, (size_t)answer.id_length};
    struct entry entry;
    entry.offset = answer.position;
    entry.size = answer.size;
    entry.spelled = spelled;
    canonical_form(reading, spelled, &entry.id);
    return entry;
}

void read_entries(const struct reading *reading, struct bytes bundle, struct entries *entries) {
    size_t i;
    entries->count = (size_t)offload_check_count(bundle.start, bundle.length);
    for (i = 0; i < entries->count; i++)
        entries->list[i] = read_entry(reading, bundle, i);
}

int longest_id(const struct entries *entries) {
    size_t i, longest = 0;
    for (i = 0; i < entries->count; i++)
        if (entries->list[i].id.length > longest)
            longest = entries->list[i].id.length;
    return (int)longest;
}

void print_id(FILE *out, struct bytes id, int width) {
    fprintf(out, "%-*.*s", width, (int)id.length, (const char *)id.start);
}

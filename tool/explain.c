#include "commands.h"

#include "entries.h"
#include "json.h"
#include "message.h"
#include "text.h"

/* Why an entry does not fit a device: a field, or what follows the fields. The later in this order, the nearer. */
enum { UNSTATED = FIELDS, OTHER_SIGN, FITS };

static const char *const names[] = {
    [KIND] = "kind",
    [ARCH] = "arch",
    [VENDOR] = "vendor",
    [SYSTEM] = "system",
    [ENVIRONMENT] = "environment",
    [PROCESSOR] = "processor",
    [UNSTATED] = "feature not stated",
    [OTHER_SIGN] = "feature sign",
};

/* The first reason, with what the entry has and what the device has. */
struct reason {
    int rank;
    struct bytes entry;
    struct bytes device;
};

/* The feature of the same name, sign included; empty where the list has none. */
static struct bytes stated(struct bytes features, struct bytes wanted) {
    while (features.length > 0) {
        struct bytes feature = next_feature(&features);
        if (same_bytes(feature_name(feature), feature_name(wanted)))
            return feature;
    }
    return features;
}

/* The first feature of the entry that the device does not state or, else, states with the other sign. */
static struct reason feature_reason(struct bytes features, struct bytes device) {
    struct reason reason = {FITS, {NULL, 0}, {NULL, 0}};
    while (features.length > 0 && reason.rank != UNSTATED) {
        struct bytes feature = next_feature(&features), other = stated(device, feature);
        int rank = other.length == 0 ? UNSTATED : same_bytes(feature, other) ? FITS : OTHER_SIGN;
        if (rank < reason.rank) {
            reason.rank = rank;
            reason.entry = feature;
            reason.device = other;
        }
    }
    return reason;
}

static struct reason reason_of(const struct parts *entry, const struct parts *device) {
    int field = first_difference(entry, device);
    struct reason reason;
    if (field == FIELDS)
        return feature_reason(entry->features, device->features);
    reason.rank = field;
    reason.entry = entry->fields[field];
    reason.device = device->fields[field];
    return reason;
}

static void print_value(FILE *out, struct bytes value, const char *none) {
    if (value.length == 0)
        fputs(none, out);
    else
        print_id(out, value, 0);
}

static void print_reason(FILE *out, const struct reason *reason) {
    if (reason->rank == FITS) {
        fputs("fits", out);
        return;
    }
    fprintf(out, "%s: entry ", reason->rank < FIELDS ? names[reason->rank] : "feature");
    print_value(out, reason->entry, "(none)");
    fputs(", device ", out);
    print_value(out, reason->device, reason->rank < FIELDS ? "(none)" : "(not stated)");
}

static void print_line(FILE *out, const struct entries *entries, size_t index, const struct reason *reason) {
    fprintf(out, "%5zu  ", index);
    print_id(out, canonical_bytes(&entries->list[index].id), longest_id(entries));
    fputs("  ", out);
    print_reason(out, reason);
    putc('\n', out);
}

static void put_line(FILE *out, const struct entries *entries, size_t index, const struct reason *reason) {
    struct json object = json_open(out);
    json_number(&object, "index", index);
    json_bytes(&object, "id", canonical_bytes(&entries->list[index].id));
    json_truth(&object, "fits", reason->rank == FITS);
    if (reason->rank != FITS) {
        json_text(&object, "reason", names[reason->rank]);
        json_bytes(&object, "entry", reason->entry);
    }
    if (reason->rank != FITS && reason->rank != UNSTATED)
        json_bytes(&object, "device", reason->device);
    json_close(&object);
}

/* A line for each entry of a rank, by index. */
static void tell_rank(const struct request *request, const struct entries *entries, const struct reason *reasons, int rank) {
    size_t i;
    for (i = 0; i < entries->count; i++)
        if (reasons[i].rank == rank)
            (request->json ? put_line : print_line)(request->answer, entries, i, &reasons[i]);
}

static void tell(const struct request *request, const struct entries *entries, const struct reason *reasons) {
    int rank;
    if (!request->json)
        fprintf(request->answer, "%5s  %-*s  %s\n", "INDEX", longest_id(entries), "ID", "REASON");
    for (rank = FITS; rank >= KIND; rank--)
        tell_rank(request, entries, reasons, rank);
}

/* The device name keeps the rules. */
static void explain_entries(const struct request *request, struct bytes device) {
    struct canonical name;
    struct parts parts;
    struct entries entries;
    struct reason reasons[OFFLOAD_ENTRIES];
    size_t i;
    canonical_form(request->reading, device, &name);
    parts = parts_of(&name);
    read_entries(request->reading, request->files[0].bytes, &entries);
    for (i = 0; i < entries.count; i++) {
        struct parts entry = parts_of(&entries.list[i].id);
        reasons[i] = reason_of(&entry, &parts);
    }
    tell(request, &entries, reasons);
}

enum status explain(const struct request *request) {
    struct bytes bundle = request->files[0].bytes, device = text_bytes(request->operands[1]);
    struct offload_pick_answer answer = request->reading->pick(bundle.start, bundle.length, device.start, device.length);
    if (answer.number != OFFLOAD_OK && answer.number != OFFLOAD_NONE)
        return refuse(request, &request->files[0], request->operands[1], answer.number, answer.place);
    explain_entries(request, device);
    return answer.number == OFFLOAD_OK ? ACCEPTED : NO_IMAGE;
}

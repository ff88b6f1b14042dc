#include "finding.h"

#include "text.h"

#include <string.h>
#include <unistd.h>

static void find_earlier(const struct request *request, struct finding *finding) {
    uint64_t i;
    for (i = 0; i < finding->place && !finding->has_earlier; i++) {
        finding->earlier = i;
        finding->has_earlier = read_row(finding->file->bytes, i, &finding->earlier_row) &&
                               finding->refusal.concerns(request->reading, finding->earlier_row, finding->row);
    }
}

static void find_entry(const struct request *request, uint64_t place, struct finding *finding) {
    enum names names = finding->refusal.names;
    finding->has_place = names != NAMES_FILE && names != NAMES_DEVICE;
    finding->place = place;
    if (names == NAMES_ID || names == NAMES_IMAGE)
        finding->has_row = read_row(finding->file->bytes, place, &finding->row);
    if (finding->has_row && finding->refusal.concerns != NULL)
        find_earlier(request, finding);
}

/* What the rules of IDs refuse may be against the profile alone. */
static void find_fault(const struct request *request, struct finding *finding) {
    if (finding->number == OFFLOAD_ID && finding->has_row)
        finding->fault = fault_of(request->reading, finding->row.id);
    if (finding->number == OFFLOAD_QUERY)
        finding->fault = fault_of(request->reading, text_bytes(finding->device));
    if (finding->fault.kind != NO_FAULT)
        finding->refusal = fault_refusal(finding->refusal.names, finding->fault.kind);
}

/* The output of a request, if it is a file that is there. */
static const char *kept_output(const char *output) {
    return output != NULL && strcmp(output, "-") != 0 && access(output, F_OK) == 0 ? output : NULL;
}

struct finding find_out(const struct request *request, const struct input *file, const char *device, uint64_t number, uint64_t place) {
    struct finding finding = {0};
    finding.number = number;
    finding.file = file;
    finding.refusal = refusal_of(request, number);
    finding.device = finding.refusal.names == NAMES_DEVICE ? device : NULL;
    if (finding.refusal.advice == NULL) {
        finding.looks = (request->command->binaries ? looks_without_binaries : looks_of)(file->bytes);
        finding.refusal.advice = finding.looks.advice;
    }
    find_entry(request, place, &finding);
    find_fault(request, &finding);
    finding.kept = kept_output(request->output);
    return finding;
}

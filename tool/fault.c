#include "fault.h"

#include "text.h"

#include <stdio.h>
#include <string.h>

/* Whether a reading takes an ID of this kind, arch and processor that states the feature, or none where it is empty. The ID is not longer than the
 * one that the parts are of: vendor and system have a byte each. */
static int takes(const struct reading *reading, const struct parts *parts, struct bytes feature) {
    struct bytes kind = parts->fields[KIND], arch = parts->fields[ARCH], processor = parts->fields[PROCESSOR];
    char id[OFFLOAD_ID_LIMIT + 1];
    struct canonical form;
    snprintf(id, sizeof id, "%.*s-%.*s-v-s--%.*s%s%.*s", (int)kind.length, (const char *)kind.start, (int)arch.length, (const char *)arch.start,
             (int)processor.length, (const char *)processor.start, feature.length > 0 ? ":" : "", (int)feature.length, (const char *)feature.start);
    return canonical_form(reading, text_bytes(id), &form);
}

static struct fault make_fault(enum fault_kind kind, struct bytes part) {
    struct fault fault = {kind, {0}, part.length};
    memcpy(fault.bytes, part.start, part.length);
    return fault;
}

struct fault fault_of(const struct reading *reading, struct bytes id) {
    struct bytes nothing = text_bytes("");
    struct canonical form;
    struct parts parts;
    if (reading->profile == NULL || !canonical_form(&general_reading, id, &form))
        return make_fault(NO_FAULT, nothing);
    parts = parts_of(&form);
    if (!takes(reading, &parts, nothing))
        return make_fault(UNKNOWN_PROCESSOR, parts.fields[PROCESSOR]);
    while (parts.features.length > 0) {
        struct bytes feature = next_feature(&parts.features);
        if (!takes(reading, &parts, feature))
            return make_fault(UNSUPPORTED_FEATURE, feature_name(feature));
    }
    return make_fault(LONG_FORM, nothing);
}

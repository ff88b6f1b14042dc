/* Why a profile refuses an ID. */
#ifndef TOOL_FAULT_H
#define TOOL_FAULT_H

#include "entry_id.h"

/* NO_FAULT: the ID breaks the general rules, or the reading is the general one. */
enum fault_kind { NO_FAULT, UNKNOWN_PROCESSOR, UNSUPPORTED_FEATURE, LONG_FORM };

struct fault {
    enum fault_kind kind;
    uint8_t bytes[OFFLOAD_ID_LIMIT]; /* the processor, or the name of the feature */
    size_t length;
};

/* Why this reading refuses an ID. The tool has no table of processors: it asks the library about the processor alone, and with each feature. */
struct fault fault_of(const struct reading *reading, struct bytes id);

#endif

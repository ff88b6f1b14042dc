/* What each refusal means, for people. */
#ifndef TOOL_REFUSAL_H
#define TOOL_REFUSAL_H

#include "commands.h"
#include "fault.h"
#include "table.h"

/* What a message names beside the file. */
enum names { NAMES_FILE, NAMES_ENTRY, NAMES_ID, NAMES_IMAGE, NAMES_BYTE, NAMES_DEVICE };

struct refusal {
    enum names names;
    const char *sentence; /* what it means */
    const char *advice;   /* what to do; null where it depends on the file */

    /* Whether an earlier entry is the reason; null where none can be. */
    int (*concerns)(const struct reading *reading, struct row earlier, struct row row);
};

/* What a number means for what is asked. Of offload binaries OFFLOAD_OK means that none is found. */
struct refusal refusal_of(const struct request *request, uint64_t number);

/* What a fault of an entry's ID, or of a device name, means. */
struct refusal fault_refusal(enum names names, enum fault_kind kind);

#endif

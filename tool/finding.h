/* What the tool finds out about a refusal, beyond its number and its place; or about a file in which no binary is found. */
#ifndef TOOL_FINDING_H
#define TOOL_FINDING_H

#include "commands.h"
#include "looks.h"
#include "refusal.h"

struct finding {
    uint64_t number;
    const struct input *file;
    struct refusal refusal;
    struct looks looks;

    /* The refusal's place, the entry there, and an earlier one that is a reason for it. */
    int has_place;
    uint64_t place;
    int has_row;
    struct row row;
    int has_earlier;
    uint64_t earlier;
    struct row earlier_row;

    const char *device; /* the device name, where that is refused, or null */
    struct fault fault; /* why a profile refuses the entry's ID, or the device name */

    const char *kept; /* an output that was there before and is left as it was, or null */
};

/* What is to be said of a refusal of a file of the request, or of a device name, which may be null where no device is refused. OFFLOAD_OK is for a file
 * in which no binary is found. */
struct finding find_out(const struct request *request, const struct input *file, const char *device, uint64_t number, uint64_t place);

#endif

/* What a file looks like that is not what a command reads. */
#ifndef TOOL_LOOKS_H
#define TOOL_LOOKS_H

#include "file.h"

/* What it looks like, and what to do; what is null where it looks like nothing known. */
struct looks {
    const char *like;
    const char *advice;
};

/* Of a file that is no bundle. */
struct looks looks_of(struct bytes file);

/* Of a file in which no offload binary is found. */
struct looks looks_without_binaries(struct bytes file);

#endif

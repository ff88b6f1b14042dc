/* The processors of the profile for AMD's GPUs, by each of their names. */
#ifndef BASELINE_PROCESSORS_H
#define BASELINE_PROCESSORS_H

#include <stdint.h>

struct processor {
    const char *name, *primary;
    uint32_t name_length, primary_length;
    int alternative;    /* whether the name is not the primary one */
    int sramecc, xnack; /* whether these features are supported */
};

/* The processor of a name, or null. */
const struct processor *find_processor(const uint8_t *name, uint32_t length);

#endif

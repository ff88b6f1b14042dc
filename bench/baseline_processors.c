/* The processors of LLVM 19's AMDGPU user guide: the `amdgcn` and generic rows, as in docs/amdgpu-processors.tsv. They are found through a hash
 * table, which the first call makes. */
#include "baseline_processors.h"

#include <stddef.h>
#include <string.h>

#define PRIMARY(name, sramecc, xnack) {name, name, sizeof name - 1, sizeof name - 1, 0, sramecc, xnack}
#define OTHER(name, primary, sramecc, xnack) {name, primary, sizeof name - 1, sizeof primary - 1, 1, sramecc, xnack}

static const struct processor processors[] = {
    PRIMARY("gfx600", 0, 0),
    OTHER("tahiti", "gfx600", 0, 0),
    PRIMARY("gfx601", 0, 0),
    OTHER("pitcairn", "gfx601", 0, 0),
    OTHER("verde", "gfx601", 0, 0),
    PRIMARY("gfx602", 0, 0),
    OTHER("hainan", "gfx602", 0, 0),
    OTHER("oland", "gfx602", 0, 0),
    PRIMARY("gfx700", 0, 0),
    OTHER("kaveri", "gfx700", 0, 0),
    PRIMARY("gfx701", 0, 0),
    OTHER("hawaii", "gfx701", 0, 0),
    PRIMARY("gfx702", 0, 0),
    PRIMARY("gfx703", 0, 0),
    OTHER("kabini", "gfx703", 0, 0),
    OTHER("mullins", "gfx703", 0, 0),
    PRIMARY("gfx704", 0, 0),
    OTHER("bonaire", "gfx704", 0, 0),
    PRIMARY("gfx705", 0, 0),
    PRIMARY("gfx801", 0, 1),
    OTHER("carrizo", "gfx801", 0, 1),
    PRIMARY("gfx802", 0, 0),
    OTHER("iceland", "gfx802", 0, 0),
    OTHER("tonga", "gfx802", 0, 0),
    PRIMARY("gfx803", 0, 0),
    OTHER("fiji", "gfx803", 0, 0),
    OTHER("polaris10", "gfx803", 0, 0),
    OTHER("polaris11", "gfx803", 0, 0),
    PRIMARY("gfx805", 0, 0),
    OTHER("tongapro", "gfx805", 0, 0),
    PRIMARY("gfx810", 0, 1),
    OTHER("stoney", "gfx810", 0, 1),
    PRIMARY("gfx900", 0, 1),
    PRIMARY("gfx902", 0, 1),
    PRIMARY("gfx904", 0, 1),
    PRIMARY("gfx906", 1, 1),
    PRIMARY("gfx908", 1, 1),
    PRIMARY("gfx909", 0, 1),
    PRIMARY("gfx90a", 1, 1),
    PRIMARY("gfx90c", 0, 1),
    PRIMARY("gfx940", 1, 1),
    PRIMARY("gfx941", 1, 1),
    PRIMARY("gfx942", 1, 1),
    PRIMARY("gfx1010", 0, 1),
    PRIMARY("gfx1011", 0, 1),
    PRIMARY("gfx1012", 0, 1),
    PRIMARY("gfx1013", 0, 1),
    PRIMARY("gfx1030", 0, 0),
    PRIMARY("gfx1031", 0, 0),
    PRIMARY("gfx1032", 0, 0),
    PRIMARY("gfx1033", 0, 0),
    PRIMARY("gfx1034", 0, 0),
    PRIMARY("gfx1035", 0, 0),
    PRIMARY("gfx1036", 0, 0),
    PRIMARY("gfx1100", 0, 0),
    PRIMARY("gfx1101", 0, 0),
    PRIMARY("gfx1102", 0, 0),
    PRIMARY("gfx1103", 0, 0),
    PRIMARY("gfx1150", 0, 0),
    PRIMARY("gfx1151", 0, 0),
    PRIMARY("gfx1152", 0, 0),
    PRIMARY("gfx1200", 0, 0),
    PRIMARY("gfx1201", 0, 0),
    PRIMARY("gfx9-generic", 0, 1),
    PRIMARY("gfx10-1-generic", 0, 1),
    PRIMARY("gfx10-3-generic", 0, 0),
    PRIMARY("gfx11-generic", 0, 0),
    PRIMARY("gfx12-generic", 0, 0),
};

enum { PROCESSORS = sizeof processors / sizeof *processors, SLOTS = 256, SHORTEST = 4, LONGEST = 15 };

/* The first and the last bytes of a name, which may overlap. */
static uint64_t hash(const uint8_t *name, uint32_t length) {
    uint64_t first = 0, last = 0;
    if (length < 8) {
        memcpy(&first, name, 4);
        memcpy(&last, name + length - 4, 4);
    } else {
        memcpy(&first, name, 8);
        memcpy(&last, name + length - 8, 8);
    }
    return ((first ^ last << 7 ^ length) * 0x9E3779B97F4A7C15) >> 56;
}

/* 0 is free, k + 1 is processor k. */
static uint8_t slots[SLOTS];

static void fill_slots(void) {
    int k;
    for (k = 0; k < PROCESSORS; k++) {
        uint64_t slot = hash((const uint8_t *)processors[k].name, processors[k].name_length);
        while (slots[slot] != 0)
            slot = (slot + 1) % SLOTS;
        slots[slot] = (uint8_t)(k + 1);
    }
}

const struct processor *find_processor(const uint8_t *name, uint32_t length) {
    static int filled;
    uint64_t slot;
    if (length < SHORTEST || length > LONGEST)
        return NULL;
    if (!filled) {
        fill_slots();
        filled = 1;
    }
    for (slot = hash(name, length); slots[slot] != 0; slot = (slot + 1) % SLOTS) {
        const struct processor *processor = &processors[slots[slot] - 1];
        if (processor->name_length == length && memcmp(processor->name, name, length) == 0)
            return processor;
    }
    return NULL;
}

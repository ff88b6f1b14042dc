/* Files: read whole, written whole or not at all. Each function returns null, or why it failed. */
#ifndef TOOL_FILE_H
#define TOOL_FILE_H

#include <stddef.h>
#include <stdint.h>

struct bytes {
    const uint8_t *start;
    size_t length;
};

/* Reads a file, for as long as the program runs; "-" is standard input. A regular file is mapped, so nobody may change
 * it meanwhile. Anything else is read to its end, or to one byte past OFFLOAD_LIMIT: the library then sees that it is
 * too long. The start is not null, where there are no bytes either. */
const char *file_read(const char *path, struct bytes *file);

/* Writes a file: it appears under its name with every byte, or what had the name stays as it was. A link stays too: the
 * file that it names is written. A file that was there keeps its mode, and its owner and group where the system allows;
 * a read-only one is refused, and so is anything but a regular file. "-" is standard output, which may get a part. */
const char *file_write(const char *path, struct bytes content);

#endif

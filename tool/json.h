/* JSON: one object with its keys on one line. A key may have a list of objects.
 *
 * A string holds bytes as UTF-8 where they are UTF-8; every other byte stands as the four characters \xNN. */
#ifndef TOOL_JSON_H
#define TOOL_JSON_H

#include "file.h"

#include <stdio.h>

/* An object, or a list of objects. */
struct json {
    FILE *out;
    const char *separator; /* what stands before the next key or object */
    const char *end;       /* what closes it */
};

struct json json_open(FILE *out);
struct json json_open_list(struct json *object, const char *key);
struct json json_open_item(struct json *list);
void json_number(struct json *object, const char *key, uint64_t value);
void json_truth(struct json *object, const char *key, int value);
void json_bytes(struct json *object, const char *key, struct bytes value);
void json_text(struct json *object, const char *key, const char *value);
void json_close(struct json *json);

#endif

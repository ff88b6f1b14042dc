/* What JSON objects about files have in common. */
#ifndef TOOL_OBJECT_H
#define TOOL_OBJECT_H

#include "commands.h"
#include "json.h"

/* Opens one: file, the first operand, and patch and profile where there are such; left and right where two bundles are compared. */
struct json open_object(const struct request *request);

/* Puts in number and name. */
void put_number(struct json *object, uint64_t number);

/* Puts in which of two bundles it is: of patch and main bundle its number, as the library has it, of left and right its side; and its path. */
void put_bundle(struct json *object, const struct request *request, const struct input *file);

#endif

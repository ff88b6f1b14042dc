/* What the tool says when it has no answer: text on standard error, or a JSON object where the answer would stand. */
#ifndef TOOL_MESSAGE_H
#define TOOL_MESSAGE_H

#include "commands.h"
#include "json.h"

/* Tells a refusal of a file of the request, or of a device name, which may be null where no device is refused. */
enum status refuse(const struct request *request, const struct input *file, const char *device, uint64_t number, uint64_t place);

/* Puts the refusal of a device name into an object. */
void put_refusal(struct json *object, const struct request *request, const char *device, uint64_t number);

/* Says that no binary is found in the file of the request; or puts it into the object of the answer. */
void print_nothing_found(const struct request *request);
void put_nothing_found(struct json *object, const struct request *request);

/* Says that a file cannot be read or written, and why. */
enum status cannot_read(const struct request *request, const char *path, const char *why);
enum status cannot_write(const struct request *request, const char *path, const char *why);

#endif

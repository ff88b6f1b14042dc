/* Bytes as text. */
#ifndef TOOL_TEXT_H
#define TOOL_TEXT_H

#include "file.h"

#include <stdio.h>

/* The bytes of a text, without its ending zero. */
struct bytes text_bytes(const char *text);

int same_bytes(struct bytes left, struct bytes right);

/* Takes these first bytes off the bytes; 0, and nothing is taken, where others stand there. */
int take(struct bytes *bytes, const char *start);

/* Takes what stands before the sign off a text, and the sign too; the whole text where the sign is missing. */
struct bytes cut(struct bytes *text, char sign);

/* Prints bytes. A byte that is not printable ASCII, a double quote and a backslash stand as \xNN. */
void print_plain(FILE *out, struct bytes bytes);

/* Prints bytes so in double quotes. */
void print_quoted(FILE *out, struct bytes bytes);

#endif

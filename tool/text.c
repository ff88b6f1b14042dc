#include "text.h"

#include <string.h>

struct bytes text_bytes(const char *text) {
    struct bytes bytes = {(const uint8_t *)text, strlen(text)};
    return bytes;
}

int same_bytes(struct bytes left, struct bytes right) {
    return left.length == right.length && (left.length == 0 || memcmp(left.start, right.start, left.length) == 0);
}

int take(struct bytes *bytes, const char *start) {
    struct bytes wanted = text_bytes(start), first = {bytes->start, wanted.length};
    if (bytes->length < wanted.length || !same_bytes(first, wanted))
        return 0;
    bytes->start += wanted.length;
    bytes->length -= wanted.length;
    return 1;
}

struct bytes cut(struct bytes *text, char sign) {
    const uint8_t *found = text->length == 0 ? NULL : memchr(text->start, sign, text->length);
    struct bytes before = {text->start, found == NULL ? text->length : (size_t)(found - text->start)};
    size_t taken = before.length + (found != NULL);
    text->start += taken;
    text->length -= taken;
    return before;
}

void print_plain(FILE *out, struct bytes bytes) {
    size_t i;
    for (i = 0; i < bytes.length; i++) {
        uint8_t byte = bytes.start[i];
        fprintf(out, byte >= ' ' && byte <= '~' && byte != '"' && byte != '\\' ? "%c" : "\\x%02x", byte);
    }
}

void print_quoted(FILE *out, struct bytes bytes) {
    putc('"', out);
    print_plain(out, bytes);
    putc('"', out);
}

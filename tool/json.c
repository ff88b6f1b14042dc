#include "json.h"

#include "text.h"

#include <inttypes.h>

struct json json_open(FILE *out) {
    struct json object = {out, "{", "}\n"};
    return object;
}

static void print_key(struct json *object, const char *key) {
    fprintf(object->out, "%s\"%s\":", object->separator, key);
    object->separator = ",";
}

struct json json_open_list(struct json *object, const char *key) {
    struct json list = {object->out, "", "]"};
    print_key(object, key);
    putc('[', object->out);
    return list;
}

struct json json_open_item(struct json *list) {
    struct json object = {list->out, "{", "}"};
    fputs(list->separator, list->out);
    list->separator = ",";
    return object;
}

void json_number(struct json *object, const char *key, uint64_t value) {
    print_key(object, key);
    fprintf(object->out, "%" PRIu64, value);
}

void json_truth(struct json *object, const char *key, int value) {
    print_key(object, key);
    fputs(value ? "true" : "false", object->out);
}

/* How many bytes a UTF-8 character that begins with this byte has; 0 where none does (RFC 3629). */
static size_t character_length(uint8_t first) {
    if (first < 0x80)
        return 1;
    if (first < 0xC2 || first > 0xF4)
        return 0;
    return first < 0xE0 ? 2 : first < 0xF0 ? 3 : 4;
}

/* Whether the second byte keeps the character from being too long, a surrogate, or above U+10FFFF. */
static int second_fits(uint8_t first, uint8_t second) {
    uint8_t least = first == 0xE0 ? 0xA0 : first == 0xF0 ? 0x90 : 0x80;
    uint8_t most = first == 0xED ? 0x9F : first == 0xF4 ? 0x8F : 0xBF;
    return second >= least && second <= most;
}

/* The length of the UTF-8 character at the start of bytes that are not empty; 0 where none stands there. */
static size_t character(struct bytes bytes) {
    size_t length = character_length(bytes.start[0]), i;
    if (length > bytes.length || (length > 1 && !second_fits(bytes.start[0], bytes.start[1])))
        return 0;
    for (i = 2; i < length; i++)
        if ((bytes.start[i] & 0xC0) != 0x80)
            return 0;
    return length;
}

static void print_character(FILE *out, const uint8_t *start, size_t length) {
    if (length == 0)
        fprintf(out, "\\\\x%02x", *start);
    else if (*start == '"' || *start == '\\')
        fprintf(out, "\\%c", *start);
    else if (*start < ' ')
        fprintf(out, "\\u%04x", *start);
    else
        fwrite(start, 1, length, out);
}

void json_bytes(struct json *object, const char *key, struct bytes value) {
    print_key(object, key);
    putc('"', object->out);
    while (value.length > 0) {
        size_t length = character(value), taken = length > 0 ? length : 1;
        print_character(object->out, value.start, length);
        value.start += taken;
        value.length -= taken;
    }
    putc('"', object->out);
}

void json_text(struct json *object, const char *key, const char *value) {
    json_bytes(object, key, text_bytes(value));
}

void json_close(struct json *json) {
    fputs(json->end, json->out);
}

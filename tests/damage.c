/* Makes damaged copies of files: damage COPIES FOLDER FILE..   Always the same ones. */
#include <stdint.h>
#include <stdio.h>
#include <stdlib.h>
#include <string.h>

enum { WOUNDS = 3, SPAN = 64 };

/* A file in memory, with room for what its wounds put in. */
struct copy {
    uint8_t *bytes;
    size_t length;
};

static void fail(const char *what) {
    perror(what);
    exit(1);
}

/* Random numbers (splitmix64). */
static uint64_t state;

static uint64_t number(void) {
    uint64_t word = state += 0x9E3779B97F4A7C15;
    word = (word ^ word >> 30) * 0xBF58476D1CE4E5B9;
    word = (word ^ word >> 27) * 0x94D049BB133111EB;
    return word ^ word >> 31;
}

static size_t below(size_t end) {
    return end == 0 ? 0 : number() % end;
}

/* A place in the file: three times in four among its first 512 bytes, where the tables are. */
static size_t place(const struct copy *copy) {
    return below(copy->length < 512 || below(4) == 0 ? copy->length : 512);
}

/* Eight bytes that are a number on one side or the other of a limit. */
static void put_number(struct copy *copy) {
    const uint64_t limits[] = {0, 1, 32, 64, 256, 4096, copy->length, 1u << 30, (uint64_t)1 << 63};
    uint64_t value = limits[below(sizeof limits / sizeof *limits)] + below(3) - 1;
    size_t at = place(copy), k;
    for (k = 0; k < 8 && at + k < copy->length; k++)
        copy->bytes[at + k] = (uint8_t)(value >> 8 * k);
}

static void put_in(struct copy *copy) {
    size_t at = place(copy), count = 1 + below(SPAN), k;
    memmove(copy->bytes + at + count, copy->bytes + at, copy->length - at);
    for (k = 0; k < count; k++)
        copy->bytes[at + k] = (uint8_t)number();
    copy->length += count;
}

static void take_out(struct copy *copy) {
    size_t at = place(copy), left = copy->length - at, count = 1 + below(left < SPAN ? left : SPAN);
    memmove(copy->bytes + at, copy->bytes + at + count, left - count);
    copy->length -= count;
}

static void wound(struct copy *copy) {
    size_t at = place(copy);
    if (copy->length == 0)
        return;
    switch (below(6)) {
    case 0:
        copy->bytes[at] ^= (uint8_t)(1 << below(8));
        break;
    case 1:
        copy->bytes[at] = (uint8_t)number();
        break;
    case 2:
        put_number(copy);
        break;
    case 3:
        put_in(copy);
        break;
    case 4:
        take_out(copy);
        break;
    case 5:
        copy->length = at;
        break;
    }
}

static struct copy read_file(const char *path) {
    FILE *file = fopen(path, "rb");
    struct copy copy;
    if (file == NULL || fseek(file, 0, SEEK_END) != 0)
        fail(path);
    copy.length = (size_t)ftell(file);
    copy.bytes = malloc(copy.length + WOUNDS * SPAN);
    rewind(file);
    if (copy.bytes == NULL || fread(copy.bytes, 1, copy.length, file) != copy.length)
        fail(path);
    fclose(file);
    return copy;
}

static void write_file(const char *path, const struct copy *copy) {
    FILE *file = fopen(path, "wb");
    if (file == NULL || fwrite(copy->bytes, 1, copy->length, file) != copy->length || fclose(file) != 0)
        fail(path);
}

int main(int count, char **words) {
    int copies, files = count - 3, k;
    if (files < 1)
        return 2;
    copies = atoi(words[1]);
    for (k = 0; k < copies; k++) {
        struct copy copy = read_file(words[3 + k % files]);
        const char *name = strrchr(words[3 + k % files], '/');
        size_t wounds = 1 + below(WOUNDS);
        char path[4096];
        while (wounds-- > 0)
            wound(&copy);
        snprintf(path, sizeof path, "%s/%04d-%s", words[2], k, name == NULL ? "copy" : name + 1);
        write_file(path, &copy);
        free(copy.bytes);
    }
    return 0;
}

#include "looks.h"

#include "table.h"
#include "text.h"

static const struct looks unknown = {NULL, "Give a binary bundle, as clang-offload-bundler makes it (-type=o, bc, gch or ast)."};

static const struct looks empty = {"an empty file", "Was it written whole? Copy it or make it again."};

static const struct looks beginning = {"the beginning of a bundle", "The file is cut short: copy it or make it again."};

static const struct looks text_bundle = {
    "a text bundle", "Only binary bundles are read here: clang-offload-bundler -unbundle takes a text bundle apart (-type=i, ii, cui, d, ll or s)."};

/* Files known by their first bytes. */
static const struct {
    const char *start;
    struct looks looks;
} known[] = {
    {"CCOB", {"a compressed bundle",
              "clang-offload-bundler -unbundle decompresses it and takes it apart: bundle the parts again without -compress."}},
    {"!<arch>\n", {"an archive", "Take its members out (llvm-ar x FILE) and give those that are bundles."}},
    {"\x7f" "ELF", {"an ELF file", "A bundle inside a program: objcopy -O binary -j .hip_fatbin FILE OUT takes it out. "
                                     "An object with parts for several devices: clang-offload-bundler -unbundle -type=o takes it apart."}},
    {"\x10\xff\x10\xad", {"offload binaries", "This command reads bundles: clang-offload-packager takes images out of offload binaries, "
                                             "and offload recover saves what is whole in damaged ones."}},
};

/* Whether the file begins with a comment that marks a part of a text bundle; clang-offload-bundler writes an empty line before it. */
static int is_text_bundle(struct bytes file) {
    while (take(&file, "\n") || take(&file, "\r"))
        ;
    return (take(&file, "; ") || take(&file, "# ") || take(&file, "// ")) && take(&file, BUNDLE_MAGIC "__START__");
}

static int is_beginning(struct bytes file) {
    struct bytes magic = {(const uint8_t *)BUNDLE_MAGIC, file.length};
    return file.length < MAGIC_LENGTH && same_bytes(file, magic);
}

struct looks looks_of(struct bytes file) {
    size_t i;
    if (file.length == 0)
        return empty;
    for (i = 0; i < sizeof known / sizeof *known; i++)
        if (take(&file, known[i].start))
            return known[i].looks;
    return is_beginning(file) ? beginning : is_text_bundle(file) ? text_bundle : unknown;
}

struct looks looks_without_binaries(struct bytes file) {
    static const struct looks bundle = {"a bundle", "This command reads offload binaries: check, list, pick, explain, normalise and compare read bundles."};
    struct looks looks = looks_of(file);
    looks.advice = "Give offload binaries, as clang-offload-packager writes them. "
                   "If it is such a file, too much of it is damaged: copy it or make it again.";
    return take(&file, BUNDLE_MAGIC) ? bundle : looks;
}

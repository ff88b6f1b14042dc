/* Offload bundles: files that hold GPU images for several devices. Check a bundle, pick the image for a device or for
 * several, from one bundle or from a patch before it, look at each entry, write the bundle's normal form, compare two
 * bundles. And offload binaries, which hold one image each: recover them from a damaged file. For x86-64 Linux.
 * docs/RULES.md has all rules in full.
 *
 * A call takes any bytes: nothing needs to be checked first. Every call returns, reads only what it is given, and only
 * these write: the pick_each calls, to their slots alone, the normalise calls and the compare call, to their output
 * alone, and the recover calls, to their output and their spans alone. No call allocates memory or keeps anything for
 * the next one; each needs less than 64 KiB of stack. Several threads may use the same bytes at the same time.
 *
 * The caller is responsible for what no call can see:
 *   - Each length is the true length of what its pointer points to: its bytes or, of a list of structs, its items.
 *   - Pointers must never be null, even when the length is 0.
 *   - An output, such as slots or spans, shares no byte with anything else that is passed.
 *   - Nobody changes the bytes while a call runs, or between the calls that belong to one answer.
 *
 * A call returns one number, so each number of an answer has a call of its own, which does the whole job. The calls of
 * one family (offload_pick_number, offload_pick_place, ..), given the same bytes, belong to the same answer. For each
 * family of several an inline function (offload_pick) makes the calls that are needed and returns the whole answer as a
 * struct.
 *
 * A refusal has its number and its place, and 0 in every other number, but for the bundle that offload_lookup names; it
 * writes nothing. Where a call is accepted, the number is OFFLOAD_OK and the place is 0. One entry that breaks the
 * rules refuses the whole bundle, for every device. The answer of offload_compare_length alone is a text, which tells a
 * refusal too.
 *
 * Each call is proved to return the field of its name in the definition of its family (crates/bundle/specs; of the
 * recover calls crates/offload_binary/specs), by the rules of IDs that are its own (crates/entry_id/specs), and the
 * calls that write to leave in the whole output what the definition says. The inline functions are plain C and not
 * proved.
 *
 * The calls with amdgpu in their names, at the end, read some IDs more strictly: by a profile for AMD's GPUs. */
#ifndef OFFLOAD_H
#define OFFLOAD_H

#include <stddef.h>
#include <stdint.h>

#ifdef __cplusplus
extern "C" {
#endif

#define OFFLOAD_VERSION "0.1.0"
#define OFFLOAD_VERSION_MAJOR 0
#define OFFLOAD_VERSION_MINOR 1
#define OFFLOAD_VERSION_PATCH 0

#define OFFLOAD_LIMIT UINT64_C(1073741824) /* most bytes in a container or an output */
#define OFFLOAD_ENTRIES 64                 /* most entries in a bundle */
#define OFFLOAD_ID_LIMIT 256               /* most bytes in an entry ID or a device name */
#define OFFLOAD_NAMES 16                   /* most device names in one call */
#define OFFLOAD_BINARIES 64                /* most offload binaries in a sequence */
#define OFFLOAD_COMPARE_LIMIT 32768        /* most bytes in a bundle that is compared */
#define OFFLOAD_REPORT_LIMIT 33168         /* most bytes in the report on two bundles */

/* A function of this header: no warning where it is not used. */
#define OFFLOAD_INLINE static inline __attribute__((unused))

/* Entry IDs, and device names, which are written like them (no ending zero):
 *
 *   id        = head { ":" feature }, with at most 8 features; the ID and its canonical form have 1 to 256 bytes
 *   head      = kind "-" arch "-" vendor "-" system [ "-" rest ]
 *   rest      = processor, if it begins with gfx or sm_ (the environment is then empty)
 *             | environment [ "-" processor ], if it does not
 *   kind      = "host" | "hip" | "hipv4" | "openmp"
 *   arch, vendor, system = one or more of A-Z a-z 0-9 . _; environment = zero or more of these
 *   processor = zero or more of these and "-", as in gfx9-generic, no "-" at either end; an empty one is no processor
 *   feature   = name "+" (on) | name "-" (off), only where there is a processor
 *   name      = one or more of a-z 0-9 _, and no name twice in an ID
 *   canonical = kind-arch-vendor-system-environment-processor, then each ":" feature in byte order of the names
 *
 * An entry is compatible with a device name when kind, arch, vendor, system, environment and processor are equal, and
 * every feature that the entry states is stated by the device name with the same sign. So an entry that leaves out a
 * feature is for both settings, while a device name should state every feature of its card.
 *
 * For this, for OFFLOAD_TWICE and for OFFLOAD_MIXED hip and hipv4 are one kind (clang's driver writes hipv4 today): a
 * device name with either gets an entry with either, and a bundle that has one entry in both spellings is refused. Any
 * other two kinds differ. A canonical form, and so a normal form, keeps the kind as it is spelled. */

/* The numbers that calls return. They are tried in this order, 21 after 6 and before 7, 23 after 8 and before 12, 18
 * before 12: the first that applies is returned. */
enum offload_number {
    OFFLOAD_OK = 0,       /* accepted */
    OFFLOAD_LENGTH = 1,   /* the container is longer than OFFLOAD_LIMIT bytes; one that is compared, than 32,768 */
    OFFLOAD_MAGIC = 2,    /* under 24 bytes, or the first 24 differ: compressed and text bundles and archives too */
    OFFLOAD_COUNT = 3,    /* under 32 bytes, or more than OFFLOAD_ENTRIES entries */
    OFFLOAD_TABLE = 4,    /* an entry's row or its ID is not wholly inside, or the ID has 0 or above 256 bytes */
    OFFLOAD_ID = 5,       /* an entry ID breaks the rules */
    OFFLOAD_RANGE = 6,    /* an image starts before the end of the table or ends after the end of the container */
    OFFLOAD_OVERLAP = 21, /* an image shares a byte with an earlier entry's and is not the same span */
    OFFLOAD_TWICE = 7,    /* an earlier entry has the same meaning */
    OFFLOAD_MIXED = 8,    /* an earlier entry of equal kind, triple and processor states other feature names */
    OFFLOAD_RACK = 23,    /* more than OFFLOAD_NAMES device names */
    OFFLOAD_QUERY = 9,    /* the device name breaks the rules of IDs */
    OFFLOAD_NONE = 10,    /* no entry is compatible with the device name; there is no entry with this index */
    OFFLOAD_BIG = 11,     /* the output would be longer than OFFLOAD_LIMIT bytes */
    OFFLOAD_ROOM = 12,    /* the output does not fit into the memory given for it */

    /* Of offload binaries, where END and MANY are tried first. Of these numbers the calls below return OFFLOAD_MANY
     * alone: offload binaries are read one by one, and written, from Rattle. */
    OFFLOAD_HEAD = 13,    /* under 32 bytes left, the first four differ, or the version is not 1 */
    OFFLOAD_SPAN = 14,    /* the size or the entry does not fit into the bytes that are left */
    OFFLOAD_KIND = 15,    /* image kind above 5, or offload kind above 3 */
    OFFLOAD_STRINGS = 16, /* the string pairs break the rules */
    OFFLOAD_IMAGE = 17,   /* the image starts inside the header or ends after the end of the binary */
    OFFLOAD_MANY = 18,    /* bytes remain after the 64th binary; where binaries are recovered, a 65th is found */
    OFFLOAD_END = 19      /* every binary has been read */
};

/* The name of a number: "OK", "LENGTH", .., "END", "OVERLAP", "RACK"; "UNKNOWN" for a number that is not above. */
OFFLOAD_INLINE const char *offload_name(uint64_t number) {
    static const char *const names[] = {
        "OK",   "LENGTH", "MAGIC", "COUNT", "TABLE", "ID",   "RANGE",   "TWICE", "MIXED", "QUERY",
        "NONE", "BIG",    "ROOM",  "HEAD",  "SPAN",  "KIND", "STRINGS", "IMAGE", "MANY",  "END",
        "UNKNOWN", /* 20 is not in use */ "OVERLAP", "UNKNOWN", /* nor is 22 */ "RACK",
    };
    return number < sizeof names / sizeof *names ? names[number] : "UNKNOWN";
}

/* Check a bundle.
 * number: OFFLOAD_OK, 1 to 8, or 21.
 * place: for 4 to 8 and 21 the lowest index of an entry that the refusal applies to, else 0. Indices count from 0.
 * count: how many entries the bundle has. */
uint64_t offload_check_number(const uint8_t *bundle, size_t bundle_length);
uint64_t offload_check_place(const uint8_t *bundle, size_t bundle_length);
uint64_t offload_check_count(const uint8_t *bundle, size_t bundle_length);

struct offload_check_answer {
    uint64_t number, place, count;
};

OFFLOAD_INLINE struct offload_check_answer offload_check(const uint8_t *bundle, size_t bundle_length) {
    struct offload_check_answer answer = {0, 0, 0};
    answer.number = offload_check_number(bundle, bundle_length);
    if (answer.number == OFFLOAD_OK)
        answer.count = offload_check_count(bundle, bundle_length);
    else
        answer.place = offload_check_place(bundle, bundle_length);
    return answer;
}

/* Look at one entry of a bundle, by its index.
 * number: OFFLOAD_OK, 1 to 8 or 21 as the check returns them, or OFFLOAD_NONE where the index is not below the count.
 * place: as the check returns it, 0 for OFFLOAD_NONE.
 * position, size: the entry's image, bytes position to position + size of the bundle.
 * id_position, id_length: the entry's ID as it is spelled in the bundle. */
uint64_t offload_entry_number(const uint8_t *bundle, size_t bundle_length, size_t index);
uint64_t offload_entry_place(const uint8_t *bundle, size_t bundle_length, size_t index);
uint64_t offload_entry_position(const uint8_t *bundle, size_t bundle_length, size_t index);
uint64_t offload_entry_size(const uint8_t *bundle, size_t bundle_length, size_t index);
uint64_t offload_entry_id_position(const uint8_t *bundle, size_t bundle_length, size_t index);
uint64_t offload_entry_id_length(const uint8_t *bundle, size_t bundle_length, size_t index);

struct offload_entry_answer {
    uint64_t number, place, position, size, id_position, id_length;
};

OFFLOAD_INLINE struct offload_entry_answer offload_entry(const uint8_t *bundle, size_t bundle_length, size_t index) {
    struct offload_entry_answer answer = {0, 0, 0, 0, 0, 0};
    answer.number = offload_entry_number(bundle, bundle_length, index);
    if (answer.number == OFFLOAD_OK) {
        answer.position = offload_entry_position(bundle, bundle_length, index);
        answer.size = offload_entry_size(bundle, bundle_length, index);
        answer.id_position = offload_entry_id_position(bundle, bundle_length, index);
        answer.id_length = offload_entry_id_length(bundle, bundle_length, index);
    } else {
        answer.place = offload_entry_place(bundle, bundle_length, index);
    }
    return answer;
}

/* Pick the image for a device, such as "hip-amdgcn-amd-amdhsa--gfx906:sramecc+:xnack-": that of the one entry which is
 * compatible with the device name. The pick checks the bundle itself.
 * number: OFFLOAD_OK, 1 to 8 or 21 as the check returns them, OFFLOAD_QUERY or OFFLOAD_NONE.
 * place: as the check returns it, 0 for OFFLOAD_QUERY and OFFLOAD_NONE.
 * index: the entry.
 * position, size: its image, bytes position to position + size of the bundle, all inside it. An image may be empty. */
uint64_t offload_pick_number(const uint8_t *bundle, size_t bundle_length, const uint8_t *device, size_t device_length);
uint64_t offload_pick_place(const uint8_t *bundle, size_t bundle_length, const uint8_t *device, size_t device_length);
uint64_t offload_pick_index(const uint8_t *bundle, size_t bundle_length, const uint8_t *device, size_t device_length);
uint64_t offload_pick_position(const uint8_t *bundle, size_t bundle_length,
                               const uint8_t *device, size_t device_length);
uint64_t offload_pick_size(const uint8_t *bundle, size_t bundle_length, const uint8_t *device, size_t device_length);

struct offload_pick_answer {
    uint64_t number, place, index, position, size;
};

OFFLOAD_INLINE struct offload_pick_answer offload_pick(const uint8_t *bundle, size_t bundle_length,
                                                       const uint8_t *device, size_t device_length) {
    struct offload_pick_answer answer = {0, 0, 0, 0, 0};
    answer.number = offload_pick_number(bundle, bundle_length, device, device_length);
    if (answer.number == OFFLOAD_OK) {
        answer.index = offload_pick_index(bundle, bundle_length, device, device_length);
        answer.position = offload_pick_position(bundle, bundle_length, device, device_length);
        answer.size = offload_pick_size(bundle, bundle_length, device, device_length);
    } else {
        answer.place = offload_pick_place(bundle, bundle_length, device, device_length);
    }
    return answer;
}

/* A part of a buffer: its bytes start to start + length. */
struct offload_part {
    uint64_t start, length;
};

/* What offload_pick gives for one name: OFFLOAD_OK and the entry, or OFFLOAD_QUERY or OFFLOAD_NONE and three zeros. */
struct offload_slot {
    uint64_t number, index, position, size;
};

/* Pick the images for several devices, such as all cards of a station: slot k gets what offload_pick gives for name k,
 * but the bundle is checked only once. The names are parts of one buffer, with anything or nothing between them; a name
 * may stand there twice. A part that is not wholly in the buffer is no name: its slot gets OFFLOAD_QUERY.
 * number: OFFLOAD_OK, 1 to 8 or 21 as the check returns them, OFFLOAD_RACK, or OFFLOAD_ROOM where there are fewer slots
 *   than names. OFFLOAD_QUERY and OFFLOAD_NONE concern one name, and stay in its slot.
 * place: as the check returns it, 0 for OFFLOAD_RACK and OFFLOAD_ROOM.
 * slots: how many slots are written, from the first on: as many as there are names. What lies beyond is unchanged.
 * word: bit i, of value 2 to the power of i, is set exactly when some name gets entry i.
 * taken: how many entries some name gets, each counted once: the bits of the word that are set. */
uint64_t offload_pick_each_number(const uint8_t *bundle, size_t bundle_length,
                                  const uint8_t *buffer, size_t buffer_length,
                                  const struct offload_part *names, size_t name_count,
                                  struct offload_slot *slots, size_t slot_count);
uint64_t offload_pick_each_place(const uint8_t *bundle, size_t bundle_length,
                                 const uint8_t *buffer, size_t buffer_length,
                                 const struct offload_part *names, size_t name_count,
                                 struct offload_slot *slots, size_t slot_count);
uint64_t offload_pick_each_slots(const uint8_t *bundle, size_t bundle_length,
                                 const uint8_t *buffer, size_t buffer_length,
                                 const struct offload_part *names, size_t name_count,
                                 struct offload_slot *slots, size_t slot_count);
uint64_t offload_pick_each_word(const uint8_t *bundle, size_t bundle_length,
                                const uint8_t *buffer, size_t buffer_length,
                                const struct offload_part *names, size_t name_count,
                                struct offload_slot *slots, size_t slot_count);
uint64_t offload_pick_each_taken(const uint8_t *bundle, size_t bundle_length,
                                 const uint8_t *buffer, size_t buffer_length,
                                 const struct offload_part *names, size_t name_count,
                                 struct offload_slot *slots, size_t slot_count);

struct offload_pick_each_answer {
    uint64_t number, place, slots, word, taken;
};

OFFLOAD_INLINE struct offload_pick_each_answer offload_pick_each(const uint8_t *bundle, size_t bundle_length,
                                                                 const uint8_t *buffer, size_t buffer_length,
                                                                 const struct offload_part *names, size_t name_count,
                                                                 struct offload_slot *slots, size_t slot_count) {
    struct offload_pick_each_answer answer = {0, 0, 0, 0, 0};
    answer.word = offload_pick_each_word(bundle, bundle_length, buffer, buffer_length,
                                         names, name_count, slots, slot_count);
    if (answer.word == 0) /* refused, or no name gets an entry */
        answer.number = offload_pick_each_number(bundle, bundle_length, buffer, buffer_length,
                                                 names, name_count, slots, slot_count);
    if (answer.number == OFFLOAD_OK) {
        answer.slots = name_count;
        answer.taken = (uint64_t)__builtin_popcountll(answer.word);
    } else {
        answer.place = offload_pick_each_place(bundle, bundle_length, buffer, buffer_length,
                                               names, name_count, slots, slot_count);
    }
    return answer;
}

/* The numbers of the two bundles in which offload_lookup looks. */
#define OFFLOAD_PATCH 1
#define OFFLOAD_MAIN 2

/* Pick the image for a device from two bundles: from a patch, such as field service sends, before the main one. The
 * patch answers where it has an entry that is compatible with the device name, an entry with an empty image too; the
 * main bundle answers where the patch has none. Both are checked, whichever answers.
 * number: OFFLOAD_OK, 1 to 8 or 21 as the check of the patch returns them, then those of the main bundle, then
 *   OFFLOAD_QUERY, or OFFLOAD_NONE where neither bundle has a compatible entry.
 * place: as the check of the bundle that is refused returns it, 0 for OFFLOAD_QUERY and OFFLOAD_NONE.
 * bundle: OFFLOAD_PATCH or OFFLOAD_MAIN, whichever holds the image; on a refusal by 1 to 8 or 21 the one that is refused;
 *   0 for OFFLOAD_QUERY and OFFLOAD_NONE.
 * position, size: the image, bytes position to position + size of that bundle, all inside it. An image may be empty. */
uint64_t offload_lookup_number(const uint8_t *patch, size_t patch_length,
                               const uint8_t *main_bundle, size_t main_length,
                               const uint8_t *device, size_t device_length);
uint64_t offload_lookup_place(const uint8_t *patch, size_t patch_length,
                              const uint8_t *main_bundle, size_t main_length,
                              const uint8_t *device, size_t device_length);
uint64_t offload_lookup_bundle(const uint8_t *patch, size_t patch_length,
                               const uint8_t *main_bundle, size_t main_length,
                               const uint8_t *device, size_t device_length);
uint64_t offload_lookup_position(const uint8_t *patch, size_t patch_length,
                                 const uint8_t *main_bundle, size_t main_length,
                                 const uint8_t *device, size_t device_length);
uint64_t offload_lookup_size(const uint8_t *patch, size_t patch_length,
                             const uint8_t *main_bundle, size_t main_length,
                             const uint8_t *device, size_t device_length);

struct offload_lookup_answer {
    uint64_t number, place, bundle, position, size;
    const uint8_t *image; /* the image itself, in the patch or in the main bundle; null on a refusal */
};

OFFLOAD_INLINE struct offload_lookup_answer offload_lookup(const uint8_t *patch, size_t patch_length,
                                                           const uint8_t *main_bundle, size_t main_length,
                                                           const uint8_t *device, size_t device_length) {
    struct offload_lookup_answer answer = {0, 0, 0, 0, 0, NULL};
    answer.number = offload_lookup_number(patch, patch_length, main_bundle, main_length, device, device_length);
    if (answer.number == OFFLOAD_QUERY || answer.number == OFFLOAD_NONE)
        return answer;
    answer.bundle = offload_lookup_bundle(patch, patch_length, main_bundle, main_length, device, device_length);
    if (answer.number == OFFLOAD_OK) {
        answer.position = offload_lookup_position(patch, patch_length, main_bundle, main_length, device, device_length);
        answer.size = offload_lookup_size(patch, patch_length, main_bundle, main_length, device, device_length);
        answer.image = (answer.bundle == OFFLOAD_PATCH ? patch : main_bundle) + answer.position;
    } else {
        answer.place = offload_lookup_place(patch, patch_length, main_bundle, main_length, device, device_length);
    }
    return answer;
}

/* Write a bundle's normal form: the entries sorted by canonical ID, the images packed directly after the table. Two
 * bundles have the same normal form, byte for byte, exactly when they hold the same entries; here the kind counts as it
 * is spelled, so that hip and hipv4 are two. A normal form is accepted, is its own normal form, and every pick from it
 * gives the image or the refusal that the bundle gives. It keeps no alignment of images: copy an image to aligned
 * memory where that is needed.
 * number: OFFLOAD_OK, 1 to 8 or 21 as the check returns them, OFFLOAD_BIG or OFFLOAD_ROOM.
 * place: as the check returns it, 0 for OFFLOAD_BIG and OFFLOAD_ROOM.
 * length: how many bytes are written at the start of out, at least 32; what lies beyond is unchanged.
 *
 * Room: a normal form takes 32 bytes and, for each entry, 24, the length of its canonical ID and the size of its image.
 * A canonical ID is longer than the ID by two bytes at most, so bundle_length + 2 * OFFLOAD_ENTRIES is enough unless
 * entries share one image. Always enough are 32 and, for each entry as offload_entry gives it, 26 + id_length + size;
 * or, without looking at entries, the lesser of OFFLOAD_LIMIT and OFFLOAD_ENTRIES * (bundle_length + 2). */
uint64_t offload_normalise_number(const uint8_t *bundle, size_t bundle_length, uint8_t *out, size_t out_length);
uint64_t offload_normalise_place(const uint8_t *bundle, size_t bundle_length, uint8_t *out, size_t out_length);
uint64_t offload_normalise_length(const uint8_t *bundle, size_t bundle_length, uint8_t *out, size_t out_length);

struct offload_normalise_answer {
    uint64_t number, place, length;
};

OFFLOAD_INLINE struct offload_normalise_answer offload_normalise(const uint8_t *bundle, size_t bundle_length,
                                                                 uint8_t *out, size_t out_length) {
    struct offload_normalise_answer answer = {0, 0, 0};
    answer.length = offload_normalise_length(bundle, bundle_length, out, out_length);
    if (answer.length == 0) { /* refused: a normal form has at least 32 bytes */
        answer.number = offload_normalise_number(bundle, bundle_length, out, out_length);
        answer.place = offload_normalise_place(bundle, bundle_length, out, out_length);
    }
    return answer;
}

/* Compare two bundles, such as two suppliers send, of at most OFFLOAD_COMPARE_LIMIT bytes each. The answer is a report,
 * in lines of text that end with a newline each. A line for each difference comes first:
 *
 *   L id      only the left bundle has an entry with this ID
 *   R id      only the right bundle has one
 *   D id n    both have one, and the images differ first at byte n, counted from 0; where one image begins with the
 *             other, n is the length of the shorter
 *
 * IDs are in canonical form and rise in byte order, a prefix first; none stands twice. Here the kind counts as it is
 * spelled, so that hip and hipv4 are two. The last line is "differences N", where N is how many lines stand before it:
 * 0 exactly when the bundles hold the same entries, which is when they have the same normal form.
 *
 * Where a bundle is refused, the report is one line alone, such as "refused left 4" or "refused right 21", with the
 * number that the check returns, or with 1 where the bundle is longer than OFFLOAD_COMPARE_LIMIT. Where both are
 * refused it is the left one's.
 * length: how many bytes the report has, at least 14. Where out_length is at least that, the report is at the start of
 *   out, and what lies beyond is unchanged; else all of out is. OFFLOAD_REPORT_LIMIT bytes are always room enough. */
uint64_t offload_compare_length(const uint8_t *left, size_t left_length, const uint8_t *right, size_t right_length,
                                uint8_t *out, size_t out_length);

/* Recover the offload binaries of a damaged sequence. A sequence is binaries laid end to end, as LLVM's
 * clang-offload-packager writes them: where one is broken, nothing behind it can be read in order. The call takes,
 * from the first byte on, the lowest position at which a whole binary stands, copies it to out, goes on behind it, and
 * so on to the end. What lies between is skipped, and reported. A whole binary is one that none of 13 to 17 refuses.
 *
 * A sequence that is not damaged comes out unchanged, and nothing is skipped. What comes out is always a sequence that
 * is not damaged, of at most OFFLOAD_BINARIES binaries, or of none. A binary that was damaged in its image alone is
 * not told from a whole one: images are not looked into. Bytes inside a damaged binary that are a whole binary
 * themselves, as where an image is offload binaries in its turn, are found like any other.
 * number: OFFLOAD_OK or, tried in this order, OFFLOAD_LENGTH, OFFLOAD_MANY where a 65th binary is found, OFFLOAD_ROOM
 *   where the binaries or the spans do not fit.
 * place: for OFFLOAD_MANY the first byte of the 65th binary, else 0.
 * length: how many bytes are written at the start of out; what lies beyond is unchanged.
 * spans: how many spans are written, from the first on; what lies beyond is unchanged. Each is an unbroken part of
 *   binaries that was skipped, none is empty, and they rise. Bytes copied and bytes skipped are all there are.
 *
 * Room: always enough are binaries_length bytes and OFFLOAD_BINARIES + 1 spans. */
uint64_t offload_recover_number(const uint8_t *binaries, size_t binaries_length, uint8_t *out, size_t out_length,
                                struct offload_part *spans, size_t span_count);
uint64_t offload_recover_place(const uint8_t *binaries, size_t binaries_length, uint8_t *out, size_t out_length,
                               struct offload_part *spans, size_t span_count);
uint64_t offload_recover_length(const uint8_t *binaries, size_t binaries_length, uint8_t *out, size_t out_length,
                                struct offload_part *spans, size_t span_count);
uint64_t offload_recover_spans(const uint8_t *binaries, size_t binaries_length, uint8_t *out, size_t out_length,
                               struct offload_part *spans, size_t span_count);

struct offload_recover_answer {
    uint64_t number, place, length, spans;
};

OFFLOAD_INLINE struct offload_recover_answer offload_recover(const uint8_t *binaries, size_t binaries_length,
                                                             uint8_t *out, size_t out_length,
                                                             struct offload_part *spans, size_t span_count) {
    struct offload_recover_answer answer = {0, 0, 0, 0};
    answer.length = offload_recover_length(binaries, binaries_length, out, out_length, spans, span_count);
    if (answer.length == 0) /* refused, or no binary is found */
        answer.number = offload_recover_number(binaries, binaries_length, out, out_length, spans, span_count);
    if (answer.number != OFFLOAD_OK)
        answer.place = offload_recover_place(binaries, binaries_length, out, out_length, spans, span_count);
    else if (answer.length < binaries_length) /* something is skipped */
        answer.spans = offload_recover_spans(binaries, binaries_length, out, out_length, spans, span_count);
    return answer;
}

/* The profile for AMD's GPUs: a stricter reading of IDs beside the general one, with its own check, pick and normalise.
 *
 * It is for entry IDs and device names of kind hip, hipv4 or openmp with arch amdgcn and a processor. All others it
 * reads as above.
 *   - The processor is one of the names in the table of LLVM 19's AMDGPU user guide (docs/amdgpu-processors.tsv; 50
 *     processors, 68 names), case included.
 *   - Every feature stated is one that the table gives the processor: sramecc, xnack, or neither.
 *   - An alternative name means its primary name, and the canonical form has the primary: fiji means gfx803. So an
 *     entry with the one is compatible with a device name with the other, and both in one bundle are OFFLOAD_TWICE.
 *   - The canonical form, so written, has at most 256 bytes. The ID itself has 1 to 256 bytes, as ever.
 * An ID that breaks this is OFFLOAD_ID, a device name OFFLOAD_QUERY. So a processor that is spelled wrongly is told
 * from a card for which the bundle has no image.
 *
 * No alternative name begins with gfx or sm_, so it stands behind the environment, which may be empty:
 * hip-amdgcn-amd-amdhsa--fiji. In hip-amdgcn-amd-amdhsa-fiji it is the environment, and there is no processor.
 *
 * The calls take what the general calls of the same name take, and return the same numbers in the same order. A bundle
 * that the profile accepts is accepted by offload_check too, so that offload_entry gives its entries. Normal forms have
 * the primary names: two bundles have the same one, byte for byte, exactly when they hold the same entries by the
 * profile. The room is as above: an alternative name is shorter than its primary by two bytes at most, and where one
 * stands no hyphen is added. */
uint64_t offload_amdgpu_check_number(const uint8_t *bundle, size_t bundle_length);
uint64_t offload_amdgpu_check_place(const uint8_t *bundle, size_t bundle_length);
uint64_t offload_amdgpu_check_count(const uint8_t *bundle, size_t bundle_length);

OFFLOAD_INLINE struct offload_check_answer offload_amdgpu_check(const uint8_t *bundle, size_t bundle_length) {
    struct offload_check_answer answer = {0, 0, 0};
    answer.number = offload_amdgpu_check_number(bundle, bundle_length);
    if (answer.number == OFFLOAD_OK)
        answer.count = offload_amdgpu_check_count(bundle, bundle_length);
    else
        answer.place = offload_amdgpu_check_place(bundle, bundle_length);
    return answer;
}

uint64_t offload_amdgpu_pick_number(const uint8_t *bundle, size_t bundle_length,
                                    const uint8_t *device, size_t device_length);
uint64_t offload_amdgpu_pick_place(const uint8_t *bundle, size_t bundle_length,
                                   const uint8_t *device, size_t device_length);
uint64_t offload_amdgpu_pick_index(const uint8_t *bundle, size_t bundle_length,
                                   const uint8_t *device, size_t device_length);
uint64_t offload_amdgpu_pick_position(const uint8_t *bundle, size_t bundle_length,
                                      const uint8_t *device, size_t device_length);
uint64_t offload_amdgpu_pick_size(const uint8_t *bundle, size_t bundle_length,
                                  const uint8_t *device, size_t device_length);

OFFLOAD_INLINE struct offload_pick_answer offload_amdgpu_pick(const uint8_t *bundle, size_t bundle_length,
                                                              const uint8_t *device, size_t device_length) {
    struct offload_pick_answer answer = {0, 0, 0, 0, 0};
    answer.number = offload_amdgpu_pick_number(bundle, bundle_length, device, device_length);
    if (answer.number == OFFLOAD_OK) {
        answer.index = offload_amdgpu_pick_index(bundle, bundle_length, device, device_length);
        answer.position = offload_amdgpu_pick_position(bundle, bundle_length, device, device_length);
        answer.size = offload_amdgpu_pick_size(bundle, bundle_length, device, device_length);
    } else {
        answer.place = offload_amdgpu_pick_place(bundle, bundle_length, device, device_length);
    }
    return answer;
}

uint64_t offload_amdgpu_normalise_number(const uint8_t *bundle, size_t bundle_length, uint8_t *out, size_t out_length);
uint64_t offload_amdgpu_normalise_place(const uint8_t *bundle, size_t bundle_length, uint8_t *out, size_t out_length);
uint64_t offload_amdgpu_normalise_length(const uint8_t *bundle, size_t bundle_length, uint8_t *out, size_t out_length);

OFFLOAD_INLINE struct offload_normalise_answer offload_amdgpu_normalise(const uint8_t *bundle, size_t bundle_length,
                                                                        uint8_t *out, size_t out_length) {
    struct offload_normalise_answer answer = {0, 0, 0};
    answer.length = offload_amdgpu_normalise_length(bundle, bundle_length, out, out_length);
    if (answer.length == 0) {
        answer.number = offload_amdgpu_normalise_number(bundle, bundle_length, out, out_length);
        answer.place = offload_amdgpu_normalise_place(bundle, bundle_length, out, out_length);
    }
    return answer;
}

#ifdef __cplusplus
}
#endif

#endif

#include "refusal.h"

#include "entry_id.h"
#include "text.h"

/* Two IDs of one kind, triple and processor. */
struct pair {
    struct canonical forms[2];
    struct parts left;
    struct parts right;
};

/* Cuts the IDs of two rows; 0 where one of them breaks the rules, or where kind, triple or processor differ. */
static int cut_both(const struct reading *reading, struct row left, struct row right, struct pair *pair) {
    if (!canonical_form(reading, left.id, &pair->forms[0]) || !canonical_form(reading, right.id, &pair->forms[1]))
        return 0;
    pair->left = parts_of(&pair->forms[0]);
    pair->right = parts_of(&pair->forms[1]);
    return first_difference(&pair->left, &pair->right) == FIELDS;
}

static int same_meaning(const struct reading *reading, struct row earlier, struct row row) {
    struct pair pair;
    return cut_both(reading, earlier, row, &pair) && same_bytes(pair.left.features, pair.right.features);
}

static int other_names(const struct reading *reading, struct row earlier, struct row row) {
    struct pair pair;
    return cut_both(reading, earlier, row, &pair) && !same_names(pair.left.features, pair.right.features);
}

/* No sum wraps: RANGE is tried first. */
static int shares_bytes(const struct reading *reading, struct row earlier, struct row row) {
    int same_span = earlier.offset == row.offset && earlier.size == row.size;
    int apart = earlier.offset + earlier.size <= row.offset || row.offset + row.size <= earlier.offset;
    (void)reading;
    return earlier.size > 0 && row.size > 0 && !same_span && !apart;
}

/* What a device asks of an entry, and which command says more. */
#define EQUAL "equal, and every feature that the entry states must be stated by the device with the same sign."
#define FITTING "kind (hip and hipv4 are one), triple and processor must be " EQUAL
#define PROFILE_FITTING "kind (hip and hipv4 are one), triple and processor (an alternative name means its primary) must be " EQUAL
#define EXPLAINS "offload explain FILE DEVICE says for each entry why it does not fit"
#define PROFILE_EXPLAINS "offload explain FILE DEVICE --profile " AMDGPU " says for each entry why it does not fit"

static const char again[] = "The file is cut short or damaged: copy it or make it again.";

static const struct refusal refusals[] = {
    [OFFLOAD_LENGTH] = {NAMES_FILE, "The file is longer than 1073741824 bytes.", "Make smaller bundles: none above this length is read.", NULL},
    [OFFLOAD_MAGIC] = {NAMES_FILE, "The file does not begin with " BUNDLE_MAGIC ", so it is no binary bundle.", NULL, NULL},
    [OFFLOAD_COUNT] = {NAMES_FILE, "The file ends before the number of entries, or the number is above 64.",
                       "The file is cut short or damaged, or has more entries than are read: copy it, or make it again with fewer.", NULL},
    [OFFLOAD_TABLE] = {NAMES_ENTRY, "The entry does not lie wholly in the file, or its ID is not 1 to 256 bytes long.", again, NULL},
    [OFFLOAD_ID] = {NAMES_ID, "The ID of the entry is not written as an entry ID must be.",
                    "Make the bundle again with an ID that keeps the rules: offload help id.", NULL},
    [OFFLOAD_RANGE] = {NAMES_IMAGE, "The image of the entry begins inside the table or ends after the end of the file.", again, NULL},
    [OFFLOAD_OVERLAP] = {NAMES_IMAGE, "An earlier entry has an image that shares bytes with this one's and is not the same span.",
                         "The file is damaged or was made by a faulty program: copy it, or make it again with images that lie apart.", shares_bytes},
    [OFFLOAD_TWICE] = {NAMES_ID, "An earlier entry has the same meaning (hip and hipv4 are one kind).", "Make the bundle again with one of the two.",
                       same_meaning},
    [OFFLOAD_MIXED] = {NAMES_ID, "An earlier entry of the same kind (hip and hipv4 are one), triple and processor states other feature names.",
                       "Make the bundle again so that all entries of a processor state the same features.", other_names},
    [OFFLOAD_RACK] = {NAMES_FILE, "There are more than 16 devices.", "At most 16 devices in one call: give the others in another.", NULL},
    [OFFLOAD_QUERY] = {NAMES_DEVICE, "The device name is not written as an entry ID must be.",
                       "Write it like hip-amdgcn-amd-amdhsa--gfx906:sramecc+:xnack- (offload help id).", NULL},
    [OFFLOAD_NONE] = {NAMES_DEVICE, "No entry fits this device: " FITTING, EXPLAINS ".", NULL},
    [OFFLOAD_BIG] = {NAMES_FILE, "The normal form would be longer than 1073741824 bytes.",
                     "A normal form holds an image for each entry, also where entries share one: use the bundle as it is.", NULL},
};

/* What the profile says otherwise. */
static const struct refusal profile_refusals[] = {
    [OFFLOAD_TWICE] = {NAMES_ID,
                       "An earlier entry has the same meaning (hip and hipv4 are one kind, an alternative name means its primary).",
                       "Make the bundle again with one of the two.", same_meaning},
    [OFFLOAD_MIXED] = {NAMES_ID,
                       "An earlier entry of the same kind (hip and hipv4 are one), triple and processor (an alternative name means its primary) "
                       "states other feature names.",
                       "Make the bundle again so that all entries of a processor state the same features.", other_names},
    [OFFLOAD_NONE] = {NAMES_DEVICE, "No entry fits this device: " PROFILE_FITTING, PROFILE_EXPLAINS ".", NULL},
};

/* NONE of a patch and the main bundle, in general and by the profile. */
#define NEITHER "Neither bundle has an entry that fits this device: "
#define ABOUT_BOTH ": ask it about both files."

static const struct refusal neither = {NAMES_DEVICE, NEITHER FITTING, EXPLAINS ABOUT_BOTH, NULL};

static const struct refusal profile_neither = {NAMES_DEVICE, NEITHER PROFILE_FITTING, PROFILE_EXPLAINS ABOUT_BOTH, NULL};

/* What is said where two bundles are compared. */
static const struct refusal compare_refusals[] = {
    [OFFLOAD_LENGTH] = {NAMES_FILE, "The file is longer than 32768 bytes, and only bundles up to this length are compared.",
                        "Write the normal form of both (offload normalise FILE -o OUT), and compare the two by cmp: they are the same, byte for byte, "
                        "exactly if the bundles hold the same entries.", NULL},
};

/* What is said of offload binaries. */
static const struct refusal binaries_refusals[] = {
    [OFFLOAD_OK] = {NAMES_FILE, "No whole offload binary stands in the file.", NULL, NULL},
    [OFFLOAD_LENGTH] = {NAMES_FILE, "The file is longer than 1073741824 bytes.",
                        "Cut it into parts that are not, and recover each: a binary through which a cut goes is skipped.", NULL},
    [OFFLOAD_MANY] = {NAMES_BYTE, "There are more than 64 binaries in the file. The 65th begins at this byte.",
                      "Cut the file in two there, and recover each part: head -c BYTE FILE, and tail -c +$((BYTE + 1)) FILE.", NULL},
};

static const struct refusal entry_faults[] = {
    [UNKNOWN_PROCESSOR] = {NAMES_ID, "The profile " AMDGPU " does not know the processor of the entry.",
                           "Make the bundle again with a processor that it knows (offload help profile), or leave out --profile.", NULL},
    [UNSUPPORTED_FEATURE] = {NAMES_ID, "By the profile " AMDGPU " the processor of the entry does not support a feature that the ID states.",
                             "Make the bundle again without the feature (offload help profile), or leave out --profile.", NULL},
    [LONG_FORM] = {NAMES_ID, "With the primary name of its processor the ID of the entry has more than 256 bytes.",
                   "Make the bundle again with a shorter ID, or leave out --profile.", NULL},
};

static const struct refusal device_faults[] = {
    [UNKNOWN_PROCESSOR] = {NAMES_DEVICE, "The profile " AMDGPU " does not know the processor of the device name.",
                           "Write one that it knows (offload help profile), or leave out --profile.", NULL},
    [UNSUPPORTED_FEATURE] = {NAMES_DEVICE,
                             "By the profile " AMDGPU " the processor of the device name does not support a feature that the name states.",
                             "Leave out the feature (offload help profile), or leave out --profile.", NULL},
    [LONG_FORM] = {NAMES_DEVICE, "With the primary name of its processor the device name has more than 256 bytes.",
                   "Write a shorter one, or leave out --profile.", NULL},
};

struct refusal fault_refusal(enum names names, enum fault_kind kind) {
    return (names == NAMES_DEVICE ? device_faults : entry_faults)[kind];
}

/* The refusal of a number in a table, or this one where the table has none. */
static struct refusal look_up(const struct refusal *table, size_t length, uint64_t number, struct refusal otherwise) {
    return number < length && table[number].sentence != NULL ? table[number] : otherwise;
}

struct refusal refusal_of(const struct request *request, uint64_t number) {
    static const struct refusal unknown = {NAMES_FILE, "This tool does not know the number.", "Build the tool with the library that it calls.", NULL};
    const char *profile = request->reading->profile;
    struct refusal refusal = look_up(refusals, sizeof refusals / sizeof *refusals, number, unknown);
    if (request->command->binaries)
        return look_up(binaries_refusals, sizeof binaries_refusals / sizeof *binaries_refusals, number, unknown);
    if (compares(request))
        return look_up(compare_refusals, sizeof compare_refusals / sizeof *compare_refusals, number, refusal);
    if (has_patch(request) && number == OFFLOAD_NONE)
        return profile == NULL ? neither : profile_neither;
    if (profile == NULL)
        return refusal;
    return look_up(profile_refusals, sizeof profile_refusals / sizeof *profile_refusals, number, refusal);
}

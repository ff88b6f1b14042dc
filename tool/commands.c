#include "commands.h"

#include <string.h>

const struct command commands[] = {
    {
        .name = "check",
        .operands = {"FILE"},
        .files = 1,
        .run = check,
        .summary = "say whether a bundle is accepted",
        .help = "Says that a bundle is accepted and how many entries it has, or why it is refused: the number and name of the rule,\n"
                "the entry that breaks it, what that means and what to do.\n",
    },
    {
        .name = "list",
        .operands = {"FILE"},
        .files = 1,
        .run = list,
        .summary = "list the entries of a bundle",
        .help = "Prints a line for each entry: its index, the offset and the size of its image in bytes, its ID in canonical form,\n"
                "and the ID as it is spelled in the file where that differs.\n",
    },
    {
        .name = "pick",
        .operands = {"FILE", "DEVICE"},
        .files = 1,
        .repeats = 1,
        .patch = 1,
        .output = MAY_HAVE_OUTPUT,
        .run = pick,
        .summary = "find the image for a device, or for several; with -o, write it",
        .help = "Finds the one entry that fits the device, and says its index and the offset and size of its image in bytes.\n"
                "With -o, the image is written to OUT, whole or not at all.\n"
                "\n"
                "With several devices, at most 16, there is a line for each, in the order given: the device, a colon, and its entry,\n"
                "offset and size, or 9 QUERY or 10 NONE. The last line says how many entries are taken, each counted once. Standard error\n"
                "says why a device gets no image. -o is for one device: make one pick for each.\n"
                "The exit status is 0 if every device gets an image, 4 if all their names are written as they must be but some get no\n"
                "image (NONE), and 1 if the bundle, some device name (QUERY) or the number of devices (RACK) is refused.\n"
                "\n"
                "With --patch there are two bundles. PATCH answers where it has an entry that fits the device, one with an empty image\n"
                "too; FILE answers where PATCH has none. Both must be accepted, whichever answers: PATCH is checked first, then FILE.\n"
                "The answer says patch or main, which is FILE, and the offset and size of the image in that one. There may be any number\n"
                "of devices, and no line says how many entries are taken.\n",
    },
    {
        .name = "explain",
        .operands = {"FILE", "DEVICE"},
        .files = 1,
        .run = explain,
        .summary = "say for each entry why it does not fit a device",
        .help = "Prints a line for each entry, the nearest first: its index, its ID in canonical form, and the first reason why it does\n"
                "not fit the device: kind, arch, vendor, system, environment, processor, a feature that the device does not state, or\n"
                "one that it states with the other sign. The entry that fits says so.\n",
    },
    {
        .name = "normalise",
        .other_name = "normalize",
        .operands = {"FILE"},
        .files = 1,
        .output = NEEDS_OUTPUT,
        .run = normalise,
        .summary = "write a bundle's normal form",
        .help = "Writes the normal form of a bundle to OUT, whole or not at all: entries sorted by canonical ID, images packed after the\n"
                "table. Bundles that hold the same entries, kinds as spelled, have the same normal form, byte for byte. OUT may be FILE.\n",
    },
    {
        .name = "compare",
        .operands = {"LEFT", "RIGHT"},
        .files = 2,
        .no_profile = "bundles are compared by the general rules alone, without the option",
        .run = compare,
        .summary = "say in which entries two bundles differ",
        .help = "Prints a line for each difference, in the byte order of the IDs, which are in canonical form:\n"
                "\n"
                "  L id              only LEFT has an entry with this ID\n"
                "  R id              only RIGHT has one\n"
                "  D id n            both have one, and the images differ first at byte n, counted from 0; where one image begins with\n"
                "                    the other, n is the length of the shorter\n"
                "\n"
                "The last line is \"differences N\", where N is how many lines stand before it. N is 0 exactly if the bundles hold the same\n"
                "entries, wherever their images lie and however their IDs are spelled; but hip and hipv4 are two kinds here.\n"
                "The exit status is 0 if there is no difference, 7 if there are some, and 1 if a bundle is refused: LEFT is checked first,\n"
                "then RIGHT. One with more than 32768 bytes is refused too (LENGTH).\n",
    },
    {
        .name = "recover",
        .operands = {"FILE"},
        .files = 1,
        .binaries = 1,
        .no_profile = "only commands that read bundles have the option",
        .output = NEEDS_OUTPUT,
        .run = recover,
        .summary = "save what is whole in a damaged file of offload binaries",
        .help = "Offload binaries lie end to end: behind one that is damaged nothing can be read in order. This takes, from the first byte\n"
                "on, the lowest position at which a whole binary stands, goes on behind it, and so on to the end of FILE. What is found is\n"
                "written to OUT, whole or not at all: sound offload binaries.\n"
                "\n"
                "Prints a line for each span of FILE that is skipped, its start and its length in bytes, and then how many binaries are\n"
                "written and how many bytes. Images are not looked into: a binary that is damaged in its image alone counts as whole.\n"
                "The exit status is 0 if nothing is skipped, and OUT is then the same as FILE; 5 if something is skipped; 6 if all is, since\n"
                "no binary is found and FILE is not empty, and OUT is then left as it was; and 1 if FILE is refused: it is too long (LENGTH)\n"
                "or has more than 64 binaries (MANY). OUT may be FILE, but what is skipped is lost then.\n",
    },
    {.name = NULL},
};

int operand_count(const struct command *command) {
    int count = 0;
    while (command->operands[count] != NULL)
        count++;
    return count;
}

const struct command *find_command(const char *name) {
    const struct command *command;
    for (command = commands; command->name != NULL; command++)
        if (strcmp(name, command->name) == 0 || (command->other_name != NULL && strcmp(name, command->other_name) == 0))
            return command;
    return NULL;
}

int has_patch(const struct request *request) {
    return request->patch.path != NULL;
}

int compares(const struct request *request) {
    return request->command->files == 2;
}

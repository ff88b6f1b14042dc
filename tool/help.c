#include "help.h"

#include "offload.h"

#include <stdio.h>

enum { SYNOPSIS = 43, NAME = 16 }; /* widths of columns */

static const char file_help[] = "a bundle; for recover, offload binaries; - is standard input";

static const char bundle_help[] = "a bundle; - is standard input";

static const char compared_help[] = "a bundle of at most 32768 bytes; - is standard input, for one of the two";

static const char binaries_help[] = "offload binaries, as clang-offload-packager writes them, whole or damaged; - is standard input";

static const char device_help[] = "a device name, written as an entry ID: hip-amdgcn-amd-amdhsa--gfx906:sramecc+:xnack- (offload help id)";

static const char patch_help[] = "a bundle that pick looks in before FILE, which is then the main one; - is standard input";

static const char profile_option_help[] = "read IDs by the profile for AMD's GPUs: unknown processors and features are refused (offload help profile)";

static const char output_help[] = "where the output goes, whole or not at all; - is standard output, and the answer goes to standard error";

static const char statuses[] =
    "\n"
    "Exit status:\n"
    "  0  accepted\n"
    "  1  refused: a bundle is damaged or breaks a rule, a device name is not written as one must be, or there are too many binaries\n"
    "  2  bad usage\n"
    "  3  a file cannot be read or written\n"
    "  4  no image for this device (NONE)\n"
    "  5  recovered, but something was skipped\n"
    "  6  no binary to recover: all was skipped\n"
    "  7  compared, and there are differences\n";

static const char id_help[] =
    "Entry IDs, and device names, which are written like them:\n"
    "\n"
    "  id        = head { \":\" feature }, with at most 8 features; the ID and its canonical form have 1 to 256 bytes\n"
    "  head      = kind \"-\" arch \"-\" vendor \"-\" system [ \"-\" rest ]\n"
    "  rest      = processor, if it begins with gfx or sm_ (the environment is then empty)\n"
    "            | environment [ \"-\" processor ], if it does not\n"
    "  kind      = \"host\" | \"hip\" | \"hipv4\" | \"openmp\"\n"
    "  arch, vendor, system = one or more of A-Z a-z 0-9 . _; environment = zero or more of these\n"
    "  processor = zero or more of these and \"-\", as in gfx9-generic, no \"-\" at either end; an empty one is no processor\n"
    "  feature   = name \"+\" (on) | name \"-\" (off), only where there is a processor\n"
    "  name      = one or more of a-z 0-9 _, and no name twice in an ID\n"
    "  canonical = kind-arch-vendor-system-environment-processor, then each \":\" feature in byte order of the names\n"
    "\n"
    "hip-amdgcn-amd-amdhsa-gfx906:xnack+:sramecc- has the canonical form hip-amdgcn-amd-amdhsa--gfx906:sramecc-:xnack+.\n"
    "An entry fits a device when kind, triple (arch, vendor, system, environment) and processor are equal, and every feature\n"
    "that the entry states is stated by the device with the same sign. hip and hipv4 are one kind, so that either fits the\n"
    "other, and a bundle with one entry in both spellings is refused; the canonical form keeps the kind as it is spelled.\n";

static const char profile_help[] =
    "The profile for AMD's GPUs, --profile " AMDGPU ": a stricter reading of IDs and device names beside the general one.\n"
    "\n"
    "It is for kind hip, hipv4 or openmp with arch amdgcn and a processor; all others are read as without it (offload help id).\n"
    "The processor must be one of the names below, case included, and every feature that is stated one that it supports. If not,\n"
    "an entry is refused by 5 ID, a device name by 9 QUERY. A name in parentheses is an alternative one and means the primary\n"
    "before it, which the canonical form has: fiji means gfx803. Alternative names stand behind the environment, empty or not:\n"
    "hip-amdgcn-amd-amdhsa--fiji. In hip-amdgcn-amd-amdhsa-fiji it is the environment, and there is no processor.\n"
    "\n"
    "  FEATURES        PROCESSORS (LLVM 19's AMDGPU user guide)\n"
    "  sramecc, xnack  gfx906, gfx908, gfx90a, gfx940, gfx941, gfx942\n"
    "  xnack           gfx801 (carrizo), gfx810 (stoney), gfx900, gfx902, gfx904, gfx909, gfx90c, gfx1010, gfx1011, gfx1012,\n"
    "                  gfx1013, gfx9-generic, gfx10-1-generic\n"
    "  none            gfx600 (tahiti), gfx601 (pitcairn, verde), gfx602 (hainan, oland), gfx700 (kaveri), gfx701 (hawaii),\n"
    "                  gfx702, gfx703 (kabini, mullins), gfx704 (bonaire), gfx705, gfx802 (iceland, tonga),\n"
    "                  gfx803 (fiji, polaris10, polaris11), gfx805 (tongapro), gfx1030, gfx1031, gfx1032, gfx1033, gfx1034,\n"
    "                  gfx1035, gfx1036, gfx1100, gfx1101, gfx1102, gfx1103, gfx1150, gfx1151, gfx1152, gfx1200, gfx1201,\n"
    "                  gfx10-3-generic, gfx11-generic, gfx12-generic\n";

static void print_meaning(const char *name, const char *meaning) {
    printf("  %-*s  %s\n", NAME, name, meaning);
}

static void print_operand(const struct command *command, int index) {
    const char *files = command->binaries ? binaries_help : command->files == 2 ? compared_help : bundle_help;
    print_meaning(command->operands[index], index < command->files ? files : device_help);
}

/* What stands for the output among the words of a command. */
static const char *output_words(const struct command *command) {
    return command->output == NO_OUTPUT ? "" : command->output == NEEDS_OUTPUT ? " -o OUT" : " [-o OUT]";
}

/* Prints the words of a command; how many characters they take. */
static int print_synopsis(const struct command *command) {
    int printed = printf("%s", command->name), i;
    for (i = 0; command->operands[i] != NULL; i++)
        printed += printf(" %s", command->operands[i]);
    return printed + printf("%s%s%s", command->repeats ? ".." : "", command->patch ? " [--patch PATCH]" : "", output_words(command));
}

static void print_row(const struct command *command) {
    int printed;
    fputs("  offload ", stdout);
    printed = print_synopsis(command);
    printf("%*s  %s\n", SYNOPSIS - printed, "", command->summary);
}

static void print_options(int patch, int output, int profile) {
    if (patch)
        print_meaning("--patch PATCH", patch_help);
    if (output)
        print_meaning("-o OUT", output_help);
    if (profile)
        print_meaning("--profile " AMDGPU, profile_option_help);
    print_meaning("--json", "answer in JSON, one object a line");
    print_meaning("--", "no option stands after this word");
    fputs(statuses, stdout);
}

enum status help_all(void) {
    const struct command *command;
    printf("offload %s: bundles of GPU images, and offload binaries\n\n", OFFLOAD_VERSION);
    for (command = commands; command->name != NULL; command++)
        print_row(command);
    printf("  offload %-*s  %s\n", SYNOPSIS, "help [COMMAND]", "print this text, or more about a command");
    printf("  offload %-*s  %s\n", SYNOPSIS, "help id", "say how entry IDs and device names are written");
    printf("  offload %-*s  %s\n", SYNOPSIS, "help profile", "say how the profile for AMD's GPUs reads some of them");
    printf("  offload %-*s  %s\n\n", SYNOPSIS, "--version", "print the version");
    print_meaning("FILE", file_help);
    print_meaning("LEFT, RIGHT", compared_help);
    print_meaning("DEVICE", device_help);
    print_options(1, 1, 1);
    return ACCEPTED;
}

enum status help_command(const struct command *command) {
    int i;
    fputs("offload ", stdout);
    print_synopsis(command);
    printf("%s [--json]\n\n%s\n", command->no_profile == NULL ? " [--profile " AMDGPU "]" : "", command->help);
    for (i = 0; command->operands[i] != NULL; i++)
        print_operand(command, i);
    print_options(command->patch, command->output != NO_OUTPUT, command->no_profile == NULL);
    return ACCEPTED;
}

enum status help_id(void) {
    fputs(id_help, stdout);
    return ACCEPTED;
}

enum status help_profile(void) {
    fputs(profile_help, stdout);
    return ACCEPTED;
}

enum status help_version(void) {
    puts("offload " OFFLOAD_VERSION);
    return ACCEPTED;
}

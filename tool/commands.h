/* The commands of the tool. Every answer comes from include/offload.h. */
#ifndef TOOL_COMMANDS_H
#define TOOL_COMMANDS_H

#include "file.h"
#include "reading.h"

#include <stdio.h>

/* SKIPPED: some of the file is not recovered. NOTHING_FOUND: nothing of it is. DIFFERENT: two bundles do not hold the same entries. */
enum status { ACCEPTED = 0, REFUSED = 1, BAD_USAGE = 2, FILE_FAILURE = 3, NO_IMAGE = 4, SKIPPED = 5, NOTHING_FOUND = 6, DIFFERENT = 7 };

enum { OPERANDS = 2 }; /* the most that a command names */

/* A file that is read, and what it holds. */
struct input {
    const char *path;
    struct bytes bytes;
};

/* What a command is asked: its operands, those that are files, and its options. */
struct request {
    const struct command *command;
    char **operands;
    int count; /* of the operands */
    struct input files[OPERANDS];
    struct input patch;            /* the bundle that is looked in before the file; its path is null where there is none */
    const struct reading *reading; /* how IDs are read */
    const char *output;            /* the path of the output, or null */
    int json;                      /* whether to answer in JSON */
    FILE *answer;                  /* standard output; standard error where the output goes to standard output */
};

enum output { NO_OUTPUT, MAY_HAVE_OUTPUT, NEEDS_OUTPUT };

struct command {
    const char *name;
    const char *other_name;             /* or null */
    const char *operands[OPERANDS + 1]; /* what the help calls them; the last is null */
    int files;                          /* how many of them are files, which come first */
    int repeats;                        /* whether the last may stand more than once */
    int patch;                          /* whether it has the option --patch */
    int binaries;                       /* whether the file is offload binaries, and not a bundle: there are no IDs then */
    const char *no_profile;             /* why it has not the option --profile; null where it has */
    enum output output;
    enum status (*run)(const struct request *request);
    const char *summary; /* one line */
    const char *help;    /* the rest */
};

/* Every command; the last has no name. */
extern const struct command commands[];

/* How many operands a command names. */
int operand_count(const struct command *command);

/* The command of a name, or null. */
const struct command *find_command(const char *name);

/* Whether there are two bundles to look in. */
int has_patch(const struct request *request);

/* Whether there are two bundles to compare. */
int compares(const struct request *request);

enum status check(const struct request *request);
enum status list(const struct request *request);
enum status pick(const struct request *request);
enum status explain(const struct request *request);
enum status normalise(const struct request *request);
enum status compare(const struct request *request);
enum status recover(const struct request *request);

#endif

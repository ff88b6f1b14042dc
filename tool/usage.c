#include "usage.h"

#include <string.h>

int is_option(const char *word) {
    return word[0] == '-' && word[1] != 0;
}

int is_help(const char *word) {
    return strcmp(word, "-h") == 0 || strcmp(word, "--help") == 0;
}

enum status bad_usage(const char *command, const char *wrong, const char *word) {
    fprintf(stderr, "offload: %s%s%s%s%s\n", command, *command ? ": " : "", wrong, *word ? " " : "", word);
    fprintf(stderr, "Try: offload help%s%s\n", *command ? " " : "", command);
    return BAD_USAGE;
}

static enum wish wrong(const struct command *command, const char *what, const char *word) {
    bad_usage(command->name, what, word);
    return WISH_WRONG;
}

/* The value of an option: in the same word, behind =, or the next word, to which it moves. Null where the words begin with another option, empty where
 * the value is missing. */
static const char *value_of(const char *option, char ***words) {
    size_t length = strlen(option);
    const char *rest = strncmp(**words, option, length) == 0 ? **words + length : NULL;
    if (rest == NULL || (*rest != '=' && *rest != 0))
        return NULL;
    if (*rest == '=')
        return rest + 1;
    return *++*words == NULL ? "" : **words;
}

static enum wish take_profile(const struct command *command, const char *name, struct request *request) {
    if (command->no_profile != NULL)
        return wrong(command, command->no_profile, "--profile");
    if (*name == 0)
        return wrong(command, "no name after", "--profile");
    if (request->reading != &general_reading)
        return wrong(command, "a second", "--profile");
    if (strcmp(name, AMDGPU) != 0)
        return wrong(command, "the only profile is " AMDGPU ", not", name);
    request->reading = &amdgpu_reading;
    return WISH_RUN;
}

static enum wish take_patch(const struct command *command, const char *path, struct request *request) {
    if (!command->patch)
        return wrong(command, "only pick has the option", "--patch");
    if (*path == 0)
        return wrong(command, "no file name after", "--patch");
    if (has_patch(request))
        return wrong(command, "a second", "--patch");
    request->patch.path = path;
    return WISH_RUN;
}

/* Takes the option that the words begin with, and moves to its last word. */
static enum wish read_option(const struct command *command, char ***words, struct request *request) {
    char *option = **words;
    const char *value;
    if (is_help(option))
        return WISH_HELP;
    if (strcmp(option, "--json") == 0) {
        request->json = 1;
        return WISH_RUN;
    }
    value = value_of("--profile", words);
    if (value != NULL)
        return take_profile(command, value, request);
    value = value_of("--patch", words);
    if (value != NULL)
        return take_patch(command, value, request);
    if (strcmp(option, "-o") != 0 || command->output == NO_OUTPUT)
        return wrong(command, "unknown option", option);
    if (request->output != NULL)
        return wrong(command, "a second", option);
    request->output = *++*words;
    return request->output == NULL ? wrong(command, "no file name after", option) : WISH_RUN;
}

/* Takes an operand, which moves to its place at the front of the words. */
static enum wish take_operand(const struct command *command, char *word, struct request *request) {
    if (request->count >= operand_count(command) && !command->repeats)
        return wrong(command, "unexpected word", word);
    request->operands[request->count++] = word;
    return WISH_RUN;
}

/* Standard input can be read once. */
static int reads_input_twice(const struct request *request) {
    const char *other = compares(request) ? request->operands[1] : request->patch.path; /* the second file, or null */
    return other != NULL && strcmp(other, "-") == 0 && strcmp(request->operands[0], "-") == 0;
}

/* What shows when every word is read. */
static enum wish look_over(const struct command *command, const struct request *request) {
    int wanted = operand_count(command);
    if (request->count < wanted)
        return wrong(command, "missing", command->operands[request->count]);
    if (command->output == NEEDS_OUTPUT && request->output == NULL)
        return wrong(command, "missing", "-o OUT");
    if (request->count > wanted && request->output != NULL)
        return wrong(command, "-o writes one image, and there are several devices: make one pick for each", "");
    if (reads_input_twice(request))
        return wrong(command, compares(request) ? "LEFT and RIGHT" : "PATCH and FILE", "cannot both be standard input");
    return WISH_RUN;
}

enum wish read_words(const struct command *command, char **words, struct request *request) {
    int options = 1;
    request->operands = words;
    for (; *words != NULL; words++) {
        enum wish wish = WISH_RUN;
        if (options && strcmp(*words, "--") == 0)
            options = 0;
        else if (options && is_option(*words))
            wish = read_option(command, &words, request);
        else
            wish = take_operand(command, *words, request);
        if (wish != WISH_RUN)
            return wish;
    }
    return look_over(command, request);
}

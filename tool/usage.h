/* The words after a command. */
#ifndef TOOL_USAGE_H
#define TOOL_USAGE_H

#include "commands.h"

/* What the words ask for: that the command runs, help about it, or nothing, since they are wrong. */
enum wish { WISH_RUN, WISH_HELP, WISH_WRONG };

/* Puts the words, the last of which is null, into a request: its operands move to the front of them. What is wrong is told. */
enum wish read_words(const struct command *command, char **words, struct request *request);

int is_option(const char *word);
int is_help(const char *word);

/* Says on standard error what is wrong with which word, and how to ask for help. The command may be empty. */
enum status bad_usage(const char *command, const char *wrong, const char *word);

#endif

/* What the tool says about itself, on standard output. */
#ifndef TOOL_HELP_H
#define TOOL_HELP_H

#include "commands.h"

/* Every command, in short. */
enum status help_all(void);

/* One command. */
enum status help_command(const struct command *command);

/* How entry IDs and device names are written. */
enum status help_id(void);

/* How the profile reads some of them. */
enum status help_profile(void);

enum status help_version(void);

#endif

/* offload: check a bundle, list its entries, pick the image for a device, put a bundle in normal form, compare two; recover offload binaries. */
#include "commands.h"
#include "help.h"
#include "message.h"
#include "usage.h"

#include <errno.h>
#include <string.h>

static enum status read_input(const struct request *request, struct input *input) {
    const char *failure = file_read(input->path, &input->bytes);
    return failure == NULL ? ACCEPTED : cannot_read(request, input->path, failure);
}

/* Reads the files of a request, the patch first, and runs its command. */
static enum status run(const struct command *command, struct request *request) {
    enum status status = ACCEPTED;
    int i;
    request->answer = request->output != NULL && strcmp(request->output, "-") == 0 ? stderr : stdout;
    if (has_patch(request))
        status = read_input(request, &request->patch);
    for (i = 0; i < command->files && status == ACCEPTED; i++) {
        request->files[i].path = request->operands[i];
        status = read_input(request, &request->files[i]);
    }
    return status == ACCEPTED ? command->run(request) : status;
}

static enum status answer_command(const struct command *command, char **words) {
    struct request request = {.command = command, .reading = &general_reading};
    enum wish wish = read_words(command, words, &request);
    return wish == WISH_RUN ? run(command, &request) : wish == WISH_HELP ? help_command(command) : BAD_USAGE;
}

static enum status answer_help(char **topics) {
    const struct command *command = topics[0] == NULL ? NULL : find_command(topics[0]);
    if (topics[0] == NULL)
        return help_all();
    if (topics[1] != NULL)
        return bad_usage("", "unexpected word", topics[1]);
    if (strcmp(topics[0], "id") == 0)
        return help_id();
    if (strcmp(topics[0], "profile") == 0)
        return help_profile();
    return command != NULL ? help_command(command) : bad_usage("", "no help about", topics[0]);
}

static enum status answer_version(char **words) {
    return words[0] == NULL ? help_version() : bad_usage("", "unexpected word", words[0]);
}

static enum status answer(char **words) {
    const struct command *command;
    if (words[0] == NULL)
        return bad_usage("", "missing command", "");
    if (is_help(words[0]) || strcmp(words[0], "help") == 0)
        return answer_help(words + 1);
    if (strcmp(words[0], "--version") == 0)
        return answer_version(words + 1);
    command = find_command(words[0]);
    if (command == NULL)
        return bad_usage("", is_option(words[0]) ? "unknown option" : "unknown command", words[0]);
    return answer_command(command, words + 1);
}

int main(int count, char **words) {
    enum status status = answer(words + (count > 0));
    if (fflush(stdout) != 0) {
        fprintf(stderr, "offload: cannot write standard output: %s\n", strerror(errno));
        return FILE_FAILURE;
    }
    return status;
}

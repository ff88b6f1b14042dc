#include "file.h"

#include "offload.h"

#include <errno.h>
#include <fcntl.h>
#include <limits.h>
#include <signal.h>
#include <stdio.h>
#include <stdlib.h>
#include <string.h>
#include <sys/mman.h>
#include <sys/stat.h>
#include <unistd.h>

enum { FIRST_ROOM = 65536, MOST_LINKS = 40 }; /* as many links as Linux follows */

static const char standard[] = "-";
static const char open_file[] = "A link to an open file (standard output is -)";
static const char not_regular[] = "Not a regular file";

/* Reading */

/* Maps a regular file. 0, or -1 where it must be read: its length is 0 (that of a file of /proc is, whatever it holds),
 * a part of it is read already (standard input), or its file system maps nothing. */
static int map_open(int fd, struct bytes *file) {
    struct stat status;
    void *start;
    if (fstat(fd, &status) != 0 || !S_ISREG(status.st_mode) || status.st_size == 0 || lseek(fd, 0, SEEK_CUR) != 0)
        return -1;
    start = mmap(NULL, (size_t)status.st_size, PROT_READ, MAP_PRIVATE, fd, 0);
    if (start == MAP_FAILED)
        return -1;
    file->start = start;
    file->length = (size_t)status.st_size;
    return 0;
}

/* Twice the room, up to one byte past the limit. 0, or -1 where there is not enough memory. */
static int grow(uint8_t **start, size_t *room) {
    size_t most = OFFLOAD_LIMIT + 1, larger = *room == 0 ? FIRST_ROOM : *room > most / 2 ? most : 2 * *room;
    uint8_t *moved = realloc(*start, larger);
    if (moved == NULL)
        return -1;
    *start = moved;
    *room = larger;
    return 0;
}

static ssize_t read_some(int fd, uint8_t *start, size_t room) {
    ssize_t got;
    do
        got = read(fd, start, room);
    while (got < 0 && errno == EINTR);
    return got;
}

static const char *read_to_end(int fd, struct bytes *file) {
    uint8_t *start = NULL;
    size_t room = 0, length = 0;
    ssize_t got;
    const char *failure;
    do {
        got = length == room && grow(&start, &room) != 0 ? -1 : read_some(fd, start + length, room - length);
        length += got > 0 ? (size_t)got : 0;
    } while (got > 0 && length <= OFFLOAD_LIMIT);
    file->start = start;
    file->length = length;
    if (got >= 0)
        return NULL;
    failure = strerror(errno);
    free(start);
    return failure;
}

static const char *read_open(int fd, struct bytes *file) {
    return map_open(fd, file) == 0 ? NULL : read_to_end(fd, file);
}

const char *file_read(const char *path, struct bytes *file) {
    const char *failure;
    int fd;
    if (strcmp(path, standard) == 0)
        return read_open(STDIN_FILENO, file);
    fd = open(path, O_RDONLY | O_NOCTTY);
    if (fd < 0)
        return strerror(errno);
    failure = read_open(fd, file);
    close(fd);
    return failure;
}

/* Writing */

/* A file to write. */
struct output {
    char *path;         /* behind every link */
    char *temporary;    /* the file that gets the bytes, and then the path */
    struct stat kept;   /* the mode, owner and group that it shall have */
    struct bytes bytes; /* what it shall hold */
};

static int write_all(int fd, struct bytes content) {
    while (content.length > 0) {
        ssize_t written = write(fd, content.start, content.length);
        if (written < 0 && errno != EINTR)
            return -1;
        if (written > 0) {
            content.start += written;
            content.length -= (size_t)written;
        }
    }
    return 0;
}

/* Root may give a file to anybody, others to a group of theirs; where neither is allowed, it stays with its writer.
 * Bits such as set-user-ID are not kept: they were given to other bytes. */
static int keep_owner_and_mode(int fd, const struct stat *kept) {
    (void)(fchown(fd, kept->st_uid, kept->st_gid) == 0 || fchown(fd, (uid_t)-1, kept->st_gid) == 0);
    return fchmod(fd, kept->st_mode & 0777);
}

/* Fills the temporary file and gives it its name. */
static const char *fill_and_rename(int fd, const struct output *output) {
    const char *failure = NULL;
    if (keep_owner_and_mode(fd, &output->kept) != 0 || write_all(fd, output->bytes) != 0 || fsync(fd) != 0)
        failure = strerror(errno);
    if (close(fd) != 0 && failure == NULL)
        failure = strerror(errno);
    if (failure == NULL && rename(output->temporary, output->path) != 0)
        failure = strerror(errno);
    return failure;
}

static const char *write_by_way_of_temporary(struct output *output) {
    const char *failure;
    int fd = mkstemp(output->temporary);
    if (fd < 0)
        return strerror(errno);
    failure = fill_and_rename(fd, output);
    if (failure != NULL)
        unlink(output->temporary);
    return failure;
}

/* Holds back every signal, so that none leaves a temporary file. */
static const char *write_undisturbed(struct output *output) {
    sigset_t all, before;
    const char *failure;
    sigfillset(&all);
    sigprocmask(SIG_BLOCK, &all, &before);
    failure = write_by_way_of_temporary(output);
    sigprocmask(SIG_SETMASK, &before, NULL);
    return failure;
}

/* The path of what a file in the folder of this path calls by this name, in memory of its own; null where there is not
 * enough. */
static char *beside(const char *path, const char *name) {
    const char *slash = *name == '/' ? NULL : strrchr(path, '/');
    size_t folder = slash == NULL ? 0 : (size_t)(slash - path) + 1, length = strlen(name) + 1;
    char *joined = malloc(folder + length);
    if (joined == NULL)
        return NULL;
    memcpy(joined, path, folder);
    memcpy(joined + folder, name, length);
    return joined;
}

static const char *write_beside(struct output *output) {
    const char *failure;
    output->temporary = beside(output->path, ".offload-XXXXXX");
    if (output->temporary == NULL)
        return strerror(errno);
    failure = write_undisturbed(output);
    free(output->temporary);
    return failure;
}

/* Puts what a link names in the link's place. */
static const char *follow(char **path) {
    char name[PATH_MAX], *next;
    ssize_t length = readlink(*path, name, sizeof name);
    if (length < 0)
        return strerror(errno);
    if ((size_t)length == sizeof name)
        return strerror(ENAMETOOLONG);
    name[length] = '\0';
    next = beside(*path, name);
    if (next == NULL)
        return strerror(errno);
    free(*path);
    *path = next;
    return NULL;
}

/* /dev/stdout and /dev/fd/1 lead to /proc/self/fd/1, a link to an open file and not to a name: its text is the name
 * that the file had when it was opened. Such a link is refused. To replace that file would be safe for the link, but lose
 * what was written to the open file before (>>) and what will be, this tool's own answer first. */
static int in_proc(const struct stat *link) {
    struct stat proc;
    return lstat("/proc/self", &proc) == 0 && proc.st_dev == link->st_dev;
}

static const char *follow_all(char **path) {
    const char *failure = NULL;
    struct stat link;
    int links;
    for (links = 0; failure == NULL && lstat(*path, &link) == 0 && S_ISLNK(link.st_mode); links++)
        failure = links == MOST_LINKS ? strerror(ELOOP) : in_proc(&link) ? open_file : follow(path);
    return failure;
}

static const char *write_behind_links(const char *path, struct output *output) {
    const char *failure;
    output->path = strdup(path);
    if (output->path == NULL)
        return strerror(errno);
    failure = follow_all(&output->path);
    if (failure == NULL)
        failure = write_beside(output);
    free(output->path);
    return failure;
}

/* What a new file's mode would be: mkstemp gives a file to its owner alone. */
static mode_t new_file_mode(void) {
    mode_t mask = umask(0);
    umask(mask);
    return 0666 & ~mask;
}

/* The rename asks only the folder, so the file is asked here; read-only is meant for root too. */
static const char *may_replace(const char *path, mode_t mode) {
    if (S_ISDIR(mode))
        return strerror(EISDIR);
    if (!S_ISREG(mode))
        return not_regular;
    if ((mode & 0222) == 0)
        return strerror(EACCES);
    return access(path, W_OK) == 0 ? NULL : strerror(errno);
}

/* The mode, owner and group of the file that is replaced, or of a new one; or why it may not be written. What the system
 * does not follow, such as another user's link in /tmp, is not followed here. */
static const char *look(const char *path, struct stat *kept) {
    if (stat(path, kept) == 0)
        return may_replace(path, kept->st_mode);
    if (errno != ENOENT)
        return strerror(errno);
    kept->st_mode = new_file_mode();
    kept->st_uid = (uid_t)-1;
    kept->st_gid = (gid_t)-1;
    return NULL;
}

const char *file_write(const char *path, struct bytes content) {
    struct output output;
    const char *failure;
    signal(SIGXFSZ, SIG_IGN); /* a file above the allowed size is then an error of write */
    if (strcmp(path, standard) == 0)
        return write_all(STDOUT_FILENO, content) == 0 ? NULL : strerror(errno);
    output.bytes = content;
    failure = look(path, &output.kept);
    return failure != NULL ? failure : write_behind_links(path, &output);
}

/* Reading files, and writing them whole or not at all. */
#define _XOPEN_SOURCE 700
#include <errno.h>
#include <fcntl.h>
#include <stdio.h>
#include <stdlib.h>
#include <string.h>
#include <sys/stat.h>
#include <unistd.h>

#include "panel.h"

#define FIRST_ROOM 65536
#define LONGEST_WHOLE 4294967295u /* so that each length and each line's number fits a word of an answer */

static int cannot(const char *what, const char *path, int reason)
{
    fprintf(stderr, "panel: cannot %s '%s': %s\n", what, path, strerror(reason));
    return UNUSABLE;
}

int read_file(const char *path, uint8_t *bytes, size_t room, size_t *length)
{
    FILE *in = fopen(path, "rb");
    int reason = 0;

    if (in == NULL)
        return cannot("read", path, errno);
    *length = fread(bytes, 1, room, in);
    if (ferror(in))
        reason = errno;
    fclose(in);
    return reason == 0 ? 0 : cannot("read", path, reason);
}

/* Reads on, into twice the memory. Gives 0, or the reason why not. */
static int read_on(FILE *in, struct bytes *bytes)
{
    size_t room = bytes->length == 0 ? FIRST_ROOM : 2 * bytes->length;
    uint8_t *at = realloc(bytes->at, room);

    if (at == NULL)
        return ENOMEM;
    bytes->at = at;
    bytes->length += fread(at + bytes->length, 1, room - bytes->length, in);
    if (ferror(in))
        return errno;
    return bytes->length > LONGEST_WHOLE ? EFBIG : 0;
}

int read_whole(const char *path, struct bytes *bytes)
{
    FILE *in = fopen(path, "rb");
    int reason = 0;

    bytes->at = NULL;
    bytes->length = 0;
    if (in == NULL)
        return cannot("read", path, errno);
    while (reason == 0 && !feof(in))
        reason = read_on(in, bytes);
    fclose(in);
    return reason == 0 ? 0 : cannot("read", path, reason);
}

/* Writes all bytes. Gives 0, or the reason why not. */
static int write_all(int to, const uint8_t *bytes, size_t length)
{
    while (length > 0) {
        ssize_t written = write(to, bytes, length);

        if (written >= 0) {
            bytes += written;
            length -= (size_t)written;
        } else if (errno != EINTR) {
            return errno;
        }
    }
    return 0;
}

/* Gives the name of a file in the same folder for mkstemp to make, or NULL. It does not grow with the file's own name, which may be
 * as long as names can be. */
static char *name_beside(const char *path)
{
    static const char own[] = ".panelXXXXXX";
    const char *slash = strrchr(path, '/');
    size_t folder = slash == NULL ? 0 : (size_t)(slash - path) + 1;
    char *name = malloc(folder + sizeof own);

    if (name != NULL) {
        memcpy(name, path, folder);
        memcpy(name + folder, own, sizeof own);
    }
    return name;
}

/* Fills a new file and gives it its mode. Gives 0, or the reason why not. */
static int fill(int to, mode_t mode, const uint8_t *bytes, size_t length)
{
    int reason = write_all(to, bytes, length);

    if (reason == 0 && (fchmod(to, mode) != 0 || fsync(to) != 0))
        reason = errno;
    if (close(to) != 0 && reason == 0)
        reason = errno;
    return reason;
}

/* Writes a new file beside the named one, then lets it take that place at once: whatever fails, the place has its old file or
 * none. */
static int replace(const char *path, mode_t mode, const uint8_t *bytes, size_t length)
{
    char *name = name_beside(path);
    int reason, to;

    if (name == NULL)
        return ENOMEM;
    to = mkstemp(name);
    if (to < 0) {
        reason = errno;
    } else {
        reason = fill(to, mode, bytes, length);
        if (reason == 0 && rename(name, path) != 0)
            reason = errno;
        if (reason != 0)
            unlink(name);
    }
    free(name);
    return reason;
}

/* A device or a pipe keeps its place: the bytes go into it. */
static int write_into(const char *path, const uint8_t *bytes, size_t length)
{
    int reason, to = open(path, O_WRONLY);

    if (to < 0)
        return errno;
    reason = write_all(to, bytes, length);
    if (close(to) != 0 && reason == 0)
        reason = errno;
    return reason;
}

/* The mode of a file that is made anew. */
static mode_t usual_mode(void)
{
    mode_t mask = umask(0);

    umask(mask);
    return 0666 & ~mask;
}

int write_file(const char *path, const uint8_t *bytes, size_t length)
{
    struct stat old;
    int reason;

    if (stat(path, &old) != 0) {
        reason = errno == ENOENT ? replace(path, usual_mode(), bytes, length) : errno;
    } else if (!S_ISREG(old.st_mode)) {
        reason = write_into(path, bytes, length);
    } else if (access(path, W_OK) != 0) {
        reason = errno;
    } else {
        /* Of a link, the file that it leads to is replaced, and not the link. */
        char *end = realpath(path, NULL);

        reason = end == NULL ? errno : replace(end, old.st_mode & 0777, bytes, length);
        free(end);
    }
    return reason == 0 ? 0 : cannot("write", path, reason);
}

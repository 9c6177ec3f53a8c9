#define _XOPEN_SOURCE 700
#include "keep.h"

#include <errno.h>
#include <fcntl.h>
#include <libgen.h>
#include <limits.h>
#include <stdio.h>
#include <stdlib.h>
#include <string.h>
#include <sys/stat.h>
#include <unistd.h>

static bool read_all(int file, uint8_t *bytes, size_t *len) {
    *len = 0;
    while (*len < KEEP_ROOM) {
        const ssize_t got = read(file, bytes + *len, KEEP_ROOM - *len);
        if (got < 0)
            return false;
        if (got == 0)
            break;
        *len += (size_t)got;
    }
    return true;
}

enum keep keep_read(const char *path, uint8_t *bytes, size_t *len) {
    const int file = open(path, O_RDONLY);
    if (file < 0)
        return errno == ENOENT ? KEEP_ABSENT : KEEP_FAILED;
    const bool good = read_all(file, bytes, len);
    close(file);
    return good ? KEEP_READ : KEEP_FAILED;
}

/* A record has a code in it, so a new file is its owner's; an old file's mode stays. */
static bool fill(int file, const char *path, const uint8_t *record) {
    struct stat old;
    if (stat(path, &old) == 0 && fchmod(file, old.st_mode & 07777) != 0)
        return false;
    return write(file, record, BOARD_RECORD_SIZE) == BOARD_RECORD_SIZE && fsync(file) == 0;
}

/* Without this the new name may be lost with the power. */
static bool flush_folder(const char *path) {
    char copy[PATH_MAX];
    strcpy(copy, path);
    const int folder = open(dirname(copy), O_RDONLY | O_DIRECTORY);
    if (folder < 0)
        return false;
    const bool good = fsync(folder) == 0 || errno == EINVAL;
    close(folder);
    return good;
}

static bool replace(const char *path, const uint8_t *record) {
    static const char ending[] = ".XXXXXX";
    char beside[PATH_MAX];
    if (strlen(path) + sizeof ending > sizeof beside) {
        errno = ENAMETOOLONG;
        return false;
    }
    strcat(strcpy(beside, path), ending);
    const int file = mkstemp(beside);
    if (file < 0)
        return false;
    const bool filled = fill(file, path, record);
    const bool closed = close(file) == 0;
    if (filled && closed && rename(beside, path) == 0)
        return flush_folder(path);
    const int cause = errno;
    unlink(beside);
    errno = cause;
    return false;
}

/* Through a symbolic link the file is replaced, not the link. */
bool keep_write(const char *path, const uint8_t *record) {
    char *real = realpath(path, NULL);
    const bool good = replace(real == NULL ? path : real, record);
    const int cause = errno;
    free(real);
    errno = cause;
    return good;
}

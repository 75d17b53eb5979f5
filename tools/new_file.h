/*
 * A file is replaced as a whole: the octets go to a new file in the same directory, which is renamed over the old one when all of it is on the disk. So
 * there is the old file or the new one at every moment, and where something fails the old one, and no other, is left. A process that is killed on the way, by
 * SIGINT and SIGTERM too, leaves the old one and beside it perhaps a file .new- with six characters behind it: the new octets or a part of them, which nobody
 * needs, and which may hold keys. Delete it.
 *
 * A file that includes this defines _XOPEN_SOURCE as 700 before its first include.
 */
#ifndef NEW_FILE_H
#define NEW_FILE_H

#include <errno.h>
#include <fcntl.h>
#include <signal.h>
#include <stddef.h>
#include <stdint.h>
#include <stdio.h>
#include <stdlib.h>
#include <string.h>
#include <sys/stat.h>
#include <unistd.h>

/* Writes octets to an open file, down to the disk; 0 with errno set where that fails. */
static inline int write_octets(int file, const uint8_t *octets, size_t count)
{
    while (count > 0) {
        const ssize_t written = write(file, octets, count);
        if (written < 0 && errno != EINTR)
            return 0;
        if (written > 0) {
            octets += written;
            count -= (size_t)written;
        }
    }
    return fsync(file) == 0;
}

/* Gives a new file the owner, group and mode of the old one, or makes it for its owner alone where there is none; says what is wrong, else null. */
static inline const char *keep_owner_and_mode(int file, const struct stat *old)
{
    struct stat made;
    if (old) {
        if (fstat(file, &made) != 0)
            return strerror(errno);
        if ((made.st_uid != old->st_uid || made.st_gid != old->st_gid) && fchown(file, old->st_uid, old->st_gid) != 0)
            return "its owner and group cannot be kept";
    }
    return fchmod(file, old ? old->st_mode & 07777 : S_IRUSR | S_IWUSR) == 0 ? NULL : strerror(errno);
}

/* Brings a rename in a directory to the disk. Where a directory cannot be synced or read the file is replaced all the same, but a power cut may undo that. */
static inline void sync_directory(const char *path)
{
    const int directory = open(path, O_RDONLY | O_DIRECTORY);
    if (directory < 0)
        return;
    (void)fsync(directory);
    (void)close(directory);
}

/* Makes a new file in the directory of a path and renames it to the path; says what is wrong where that fails, with nothing left of it, else null. */
static inline const char *write_and_rename(const char *path, const struct stat *old, const uint8_t *octets, size_t count)
{
    const char *slash = strrchr(path, '/'), *fault;
    const int before = slash ? (int)(slash + 1 - path) : 0;
    char name[4096];
    int file;
    if (snprintf(name, sizeof name, "%.*s.new-XXXXXX", before, path) >= (int)sizeof name)
        return strerror(ENAMETOOLONG);
    file = mkstemp(name);
    if (file < 0)
        return strerror(errno);
    fault = keep_owner_and_mode(file, old);
    if (!fault && !write_octets(file, octets, count))
        fault = strerror(errno);
    if (close(file) != 0 && !fault)
        fault = strerror(errno);
    if (!fault && rename(name, path) != 0)
        fault = strerror(errno);
    if (fault) {
        (void)unlink(name);
        return fault;
    }
    name[before] = '\0';
    sync_directory(before ? name : ".");
    return NULL;
}

/* Makes the file of a path, or replaces the one there, or the one that a link there leads to, as replace_file says. */
static inline const char *make_or_replace(const char *path, const uint8_t *octets, size_t count)
{
    const char *fault;
    struct stat old, own;
    char *place;
    if (stat(path, &old) != 0) {
        if (errno != ENOENT)
            return strerror(errno);
        return lstat(path, &own) == 0 ? "a link that leads to no file" : write_and_rename(path, NULL, octets, count);
    }
    if (!S_ISREG(old.st_mode))
        return "not a plain file";
    if (access(path, W_OK) != 0 || lstat(path, &own) != 0)
        return strerror(errno);
    if (!S_ISLNK(own.st_mode))
        return write_and_rename(path, &old, octets, count);
    place = realpath(path, NULL);
    fault = place ? write_and_rename(place, &old, octets, count) : strerror(errno);
    free(place);
    return fault;
}

/*
 * Replaces the file of a path, or the one that a link there leads to, or makes it; says what is wrong where that fails, else null. The new file has owner,
 * group and mode of the old one, and is not written where it cannot; where there is none it is for its owner alone, for an image has keys. What the caller may
 * not write, a link that leads to no file, and what is no plain file, as /dev/null, are left alone. A file beyond the limit of a file's size is a fault as any
 * other, and no signal, while this runs.
 */
static inline const char *replace_file(const char *path, const uint8_t *octets, size_t count)
{
    const struct sigaction ignored = { .sa_handler = SIG_IGN };
    struct sigaction before;
    const char *fault;
    if (sigaction(SIGXFSZ, &ignored, &before) != 0)
        return strerror(errno);
    fault = make_or_replace(path, octets, count);
    (void)sigaction(SIGXFSZ, &before, NULL);
    return fault;
}

#endif

/*
 * Linked into the tool of step 35 around three calls of the system (ld's --wrap): each is noted on the standard error, with what it is of, and fails where the
 * environment variable FAILS has its name, or "fsync directory".
 */
#define _XOPEN_SOURCE 700
#include <errno.h>
#include <stdio.h>
#include <stdlib.h>
#include <string.h>
#include <sys/stat.h>
#include <unistd.h>

int __real_fsync(int file);
int __wrap_fsync(int file);
int __real_rename(const char *from, const char *to);
int __wrap_rename(const char *from, const char *to);
int __real_fchown(int file, uid_t owner, gid_t group);
int __wrap_fchown(int file, uid_t owner, gid_t group);

/* Notes a call; whether it is to fail. */
static int fails(const char *call)
{
    const char *failing = getenv("FAILS");
    fprintf(stderr, "%s\n", call);
    errno = EIO;
    return failing && strcmp(failing, call) == 0;
}

int __wrap_fsync(int file)
{
    struct stat of;
    const int directory = fstat(file, &of) == 0 && S_ISDIR(of.st_mode);
    return fails(directory ? "fsync directory" : "fsync") ? -1 : __real_fsync(file);
}

int __wrap_rename(const char *from, const char *to)
{
    return fails("rename") ? -1 : __real_rename(from, to);
}

int __wrap_fchown(int file, uid_t owner, gid_t group)
{
    return fails("fchown") ? -1 : __real_fchown(file, owner, group);
}

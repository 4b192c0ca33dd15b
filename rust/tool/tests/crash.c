/* Loaded before the C library, this counts a command's calls on files in the folder CRASH_FOLDER from
   1. At call number CRASH_AT it does what CRASH_HOW says:
     kill   ends the process before the call, as a power failure would;
     half   counts calls of write alone, writes half of the bytes and ends the process;
     fail   lets that one call fail for want of room on the disk, or with the error CRASH_ERROR, and
            ends the process before call number CRASH_THEN, if it comes so far;
     dead   lets that call fail and all that follow;
     full   the same, but files can be removed;
     list   does nothing; here the name of every call is written to standard error. */
#define _GNU_SOURCE
#include <dlfcn.h>
#include <errno.h>
#include <fcntl.h>
#include <signal.h>
#include <stdarg.h>
#include <stdio.h>
#include <stdlib.h>
#include <string.h>
#include <sys/stat.h>
#include <unistd.h>

static const char *how(void)
{
    const char *how = getenv("CRASH_HOW");
    return how ? how : "";
}

/* The number that a variable tells, or 0. */
static long number(const char *variable)
{
    const char *number = getenv(variable);
    return number ? atol(number) : 0;
}

static long count;

/* Whether the call is to fail; where it is to end the process, it does. */
static int fails(const char *name)
{
    if (!strcmp(how(), "list"))
        dprintf(2, "%s\n", name);
    if (!strcmp(how(), "half"))
        return 0;
    count++;
    if (count == number("CRASH_THEN") || (count == number("CRASH_AT") && !strcmp(how(), "kill")))
        raise(SIGKILL);
    int for_good = !strcmp(how(), "dead") || !strcmp(how(), "full");
    if (count < number("CRASH_AT") || (count > number("CRASH_AT") && !for_good))
        return 0;
    errno = number("CRASH_ERROR") ? number("CRASH_ERROR") : ENOSPC;
    return 1;
}

/* Commands are started in the folder, so relative names lie in it. */
static int inside(const char *path)
{
    const char *folder = getenv("CRASH_FOLDER");
    return folder && (path[0] != '/' || !strncmp(path, folder, strlen(folder)));
}

/* Standard input, output and error are no files here. */
static int of_file(int handle)
{
    return handle > 2;
}

/* The C library's own. */
#define NEXT(result, name, takes) result(*next) takes = (result(*) takes)dlsym(RTLD_NEXT, name)

#define OPEN(name)                                                                                 \
    int name(const char *path, int flags, ...)                                                     \
    {                                                                                              \
        NEXT(int, #name, (const char *, int, ...));                                                \
        va_list rest;                                                                              \
        va_start(rest, flags);                                                                     \
        mode_t mode = flags & O_CREAT ? va_arg(rest, mode_t) : 0;                                  \
        va_end(rest);                                                                              \
        return inside(path) && fails(#name) ? -1 : next(path, flags, mode);                        \
    }

OPEN(open)
OPEN(open64)

#define ON_HANDLE(name, takes, given)                                                              \
    int name takes                                                                                 \
    {                                                                                              \
        NEXT(int, #name, takes);                                                                   \
        return of_file(handle) && fails(#name) ? -1 : next given;                                  \
    }

ON_HANDLE(fsync, (int handle), (handle))
ON_HANDLE(flock, (int handle, int operation), (handle, operation))
ON_HANDLE(ftruncate, (int handle, off_t length), (handle, length))
ON_HANDLE(fchmod, (int handle, mode_t mode), (handle, mode))

int rename(const char *old, const char *new)
{
    NEXT(int, "rename", (const char *, const char *));
    return inside(new) && fails("rename") ? -1 : next(old, new);
}

int unlink(const char *path)
{
    NEXT(int, "unlink", (const char *));
    /* What is removed need not be there, so that a failure would go unseen. */
    int removes = !strcmp(how(), "fail") || !strcmp(how(), "full");
    return inside(path) && !removes && fails("unlink") ? -1 : next(path);
}

ssize_t write(int handle, const void *bytes, size_t length)
{
    NEXT(ssize_t, "write", (int, const void *, size_t));
    if (of_file(handle) && !strcmp(how(), "half") && ++count == number("CRASH_AT")) {
        next(handle, bytes, length / 2);
        raise(SIGKILL);
    }
    return of_file(handle) && fails("write") ? -1 : next(handle, bytes, length);
}

/* Refuses steps of replacing a file, to see how a program answers that.
 *
 * Loaded before a program (LD_PRELOAD). REFUSE_STEP names the step: `create` refuses to make a new file, `write` to write
 * into one, `rest` lets one byte be written and then nothing more, `owner` refuses another owner or group, `mode` another
 * mode, `sync` to bring it to the disk, `rename` to rename it; `edit` refuses nothing, but puts `EDITED` at the front of the
 * old file before the new one is brought to the disk. The refused call sets ENOSPC. Only files whose name has
 * `.just-format` in it are meant. For each refusal a byte goes to the file descriptor 9, so that the caller knows whether
 * there was one. A new file that others than its owner may read, write or run from the start is refused at every step.
 */
#define _GNU_SOURCE
#include <dlfcn.h>
#include <errno.h>
#include <fcntl.h>
#include <stdarg.h>
#include <stdlib.h>
#include <string.h>
#include <sys/types.h>
#include <unistd.h>

enum { NOTES = 9 };

static int new_file = -1;
static int written = 0;

static int is_step(const char *step)
{
    const char *wanted = getenv("REFUSE_STEP");
    return wanted != NULL && strcmp(wanted, step) == 0;
}

static int refuse(void)
{
    static ssize_t (*next)(int, const void *, size_t);
    if (next == NULL)
        *(void **)&next = dlsym(RTLD_NEXT, "write");
    (void)next(NOTES, "!", 1);
    errno = ENOSPC;
    return -1;
}

static int is_new(const char *path, int flags)
{
    return (flags & O_CREAT) != 0 && strstr(path, ".just-format") != NULL;
}

int openat(int folder, const char *path, int flags, ...)
{
    static int (*next)(int, const char *, int, ...);
    if (next == NULL)
        *(void **)&next = dlsym(RTLD_NEXT, "openat");
    va_list rest;
    va_start(rest, flags);
    mode_t mode = (flags & (O_CREAT | O_TMPFILE)) != 0 ? va_arg(rest, mode_t) : 0;
    va_end(rest);
    if (is_new(path, flags) && (is_step("create") || (mode & 077) != 0))
        return refuse();
    int file = next(folder, path, flags, mode);
    if (is_new(path, flags))
        new_file = file;
    return file;
}

int open(const char *path, int flags, ...)
{
    va_list rest;
    va_start(rest, flags);
    mode_t mode = (flags & (O_CREAT | O_TMPFILE)) != 0 ? va_arg(rest, mode_t) : 0;
    va_end(rest);
    return openat(AT_FDCWD, path, flags, mode);
}

int open64(const char *path, int flags, ...) __attribute__((alias("open")));
int openat64(int folder, const char *path, int flags, ...) __attribute__((alias("openat")));

ssize_t write(int file, const void *bytes, size_t count)
{
    static ssize_t (*next)(int, const void *, size_t);
    if (next == NULL)
        *(void **)&next = dlsym(RTLD_NEXT, "write");
    if (file == new_file && is_step("write"))
        return refuse();
    if (file == new_file && is_step("rest")) {
        if (written)
            return refuse();
        written = 1;
        return next(file, bytes, count > 0 ? 1 : 0);
    }
    return next(file, bytes, count);
}

int fchown(int file, uid_t owner, gid_t group)
{
    static int (*next)(int, uid_t, gid_t);
    if (next == NULL)
        *(void **)&next = dlsym(RTLD_NEXT, "fchown");
    if (file == new_file && is_step("owner"))
        return refuse();
    return next(file, owner, group);
}

int fchmod(int file, mode_t mode)
{
    static int (*next)(int, mode_t);
    if (next == NULL)
        *(void **)&next = dlsym(RTLD_NEXT, "fchmod");
    if (file == new_file && is_step("mode"))
        return refuse();
    return next(file, mode);
}

static void edit(void)
{
    static int (*next_openat)(int, const char *, int, ...);
    static ssize_t (*next_write)(int, const void *, size_t);
    *(void **)&next_openat = dlsym(RTLD_NEXT, "openat");
    *(void **)&next_write = dlsym(RTLD_NEXT, "write");
    int old = next_openat(AT_FDCWD, "justfile", O_WRONLY);
    (void)!next_write(old, "EDITED", 6);
    (void)close(old);
}

int fsync(int file)
{
    static int (*next)(int);
    if (next == NULL)
        *(void **)&next = dlsym(RTLD_NEXT, "fsync");
    if (file == new_file && is_step("sync"))
        return refuse();
    if (file == new_file && is_step("edit"))
        edit();
    return next(file);
}

int rename(const char *old, const char *new)
{
    static int (*next)(const char *, const char *);
    if (next == NULL)
        *(void **)&next = dlsym(RTLD_NEXT, "rename");
    if (is_step("rename"))
        return refuse();
    return next(old, new);
}

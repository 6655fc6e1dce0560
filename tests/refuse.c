/* A library that is loaded before a program's own, and refuses one call: the one numbered REFUSE_NUMBER, from 1, of the
   function REFUSE_CALL. With REFUSE_LOG it writes there, at the program's end, "1" if a call was refused, else "0".

   A refused call does nothing, and answers as the system would: no memory, a full disk, a fault of the device. A write to a
   file that is lost tells no fault, nor does an unlink that keeps the file, as where another program puts it there again. A
   read or write of one byte where more were wanted is no fault. Nor is a look at a file that tells another device than the
   file's own, as where another file system was mounted meanwhile. No file is to be renamed or removed before it is closed: a
   system may refuse the one, and keeps the blocks of the other. Before a call of fchmod that stops the process stops itself,
   until it is told to go on.  */
#define _GNU_SOURCE
#include <dlfcn.h>
#include <errno.h>
#include <fcntl.h>
#include <signal.h>
#include <stdarg.h>
#include <stdio.h>
#include <stdlib.h>
#include <string.h>
#include <sys/file.h>
#include <sys/stat.h>
#include <sys/types.h>
#include <unistd.h>

static const char *refused_name;
static long refused_number;
static long made;
static int refused;

__attribute__((constructor)) static void begin(void) {
    const char *number = getenv("REFUSE_NUMBER");
    refused_number = number ? strtol(number, NULL, 10) : 0;
    made = 0;
    refused_name = getenv("REFUSE_CALL");
}

__attribute__((destructor)) static void end(void) {
    const char *path = getenv("REFUSE_LOG");
    refused_name = NULL;
    if (path == NULL) return;
    FILE *log = fopen(path, "w");
    if (log == NULL) return;
    fputc(refused ? '1' : '0', log);
    fclose(log);
}

static int is_refused(const char *name, int error) {
    if (refused_name == NULL || strcmp(refused_name, name) != 0) return 0;
    if (++made != refused_number) return 0;
    refused = 1;
    errno = error;
    return 1;
}

/* The function of this name that stands after this library. */
#define NEXT(name) ((__typeof__(&name))dlsym(RTLD_NEXT, #name))

extern void *__libc_malloc(size_t);
extern void *__libc_realloc(void *, size_t);

void *malloc(size_t size) { return is_refused("malloc", ENOMEM) ? NULL : __libc_malloc(size); }

void *realloc(void *old, size_t size) { return is_refused("realloc", ENOMEM) ? NULL : __libc_realloc(old, size); }

ssize_t read(int file, void *bytes, size_t size) {
    if (is_refused("read", EIO) || is_refused("interrupted read", EINTR)) return -1;
    return NEXT(read)(file, bytes, size > 1 && is_refused("short read", 0) ? 1 : size);
}

static int is_regular(int file) {
    struct stat there;
    return fstat(file, &there) == 0 && S_ISREG(there.st_mode);
}

ssize_t write(int file, const void *bytes, size_t size) {
    if (is_refused("write", ENOSPC)) return -1;
    if (is_regular(file) && is_refused("lost write", 0)) return (ssize_t)size;
    return NEXT(write)(file, bytes, size > 1 && is_refused("short write", 0) ? 1 : size);
}

ssize_t __write(int file, const void *bytes, size_t size) { return write(file, bytes, size); }

int open(const char *path, int flags, ...) {
    va_list rest;
    va_start(rest, flags);
    mode_t mode = flags & O_CREAT ? va_arg(rest, mode_t) : 0;
    va_end(rest);
    return is_refused("open", EACCES) ? -1 : NEXT(open)(path, flags, mode);
}

int statx(int folder, const char *restrict path, int flags, unsigned mask, struct statx *restrict answer) {
    if (is_refused("statx", EIO)) return -1;
    int told = NEXT(statx)(folder, path, flags, mask, answer);
    if (told == 0 && is_refused("other device", 0)) answer->stx_dev_minor ^= 1;
    return told;
}

char *realpath(const char *restrict path, char *restrict answer) {
    return is_refused("realpath", EIO) ? NULL : NEXT(realpath)(path, answer);
}

int flock(int file, int how) { return is_refused("flock", ENOLCK) ? -1 : NEXT(flock)(file, how); }

int fchmod(int file, mode_t mode) {
    if (is_refused("stopped fchmod", 0)) raise(SIGSTOP);
    return is_refused("fchmod", EPERM) ? -1 : NEXT(fchmod)(file, mode);
}

/* Whether a file is open to be written. */
static int is_one_written(void) {
    for (int file = 3; file < 64; file++) {
        int flags = fcntl(file, F_GETFL);
        if (flags != -1 && (flags & O_ACCMODE) != O_RDONLY && is_regular(file)) return 1;
    }
    return 0;
}

int rename(const char *from, const char *to) {
    if (is_one_written() && is_refused("rename of an open file", EBUSY)) return -1;
    return is_refused("rename", EXDEV) ? -1 : NEXT(rename)(from, to);
}

int unlink(const char *path) {
    if (is_refused("kept unlink", 0)) return 0;
    if (is_one_written() && is_refused("unlink of an open file", EBUSY)) return -1;
    return is_refused("unlink", EPERM) ? -1 : NEXT(unlink)(path);
}

int close(int file) {
    if (!is_refused("close", EIO)) return NEXT(close)(file);
    NEXT(close)(file);
    errno = EIO;
    return -1;
}

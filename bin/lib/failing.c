/* Loaded before a program (LD_PRELOAD), this lets one of its calls fail, or ends the process there.
 *
 *   FAIL_OF=memory|calls     what is counted: the growths of memory, or the calls of the system
 *   FAIL_AT=N                which of them fails, from 1
 *   FAIL_HOW=error|kill      it fails and does nothing; or the process ends as by kill -9, and a write has half its bytes
 *   FAIL_TOLD=FD             where the name of that call is written
 *
 * With FAIL_HOW=short each read and write moves one byte, and none fails. */
#define _GNU_SOURCE
#include <dlfcn.h>
#include <errno.h>
#include <fcntl.h>
#include <signal.h>
#include <stdarg.h>
#include <stdlib.h>
#include <string.h>
#include <sys/socket.h>
#include <sys/stat.h>
#include <sys/syscall.h>
#include <sys/uio.h>
#include <unistd.h>

enum counted { MEMORY, CALLS };

static enum counted of;
static long at = -1, count = 0;
static int told = -1, kills = 0, is_short = 0;

static const char *given(const char *name, const char *otherwise) {
    const char *value = getenv(name);
    return value ? value : otherwise;
}

__attribute__((constructor)) static void begin(void) {
    of = strcmp(given("FAIL_OF", ""), "memory") == 0 ? MEMORY : CALLS;
    kills = strcmp(given("FAIL_HOW", ""), "kill") == 0;
    is_short = strcmp(given("FAIL_HOW", ""), "short") == 0;
    told = atoi(given("FAIL_TOLD", "-1"));
    at = atol(given("FAIL_AT", "-1"));
}

/* Whether this call is the one that fails. */
static int is_due(enum counted what, const char *name) {
    if (at < 0 || what != of || ++count != at)
        return 0;
    if (told >= 0)
        syscall(SYS_write, told, name, strlen(name));
    return 1;
}

static int fails(enum counted what, const char *name, int error) {
    if (!is_due(what, name))
        return 0;
    if (kills)
        raise(SIGKILL);
    errno = error;
    return 1;
}

/* The function of this name that stands behind this one. */
#define BEHIND(type, name, ...)                                                                                        \
    static type (*behind)(__VA_ARGS__);                                                                                \
    if (!behind)                                                                                                       \
        behind = (type (*)(__VA_ARGS__))dlsym(RTLD_NEXT, name)

/* A function that fails with this value and this error, and else does what the one behind it does. */
#define CALL(what, type, name, forms, args, failed, error, ...)                                                        \
    type name forms {                                                                                                  \
        BEHIND(type, #name, __VA_ARGS__);                                                                              \
        return fails(what, #name, error) ? failed : behind args;                                                       \
    }

CALL(MEMORY, void *, malloc, (size_t size), (size), NULL, ENOMEM, size_t)
CALL(MEMORY, void *, realloc, (void *block, size_t size), (block, size), NULL, ENOMEM, void *, size_t)
CALL(CALLS, int, statx, (int dir, const char *path, int flags, unsigned mask, struct statx *found),
     (dir, path, flags, mask, found), -1, EIO, int, const char *, int, unsigned, struct statx *)
CALL(CALLS, char *, realpath, (const char *path, char *resolved), (path, resolved), NULL, EIO, const char *, char *)
CALL(CALLS, int, fchmod, (int file, mode_t mode), (file, mode), -1, EPERM, int, mode_t)
CALL(CALLS, int, fsync, (int file), (file), -1, EIO, int)
CALL(CALLS, int, rename, (const char *from, const char *to), (from, to), -1, EIO, const char *, const char *)
CALL(CALLS, int, unlink, (const char *path), (path), -1, EIO, const char *)
CALL(CALLS, int, socket, (int domain, int type, int protocol), (domain, type, protocol), -1, EMFILE, int, int, int)
CALL(CALLS, int, bind, (int file, const struct sockaddr *to, socklen_t size), (file, to, size), -1, EADDRINUSE, int,
     const struct sockaddr *, socklen_t)
CALL(CALLS, int, listen, (int file, int backlog), (file, backlog), -1, EADDRINUSE, int, int)
CALL(CALLS, int, accept4, (int file, struct sockaddr *from, socklen_t *size, int flags), (file, from, size, flags), -1, EMFILE,
     int, struct sockaddr *, socklen_t *, int)
CALL(CALLS, int, connect, (int file, const struct sockaddr *to, socklen_t size), (file, to, size), -1, ECONNREFUSED, int,
     const struct sockaddr *, socklen_t)
CALL(CALLS, int, getsockname, (int file, struct sockaddr *name, socklen_t *size), (file, name, size), -1, EIO, int,
     struct sockaddr *, socklen_t *)
CALL(CALLS, int, setsockopt, (int file, int level, int name, const void *value, socklen_t size),
     (file, level, name, value, size), -1, EIO, int, int, int, const void *, socklen_t)
CALL(CALLS, int, shutdown, (int file, int how), (file, how), -1, EIO, int, int)

/* A file is closed whatever its close answers. */
int close(int file) {
    BEHIND(int, "close", int);
    int is_failing = fails(CALLS, "close", EIO), status = behind(file);
    if (is_failing)
        errno = EIO;
    return is_failing ? -1 : status;
}

int open(const char *path, int flags, ...) {
    BEHIND(int, "open", const char *, int, ...);
    va_list rest;
    va_start(rest, flags);
    mode_t mode = flags & O_CREAT ? va_arg(rest, mode_t) : 0;
    va_end(rest);
    return fails(CALLS, "open", EMFILE) ? -1 : behind(path, flags, mode);
}

static size_t moved(size_t size) {
    return is_short && size > 1 ? 1 : size;
}

#define READ(name, forms, args, ...)                                                                                   \
    ssize_t name forms {                                                                                               \
        BEHIND(ssize_t, #name, __VA_ARGS__);                                                                           \
        if (fails(CALLS, #name, EIO))                                                                                  \
            return -1;                                                                                                 \
        size = moved(size);                                                                                            \
        return behind args;                                                                                            \
    }

/* A write that ends the process has half its bytes. */
#define WRITE(name, forms, args, ...)                                                                                  \
    ssize_t name forms {                                                                                               \
        BEHIND(ssize_t, #name, __VA_ARGS__);                                                                           \
        if (is_due(CALLS, #name)) {                                                                                    \
            if (kills) {                                                                                               \
                size /= 2;                                                                                             \
                behind args;                                                                                           \
                raise(SIGKILL);                                                                                        \
            }                                                                                                          \
            errno = ENOSPC;                                                                                            \
            return -1;                                                                                                 \
        }                                                                                                              \
        size = moved(size);                                                                                            \
        return behind args;                                                                                            \
    }

READ(read, (int file, void *bytes, size_t size), (file, bytes, size), int, void *, size_t)
READ(recv, (int file, void *bytes, size_t size, int flags), (file, bytes, size, flags), int, void *, size_t, int)
WRITE(write, (int file, const void *bytes, size_t size), (file, bytes, size), int, const void *, size_t)
WRITE(send, (int file, const void *bytes, size_t size, int flags), (file, bytes, size, flags), int, const void *, size_t, int)

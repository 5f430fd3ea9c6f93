/* Makes one call of a program fail, or that one and all after it: LD_PRELOAD=failing.so FAIL_CALL=WORD FAIL_AT=N [FAIL_ON=1] [FAIL_NOTE=FILE] PROGRAM ..

   FAIL_CALL=alloc counts the calls of malloc, calloc, realloc, aligned_alloc and posix_memalign that ask for memory, of the whole process, from 1; the Nth finds none. Each other WORD is
   a call of the C library: read, write, open, socket, connect, bind, listen, accept4, chmod, recv, send, clock_gettime, openat, statx, getdents64, pread, pwrite, link, unlinkat,
   pthread_create. The Nth fails with EIO, pthread_create with EAGAIN. With FAIL_ON the ones after it fail too. FILE is made once the Nth call comes.
   Built by: cc -O2 -shared -fPIC -o failing.so failing.c -ldl */
#define _GNU_SOURCE
#include <dlfcn.h>
#include <errno.h>
#include <fcntl.h>
#include <pthread.h>
#include <stdatomic.h>
#include <stdlib.h>
#include <string.h>
#include <sys/socket.h>
#include <sys/stat.h>
#include <sys/syscall.h>
#include <time.h>
#include <unistd.h>

extern void *__libc_malloc(size_t);
extern void *__libc_calloc(size_t, size_t);
extern void *__libc_realloc(void *, size_t);
extern void *__libc_memalign(size_t, size_t);

static atomic_long calls;
static _Atomic int state; /* 0: the environment isn't read; 1: nothing fails; 2: something does */
static long at;
static int goes_on;
static const char *word, *note;

static int begin(void) {
    if (state == 0) {
        const char *number = getenv("FAIL_AT");
        word = getenv("FAIL_CALL");
        note = getenv("FAIL_NOTE");
        goes_on = getenv("FAIL_ON") != NULL;
        at = number ? atol(number) : 0;
        state = word && at > 0 ? 2 : 1;
    }
    return state == 2;
}

/* Whether this call fails. */
static int fails(const char *name) {
    if (!begin() || strcmp(name, word))
        return 0;
    long number = atomic_fetch_add(&calls, 1) + 1;
    if (number == at && note)
        syscall(SYS_close, syscall(SYS_openat, AT_FDCWD, note, O_CREAT | O_WRONLY, 0600));
    return number == at || (goes_on && number > at);
}

static void *nothing(void) {
    errno = ENOMEM;
    return NULL;
}

void *malloc(size_t size) { return fails("alloc") ? nothing() : __libc_malloc(size); }
void *calloc(size_t count, size_t size) { return fails("alloc") ? nothing() : __libc_calloc(count, size); }
void *realloc(void *old, size_t size) { return fails("alloc") ? nothing() : __libc_realloc(old, size); }
void *aligned_alloc(size_t align, size_t size) { return fails("alloc") ? nothing() : __libc_memalign(align, size); }

int posix_memalign(void **to, size_t align, size_t size) {
    if (fails("alloc"))
        return ENOMEM;
    *to = __libc_memalign(align, size);
    return *to ? 0 : ENOMEM;
}

/* A call of the C library that fails with EIO where it is to. */
#define CALL(kind, name, takes, gives)                                                                                                                                                   \
    kind name takes {                                                                                                                                                                    \
        static kind(*own) takes;                                                                                                                                                         \
        if (fails(#name)) {                                                                                                                                                              \
            errno = EIO;                                                                                                                                                                 \
            return -1;                                                                                                                                                                   \
        }                                                                                                                                                                                \
        if (!own)                                                                                                                                                                        \
            own = (kind(*) takes)dlsym(RTLD_NEXT, #name);                                                                                                                                \
        return own gives;                                                                                                                                                                \
    }

CALL(ssize_t, read, (int fd, void *to, size_t count), (fd, to, count))
CALL(ssize_t, write, (int fd, const void *from, size_t count), (fd, from, count))
CALL(ssize_t, recv, (int fd, void *to, size_t count, int flags), (fd, to, count, flags))
CALL(ssize_t, send, (int fd, const void *from, size_t count, int flags), (fd, from, count, flags))
CALL(int, socket, (int domain, int type, int protocol), (domain, type, protocol))
CALL(int, connect, (int fd, const struct sockaddr *to, socklen_t size), (fd, to, size))
CALL(int, bind, (int fd, const struct sockaddr *to, socklen_t size), (fd, to, size))
CALL(int, listen, (int fd, int count), (fd, count))
CALL(int, accept4, (int fd, struct sockaddr *from, socklen_t *size, int flags), (fd, from, size, flags))
CALL(int, chmod, (const char *path, mode_t mode), (path, mode))
CALL(int, clock_gettime, (clockid_t clock, struct timespec *to), (clock, to))
CALL(int, statx, (int folder, const char *path, int flags, unsigned mask, struct statx *to), (folder, path, flags, mask, to))
CALL(ssize_t, getdents64, (int fd, void *to, size_t count), (fd, to, count))
CALL(ssize_t, pread, (int fd, void *to, size_t count, off_t at), (fd, to, count, at))
CALL(ssize_t, pwrite, (int fd, const void *from, size_t count, off_t at), (fd, from, count, at))
CALL(int, link, (const char *from, const char *to), (from, to))
CALL(int, unlinkat, (int folder, const char *path, int flags), (folder, path, flags))

int open(const char *path, int flags, ...) {
    static int (*own)(const char *, int, ...);
    __builtin_va_list rest;
    __builtin_va_start(rest, flags);
    mode_t mode = flags & (O_CREAT | O_TMPFILE) ? __builtin_va_arg(rest, mode_t) : 0;
    __builtin_va_end(rest);
    if (fails("open")) {
        errno = EIO;
        return -1;
    }
    if (!own)
        own = (int (*)(const char *, int, ...))dlsym(RTLD_NEXT, "open");
    return own(path, flags, mode);
}

int openat(int folder, const char *path, int flags, ...) {
    static int (*own)(int, const char *, int, ...);
    __builtin_va_list rest;
    __builtin_va_start(rest, flags);
    mode_t mode = flags & (O_CREAT | O_TMPFILE) ? __builtin_va_arg(rest, mode_t) : 0;
    __builtin_va_end(rest);
    if (fails("openat")) {
        errno = EIO;
        return -1;
    }
    if (!own)
        own = (int (*)(int, const char *, int, ...))dlsym(RTLD_NEXT, "openat");
    return own(folder, path, flags, mode);
}

int pthread_create(pthread_t *to, const pthread_attr_t *how, void *(*begins)(void *), void *with) {
    static int (*own)(pthread_t *, const pthread_attr_t *, void *(*)(void *), void *);
    if (fails("pthread_create"))
        return EAGAIN;
    if (!own)
        own = (int (*)(pthread_t *, const pthread_attr_t *, void *(*)(void *), void *))dlsym(RTLD_NEXT, "pthread_create");
    return own(to, how, begins, with);
}

/* Makes up what a program reads, without end: LD_PRELOAD=endless.so ENDLESS_BEGINS=FILE ENDLESS_BLOCK=FILE ENDLESS_COUNT=FILE PROGRAM ..

   What `recv` gives, or where ENDLESS_INPUT is there what `read` gives of the standard input, are the bytes of the first file and then those of the second again and again. What is
   sent goes nowhere, `connect`, `listen` and `accept4` find their peer at once. The third file, of 8 bytes, holds how many were given. Built by: cc -O2 -shared -fPIC -o endless.so endless.c -ldl */
#define _GNU_SOURCE
#include <dlfcn.h>
#include <errno.h>
#include <fcntl.h>
#include <stdint.h>
#include <stdlib.h>
#include <string.h>
#include <sys/mman.h>
#include <sys/socket.h>
#include <sys/stat.h>
#include <unistd.h>

static unsigned char *begins, *block; /* the block stands twice */
static size_t begins_len, block_len, begins_at, block_at;
static volatile uint64_t *count;
static int is_input, peers = 1;
static ssize_t (*own_read)(int, void *, size_t);

static unsigned char *loaded(const char *name, size_t *len, int times) {
    struct stat found;
    int fd = open(getenv(name), O_RDONLY);
    if (fd < 0 || fstat(fd, &found))
        _exit(99);
    unsigned char *at = malloc(found.st_size * times + 1);
    for (*len = 0; *len < (size_t)found.st_size;) {
        ssize_t got = own_read(fd, at + *len, found.st_size - *len);
        if (got <= 0)
            _exit(99);
        *len += got;
    }
    close(fd);
    for (int i = 1; i < times; i++)
        memcpy(at + i * *len, at, *len);
    return at;
}

__attribute__((constructor)) static void begin(void) {
    own_read = (ssize_t(*)(int, void *, size_t))dlsym(RTLD_NEXT, "read");
    if (!getenv("ENDLESS_BEGINS"))
        return;
    begins = loaded("ENDLESS_BEGINS", &begins_len, 1);
    block = loaded("ENDLESS_BLOCK", &block_len, 2);
    int fd = open(getenv("ENDLESS_COUNT"), O_RDWR);
    count = mmap(NULL, 8, PROT_READ | PROT_WRITE, MAP_SHARED, fd, 0);
    if (fd < 0 || count == MAP_FAILED)
        _exit(99);
    is_input = getenv("ENDLESS_INPUT") != NULL;
}

static ssize_t give(void *to, size_t room) {
    if (begins_at < begins_len) {
        size_t len = begins_len - begins_at < room ? begins_len - begins_at : room;
        memcpy(to, begins + begins_at, len);
        begins_at += len;
        *count += len;
        return len;
    }
    size_t len = room < block_len ? room : block_len;
    memcpy(to, block + block_at, len);
    block_at = (block_at + len) % block_len;
    *count += len;
    return len;
}

ssize_t recv(int fd, void *to, size_t room, int flags) { return (void)fd, (void)flags, give(to, room); }

ssize_t read(int fd, void *to, size_t room) { return is_input && fd == 0 ? give(to, room) : own_read(fd, to, room); }

ssize_t send(int fd, const void *from, size_t len, int flags) { return (void)fd, (void)from, (void)flags, (ssize_t)len; }

int connect(int fd, const struct sockaddr *to, socklen_t size) { return (void)fd, (void)to, (void)size, 0; }
int bind(int fd, const struct sockaddr *to, socklen_t size) { return (void)fd, (void)to, (void)size, 0; }
int listen(int fd, int backlog) { return (void)fd, (void)backlog, 0; }
int chmod(const char *path, mode_t mode) { return (void)path, (void)mode, 0; }
int unlink(const char *path) { return (void)path, 0; }
int shutdown(int fd, int way) { return (void)fd, (void)way, 0; }

int accept4(int fd, struct sockaddr *from, socklen_t *size, int flags) {
    (void)fd, (void)flags;
    if (peers-- <= 0) {
        errno = EINVAL;
        return -1;
    }
    if (from && size && *size >= sizeof from->sa_family) {
        from->sa_family = AF_UNIX;
        *size = sizeof from->sa_family;
    }
    return socket(AF_UNIX, SOCK_STREAM, 0);
}

/* Plays very many changed channels to a program, which many.py runs with this loaded into it (LD_PRELOAD): before `main` the process forks once for each channel. The child goes on as
   the program, whose script is a file in memory, and whose `connect` or `accept4` gives it one end of a pair of sockets. The parent says the channel on the other end, reads what
   comes, and looks at the status, the lines and the memory. A channel is changed as mutate.py changes it. The environment says what is played:

   MANY_SOURCES: a file of channels, as many.py writes it; MANY_SEED, MANY_FIRST, MANY_COUNT: which sessions; MANY_KEEP: a folder for the channels of sessions that are bad. */
#define _GNU_SOURCE
#include <errno.h>
#include <fcntl.h>
#include <poll.h>
#include <signal.h>
#include <stdint.h>
#include <stdio.h>
#include <stdlib.h>
#include <string.h>
#include <sys/mman.h>
#include <sys/resource.h>
#include <sys/socket.h>
#include <sys/stat.h>
#include <sys/syscall.h>
#include <sys/wait.h>
#include <time.h>
#include <unistd.h>

enum { MAX_MESSAGES = 4096, MAX_FRAMES = 1 << 17, SMALL = 3000, LIMIT_MS = 20000, PEAK_KB = 65536, MAX_KINDS = 64 };
static const size_t ARENA = 256u << 20, MAX_CHANNEL = 12u << 20;

typedef struct {
    const uint8_t *at;
    size_t len;
} Slice;

typedef struct {
    Slice *at;
    int count;
} List;

typedef struct {
    Slice script, other_script;
    int devices, lines;
    List said, other;
} Source;

/* Memory that no child gets: the sources first, then what a session makes. */
static uint8_t *arena;
static size_t used, begun;

static void *take(size_t count) {
    if (used + count > ARENA) {
        fputs("many: a channel takes too much memory\n", stderr);
        _exit(2);
    }
    void *at = arena + used;
    used += (count + 15) & ~(size_t)15;
    return at;
}

/* --- draws --- */

static uint64_t drawn;

static uint64_t draw(void) {
    uint64_t z = (drawn += 0x9e3779b97f4a7c15u);
    z = (z ^ (z >> 30)) * 0xbf58476d1ce4e5b9u;
    z = (z ^ (z >> 27)) * 0x94d049bb133111ebu;
    return z ^ (z >> 31);
}

static uint64_t below(uint64_t count) { return count ? draw() % count : 0; }

static int is_drawn(int percent) { return below(100) < (uint64_t)percent; }

#define CHOICE(array) (array)[below(sizeof(array) / sizeof *(array))]

/* --- changes --- */

static const uint64_t EDGES[] = {0, 1, 2, 3, 4, 7, 8, 9, 12, 16, 63, 64, 65, 127, 128, 255, 256, 257, 511, 512, 513, 1023, 1024, 1025, 4095, 4096, 4097, 16383, 16384, 16385, 65535, 65536,
                                 1 << 20, (1 << 20) + 1, (1u << 31) - 1, 1u << 31, 0xfffffffcu, 0xffffffffu};
static const uint64_t FRAME_EDGES[] = {0, 1, 7, 8, 9, 10, 16391, 16392, 16393, 1052672, 1052673, 1u << 31, 0xffffffffu};

typedef struct {
    const char *begins;
    uint32_t major;
    uint8_t fields[16]; /* place and size in turn, up to a size of 0 */
} Fields;

static const uint32_t ANY = 0xffffffffu;
static const Fields FIELDS[] = {
    {"rDnI", ANY, {4, 2, 6, 2, 8, 4}}, {"rDCC", ANY, {4, 2, 6, 2, 8, 4}}, {"rDNC", ANY, {4, 4, 8, 4, 12, 4}}, {"rDrd", ANY, {4, 4, 8, 4}},
    {"rDPS", ANY, {4, 2, 8, 2, 10, 2, 12, 4}}, {"rDPC", ANY, {4, 2, 8, 2, 10, 2, 12, 4}}, {"rDAD", ANY, {4, 4, 8, 4, 12, 4, 24, 4}}, {"rDMD", ANY, {4, 4, 8, 4}},
    {"rDCI", ANY, {4, 4, 8, 4, 12, 4, 16, 4, 20, 4}}, {"rDRI", ANY, {4, 4, 8, 4, 12, 4, 16, 4, 20, 4}},
    {"rDRI", 0, {24, 4, 28, 8, 36, 4, 40, 4, 44, 4, 48, 4, 52, 4}}, {"rDRI", 3, {24, 4, 28, 8}}, {"rDRI", 4, {24, 4, 28, 8}}, {"rDRI", 14, {24, 4, 28, 4, 32, 4}},
    {"rDRI", 5, {24, 4, 28, 4}}, {"rDRI", 6, {24, 4, 28, 4, 56, 4, 60, 2, 58, 4}}, {"rDRI", 10, {24, 4, 28, 4}}, {"rDRI", 11, {24, 4, 28, 4}}, {"rDRI", 12, {24, 4, 28, 1, 29, 4}},
    {"rDRI", 17, {24, 4, 28, 4, 32, 4, 56, 8, 64, 8}},
};

static uint64_t number_at(Slice it, size_t place, size_t size) {
    uint64_t number = 0;
    for (size_t i = 0; i < size && place + i < it.len; i++)
        number |= (uint64_t)it.at[place + i] << (8 * i);
    return number;
}

static Slice copied(Slice it, size_t more) {
    uint8_t *at = take(it.len + more);
    memcpy(at, it.at, it.len);
    return (Slice){at, it.len};
}

static int begins(Slice it, const char *word) { return it.len >= 4 && !memcmp(it.at, word, 4); }

/* The places and sizes of the fields of a message. */
static const uint8_t *fields_of(Slice it) {
    const uint8_t *found = NULL;
    int is_by_major = is_drawn(70);
    for (size_t i = 0; i < sizeof FIELDS / sizeof *FIELDS; i++)
        if (begins(it, FIELDS[i].begins) && (FIELDS[i].major == ANY || (is_by_major && number_at(it, 16, 4) == FIELDS[i].major)))
            found = FIELDS[i].fields;
    return found;
}

/* A message one field of which has another value. */
static Slice changed_field(Slice it) {
    const uint8_t *fields = fields_of(it);
    static const int SIZES[] = {1, 2, 4, 8};
    size_t place = below(it.len + 1), size = CHOICE(SIZES);
    if (fields && is_drawn(80)) {
        size_t count = 0;
        while (count < 8 && fields[2 * count + 1])
            count++;
        size_t drawn_field = below(count);
        place = fields[2 * drawn_field], size = fields[2 * drawn_field + 1];
    }
    uint64_t old = number_at(it, place, size), value = 0;
    switch (below(7)) {
    case 0: value = CHOICE(EDGES); break;
    case 1: value = old + 1; break;
    case 2: value = old - 1; break;
    case 3: value = old ^ 1ull << below(8 * size); break;
    case 4: value = draw(); break;
    case 5: value = it.len; break;
    default: value = -CHOICE(EDGES);
    }
    Slice made = copied(it, 0);
    for (size_t i = 0; i < size && place + i < it.len; i++)
        ((uint8_t *)made.at)[place + i] = value >> (8 * i);
    return made;
}

static void insert(List *list, int at, Slice it) {
    if (list->count >= MAX_MESSAGES)
        return;
    memmove(list->at + at + 1, list->at + at, (list->count - at) * sizeof *list->at);
    list->at[at] = it;
    list->count++;
}

static Slice removed(List *list, int at) {
    Slice it = list->at[at];
    memmove(list->at + at, list->at + at + 1, (list->count - at - 1) * sizeof *list->at);
    list->count--;
    return it;
}

static Slice longer(Slice it) {
    static const size_t COUNTS[] = {1, 4, 100, 20000};
    size_t more = CHOICE(COUNTS);
    Slice made = copied(it, more);
    for (size_t i = 0; i < more; i++)
        ((uint8_t *)made.at)[it.len + i] = draw();
    made.len += more;
    return made;
}

/* One change of a list of messages. */
static void change(List *list, List other, List strangers) {
    int at = below(list->count), way = below(10);
    if (list->count == 0) {
        insert(list, 0, strangers.at[below(strangers.count)]);
    } else if (way <= 3) {
        list->at[at] = changed_field(list->at[at]);
    } else if (way == 4) {
        static const int COUNTS[] = {1, 1, 1, 2, 70};
        Slice it = list->at[at];
        for (int count = CHOICE(COUNTS); count > (it.len > 4096 ? 69 : 0); count--)
            insert(list, at, it);
    } else if (way == 5) {
        Slice it = removed(list, at);
        insert(list, below(list->count + 1), it);
    } else if (way == 6) {
        removed(list, at);
    } else if (way == 7) {
        list->at[at].len = below(list->at[at].len + 1);
    } else if (way == 8) {
        list->at[at] = longer(list->at[at]);
    } else if (other.count && is_drawn(50)) {
        insert(list, at, other.at[below(other.count)]);
    } else {
        insert(list, at, strangers.at[below(strangers.count)]);
    }
}

static void put(uint8_t *at, uint32_t number) {
    for (int i = 0; i < 4; i++)
        at[i] = number >> (8 * i);
}

/* Changes the size, the length, the flags or the bytes of a frame, behind which there is room for 16 bytes; it returns the new length. */
static size_t change_frame(uint8_t *frame, size_t len) {
    static const uint32_t FLAGS[] = {0, 1, 2, 3, 0x10, 0x200000, 0x400000, 0x13};
    uint32_t edge = CHOICE(FRAME_EDGES), length = number_at((Slice){frame, len}, 4, 4);
    switch (below(5)) {
    case 0: put(frame, edge); return len;
    case 1: put(frame + 4, is_drawn(50) ? edge : length + (is_drawn(50) ? 1 : -1)); return len;
    case 2: put(frame + 8, below(9) ? CHOICE(FLAGS) : draw()); return len;
    case 3: return below(len + 1);
    default: {
        static const size_t COUNTS[] = {1, 12, 13};
        size_t more = CHOICE(COUNTS);
        for (size_t i = 0; i < more; i++)
            frame[len + i] = draw();
        return len + more;
    }
    }
}

/* How many bytes the next frame of a message has at most. */
static size_t frame_size(int kind) {
    static const size_t TINY[] = {1, 2, 3}, SOME[] = {7, 100, 1600};
    switch (kind) {
    case 0: return 1600;
    case 1: return 16384;
    case 2: return CHOICE(TINY);
    case 3: return CHOICE(SOME);
    default: return 1 + below(16384);
    }
}

typedef struct {
    uint8_t *at;
    size_t len;
    size_t *ends; /* where each message ends */
    List messages;
} Channel;

/* A changed channel: the frames of each message. */
static Channel channel_of(const Source *source, List strangers) {
    static const int CHANGES[] = {0, 1, 1, 1, 2, 3, 8}, FRAMES[] = {0, 0, 0, 1, 2};
    List list = {take(MAX_MESSAGES * sizeof(Slice)), source->said.count};
    memcpy(list.at, source->said.at, list.count * sizeof(Slice));
    for (int count = CHOICE(CHANGES); count; count--)
        change(&list, source->other, strangers);
    int kind = below(5);
    /* Which frames are changed: of a message each. */
    int left = CHOICE(FRAMES), marks[2] = {-1, -1};
    for (int i = 0; i < left; i++)
        marks[i] = below(list.count);
    size_t room = 0;
    for (int i = 0; i < list.count; i++)
        room += list.at[i].len < SMALL ? 13 * list.at[i].len + 64 : list.at[i].len + (list.at[i].len / 1600 + 2) * 64;
    Channel made = {take(room + 64), 0, take((list.count + 1) * sizeof(size_t)), list};
    for (int i = 0; i < list.count && made.len < MAX_CHANNEL; i++) {
        Slice it = list.at[i];
        size_t size = it.len < SMALL ? frame_size(kind) : 1600, frames = it.len ? (it.len + size - 1) / size : 1;
        int64_t mark = marks[0] == i || marks[1] == i ? (int64_t)below(frames) : -1;
        for (size_t k = 0; k < frames; k++) {
            size_t at = k * size, data = it.len - at < size ? it.len - at : size;
            uint8_t *frame = made.at + made.len;
            put(frame, data + 8);
            put(frame + 4, it.len);
            put(frame + 8, (k == 0) + 2 * (k + 1 == frames));
            memcpy(frame + 12, it.at + at, data);
            made.len += (int64_t)k == mark ? change_frame(frame, data + 12) : data + 12;
        }
        made.ends[i] = made.len;
        made.messages.count = i + 1;
    }
    return made;
}

/* --- what a child's calls do --- */

static int link_fd = -1;

int connect(int fd, const struct sockaddr *to, socklen_t size) {
    (void)to, (void)size;
    if (link_fd < 0) {
        errno = ECONNREFUSED;
        return -1;
    }
    dup2(link_fd, fd);
    close(link_fd);
    link_fd = -1;
    return 0;
}

int bind(int fd, const struct sockaddr *to, socklen_t size) { return (void)fd, (void)to, (void)size, 0; }
int listen(int fd, int count) { return (void)fd, (void)count, 0; }
int chmod(const char *path, mode_t mode) { return (void)path, (void)mode, 0; }
int unlink(const char *path) { return (void)path, 0; }

int accept4(int fd, struct sockaddr *from, socklen_t *size, int flags) {
    (void)fd, (void)flags;
    int given = link_fd;
    link_fd = -1;
    if (given < 0)
        errno = EINVAL;
    if (from && size && *size >= sizeof from->sa_family) {
        from->sa_family = AF_UNIX;
        *size = sizeof from->sa_family;
    }
    return given;
}

/* --- a session --- */

typedef struct {
    int status, peak, lines;
    char last[80];
    const char *why;
} End;

static int is_client, input_fd, output_fd, notes_fd;
static uint8_t *heard;
static size_t heard_len;
static const size_t HEARD = 1 << 20;

static double now_ms(void) {
    struct timespec it;
    clock_gettime(CLOCK_MONOTONIC, &it);
    return it.tv_sec * 1e3 + it.tv_nsec / 1e6;
}

/* Reads what is there. What doesn't fit is forgotten. 0 at the end of the channel. */
static int hear(int link, int keeps) {
    static uint8_t lost[65536];
    for (;;) {
        int fits = keeps && heard_len + sizeof lost <= HEARD;
        ssize_t count = recv(link, fits ? heard + heard_len : lost, sizeof lost, MSG_DONTWAIT);
        if (count <= 0)
            return count < 0 && (errno == EAGAIN || errno == EINTR);
        if (fits)
            heard_len += count;
    }
}

/* Whether two completions name a request by the same ids. */
static int is_alike(Slice one, Slice other) {
    return one.len >= 12 && other.len >= 12 && !memcmp(one.at + 4, other.at + 4, 8);
}

/* Waits a little until so many requests came with the ids of a completion. False where they didn't. */
static int awaits_request(int link, Slice completion, int count) {
    for (double begin = now_ms(); now_ms() - begin < 20;) {
        int found = 0;
        for (uint8_t *at = heard; (at = memmem(at, heard + heard_len - at, "rDRI", 4)) && at + 16 <= heard + heard_len; at++)
            if (completion.len >= 12 && !memcmp(at + 4, completion.at + 4, 4) && !memcmp(at + 12, completion.at + 8, 4) && ++found >= count)
                return 1;
        struct pollfd it = {link, POLLIN, 0};
        poll(&it, 1, 2);
        if (!hear(link, 1))
            return 0;
    }
    return 0;
}

/* Says bytes in such pieces, up to the time limit. False where the other side is gone, or takes nothing. */
static int say(int link, const uint8_t *at, size_t len, size_t piece, int keeps, const char **why) {
    int rounds = 0;
    while (len) {
        ssize_t count = send(link, at, len < piece ? len : piece, MSG_DONTWAIT | MSG_NOSIGNAL);
        if (count > 0) {
            at += count, len -= count;
            if (++rounds % 64 == 0 && !hear(link, keeps))
                return 0;
            continue;
        }
        if (errno != EAGAIN)
            return 0;
        struct pollfd it = {link, POLLIN | POLLOUT, 0};
        if (poll(&it, 1, LIMIT_MS) == 0) {
            *why = "it takes nothing";
            return 0;
        }
        if (!hear(link, keeps))
            return 0;
    }
    return 1;
}

static int is_word(const char *at, const char *end) {
    const char *begin = at;
    while (at < end && ((*at >= 'a' && *at <= 'z') || (*at >= 'A' && *at <= 'Z')))
        at++;
    return at == end && at > begin;
}

/* Whether a line is `channel 1 at A WHY` or that with ` in M`. */
static int is_last(const char *at, const char *end) {
    static const char BEGINS[] = "channel 1 at ";
    if (end - at < (long)sizeof BEGINS || memcmp(at, BEGINS, sizeof BEGINS - 1))
        return 0;
    at += sizeof BEGINS - 1;
    const char *digits = at;
    while (at < end && *at >= '0' && *at <= '9')
        at++;
    if (at == digits || at == end || *at++ != ' ')
        return 0;
    const char *gap = memchr(at, ' ', end - at);
    if (!gap)
        return is_word(at, end);
    if (!is_word(at, gap) || end - gap < 5 || memcmp(gap, " in ", 4))
        return 0;
    for (at = gap + 4; at < end; at++)
        if (*at < '0' || *at > '9')
            return 0;
    return 1;
}

/* Looks at what the program printed. */
static void look(End *end, int wanted) {
    static char text[1 << 20];
    ssize_t len = pread(output_fd, text, sizeof text, 0);
    char *at = text, *stop = text + (len > 0 ? len : 0);
    end->lines = 0;
    end->last[0] = 0;
    if (stop > text && stop[-1] != '\n')
        end->why = "it ends within a line";
    while (at < stop) {
        char *next = memchr(at, '\n', stop - at);
        if (!next)
            break;
        int is_end = next + 1 == stop && end->status == 4, is_device = next - at > 13 && !memcmp(at, "device ", 7);
        if (is_end && next - at < (long)sizeof end->last) {
            memcpy(end->last, at, next - at);
            end->last[next - at] = 0;
        }
        if (is_end ? !is_last(at, next) : is_client ? !is_device : !(*at >= '0' && *at <= '9'))
            end->why = "a line is none";
        end->lines++;
        at = next + 1;
    }
    if (end->status != 0 && end->status != 4)
        end->why = "another status";
    else if (end->lines != wanted + (end->status == 4))
        end->why = "another count of lines";
    else if (end->peak > PEAK_KB)
        end->why = "too much memory";
}

static void rewrite(int fd, const void *at, size_t len) {
    if (ftruncate(fd, 0) || pwrite(fd, at, len, 0) != (ssize_t)len || lseek(fd, 0, SEEK_SET))
        _exit(2);
}

/* Plays a channel. In the child it returns 0. */
static int play(const Channel *channel, Slice script, int workers, size_t piece, int is_patient, int wanted, End *end) {
    char text[16384];
    int link[2], len = is_client ? snprintf(text, sizeof text, "workers %d\n", workers) : 0;
    memcpy(text + len, script.at, script.len);
    rewrite(input_fd, text, len + script.len);
    rewrite(output_fd, "", 0);
    rewrite(notes_fd, "", 0);
    if (socketpair(AF_UNIX, SOCK_STREAM, 0, link))
        _exit(2);
    heard_len = 0;
    *end = (End){0};
    /* What the socket takes before anybody reads needs no turn of the parent. */
    size_t ahead = 0;
    if (!is_patient && piece > channel->len && channel->len < 100000) {
        ssize_t count = send(link[0], channel->at, channel->len, MSG_DONTWAIT | MSG_NOSIGNAL);
        ahead = count > 0 ? count : 0;
        if (ahead == channel->len)
            shutdown(link[0], SHUT_WR);
    }
    pid_t child = fork();
    if (child == 0) {
        dup2(input_fd, 0), dup2(output_fd, 1), dup2(notes_fd, 2);
        close(link[0]), close(input_fd), close(output_fd), close(notes_fd);
        link_fd = link[1];
        return 0;
    }
    close(link[1]);
    int goes = 1, waits = is_patient;
    if (is_patient) {
        for (int i = 0; i < channel->messages.count && goes; i++) {
            size_t from = i ? channel->ends[i - 1] : 0;
            if (waits && begins(channel->messages.at[i], "rDCI")) {
                int count = 1;
                for (int j = 0; j < i; j++)
                    count += begins(channel->messages.at[j], "rDCI") && is_alike(channel->messages.at[j], channel->messages.at[i]);
                waits = awaits_request(link[0], channel->messages.at[i], count);
            }
            goes = say(link[0], channel->at + from, channel->ends[i] - from, piece, 1, &end->why);
        }
    } else {
        say(link[0], channel->at + ahead, channel->len - ahead, piece, 0, &end->why);
    }
    shutdown(link[0], SHUT_WR);
    while (hear(link[0], 0)) {
        struct pollfd it = {link[0], POLLIN, 0};
        if (poll(&it, 1, LIMIT_MS) == 0) {
            end->why = "it keeps a channel that is over";
            break;
        }
    }
    close(link[0]);
    struct pollfd ending = {syscall(SYS_pidfd_open, child, 0), POLLIN, 0};
    if (!end->why && poll(&ending, 1, LIMIT_MS) == 0)
        end->why = "it does not end";
    close(ending.fd);
    if (end->why)
        kill(child, SIGKILL);
    int status = 0;
    struct rusage use;
    wait4(child, &status, 0, &use);
    const char *why = end->why;
    end->status = WIFEXITED(status) ? WEXITSTATUS(status) : 1000 + WTERMSIG(status);
    end->peak = use.ru_maxrss;
    look(end, wanted);
    end->why = why ? why : end->why;
    return 1;
}

/* --- all sessions --- */

static struct {
    char word[32];
    uint64_t count;
} kinds[MAX_KINDS];

static void count_kind(const End *end) {
    const char *at = end->status == 4 ? end->last + sizeof "channel 1 at " - 1 : "";
    at = strchr(at, ' ');
    char word[32] = "none";
    if (at)
        sscanf(at + 1, "%31s", word);
    for (int i = 0; i < MAX_KINDS; i++)
        if (!kinds[i].count || !strcmp(kinds[i].word, word)) {
            strcpy(kinds[i].word, word);
            kinds[i].count++;
            return;
        }
}

static void keep(uint64_t number, const Channel *channel, Slice script) {
    const char *folder = getenv("MANY_KEEP");
    char path[4096];
    if (!folder)
        return;
    for (int i = 0; i < 2; i++) {
        snprintf(path, sizeof path, "%s/%s%llu.%s", folder, is_client ? "client" : "host", (unsigned long long)number, i ? "script" : "channel");
        int fd = open(path, O_CREAT | O_TRUNC | O_WRONLY, 0600);
        ssize_t count = i ? write(fd, script.at, script.len) : write(fd, channel->at, channel->len);
        close(fd);
        (void)count;
    }
}

static uint32_t next_number(const uint8_t **at) {
    uint32_t number = (*at)[0] | (*at)[1] << 8 | (*at)[2] << 16 | (uint32_t)(*at)[3] << 24;
    *at += 4;
    return number;
}

static Slice next_slice(const uint8_t **at) {
    size_t len = next_number(at);
    Slice it = {*at, len};
    *at += len;
    return it;
}

static List next_list(const uint8_t **at) {
    List list = {NULL, next_number(at)};
    list.at = take((list.count + 1) * sizeof(Slice));
    for (int i = 0; i < list.count; i++)
        list.at[i] = next_slice(at);
    return list;
}

static uint64_t told(const char *name, uint64_t other) {
    const char *text = getenv(name);
    return text ? strtoull(text, NULL, 10) : other;
}

typedef struct {
    uint64_t sessions, channels, bytes, bad;
    int peak;
    size_t longest;
} Sums;

static void tell(const Sums *sums, uint64_t seed, uint64_t first) {
    printf("%s: %llu sessions from %llu of seed %llu, %llu channels, at most %zu bytes and %llu in all, a peak of %d kB, %llu bad:", is_client ? "client" : "host",
           (unsigned long long)sums->sessions, (unsigned long long)first, (unsigned long long)seed, (unsigned long long)sums->channels, sums->longest,
           (unsigned long long)sums->bytes, sums->peak, (unsigned long long)sums->bad);
    for (int i = 0; i < MAX_KINDS && kinds[i].count; i++)
        printf(" %s %llu", kinds[i].word, (unsigned long long)kinds[i].count);
    puts("");
    fflush(stdout);
}

/* Plays a session's channel, whole or in pieces of 1, 7 and 4,096 bytes and whole. In a child it returns 0. */
static int play_session(uint64_t seed, uint64_t number, const Source *sources, uint32_t count, List strangers, Sums *sums) {
    static const size_t PIECES[] = {(size_t)1 << 40, 4096, 7, 1};
    static const int WORKERS[] = {1, 1, 1, 1, 1, 2, 2, 4, 16};
    used = begun;
    drawn = seed * 0x2545f4914f6cdd1du + number * 0x9e3779b97f4a7c15u;
    draw();
    const Source *source = &sources[below(count)];
    Channel channel = channel_of(source, strangers);
    int is_patient = !is_client && is_drawn(30), workers = CHOICE(WORKERS), is_cut = number % 16 == 0 && !is_patient, ways = channel.len > SMALL ? 2 : channel.len > 500 ? 3 : 4;
    Slice script = is_patient || is_client ? source->script : source->other_script;
    End ends[4];
    int from = is_cut ? 0 : (int)below(8) < ways ? (int)below(ways) : 0, to = is_cut ? ways : from + 1;
    sums->sessions++;
    for (int i = from; i < to; i++) {
        End *end = &ends[i];
        if (!play(&channel, script, workers, PIECES[i], is_patient, is_client ? source->devices : source->lines, end))
            return 0;
        int differs = i > from && (end->status != ends[from].status || strcmp(end->last, ends[from].last)) && !strstr(end->last, "Duplicate") && !strstr(ends[from].last, "Duplicate");
        if (!end->why && differs)
            end->why = "in other pieces it has another end";
        sums->channels++;
        sums->bytes += channel.len;
        sums->peak = end->peak > sums->peak ? end->peak : sums->peak;
        sums->longest = channel.len > sums->longest ? channel.len : sums->longest;
        if (end->why) {
            sums->bad++;
            printf("session %llu of seed %llu, against the %s: %s; status %d, %d lines, the last %s, %d kB\n", (unsigned long long)number, (unsigned long long)seed,
                   is_client ? "client" : "host", end->why, end->status, end->lines, end->last, end->peak);
            fflush(stdout);
            keep(number, &channel, script);
        }
    }
    count_kind(&ends[from]);
    return 1;
}

__attribute__((constructor)) static void begin(void) {
    const char *path = getenv("MANY_SOURCES");
    if (!path)
        return;
    arena = mmap(NULL, ARENA, PROT_READ | PROT_WRITE, MAP_PRIVATE | MAP_ANONYMOUS | MAP_NORESERVE, -1, 0);
    heard = mmap(NULL, HEARD, PROT_READ | PROT_WRITE, MAP_PRIVATE | MAP_ANONYMOUS, -1, 0);
    madvise(arena, ARENA, MADV_DONTFORK);
    madvise(heard, HEARD, MADV_DONTFORK);
    int fd = open(path, O_RDONLY);
    struct stat found;
    if (fd < 0 || fstat(fd, &found))
        _exit(2);
    uint8_t *data = take(found.st_size);
    for (off_t at = 0; at < found.st_size;) {
        ssize_t got = read(fd, data + at, found.st_size - at);
        if (got <= 0)
            _exit(2);
        at += got;
    }
    close(fd);
    /* A program that a child becomes forks no more. */
    unsetenv("MANY_SOURCES");
    const uint8_t *at = data;
    is_client = next_number(&at) == 0;
    List strangers = next_list(&at);
    uint32_t count = next_number(&at);
    Source *sources = take(count * sizeof *sources);
    for (uint32_t i = 0; i < count; i++) {
        Source *it = &sources[i];
        it->script = next_slice(&at);
        it->other_script = next_slice(&at);
        it->devices = next_number(&at);
        it->lines = next_number(&at);
        it->said = next_list(&at);
        it->other = next_list(&at);
    }
    begun = used;
    input_fd = memfd_create("input", 0);
    output_fd = memfd_create("output", 0);
    notes_fd = memfd_create("notes", 0);
    uint64_t seed = told("MANY_SEED", 1), first = told("MANY_FIRST", 0), last = first + told("MANY_COUNT", 1000);
    Sums sums = {0};
    for (uint64_t number = first; number < last; number++) {
        if (!play_session(seed, number, sources, count, strangers, &sums))
            return;
        if ((number - first + 1) % 20000 == 0)
            tell(&sums, seed, first);
    }
    tell(&sums, seed, first);
    _exit(sums.bad ? 1 : 0);
}

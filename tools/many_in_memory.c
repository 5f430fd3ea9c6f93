/* Plays very many changed channels to one process, which many_in_memory.py builds of many_in_memory.rattle: it draws them as many.c does, whose functions it takes, writes them to the
   process's input, and looks at what comes. Its words are a file of channels, as many.py writes it, the process's program, what is loaded into it, whether that takes turns, a seed,
   the first session and how many there are. The environment may have MANY_KEEP, a folder for the channels of sessions that are bad. */
#include "many.c"
#include <sys/prctl.h>

enum { WAIT_MS = 60000, MAX_PLAYS = 256, TOLD_AT_ONCE = 64, AHEAD = 1 << 18, SUM_EACH = 100000 };
static const size_t ROOM = 48u << 20, MAX_OUTPUT = 1 << 20;

/* A channel that was given to the process: of which session, whether that is the session's first or last, and how many lines are wanted. */
typedef struct {
    uint64_t number;
    int is_first, is_last, wanted;
    size_t len;
} Given;

static Given given[MAX_PLAYS];
static int given_from, given_count;
static uint8_t *ahead;
static size_t ahead_from, ahead_len;
static uint8_t came[(1 << 20) + 65536];
static size_t came_len;
static uint64_t bytes_read, bytes_written, met, missed;
/* How many channels were given since what came was asked for. Below this session it is asked for after each. */
static int untold;
static uint64_t careful;
static int takes_turns;
static pid_t process;
static int to_process, from_process;

static const Source *sources;
static uint32_t source_count;
static List strangers;
static uint64_t seed, first;
static Sums sums;

static void give_up(const char *why) {
    fprintf(stderr, "many_in_memory: %s\n", why);
    _exit(2);
}

/* --- the process --- */

static void start(char *program, char *loaded) {
    int to[2], from[2];
    if (pipe2(to, O_CLOEXEC) || pipe2(from, O_CLOEXEC))
        give_up("no pipe");
    process = fork();
    if (process == 0) {
        prctl(PR_SET_PDEATHSIG, SIGKILL);
        setenv("LD_PRELOAD", loaded, 1);
        dup2(to[0], 0), dup2(from[1], 1);
        execl(program, program, (char *)NULL);
        _exit(127);
    }
    close(to[0]), close(from[1]);
    to_process = to[1], from_process = from[0];
    fcntl(to_process, F_SETPIPE_SZ, 1 << 20);
    fcntl(to_process, F_SETFL, O_NONBLOCK);
    given_count = untold = 0;
    ahead_from = ahead_len = came_len = 0;
}

/* Ends the process, and says how it ended. */
static int stop(int is_killed) {
    int status = 0;
    if (is_killed)
        kill(process, SIGKILL);
    close(to_process);
    waitpid(process, &status, 0);
    close(from_process);
    return WIFEXITED(status) ? WEXITSTATUS(status) : 1000 + WTERMSIG(status);
}

/* The process's peak of memory in kilobytes. */
static int peak_of_process(void) {
    char path[64], text[4096];
    snprintf(path, sizeof path, "/proc/%d/status", process);
    int fd = open(path, O_RDONLY), peak = 0;
    ssize_t len = fd < 0 ? 0 : read(fd, text, sizeof text - 1);
    close(fd);
    text[len > 0 ? len : 0] = 0;
    char *at = strstr(text, "VmHWM:");
    if (at)
        sscanf(at + 6, "%d", &peak);
    return peak;
}

/* --- what it is given --- */

static void add_number(uint32_t number) {
    put(ahead + ahead_len, number);
    ahead_len += 4;
}

static void add_bytes(const void *at, size_t len) {
    memcpy(ahead + ahead_len, at, len);
    ahead_len += len;
}

static void ask_what_came(void) {
    add_number(3);
    untold = 0;
}

/* How many completions of a channel up to this message are of a request with the same ids: a request's id is used again once it is completed. */
static uint32_t times_up_to(const Channel *channel, int at) {
    uint32_t times = 0;
    for (int i = 0; i <= at; i++) {
        Slice it = channel->messages.at[i];
        times += begins(it, "rDCI") && it.len >= 12 && !memcmp(it.at + 4, channel->messages.at[at].at + 4, 8);
    }
    return times;
}

/* The completions of a channel that wait for their requests: those that have ids. */
static void add_awaited(const Channel *channel, int is_patient) {
    size_t count_at = ahead_len;
    uint32_t count = 0;
    add_number(0);
    for (int i = 0; is_patient && i < channel->messages.count; i++) {
        Slice it = channel->messages.at[i];
        size_t from = i ? channel->ends[i - 1] : 0;
        if (!begins(it, "rDCI") || it.len < 12 || from == channel->ends[i])
            continue;
        add_number(from);
        add_bytes(it.at + 4, 8);
        add_number(times_up_to(channel, i));
        count++;
    }
    put(ahead + count_at, count);
}

typedef struct {
    Channel channel;
    Slice script;
    int is_patient, workers, from, to, wanted;
    uint32_t turns;
} Drawn;

/* A session as many.c draws it. */
static Drawn drawn_of(uint64_t number) {
    static const int WORKERS[] = {1, 1, 1, 1, 1, 2, 2, 4, 16};
    used = begun;
    drawn = seed * 0x2545f4914f6cdd1du + number * 0x9e3779b97f4a7c15u;
    draw();
    const Source *source = &sources[below(source_count)];
    Drawn it = {.channel = channel_of(source, strangers)};
    size_t len = it.channel.len;
    it.is_patient = !is_client && is_drawn(30), it.workers = CHOICE(WORKERS);
    int is_cut = number % 16 == 0 && !it.is_patient, ways = len > SMALL ? 2 : len > 500 ? 3 : 4;
    it.script = it.is_patient || is_client ? source->script : source->other_script;
    it.from = is_cut ? 0 : (int)below(8) < ways ? (int)below(ways) : 0, it.to = is_cut ? ways : it.from + 1;
    it.wanted = is_client ? source->devices : source->lines;
    it.turns = takes_turns ? 1 + below(999999999) : 0;
    return it;
}

/* Gives the process a session's channel, whole or in pieces. */
static void give(uint64_t number) {
    static const uint32_t PIECES[] = {0xffffffffu, 4096, 7, 1};
    Drawn it = drawn_of(number);
    char workers[32];
    int len = is_client ? snprintf(workers, sizeof workers, "workers %d\n", it.workers) : 0;
    for (int i = it.from; i < it.to; i++) {
        add_number(!is_client);
        add_number(it.turns);
        add_number(PIECES[i]);
        add_number(len + it.script.len);
        add_bytes(workers, len);
        add_bytes(it.script.at, it.script.len);
        add_awaited(&it.channel, it.is_patient);
        add_number(it.channel.len);
        add_bytes(it.channel.at, it.channel.len);
        given[(given_from + given_count++) % MAX_PLAYS] = (Given){number, i == it.from, i + 1 == it.to, it.wanted, it.channel.len};
        if (++untold == TOLD_AT_ONCE || number < careful)
            ask_what_came();
    }
}

/* --- what came --- */

static void say_bad(uint64_t number, const End *end) {
    sums.bad++;
    printf("session %llu of seed %llu, against the %s: %s; status %d, %d lines, the last %s, %d kB\n", (unsigned long long)number, (unsigned long long)seed, is_client ? "client" : "host",
           end->why, end->status, end->lines, end->last, end->peak);
    fflush(stdout);
    Drawn it = drawn_of(number);
    keep(number, &it.channel, it.script);
}

static void tell_all(void) {
    sums.peak = process && peak_of_process() > sums.peak ? peak_of_process() : sums.peak;
    tell(&sums, seed, first);
    printf("%s: %llu bytes were read and %llu written, %llu completions were said once their request was heard, %llu without it\n", is_client ? "client" : "host",
           (unsigned long long)bytes_read, (unsigned long long)bytes_written, (unsigned long long)met, (unsigned long long)missed);
    fflush(stdout);
}

/* Looks at what came of the channel that was given first. */
static void look_at(const uint8_t *numbers, const uint8_t *text, size_t len) {
    static End begin;
    static int peak;
    Given it = given[given_from];
    given_from = (given_from + 1) % MAX_PLAYS, given_count--;
    if (it.is_first && it.number % 256 == 0)
        peak = peak_of_process();
    End end = {.status = number_at((Slice){numbers, 4}, 0, 4), .peak = peak};
    rewrite(output_fd, text, len);
    look(&end, it.wanted);
    if (it.is_first)
        begin = end;
    int differs = !it.is_first && (end.status != begin.status || strcmp(end.last, begin.last)) && !strstr(end.last, "Duplicate") && !strstr(begin.last, "Duplicate");
    if (!end.why && differs)
        end.why = "in other pieces it has another end";
    uint32_t counts[4];
    memcpy(counts, numbers + 4, sizeof counts);
    bytes_read += counts[0], bytes_written += counts[1], met += counts[2], missed += counts[3];
    sums.channels++;
    sums.bytes += it.len;
    sums.peak = end.peak > sums.peak ? end.peak : sums.peak;
    sums.longest = it.len > sums.longest ? it.len : sums.longest;
    if (end.why)
        say_bad(it.number, &end);
    if (!it.is_last)
        return;
    count_kind(&begin);
    if (++sums.sessions % SUM_EACH == 0)
        tell_all();
}

/* Says that the process is lost at the channel that was given first, and gives the session behind it; or, where that isn't known, plays those again that were given. */
static uint64_t lose(int is_killed) {
    End end = {.status = stop(is_killed), .why = is_killed ? "it does not end" : "the process ended"};
    uint64_t number = given[given_from].number, last = given[(given_from + given_count - 1) % MAX_PLAYS].number;
    process = 0;
    if (given_count == 0)
        give_up("the process does not go");
    if (number >= careful) {
        careful = last + 1;
        printf("sessions %llu to %llu of seed %llu: %s, status %d; they are played again\n", (unsigned long long)number, (unsigned long long)last, (unsigned long long)seed, end.why, end.status);
        sums.bad++;
        return number;
    }
    say_bad(number, &end);
    sums.sessions++;
    sums.channels++;
    return number + 1;
}

/* Reads what came, whole answers of it. False where the process is gone. */
static int hear_process(void) {
    ssize_t count = read(from_process, came + came_len, sizeof came - came_len);
    if (count <= 0)
        return count < 0 && (errno == EINTR || errno == EAGAIN);
    came_len += count;
    size_t at = 0, len = came_len;
    while (len - at >= 24) {
        size_t text = number_at((Slice){came + at, 24}, 20, 4);
        if (text > MAX_OUTPUT || given_count == 0)
            give_up("the process says what it wasn't asked for");
        if (len - at < 24 + text)
            break;
        look_at(came + at, came + at + 24, text);
        at += 24 + text;
    }
    memmove(came, came + at, len - at);
    came_len -= at;
    return 1;
}

/* Plays the sessions from this one on, up to the last or to one at which the process is lost. */
static uint64_t play_from(uint64_t next, uint64_t last) {
    while (next < last || given_count) {
        while (next < last && given_count + 4 <= MAX_PLAYS && ahead_len - ahead_from < AHEAD) {
            if (ahead_from == ahead_len)
                ahead_from = ahead_len = 0;
            if (ahead_len > ROOM / 3)
                break;
            give(next++);
            if (next == last)
                ask_what_came();
        }
        struct pollfd waits[2] = {{from_process, POLLIN, 0}, {to_process, POLLOUT, 0}};
        int ready = poll(waits, ahead_from < ahead_len ? 2 : 1, WAIT_MS);
        if (ready == 0)
            return lose(1);
        if (waits[0].revents && !hear_process())
            return lose(0);
        if (ahead_from < ahead_len && waits[1].revents & POLLOUT) {
            ssize_t count = write(to_process, ahead + ahead_from, ahead_len - ahead_from);
            ahead_from += count > 0 ? count : 0;
        }
    }
    return last;
}

static void read_sources(const char *path) {
    int fd = open(path, O_RDONLY);
    struct stat found;
    if (fd < 0 || fstat(fd, &found))
        give_up("no channels");
    const uint8_t *at = mmap(NULL, found.st_size, PROT_READ, MAP_PRIVATE, fd, 0);
    is_client = next_number(&at) == 0;
    strangers = next_list(&at);
    source_count = next_number(&at);
    Source *all = take(source_count * sizeof *all);
    for (uint32_t i = 0; i < source_count; i++) {
        Source *it = &all[i];
        it->script = next_slice(&at);
        it->other_script = next_slice(&at);
        it->devices = next_number(&at);
        it->lines = next_number(&at);
        it->said = next_list(&at);
        it->other = next_list(&at);
    }
    sources = all;
    begun = used;
}

int main(int count, char **words) {
    if (count != 8)
        return 2;
    signal(SIGPIPE, SIG_IGN);
    arena = mmap(NULL, ARENA, PROT_READ | PROT_WRITE, MAP_PRIVATE | MAP_ANONYMOUS | MAP_NORESERVE, -1, 0);
    ahead = mmap(NULL, ROOM, PROT_READ | PROT_WRITE, MAP_PRIVATE | MAP_ANONYMOUS | MAP_NORESERVE, -1, 0);
    output_fd = memfd_create("output", 0);
    read_sources(words[1]);
    takes_turns = atoi(words[4]), seed = strtoull(words[5], NULL, 10), first = strtoull(words[6], NULL, 10);
    uint64_t next = first, last = first + strtoull(words[7], NULL, 10);
    while (next < last) {
        start(words[2], words[3]);
        next = play_from(next, last);
    }
    tell_all();
    if (process) {
        ahead_from = ahead_len = 0;
        add_number(2);
        if (write(to_process, ahead, ahead_len) != (ssize_t)ahead_len || stop(0) != 0)
            give_up("the process does not end well");
    }
    return sums.bad ? 1 : 0;
}

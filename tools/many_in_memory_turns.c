/* One thread in the place of many: many_in_memory.py loads this into the process that plays the channels. A thread that is started gets a stack, and what it does goes on where another one waits. Who
   goes on is drawn, for each channel from a seed of its own, so that it comes to the same each time. The clock stands still until all wait and one of them for a time: so a
   wait for a time ends once nothing else can happen, and a wait that has no end, with all the others waiting, ends the process. */
#define _GNU_SOURCE
#include <errno.h>
#include <linux/futex.h>
#include <pthread.h>
#include <stdarg.h>
#include <stdint.h>
#include <stdio.h>
#include <stdlib.h>
#include <sys/mman.h>
#include <sys/syscall.h>
#include <time.h>
#include <ucontext.h>
#include <unistd.h>

enum { MAX_TASKS = 128, STACK = 1 << 20, GUARD = 1 << 16 };
enum { FREE, READY, WAITS, OVER };
static const int64_t NEVER = INT64_MAX, SECOND = 1000000000;

typedef struct {
    ucontext_t at;
    char *stack;
    void *(*work)(void *);
    void *on, *result;
    /* A word that it waits at, or a task. */
    const void *place;
    int64_t until;
    int state, is_detached, is_late;
} Task;

/* The first is the process's own. */
static Task tasks[MAX_TASKS] = {{.state = READY}};
static int own, highest;
static int64_t now = 1000000000;
static uint64_t drawn = 1;

static uint64_t below(uint64_t count) {
    drawn ^= drawn << 13, drawn ^= drawn >> 7, drawn ^= drawn << 17;
    return drawn % count;
}

static void end(const char *why) {
    fprintf(stderr, "many_in_memory_turns: %s\n", why);
    abort();
}

/* A task that can go on. Where all wait, the clock goes on to the first that waits for a time. */
static int next(void) {
    int ready[MAX_TASKS], count = 0, first = -1;
    for (int i = 0; i <= highest; i++) {
        if (tasks[i].state == READY)
            ready[count++] = i;
        else if (tasks[i].state == WAITS && tasks[i].until != NEVER && (first < 0 || tasks[i].until < tasks[first].until))
            first = i;
    }
    if (count)
        return ready[count > 1 ? below(count) : 0];
    if (first < 0)
        end("all threads wait");
    now = tasks[first].until > now ? tasks[first].until : now;
    tasks[first].state = READY, tasks[first].is_late = 1;
    return first;
}

static void go_on(void) {
    int from = own, to = next();
    if (from == to)
        return;
    own = to;
    swapcontext(&tasks[from].at, &tasks[to].at);
}

static void await(const void *place, int64_t until) {
    tasks[own].place = place, tasks[own].until = until, tasks[own].state = WAITS, tasks[own].is_late = 0;
    go_on();
}

static int wake(const void *place, int most) {
    int count = 0;
    for (int i = 0; i <= highest && count < most; i++)
        if (tasks[i].state == WAITS && tasks[i].place == place)
            tasks[i].state = READY, count++;
    return count;
}

static void work(void) {
    Task *it = &tasks[own];
    it->result = it->work(it->on);
    it->state = it->is_detached ? FREE : OVER;
    wake(it, 1);
    go_on();
    end("a thread that is over goes on");
}

int pthread_create(pthread_t *made, const pthread_attr_t *how, void *(*does)(void *), void *on) {
    (void)how;
    int i = 1;
    while (i < MAX_TASKS && tasks[i].state != FREE)
        i++;
    if (i == MAX_TASKS)
        return EAGAIN;
    Task *it = &tasks[i];
    if (!it->stack) {
        char *stack = mmap(NULL, STACK + GUARD, PROT_READ | PROT_WRITE, MAP_PRIVATE | MAP_ANONYMOUS | MAP_NORESERVE, -1, 0);
        if (stack == MAP_FAILED || mprotect(stack, GUARD, PROT_NONE))
            return EAGAIN;
        it->stack = stack;
    }
    highest = i > highest ? i : highest;
    getcontext(&it->at);
    it->at.uc_stack.ss_sp = it->stack + GUARD, it->at.uc_stack.ss_size = STACK, it->at.uc_link = NULL;
    makecontext(&it->at, work, 0);
    it->work = does, it->on = on, it->is_detached = 0, it->state = READY;
    *made = (pthread_t)it;
    if (below(2))
        go_on();
    return 0;
}

int pthread_join(pthread_t thread, void **result) {
    Task *it = (Task *)thread;
    while (it->state != OVER)
        await(it, NEVER);
    if (result)
        *result = it->result;
    it->state = FREE;
    return 0;
}

int pthread_detach(pthread_t thread) {
    Task *it = (Task *)thread;
    it->is_detached = 1;
    if (it->state == OVER)
        it->state = FREE;
    return 0;
}

pthread_t pthread_self(void) { return (pthread_t)&tasks[own]; }

int sched_yield(void) {
    go_on();
    return 0;
}

int clock_gettime(clockid_t id, struct timespec *it) {
    (void)id;
    *it = (struct timespec){now / SECOND, now % SECOND};
    return 0;
}

/* Whether another task than the process's own is in this state. */
static int others_are(int state) {
    for (int i = 1; i <= highest; i++)
        if (tasks[i].state == state)
            return 1;
    return 0;
}

/* The process sleeps before it plays a channel, and what it asks for is a seed. Nobody is left by then of the channel before. */
int nanosleep(const struct timespec *asked, struct timespec *left) {
    (void)left;
    while (others_are(READY))
        go_on();
    if (others_are(WAITS) || others_are(OVER))
        end("a thread is left");
    drawn = (uint64_t)asked->tv_nsec * 0x9e3779b97f4a7c15u | 1;
    return 0;
}

/* The waits of the program, and no other call. */
long syscall(long number, ...) {
    va_list words;
    va_start(words, number);
    const uint32_t *place = va_arg(words, const uint32_t *);
    int what = va_arg(words, int) & FUTEX_CMD_MASK;
    uint32_t value = va_arg(words, uint32_t);
    const struct timespec *time = va_arg(words, const struct timespec *);
    va_end(words);
    if (number != SYS_futex || (what != FUTEX_WAIT && what != FUTEX_WAKE))
        end("a call that isn't known");
    if (what == FUTEX_WAKE) {
        int count = wake(place, value > MAX_TASKS ? MAX_TASKS : (int)value);
        if (count && below(4) == 0)
            go_on();
        return count;
    }
    if (__atomic_load_n(place, __ATOMIC_SEQ_CST) != value) {
        errno = EAGAIN;
        return -1;
    }
    await(place, time && time->tv_sec < SECOND ? now + time->tv_sec * SECOND + time->tv_nsec : NEVER);
    if (!tasks[own].is_late)
        return 0;
    errno = ETIMEDOUT;
    return -1;
}

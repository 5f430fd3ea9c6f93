/* Threads that are used again: many_in_memory.py loads this into the process that plays the channels, whose sessions start several each. A thread that is over waits for what the next one is to
   do, so that the system needn't make one and take it away for every channel. */
#define _GNU_SOURCE
#include <dlfcn.h>
#include <linux/futex.h>
#include <pthread.h>
#include <stdatomic.h>
#include <stdlib.h>
#include <sys/syscall.h>
#include <unistd.h>

enum { IDLE, RUNS, DONE };

typedef struct Worker {
    void *(*work)(void *);
    void *on, *result;
    _Atomic unsigned state;
    int is_detached;
    struct Worker *next;
} Worker;

static pthread_mutex_t lock = PTHREAD_MUTEX_INITIALIZER;
static Worker *idle;
static __thread Worker *own;

static void await(Worker *it, unsigned wanted) {
    for (unsigned state; (state = atomic_load(&it->state)) != wanted;)
        syscall(SYS_futex, &it->state, FUTEX_WAIT_PRIVATE, state, NULL, NULL, 0);
}

static void become(Worker *it, unsigned state) {
    atomic_store(&it->state, state);
    syscall(SYS_futex, &it->state, FUTEX_WAKE_PRIVATE, 1, NULL, NULL, 0);
}

/* The lock is held. */
static void rest(Worker *it) {
    atomic_store(&it->state, IDLE);
    it->next = idle;
    idle = it;
}

static void *works(void *at) {
    own = at;
    for (;;) {
        await(own, RUNS);
        own->result = own->work(own->on);
        pthread_mutex_lock(&lock);
        if (own->is_detached)
            rest(own);
        else
            become(own, DONE);
        pthread_mutex_unlock(&lock);
    }
    return NULL;
}

int pthread_create(pthread_t *made, const pthread_attr_t *how, void *(*work)(void *), void *on) {
    static int (*really)(pthread_t *, const pthread_attr_t *, void *(*)(void *), void *);
    pthread_mutex_lock(&lock);
    Worker *it = idle;
    if (it)
        idle = it->next;
    pthread_mutex_unlock(&lock);
    int is_new = !it;
    if (is_new && !(it = calloc(1, sizeof *it)))
        return 11;
    it->work = work, it->on = on, it->is_detached = 0;
    *made = (pthread_t)it;
    become(it, RUNS);
    if (!is_new)
        return 0;
    if (!really)
        really = (int (*)(pthread_t *, const pthread_attr_t *, void *(*)(void *), void *))dlsym(RTLD_NEXT, "pthread_create");
    pthread_t thread;
    return really(&thread, how, works, it);
}

int pthread_join(pthread_t thread, void **result) {
    Worker *it = (Worker *)thread;
    await(it, DONE);
    if (result)
        *result = it->result;
    pthread_mutex_lock(&lock);
    rest(it);
    pthread_mutex_unlock(&lock);
    return 0;
}

int pthread_detach(pthread_t thread) {
    Worker *it = (Worker *)thread;
    pthread_mutex_lock(&lock);
    if (atomic_load(&it->state) == DONE)
        rest(it);
    else
        it->is_detached = 1;
    pthread_mutex_unlock(&lock);
    return 0;
}

pthread_t pthread_self(void) { return (pthread_t)own; }

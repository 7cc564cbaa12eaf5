/* A library to be loaded before a program's own (LD_PRELOAD), which refuses what the program asks of the system.

   REFUSE_ALLOCATION=N   the Nth call of malloc or realloc, counted from 1 over all threads, finds no memory
   REFUSE_THREAD=N       the Nth start of a thread is refused
   REFUSE_ON=1           and so is each call after it
   REFUSE_TELLS=FD       a byte is written to this descriptor at the first refusal */
#define _GNU_SOURCE
#include <dlfcn.h>
#include <errno.h>
#include <pthread.h>
#include <stdatomic.h>
#include <stdlib.h>
#include <unistd.h>

extern void *__libc_malloc(size_t size);
extern void *__libc_realloc(void *block, size_t size);

static atomic_ulong allocations, threads;
static unsigned long allocation, thread, on;
static int tells = -1;

static unsigned long number(const char *name) {
    const char *text = getenv(name);
    return text ? strtoul(text, 0, 10) : 0;
}

__attribute__((constructor)) static void begin(void) {
    on = number("REFUSE_ON");
    tells = getenv("REFUSE_TELLS") ? (int)number("REFUSE_TELLS") : -1;
    thread = number("REFUSE_THREAD");
    allocation = number("REFUSE_ALLOCATION");
}

static int refused(atomic_ulong *calls, unsigned long which) {
    unsigned long call;
    if (which == 0)
        return 0;
    call = atomic_fetch_add(calls, 1) + 1;
    if (call == which && write(tells, "", 1) != 1)
        _exit(99);
    return call == which || (on && call > which);
}

void *malloc(size_t size) {
    if (refused(&allocations, allocation)) {
        errno = ENOMEM;
        return 0;
    }
    return __libc_malloc(size);
}

void *realloc(void *block, size_t size) {
    if (refused(&allocations, allocation)) {
        errno = ENOMEM;
        return 0;
    }
    return __libc_realloc(block, size);
}

int pthread_create(pthread_t *made, const pthread_attr_t *how, void *(*work)(void *), void *with) {
    static int (*create)(pthread_t *, const pthread_attr_t *, void *(*)(void *), void *);
    if (refused(&threads, thread))
        return EAGAIN;
    if (!create)
        create = (int (*)(pthread_t *, const pthread_attr_t *, void *(*)(void *), void *))dlsym(RTLD_NEXT, "pthread_create");
    return create(made, how, work, with);
}

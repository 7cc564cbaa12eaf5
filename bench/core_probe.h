/* Whether the other hardware thread of a core was busy while a thread ran there, by the time of a loop over registers alone.
 *
 * A core of many processors runs two hardware threads, which a system shows as two processors, maybe of two machines. Where both are busy they share
 * the core's execution units, and the same program takes 1.5 to 2 times as long, by processor time too. A loop that touches no memory tells which of
 * the two it is: its turn takes longer only where the other thread computes, or where the core's clock is slower. */
#ifndef CORE_PROBE_H
#define CORE_PROBE_H

#include <time.h>

/* Nanoseconds of processor time of the calling thread. */
static inline double thread_ns(void) {
    struct timespec now;
    clock_gettime(CLOCK_THREAD_CPUTIME_ID, &now);
    return 1e9 * (double)now.tv_sec + (double)now.tv_nsec;
}

/* Nanoseconds of one turn of eight additions in registers, over so many: 20,000 take 16 us at 2.5 GHz, of fewer the clock's own time shows. */
static inline double core_probe(int turns) {
    unsigned long a = 0, b = 0, c = 0, d = 0, e = 0, f = 0, g = 0, h = 0;
    double from = thread_ns();
    for (int turn = 0; turn < turns; turn++) {
        a++, b++, c++, d++, e++, f++, g++, h++;
        /* the compiler has to make each addition, in a register */
        __asm__ volatile("" : "+r"(a), "+r"(b), "+r"(c), "+r"(d), "+r"(e), "+r"(f), "+r"(g), "+r"(h));
    }
    return (thread_ns() - from) / turns;
}

/* What a loop before and one after some work say of the core meanwhile, by the least turn that was seen. */
enum core_mode { CORE_ALONE, CORE_SHARED, CORE_MIXED };

static inline enum core_mode core_mode(double least, double before, double after) {
    double low = before < after ? before : after, high = before < after ? after : before;
    if (high <= 1.15 * least)
        return CORE_ALONE;
    return low >= 1.45 * least ? CORE_SHARED : CORE_MIXED;
}

#endif

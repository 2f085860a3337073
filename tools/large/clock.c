/* When the crossings of a call begin, and its rows. The library fills by memset, and clears the crossing counts just before it counts; so the
 * last time that they are cleared is when the pass begins, and what is left of the call are the crossings, the signs and the rows. The same holds
 * of the rows, which come last. A library that is timed calls told_memset in the place of memset. */
#include <stddef.h>
#include <string.h>
#include <time.h>

static const void *watched[2];
static double begun[2];

/* Milliseconds of the process's own time. */
double time_now(void) {
    struct timespec t;
    clock_gettime(CLOCK_PROCESS_CPUTIME_ID, &t);
    return 1e3 * (double)t.tv_sec + 1e-6 * (double)t.tv_nsec;
}

/* Watches two buffers from now on. */
void watch(const void *crossings, const void *rows) {
    watched[0] = crossings;
    watched[1] = rows;
    begun[0] = begun[1] = -1;
}

/* When the first, or the second, was last cleared; below 0 if it was not. */
double last_cleared(size_t which) {
    return begun[which];
}

void *told_memset(void *to, int byte, size_t length) {
    for (size_t which = 0; which < 2; which++)
        if (to == watched[which])
            begun[which] = time_now();
    return memset(to, byte, length);
}

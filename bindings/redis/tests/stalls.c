/* Watches the server's main thread: how long it works at most between two waits for events. LD_PRELOAD puts this into the server. It
 * writes two figures, in nanoseconds, to the file that ORDERED_MAP_STALLS names, which who reads them sets to 0: the most time of a
 * processor; and the most by the clock, without what the thread waited for a processor. A busy machine changes neither much.
 */
#define _GNU_SOURCE
#include <dlfcn.h>
#include <fcntl.h>
#include <stdint.h>
#include <stdio.h>
#include <stdlib.h>
#include <string.h>
#include <sys/epoll.h>
#include <sys/mman.h>
#include <time.h>
#include <unistd.h>

typedef struct figures {
    int64_t used, spent;
} figures;

static volatile figures *longest; /* of the file */
static int delays = -1;           /* /proc/thread-self/schedstat of the main thread */

static int64_t now(clockid_t clock) {
    struct timespec at;
    clock_gettime(clock, &at);
    return (int64_t)at.tv_sec * 1000000000 + at.tv_nsec;
}

/* How long the thread has waited for a processor. */
static int64_t waited(void) {
    char text[64] = "";
    long long used, delay = 0;
    if (pread(delays, text, sizeof text - 1, 0) <= 0 || sscanf(text, "%lld %lld", &used, &delay) != 2)
        abort();
    return delay;
}

static figures so_far(void) {
    figures it;
    it.spent = now(CLOCK_MONOTONIC) - waited();
    it.used = now(CLOCK_THREAD_CPUTIME_ID);
    return it;
}

static void begin(void) {
    const char *name = getenv("ORDERED_MAP_STALLS");
    int file = name == NULL ? -1 : open(name, O_RDWR | O_CLOEXEC);
    void *at = file < 0 ? MAP_FAILED : mmap(NULL, sizeof *longest, PROT_READ | PROT_WRITE, MAP_SHARED, file, 0);
    delays = open("/proc/thread-self/schedstat", O_RDONLY | O_CLOEXEC);
    if (at == MAP_FAILED || delays < 0)
        abort();
    close(file);
    longest = at;
}

int epoll_wait(int of, struct epoll_event *events, int most, int milliseconds) {
    static int (*wait)(int, struct epoll_event *, int, int);
    static figures before;
    figures after;
    int count;
    if (wait == NULL) {
        void *found = dlsym(RTLD_NEXT, "epoll_wait");
        memcpy(&wait, &found, sizeof wait);
    }
    if (gettid() != getpid())
        return wait(of, events, most, milliseconds);
    if (longest == NULL) {
        begin();
    } else {
        after = so_far();
        if (after.used - before.used > longest->used)
            longest->used = after.used - before.used;
        if (after.spent - before.spent > longest->spent)
            longest->spent = after.spent - before.spent;
    }
    count = wait(of, events, most, milliseconds);
    before = so_far();
    return count;
}

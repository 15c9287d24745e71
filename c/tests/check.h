/* What the tests in C and C++ share: CHECK, which says where something is not so, the first few times, and goes on, keys written as text, and a
 * limit of addresses. */
#ifndef CHECK_H
#define CHECK_H

#include <stdint.h>
#include <stdio.h>
#include <sys/resource.h>
#include <unistd.h>

/* 1 once something was not so; a test's exit status. */
static int failures;

/* Says that something is not so: a few times, since what comes first tells most. */
static inline void not_so(const char *file, int line, const char *what) {
    static int times;
    __atomic_store_n(&failures, 1, __ATOMIC_SEQ_CST);
    if (__atomic_fetch_add(&times, 1, __ATOMIC_SEQ_CST) < 8)
        fprintf(stderr, "%s:%d: not so: %s\n", file, line, what);
}

/* Its argument may have commas, as C++ has between braces. */
#define CHECK(...)                                    \
    do {                                              \
        if (!(__VA_ARGS__))                           \
            not_so(__FILE__, __LINE__, #__VA_ARGS__); \
    } while (0)

static inline const uint8_t *bytes(const char *text) {
    return (const uint8_t *)text;
}

/* Lets the process have so many bytes of addresses more than it has, and writes the limit that there was. A sanitizer may have very many. Returns
 * whether the system does so, and says if not: an emulator has no such limit. */
static inline int limit_addresses(rlim_t more, struct rlimit *was) {
    struct rlimit little, now;
    rlim_t pages = 0;
    FILE *file = fopen("/proc/self/statm", "r");
    CHECK(file != NULL && fscanf(file, "%lu", &pages) == 1 && fclose(file) == 0 && pages > 0);
    CHECK(getrlimit(RLIMIT_AS, was) == 0);
    little = *was;
    little.rlim_cur = pages * (rlim_t)sysconf(_SC_PAGESIZE) + more;
    CHECK(setrlimit(RLIMIT_AS, &little) == 0 && getrlimit(RLIMIT_AS, &now) == 0);
    if (now.rlim_cur == little.rlim_cur)
        return 1;
    puts("not tried, since the system limits no addresses: memory that is refused");
    return 0;
}

#endif

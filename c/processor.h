/* All of the library in C that depends on the processor, which is one of x86-64 or ARM64 (aarch64). */
#ifndef PROCESSOR_H
#define PROCESSOR_H

#include <stddef.h>
#include <stdint.h>
#include <unistd.h>

/* The level of x86-64 for which the proved calls are compiled, which c/object tells; 0, for a test, is one that no processor has. For ARM64 all others
 * are the same. */
#ifndef HOT_LEVEL
#define HOT_LEVEL 2
#endif

#if defined(__x86_64__)

/* Whether the processor and the system have what x86-64-v3 has and x86-64-v2 may lack, if that is asked for. */
static __inline__ int is_processor_new(void) {
    return HOT_LEVEL == 2 || (HOT_LEVEL != 0 && __builtin_cpu_supports("x86-64-v3"));
}

/* Lets the processor pause. */
static __inline__ void pause_once(void) {
    __builtin_ia32_pause();
}

/* A fence between the last store of this thread, which was to this word, and what it loads next. An exchange is one here, and ThreadSanitizer knows
 * it. */
static __inline__ void fence_after(uint64_t *stored) {
    __atomic_exchange_n(stored, *stored, __ATOMIC_SEQ_CST);
}

/* How many bytes a small page has. */
static __inline__ size_t page_size(void) {
    return 4096;
}

/* A clock that all processors share, for tests. */
static __inline__ uint64_t ticks(void) {
    return __builtin_ia32_rdtsc();
}

/* What a call of the system returns to a signal's context, for tests. */
#define RETURNED_TO(context) ((context)->uc_mcontext.gregs[REG_RAX])

#elif defined(__aarch64__) && defined(__AARCH64EL__)

static __inline__ int is_processor_new(void) {
    return HOT_LEVEL != 0;
}

/* `yield` does nothing on many. */
static __inline__ void pause_once(void) {
    __asm__ volatile("isb" : : : "memory");
}

/* A load may come before the store of an exchange here. */
static __inline__ void fence_after(uint64_t *stored) {
    (void)stored;
    __asm__ volatile("dmb ish" : : : "memory");
}

/* The system has pages of 4, 16 or 64 KiB here. */
static __inline__ size_t page_size(void) {
    return (size_t)sysconf(_SC_PAGESIZE);
}

static __inline__ uint64_t ticks(void) {
    uint64_t now;
    __asm__ volatile("isb; mrs %0, cntvct_el0" : "=r"(now) : : "memory");
    return now;
}

#define RETURNED_TO(context) ((context)->uc_mcontext.regs[0])

#else
#error "libhot is for x86-64 and for ARM64 with the lowest byte first"
#endif

#endif

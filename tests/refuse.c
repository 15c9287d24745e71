// Loaded before the C library, it refuses a program what it asks for: of REFUSE=N the Nth allocation, of REFUSE_READ=N the Nth read
// and each one after it, of REFUSE_WRITE=N the Nth write to standard output and each one after it. Under SLOW=1 each read is interrupted
// first, and a read or a write is of two bytes at most. Calls of the C library's own are let through: they return to another object than
// the program. When something was refused, the file that REFUSED names is made.
#define _GNU_SOURCE
#include <errno.h>
#include <fcntl.h>
#include <link.h>
#include <stdatomic.h>
#include <stdint.h>
#include <stdlib.h>
#include <sys/syscall.h>
#include <unistd.h>

static atomic_long allocations, tried_reads, reads, writes;
static long refused_allocation, refused_read, refused_write, is_slow;
static const char *told;
static uintptr_t low, high;

// The first object that is told of is the program.
static int find_program(struct dl_phdr_info *object, size_t size, void *unused) {
    (void)size;
    (void)unused;
    for (int i = 0; i < object->dlpi_phnum; i++)
        if (object->dlpi_phdr[i].p_type == PT_LOAD) {
            uintptr_t from = object->dlpi_addr + object->dlpi_phdr[i].p_vaddr;
            uintptr_t upto = from + object->dlpi_phdr[i].p_memsz;
            if (!low || from < low) low = from;
            if (upto > high) high = upto;
        }
    return 1;
}

static long number_of(const char *name) {
    const char *text = getenv(name);
    return text ? atol(text) : 0;
}

__attribute__((constructor)) static void begin(void) {
    refused_allocation = number_of("REFUSE");
    refused_read = number_of("REFUSE_READ");
    refused_write = number_of("REFUSE_WRITE");
    is_slow = number_of("SLOW");
    told = getenv("REFUSED");
    dl_iterate_phdr(find_program, NULL);
}

static int is_programs(void *from) {
    return low <= (uintptr_t)from && (uintptr_t)from < high;
}

static int tell(void) {
    if (told) close(open(told, O_CREAT | O_WRONLY, 0600));
    return 1;
}

static int is_refused(void *from) {
    return refused_allocation && is_programs(from) && atomic_fetch_add(&allocations, 1) + 1 == refused_allocation && tell();
}

extern void *__libc_malloc(size_t), *__libc_realloc(void *, size_t), *__libc_calloc(size_t, size_t);

void *malloc(size_t size) {
    return is_refused(__builtin_return_address(0)) ? NULL : __libc_malloc(size);
}

void *calloc(size_t count, size_t size) {
    return is_refused(__builtin_return_address(0)) ? NULL : __libc_calloc(count, size);
}

void *realloc(void *place, size_t size) {
    return is_refused(__builtin_return_address(0)) ? NULL : __libc_realloc(place, size);
}

// How many bytes are passed on.
static size_t part_of(size_t size) {
    return is_slow && size > 2 ? 2 : size;
}

ssize_t read(int file, void *to, size_t size) {
    if (!is_programs(__builtin_return_address(0))) return syscall(SYS_read, file, to, size);
    errno = EINTR;
    if (is_slow && atomic_fetch_add(&tried_reads, 1) % 2 == 0) return -1;
    errno = ENOMEM;
    if (refused_read && atomic_fetch_add(&reads, 1) + 1 >= refused_read && tell()) return -1;
    return syscall(SYS_read, file, to, part_of(size));
}

ssize_t write(int file, const void *from, size_t size) {
    if (!is_programs(__builtin_return_address(0))) return syscall(SYS_write, file, from, size);
    errno = ENOSPC;
    if (refused_write && file == STDOUT_FILENO && atomic_fetch_add(&writes, 1) + 1 >= refused_write && tell()) return -1;
    return syscall(SYS_write, file, from, part_of(size));
}

/* Refuses memory to the module, whose calls of malloc and the like its linker has wrapped: while the file that ORDERED_MAP_REFUSING
 * names is there, in the server, or in its children alone if the file has the word `child`. LD_PRELOAD puts this into the server.
 */
#define _GNU_SOURCE
#include <fcntl.h>
#include <stdlib.h>
#include <string.h>
#include <sys/mman.h>
#include <unistd.h>

static pid_t server;

__attribute__((constructor)) static void note_server(void) {
    server = getpid();
}

static int refuses(void) {
    char said[6] = "";
    const char *name = getenv("ORDERED_MAP_REFUSING");
    int file = name == NULL ? -1 : open(name, O_RDONLY | O_CLOEXEC);
    if (file < 0)
        return 0;
    if (read(file, said, 5) < 0)
        said[0] = '\0';
    close(file);
    return strcmp(said, "child") != 0 || getpid() != server;
}

void *__wrap_malloc(size_t size);
void *__wrap_calloc(size_t count, size_t size);
void *__wrap_realloc(void *at, size_t size);
void *__wrap_mmap(void *at, size_t size, int protection, int flags, int file, off_t offset);

void *__wrap_malloc(size_t size) {
    return refuses() ? NULL : malloc(size);
}

void *__wrap_calloc(size_t count, size_t size) {
    return refuses() ? NULL : calloc(count, size);
}

void *__wrap_realloc(void *at, size_t size) {
    return refuses() ? NULL : realloc(at, size);
}

void *__wrap_mmap(void *at, size_t size, int protection, int flags, int file, off_t offset) {
    return refuses() ? MAP_FAILED : mmap(at, size, protection, flags, file, offset);
}

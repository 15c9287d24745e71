/* Measures what it takes to make a table: an empty one for few keys and for many, in milliseconds of a processor, and one of sorted pairs, in
 * nanoseconds of it and in bytes that are resident at most, for each key. It takes the shared library of which that is told, and one that it stands
 * beside, if there is one: each is measured some times, by turns, in a process of its own, and the median counts. A line has four cells, as
 * bench/room.py reads them. `bench/run making` builds and runs it. */
#include "keys.h"
#include <dlfcn.h>
#include <sys/wait.h>
#include <unistd.h>

enum { TIMES = 5, FEW = 10000, MANY = 100000000, LOADED = 1000000, HANDLES = 4 };

static void need(int is_so)
{
    if (!is_so) {
        fprintf(stderr, "making: a call was refused\n");
        exit(1);
    }
}

/* A call of the library that is measured in this process. */
static void *call(void *library, const char *name)
{
    void *found = dlsym(library, name);
    if (!found) {
        fprintf(stderr, "making: there is no %s: %s\n", name, dlerror());
        exit(1);
    }
    return found;
}

/* Lets `of` be a call of the library. */
#define TAKE(library, of, name)                  \
    do {                                         \
        void *found_there = call(library, name); \
        memcpy(&(of), &found_there, sizeof(of)); \
    } while (0)

static hot_stock stock_for(void *library, uint32_t keys)
{
    void (*stock_for_keys)(uint32_t keys, size_t longest, hot_stock *stock);
    hot_stock stock;
    TAKE(library, stock_for_keys, "hot_stock_for_keys");
    stock_for_keys(keys, 8, &stock);
    return stock;
}

/* Milliseconds that it takes to make an empty index for so many keys. */
static double open_for(void *library, uint32_t keys)
{
    hot_status (*open_index)(const hot_stock *stock, size_t handles, hot_index **index);
    hot_stock stock = stock_for(library, keys);
    hot_index *index;
    double begun;
    TAKE(library, open_index, "hot_open_index");
    begun = seconds(CLOCK_PROCESS_CPUTIME_ID);
    need(open_index(&stock, HANDLES, &index) == HOT_DONE);
    return 1e3 * (seconds(CLOCK_PROCESS_CPUTIME_ID) - begun);
}

static double open_few(void *library)
{
    return open_for(library, FEW);
}

static double open_many(void *library)
{
    return open_for(library, MANY);
}

/* Pairs that are loaded: their keys rise by the same difference. */
static int next_pair(void *context, const uint8_t **bytes, size_t *length, uint64_t *value)
{
    static uint8_t key[LONGEST];
    uint64_t *next = context;
    if (*next == LOADED) {
        return 0;
    }
    *length = spell(*next * (UINT64_MAX / LOADED), key);
    *bytes = key;
    *value = (*next)++;
    return 1;
}

static void load(void *library)
{
    hot_status (*load_index)(const hot_stock *stock, size_t handles, hot_source *next, void *context, hot_index **index, size_t *count);
    hot_stock stock = stock_for(library, LOADED);
    hot_index *index;
    uint64_t next = 0;
    size_t count;
    TAKE(library, load_index, "hot_load");
    need(load_index(&stock, HANDLES, next_pair, &next, &index, &count) == HOT_DONE && count == LOADED);
}

static double load_time(void *library)
{
    double begun = seconds(CLOCK_PROCESS_CPUTIME_ID);
    load(library);
    return 1e9 * (seconds(CLOCK_PROCESS_CPUTIME_ID) - begun) / LOADED;
}

/* The bytes of this process that are resident, or most of them that ever were, by the words before them in a file of the system. */
static double resident(const char *words)
{
    char line[256];
    double found = 0;
    FILE *file = fopen("/proc/self/status", "r");
    while (file && fgets(line, sizeof line, file)) {
        if (!strncmp(line, words, strlen(words))) {
            found = 1024 * strtod(line + strlen(words), NULL);
        }
    }
    if (file) {
        fclose(file);
    }
    return found;
}

static double load_room(void *library)
{
    double before = resident("VmRSS:");
    load(library);
    return (resident("VmHWM:") - before) / LOADED;
}

typedef struct measure {
    const char *name;
    uint32_t count;
    double (*run)(void *library);
    double found[2][TIMES];
} measure;

static measure measures[] = {
    { "making: ms", FEW, open_few, { { 0 } } },
    { "making: ms", MANY, open_many, { { 0 } } },
    { "loading: ns a key", LOADED, load_time, { { 0 } } },
    { "loading: bytes a key at most", LOADED, load_room, { { 0 } } },
};

enum { MEASURES = sizeof measures / sizeof *measures };

/* Runs a measurement in a process of its own. */
static double apart(double (*run)(void *library), const char *path)
{
    int ends[2], status = 1;
    double found = 0;
    pid_t child = pipe(ends) ? -1 : fork();
    if (child == 0) {
        void *library = dlopen(path, RTLD_NOW | RTLD_LOCAL);
        if (!library) {
            fprintf(stderr, "making: %s\n", dlerror());
            _exit(1);
        }
        found = run(library);
        _exit(write(ends[1], &found, sizeof found) != sizeof found);
    }
    close(ends[1]);
    if (child < 0 || read(ends[0], &found, sizeof found) != sizeof found || waitpid(child, &status, 0) != child || status != 0) {
        fprintf(stderr, "making: a measurement failed\n");
        exit(1);
    }
    close(ends[0]);
    return found;
}

static int in_order(const void *one, const void *other)
{
    double left = *(const double *)one, right = *(const double *)other;
    return (left > right) - (left < right);
}

int main(int words, char **word)
{
    static const char *const of[2] = { "", ", beside" };
    int time, which, library;
    if (words < 2 || words > 3) {
        fprintf(stderr, "usage: making LIBRARY [BESIDE]    shared libraries\n");
        return 2;
    }
    for (time = 0; time < TIMES; time++) {
        for (which = 0; which < MEASURES; which++) {
            for (library = 0; library < words - 1; library++) {
                measures[which].found[library][time] = apart(measures[which].run, word[library + 1]);
            }
        }
    }
    for (library = 0; library < words - 1; library++) {
        for (which = 0; which < MEASURES; which++) {
            double *found = measures[which].found[library];
            qsort(found, TIMES, sizeof *found, in_order);
            printf("%s%s\t%s\t%u\t%.3f\n", measures[which].name, of[library], kind_names[RANDOM], measures[which].count, found[TIMES / 2]);
        }
    }
    return 0;
}

/* Measures an index that grows beside one with a table for all keys: insertions by one thread, from few keys on, and look-ups, in nanoseconds of a
 * processor for each; what is resident at the end, in bytes for each key; and the longest insertion, in milliseconds of the clock but for those in
 * which its thread waited for a processor. Each is done some times, by turns, in a process of its own; the median counts. A line has four cells, as
 * bench/room.py reads them. `bench/run growing` builds and runs it. */
#include "keys.h"
#include <fcntl.h>
#include <sys/wait.h>
#include <unistd.h>

enum { TIMES = 3, FEW = 1000, MOST = 20000000, FIGURES = 4 };

static uint32_t count;
static hot_index *at;

static double clock_of(clockid_t which)
{
    struct timespec now;
    clock_gettime(which, &now);
    return (double)now.tv_sec * 1e9 + (double)now.tv_nsec;
}

static void need(int is_so)
{
    if (!is_so) {
        fprintf(stderr, "growing: a call went wrong\n");
        exit(1);
    }
}

/* How long this thread has waited for a processor. */
static double waited(int schedstat)
{
    char text[96];
    double ran, so_far = 0;
    ssize_t length = pread(schedstat, text, sizeof text - 1, 0);
    need(length > 0);
    text[length] = 0;
    need(sscanf(text, "%lf %lf", &ran, &so_far) == 2);
    return so_far;
}

/* What a call is measured by: the clock's time in between, less that in which its thread waited. It may have done so beside the clock's, but
 * not within it unseen. */
typedef struct stopwatch {
    int schedstat;
    double waited, began;
} stopwatch;

static void begin_call(stopwatch *by)
{
    by->waited = waited(by->schedstat);
    by->began = clock_of(CLOCK_MONOTONIC);
}

static double end_call(const stopwatch *by)
{
    double took = clock_of(CLOCK_MONOTONIC) - by->began;
    return (took - (waited(by->schedstat) - by->waited)) / 1e6;
}

static int open_schedstat(void)
{
    int file = open("/proc/thread-self/schedstat", O_RDONLY);
    need(file >= 0);
    return file;
}

static double resident(void)
{
    char line[256];
    long bytes = 0, part;
    FILE *file = fopen("/proc/self/smaps_rollup", "r");
    need(file != NULL);
    while (fgets(line, sizeof line, file))
        if (sscanf(line, "Pss_Anon: %ld", &part) == 1 || sscanf(line, "Pss_Shmem: %ld", &part) == 1)
            bytes += part * 1024;
    fclose(file);
    return (double)bytes;
}

static void open_index(int grows, hot_handle *handle)
{
    hot_stock stock;
    hot_stock_for_keys(grows ? FEW : count, 8, &stock);
    need((grows ? hot_open_growing(&stock, SIZE_MAX, 4, &at) : hot_open_index(&stock, 4, &at)) == HOT_DONE);
    need(hot_open(at, handle) == HOT_DONE);
}

/* Inserts all keys. Returns the longest call, if it is asked for. */
static double insert_all(hot_handle *handle, int is_timed)
{
    uint8_t key[LONGEST];
    uint32_t number;
    stopwatch by = { is_timed ? open_schedstat() : -1, 0, 0 };
    double longest = 0, took;
    for (number = 0; number < count; number++) {
        size_t length = key_of(RANDOM, number, key);
        if (is_timed)
            begin_call(&by);
        need(hot_insert(handle, key, length, number, NULL) == HOT_INSERTED);
        if (is_timed) {
            took = end_call(&by);
            longest = took > longest ? took : longest;
        }
    }
    if (is_timed)
        close(by.schedstat);
    return longest;
}

static void look_up_all(hot_handle *handle)
{
    uint8_t key[LONGEST];
    uint64_t value = 0;
    uint32_t number;
    for (number = 0; number < count; number++) {
        size_t length = key_of(RANDOM, mixed(number) % count, key);
        need(hot_get(handle, key, length, &value) == HOT_FOUND);
    }
}

/* Inserts and look-ups; and in an index of its own inserts that are timed. */
static void measure_one(int grows, double *to)
{
    hot_handle handle = HOT_HANDLE;
    double first = resident(), began = clock_of(CLOCK_PROCESS_CPUTIME_ID);
    open_index(grows, &handle);
    insert_all(&handle, 0);
    to[0] = (clock_of(CLOCK_PROCESS_CPUTIME_ID) - began) / count;
    to[1] = (resident() - first) / count;
    began = clock_of(CLOCK_PROCESS_CPUTIME_ID);
    look_up_all(&handle);
    to[2] = (clock_of(CLOCK_PROCESS_CPUTIME_ID) - began) / count;
    need(hot_close(&handle) == HOT_DONE && hot_close_index(at) == HOT_DONE);
    open_index(grows, &handle);
    to[3] = insert_all(&handle, 1);
}

static void measure(int grows, double *to)
{
    int pipes[2];
    double got[FIGURES] = { 0 };
    pid_t child;
    need(pipe(pipes) == 0);
    child = fork();
    if (child == 0) {
        measure_one(grows, got);
        _exit(write(pipes[1], got, sizeof got) != sizeof got);
    }
    need(child > 0 && read(pipes[0], got, sizeof got) == sizeof got && waitpid(child, NULL, 0) == child);
    close(pipes[0]), close(pipes[1]);
    memcpy(to, got, sizeof got);
}

static int compare(const void *one, const void *other)
{
    double difference = *(const double *)one - *(const double *)other;
    return (difference > 0) - (difference < 0);
}

int main(int words, char **word)
{
    static const char *const names[FIGURES] = { "inserts", "resident", "look-ups", "longest insert" };
    static double figures[2][FIGURES][TIMES];
    int time, place, grows, next = 1;
    do {
        count = next < words ? (uint32_t)strtoul(word[next], NULL, 10) : 1000000;
        if (count < FEW || count > MOST)
            return 2;
        for (time = 0; time < TIMES; time++)
            for (grows = 0; grows < 2; grows++) {
                double to[FIGURES];
                measure(grows, to);
                for (place = 0; place < FIGURES; place++)
                    figures[grows][place][time] = to[place];
            }
        for (grows = 0; grows < 2; grows++)
            for (place = 0; place < FIGURES; place++) {
                qsort(figures[grows][place], TIMES, sizeof(double), compare);
                printf("%s, %s\t%s\t%u\t%.2f\n", names[place], grows ? "growing" : "a table for all", kind_names[RANDOM], count,
                       figures[grows][place][TIMES / 2]);
            }
    } while (++next < words);
    return 0;
}

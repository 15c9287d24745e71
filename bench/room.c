/* Tells what memory an index takes: how many bytes are resident for each key, fresh, loaded and where keys come and go, and what an open handle
 * takes. Each figure is of a process of its own, with stocks by hot_stock_for_keys, or by hot_stock_for_lengths for URLs. A line has four cells:
 * what it is, which keys, how many, and the figure. `bench/run room` builds and runs it; how busy the machine is changes nothing but the
 * microseconds of a small index. */
#include "keys.h"
#include <pthread.h>
#include <sys/prctl.h>
#include <sys/wait.h>
#include <unistd.h>

enum { THREADS = 4, BATCH = 100000, TIMES = 10, HANDLES = 64 };

/* The bytes of this process that are resident. */
static double now_resident(void)
{
    char line[256];
    double found = 0;
    FILE *file = fopen("/proc/self/status", "r");
    while (file && fgets(line, sizeof line, file)) {
        if (!strncmp(line, "VmRSS:", 6)) {
            found = 1024 * strtod(line + 6, NULL);
        }
    }
    if (file) {
        fclose(file);
    }
    return found;
}

static void tell(const char *what, const char *keys, uint32_t count, double figure)
{
    printf("%s\t%s\t%u\t%.1f\n", what, keys, (unsigned)count, figure);
    fflush(stdout);
}

/* The stock for so many keys of a kind. */
static hot_stock stock_for(int kind, uint32_t keys)
{
    uint32_t lengths[5] = { 0, 0, 0, 0, 0 }, number;
    uint8_t key[LONGEST];
    hot_stock stock;
    for (number = 0; kind == PAGES && number < keys; number++) {
        size_t length = key_of(kind, number, key);
        lengths[(length > 8) + (length > 24) + (length > 56) + (length > 88)]++;
    }
    if (kind == PAGES) {
        hot_stock_for_lengths(lengths, &stock);
    } else {
        hot_stock_for_keys(keys, 8, &stock);
    }
    return stock;
}

/* Leaves this process without huge pages, so that each page in use counts by itself. */
static void take_small_pages(void)
{
    prctl(PR_SET_THP_DISABLE, 1, 0, 0, 0);
}

/* Makes an index for so many keys of a kind, and opens a handle. */
static hot_index *make(int kind, uint32_t keys, hot_handle *handle)
{
    hot_stock stock = stock_for(kind, keys);
    hot_index *index;
    must(hot_open_index(&stock, HANDLES, &index), HOT_DONE);
    must(hot_open(index, handle), HOT_DONE);
    return index;
}

static void insert(hot_handle *handle, int kind, uint64_t from, uint64_t upto)
{
    uint8_t key[LONGEST];
    uint64_t number;
    for (number = from; number < upto; number++) {
        must(hot_insert(handle, key, key_of(kind, number, key), number, NULL), HOT_INSERTED);
    }
}

static void take_out(hot_handle *handle, int kind, uint64_t from, uint64_t upto)
{
    uint8_t key[LONGEST];
    uint64_t number;
    for (number = from; number < upto; number++) {
        must(hot_remove(handle, key, key_of(kind, number, key), NULL), HOT_REMOVED);
    }
}

/* Bytes a key, once so many were put in. */
static void fresh(int kind, uint32_t keys)
{
    hot_handle handle = HOT_HANDLE;
    double before = now_resident();
    make(kind, keys, &handle);
    insert(&handle, kind, 0, keys);
    tell("fresh", kind_names[kind], keys, (now_resident() - before) / keys);
}

/* Numbers of a kind that are loaded, in the order of their keys. */
struct sorted {
    uint32_t *numbers, next, count;
    uint8_t key[LONGEST];
    int kind;
};

static int sorted_kind;

static int compare(const void *one, const void *other)
{
    uint8_t left[LONGEST], right[LONGEST];
    size_t its = key_of(sorted_kind, *(const uint32_t *)one, left), others = key_of(sorted_kind, *(const uint32_t *)other, right);
    int order = memcmp(left, right, its < others ? its : others);
    return order ? order : (its > others) - (its < others);
}

static int next_sorted(void *context, const uint8_t **key, size_t *length, uint64_t *value)
{
    struct sorted *all = context;
    if (all->next == all->count) {
        return 0;
    }
    *value = all->numbers[all->next++];
    *length = key_of(all->kind, *value, all->key);
    *key = all->key;
    return 1;
}

/* Bytes a key, once so many were loaded. */
static void loaded(int kind, uint32_t keys)
{
    struct sorted all = { malloc(keys * sizeof *all.numbers), 0, keys, { 0 }, kind };
    hot_stock stock = stock_for(kind, keys);
    hot_index *index;
    double before;
    size_t count;
    uint32_t number;
    for (number = 0; all.numbers && number < keys; number++) {
        all.numbers[number] = number;
    }
    sorted_kind = kind;
    qsort(all.numbers, keys, sizeof *all.numbers, compare);
    before = now_resident();
    must(hot_load(&stock, HANDLES, next_sorted, &all, &index, &count), HOT_DONE);
    tell("loaded", kind_names[kind], keys, (now_resident() - before) / keys);
}

/* Bytes a key in a table for fifteen times as many, once half of them have been replaced, some times over and batch by batch. */
static void replaced(int kind, uint32_t keys)
{
    hot_handle handle = HOT_HANDLE;
    double before = now_resident();
    uint64_t first = 0, next = keys;
    int turn;
    take_small_pages();
    make(kind, 15 * keys, &handle);
    insert(&handle, kind, 0, keys);
    tell("fresh, in a table for more", kind_names[kind], keys, (now_resident() - before) / keys);
    for (turn = 0; turn < TIMES * (int)(keys / 2 / BATCH); turn++) {
        take_out(&handle, kind, first, first + BATCH);
        insert(&handle, kind, next, next + BATCH);
        first += BATCH;
        next += BATCH;
    }
    tell("half replaced ten times", kind_names[kind], keys, (now_resident() - before) / keys);
}

struct part {
    hot_handle handle;
    pthread_t thread;
    uint64_t from, upto;
};

static void *insert_part(void *of)
{
    struct part *part = of;
    insert(&part->handle, RANDOM, part->from, part->upto);
    return NULL;
}

/* Bytes a key that several handles put into a table for so many: each of a thread, or one after the other. */
static void insert_by(const char *what, int handles, int by_threads, uint32_t room, int kind, uint32_t keys)
{
    static struct part parts[HANDLES];
    hot_handle handle = HOT_HANDLE;
    double before = now_resident();
    hot_index *index = make(kind, room, &handle);
    int place;
    must(hot_close(&handle), HOT_DONE);
    for (place = 0; place < handles; place++) {
        parts[place].from = (uint64_t)keys / (uint64_t)handles * (uint64_t)place;
        parts[place].upto = parts[place].from + keys / (uint64_t)handles;
        must(hot_open(index, &parts[place].handle), HOT_DONE);
    }
    for (place = 0; place < handles; place++) {
        if (by_threads) {
            pthread_create(&parts[place].thread, NULL, insert_part, &parts[place]);
        } else {
            insert_part(&parts[place]);
        }
    }
    for (place = 0; by_threads && place < handles; place++) {
        pthread_join(parts[place].thread, NULL);
    }
    tell(what, kind_names[kind], keys, (now_resident() - before) / keys);
}

static void by_threads(int kind, uint32_t keys)
{
    take_small_pages();
    insert_by("by four threads", THREADS, 1, 5000000, kind, keys);
}

static void by_threads_huge(int kind, uint32_t keys)
{
    insert_by("by four threads, huge pages", THREADS, 1, 5000000, kind, keys);
}

static void by_handles_huge(int kind, uint32_t keys)
{
    insert_by("by 64 handles, in a table for 10,000,000, huge pages", HANDLES, 0, 10000000, kind, keys);
}

/* What a handle takes once it is open, and once it has changed the index. */
static void handles(int kind, uint32_t keys)
{
    static hot_handle all[HANDLES];
    hot_index *index = make(kind, keys, &all[0]);
    uint8_t key[LONGEST];
    double before, opened;
    uint64_t number;
    int place;
    insert(&all[0], kind, 0, keys);
    before = now_resident();
    for (place = 1; place < HANDLES; place++) {
        must(hot_open(index, &all[place]), HOT_DONE);
    }
    opened = now_resident();
    tell("a handle, opened", kind_names[kind], keys, (opened - before) / (HANDLES - 1));
    for (place = 1; place < HANDLES; place++) {
        for (number = 0; number < 1000; number++) {
            size_t length = key_of(kind, number, key);
            must(hot_remove(&all[place], key, length, NULL), HOT_REMOVED);
            must(hot_insert(&all[place], key, length, number, NULL), HOT_INSERTED);
        }
    }
    tell("a handle, in use", kind_names[kind], keys, (now_resident() - before) / (HANDLES - 1));
}

/* What an index with one handle and so few keys takes, and how long a processor is at it until it is open. */
static void small(int kind, uint32_t keys)
{
    enum { MANY = 20000 };
    static hot_handle all[MANY];
    hot_stock stock = stock_for(kind, keys);
    double before = now_resident(), begun = seconds(CLOCK_PROCESS_CPUTIME_ID), used;
    hot_index *index;
    int place;
    for (place = 0; place < MANY; place++) {
        must(hot_open_index(&stock, 1, &index), HOT_DONE);
        must(hot_open(index, &all[place]), HOT_DONE);
    }
    used = seconds(CLOCK_PROCESS_CPUTIME_ID) - begun;
    for (place = 0; place < MANY; place++) {
        insert(&all[place], kind, 0, keys);
    }
    tell("a small index: bytes", kind_names[kind], keys, (now_resident() - before) / MANY);
    tell("a small index: microseconds", kind_names[kind], keys, 1e6 * used / MANY);
}

/* Runs a measurement in a process of its own. */
static int apart(void (*measure)(int kind, uint32_t keys), int kind, uint32_t keys)
{
    int status = 1;
    pid_t child = fork();
    if (child == 0) {
        measure(kind, keys);
        exit(0);
    }
    return child < 0 || waitpid(child, &status, 0) != child || status != 0;
}

int main(int words, char **word)
{
    uint64_t most = words > 1 ? strtoull(word[1], NULL, 10) : 10000000, keys;
    int failed = 0;
    if (words > 2 || most < 100000 || most > 10000000) {
        fprintf(stderr, "usage: room [KEYS]    the most keys, 100,000 to 10,000,000\n");
        return 2;
    }
    for (keys = 100000; keys <= most; keys *= 10) {
        failed |= apart(fresh, RANDOM, (uint32_t)keys);
    }
    failed |= apart(fresh, PAGES, 200000) | apart(fresh, DENSE, 200000) | apart(replaced, RANDOM, 200000);
    failed |= apart(loaded, RANDOM, 1000000) | apart(loaded, PAGES, 200000);
    failed |= apart(by_threads, RANDOM, 300000) | apart(by_threads_huge, RANDOM, 300000) | apart(by_handles_huge, RANDOM, 1000000);
    failed |= apart(handles, RANDOM, 10000) | apart(small, RANDOM, 10);
    return failed;
}

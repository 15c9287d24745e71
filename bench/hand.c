/* Times look-ups by hot_get, and by a function in C over the same index's table that reads what a look-up has to read, checks each answer
 * and does nothing else: how much of a look-up's time is the table's form, and how much the proved code. It finds the table in the program's
 * memory by its first words, as docs/FORMATS.md has them. `bench/run hand` builds and runs it, on a processor with AVX2. */
#include "keys.h"
#include "search.h"
#include <pthread.h>

/* Words of the table: before the pins, of a pin, of a node's record and of a leaf's; and the anchor. */
enum { FRONT = 48, PIN = 16, NODE = 58, LEAF = 33, ANCHOR = 32 };

/* Bytes that may be loaded behind a key; threads; how often each is timed, of which the middle counts. */
enum { BEHIND = 32, THREADS = 4, TIMES = 9 };

struct key { uint8_t bytes[LONGEST]; size_t length; };

static uint64_t *table, *nodes, *leaves, count;
static struct key *keys;
static hot_handle handles[THREADS] = { HOT_HANDLE, HOT_HANDLE, HOT_HANDLE, HOT_HANDLE };

/* Looks in a part of the memory for the first words of a new table. The system may list the rest as a part of its own. */
static uint64_t *table_within(uint64_t *from, uint64_t *upto)
{
    uint64_t *at, word, front = FRONT + PIN * THREADS;
    for (at = from; (uint64_t)(upto - at) >= front; at++) {
        for (word = 0; word < front && at[word] == (word == 0 ? 1 : word == ANCHOR ? 2 : 0); word++) {
        }
        if (word == front) {
            return at;
        }
    }
    return NULL;
}

/* Finds the table of an index that has just been made. */
static void find_table(uint64_t node_records)
{
    unsigned long from, upto;
    char line[512], rights[8];
    FILE *maps = fopen("/proc/self/maps", "r");
    while (maps && !table && fgets(line, sizeof line, maps)) {
        if (sscanf(line, "%lx-%lx %7s", &from, &upto, rights) == 3 && !strncmp(rights, "rw", 2)) {
            table = table_within((uint64_t *)from, (uint64_t *)upto);
        }
    }
    if (!table) {
        fprintf(stderr, "hand: the table wasn't found\n");
        exit(1);
    }
    nodes = table + FRONT + PIN * THREADS;
    leaves = nodes + NODE * node_records;
}

static int has_key(const uint64_t *leaf, const uint8_t *sought, size_t length)
{
    uint64_t word, at;
    if (load(leaf + 2) != length) {
        return 0;
    }
    for (at = 0; at < (length + 7) / 8; at++) {
        memcpy(&word, sought + 8 * at, sizeof word);
        if (load(leaf + 3 + at) != __builtin_bswap64(word)) {
            return 0;
        }
    }
    return 1;
}

/* A look-up by hand with this pin, in an index that isn't empty. */
static int look_up(uint64_t *pin, const uint8_t *bytes, size_t length, uint64_t *value)
{
    uint8_t sought[LONGEST + BEHIND];
    const uint64_t *leaf;
    uint64_t entry;
    int found;
    memset(sought + length, 0, BEHIND);
    memcpy(sought, bytes, length);
    __atomic_store_n(pin, load(table), __ATOMIC_SEQ_CST);
    for (entry = load(table + 1); entry % 4 == 2;) {
        const uint64_t *node = nodes + NODE * (entry >> 2 & 0xffffffff);
        entry = load(node + HEAD_END + search(node, sought, length));
    }
    leaf = leaves + LEAF * (entry >> 2);
    found = has_key(leaf, sought, length);
    if (found) {
        *value = load(leaf + 1);
    }
    __atomic_store_n(pin, 0, __ATOMIC_SEQ_CST);
    return found;
}

static int is_by_hand;

/* Looks up each key once, in no order; another one for each thread. */
static void *look_up_all(void *thread)
{
    size_t number = (size_t)(uintptr_t)thread;
    uint64_t at, value = 0;
    for (at = 0; at < count; at++) {
        uint64_t key = mixed(at + number * count) % count;
        int found = is_by_hand ? look_up(table + FRONT + PIN * number, keys[key].bytes, keys[key].length, &value)
                               : hot_get(&handles[number], keys[key].bytes, keys[key].length, &value) == HOT_FOUND;
        if (!found || value != key) {
            fprintf(stderr, "hand: a wrong answer\n");
            exit(1);
        }
    }
    return NULL;
}

/* How many nanoseconds of the clock pass for each look-up of so many threads. */
static double time_of(size_t threads)
{
    double begun = seconds(CLOCK_MONOTONIC);
    pthread_t thread[THREADS];
    size_t number;
    for (number = 0; number < threads; number++) {
        pthread_create(&thread[number], NULL, look_up_all, (void *)(uintptr_t)number);
    }
    for (number = 0; number < threads; number++) {
        pthread_join(thread[number], NULL);
    }
    return 1e9 * (seconds(CLOCK_MONOTONIC) - begun) / ((double)threads * (double)count);
}

static int by_size(const void *one, const void *other)
{
    double a = *(const double *)one, b = *(const double *)other;
    return (a > b) - (a < b);
}

static void report(const char *what, size_t threads)
{
    double took[2][TIMES];
    int time;
    for (time = 0; time < TIMES; time++) {
        for (is_by_hand = 0; is_by_hand < 2; is_by_hand++) {
            took[is_by_hand][time] = time_of(threads);
        }
    }
    qsort(took[0], TIMES, sizeof(double), by_size);
    qsort(took[1], TIMES, sizeof(double), by_size);
    printf("%-12s hot_get %4.0f ns, by hand %4.0f ns\n", what, took[0][TIMES / 2], took[1][TIMES / 2]);
}

int main(int words, char **word)
{
    int kind = words > 2 && !strcmp(word[2], "urls") ? PAGES : RANDOM;
    uint64_t at, had;
    count = words > 1 ? strtoull(word[1], NULL, 10) : 200000;
    if (words > 3 || (words == 3 && kind == RANDOM) || count < 100 || count > 200000) {
        fprintf(stderr, "usage: hand [KEYS [urls]]    100 to 200,000 keys, else 200,000 random ones of 8 bytes\n");
        return 2;
    }
    must(hot_create((uint32_t)(count / 8), (uint32_t)(count + count / 4), handles, THREADS), HOT_DONE);
    find_table(count / 8 + 1); /* one more is kept */
    keys = calloc(count, sizeof *keys);
    for (at = 0; keys && at < count; at++) {
        keys[at].length = key_of(kind, at, keys[at].bytes);
        must(hot_try_insert(&handles[0], keys[at].bytes, keys[at].length, at, &had), HOT_INSERTED);
    }
    printf("%llu %s\n", (unsigned long long)count, kind_names[kind]);
    report("one thread", 1);
    report("four threads", THREADS);
    return 0;
}

/* Measures what it takes to make an index of sorted pairs: by hot_load, and beside that by insertions in the order of the keys, and by the same
 * insertions into an adaptive radix tree, if that is built (ART, bench/peers). Each is done some times, by turns, in a process of
 * its own; the median counts, in nanoseconds of a processor for each key. A line has four cells, as bench/room.py reads them: what it is,
 * which keys, how many, and the figure. `bench/run load` builds and runs it. */
#include "keys.h"
#include "map.h"
#include <sys/wait.h>
#include <unistd.h>

enum { TIMES = 7, MOST = 20000000 };

/* Keys in order, which lie one after another, as they come from a file. */
static key *keys;
static uint32_t count;

static int compare(const void *one, const void *other)
{
    const key *left = one, *right = other;
    uint32_t shorter = left->length < right->length ? left->length : right->length;
    int order = memcmp(left->bytes, right->bytes, shorter);
    return order ? order : (left->length > right->length) - (left->length < right->length);
}

static void *room(size_t bytes)
{
    void *made = malloc(bytes);
    if (!made) {
        fprintf(stderr, "load: out of memory\n");
        exit(1);
    }
    return made;
}

/* Moves the keys to other memory, in the order in which they are. */
static void move_keys(uint8_t *to)
{
    uint32_t place;
    for (place = 0; place < count; place++) {
        memcpy(to, keys[place].bytes, keys[place].length);
        keys[place].bytes = to;
        to += keys[place].length;
    }
}

/* Makes so many keys of a kind. */
static void make_keys(int kind, uint32_t wanted)
{
    uint8_t *drawn = room((size_t)wanted * LONGEST), *sorted, *next = drawn;
    count = wanted;
    keys = room(count * sizeof *keys);
    for (uint32_t number = 0; number < count; number++) {
        key one = { next, (uint32_t)key_of(kind, number, next), number };
        keys[number] = one;
        next += one.length;
    }
    qsort(keys, count, sizeof *keys, compare);
    sorted = room((size_t)(next - drawn));
    move_keys(sorted);
    free(drawn);
}

/* The stock for these keys. */
static hot_stock stock_for_all(void)
{
    uint32_t lengths[5] = { 0, 0, 0, 0, 0 }, place;
    hot_stock stock;
    for (place = 0; place < count; place++) {
        uint32_t length = keys[place].length;
        lengths[(length > 8) + (length > 24) + (length > 56) + (length > 88)]++;
    }
    hot_stock_for_lengths(lengths, &stock);
    return stock;
}

static int next_key(void *context, const uint8_t **bytes, size_t *length, uint64_t *value)
{
    uint32_t *next = context;
    if (*next == count) {
        return 0;
    }
    *bytes = keys[*next].bytes;
    *length = keys[*next].length;
    *value = keys[(*next)++].number;
    return 1;
}

/* Whether an index has the keys. */
static void check(hot_index *index)
{
    hot_handle handle = HOT_HANDLE;
    uint64_t value = 0;
    size_t found;
    uint32_t place;
    must(hot_open(index, &handle), HOT_DONE);
    must(hot_len(&handle, &found), HOT_DONE);
    must(found == count ? HOT_DONE : HOT_DIFFERS, HOT_DONE);
    for (place = 0; place < count; place += 97) {
        must(hot_get(&handle, keys[place].bytes, keys[place].length, &value), HOT_FOUND);
        must(value == keys[place].number ? HOT_DONE : HOT_DIFFERS, HOT_DONE);
    }
}

/* What is measured: each returns the seconds of a processor that it took. */

static double load(void)
{
    hot_stock stock = stock_for_all();
    hot_index *index;
    uint32_t next = 0;
    size_t loaded;
    double begun = seconds(CLOCK_PROCESS_CPUTIME_ID), took;
    must(hot_load(&stock, 4, next_key, &next, &index, &loaded), HOT_DONE);
    took = seconds(CLOCK_PROCESS_CPUTIME_ID) - begun;
    check(index);
    return took;
}

static double insert(void)
{
    hot_stock stock = stock_for_all();
    hot_handle handle = HOT_HANDLE;
    hot_index *index;
    uint32_t place;
    double begun;
    must(hot_open_index(&stock, 4, &index), HOT_DONE);
    must(hot_open(index, &handle), HOT_DONE);
    begun = seconds(CLOCK_PROCESS_CPUTIME_ID);
    for (place = 0; place < count; place++) {
        must(hot_insert(&handle, keys[place].bytes, keys[place].length, keys[place].number, NULL), HOT_INSERTED);
    }
    return seconds(CLOCK_PROCESS_CPUTIME_ID) - begun;
}

#ifdef ART
extern const map art_map;

static double insert_into_art(void)
{
    void *hand;
    uint64_t had;
    uint32_t place;
    double begun;
    art_map.make(NULL, &hand, 1);
    begun = seconds(CLOCK_PROCESS_CPUTIME_ID);
    for (place = 0; place < count; place++) {
        must(art_map.insert(hand, &keys[place], &had) ? HOT_EXISTS : HOT_DONE, HOT_DONE);
    }
    return seconds(CLOCK_PROCESS_CPUTIME_ID) - begun;
}
#endif

typedef struct measure {
    const char *name;
    double (*run)(void);
    double took[TIMES];
} measure;

static measure measures[] = {
    { "load", load, { 0 } },
    { "inserts in order", insert, { 0 } },
#ifdef ART
    { "inserts in order, ART", insert_into_art, { 0 } },
#endif
};

enum { MEASURES = sizeof measures / sizeof *measures };

/* Runs a measurement in a process of its own, which has the keys of this one. */
static double apart(double (*run)(void))
{
    int ends[2], status = 1;
    double took = 0;
    pid_t child = pipe(ends) ? -1 : fork();
    if (child == 0) {
        took = run();
        _exit(write(ends[1], &took, sizeof took) != sizeof took);
    }
    close(ends[1]);
    if (child < 0 || read(ends[0], &took, sizeof took) != sizeof took || waitpid(child, &status, 0) != child || status != 0) {
        fprintf(stderr, "load: a measurement failed\n");
        exit(1);
    }
    close(ends[0]);
    return took;
}

static int order_times(const void *one, const void *other)
{
    double left = *(const double *)one, right = *(const double *)other;
    return (left > right) - (left < right);
}

static void measure_all(int kind, uint32_t wanted)
{
    int time, which;
    make_keys(kind, wanted);
    for (time = 0; time < TIMES; time++) {
        for (which = 0; which < MEASURES; which++) {
            measures[which].took[time] = apart(measures[which].run);
        }
    }
    for (which = 0; which < MEASURES; which++) {
        qsort(measures[which].took, TIMES, sizeof(double), order_times);
        printf("%s\t%s\t%u\t%.1f\n", measures[which].name, kind_names[kind], (unsigned)count, 1e9 * measures[which].took[TIMES / 2] / count);
        fflush(stdout);
    }
    free((void *)(uintptr_t)keys[0].bytes);
    free(keys);
}

int main(int words, char **word)
{
    static const uint32_t usual[2] = { 200000, 1000000 };
    int place, number = words > 1 ? words - 1 : 2;
    for (place = 0; place < number; place++) {
        uint64_t wanted = words > 1 ? strtoull(word[place + 1], NULL, 10) : usual[place];
        if (wanted < 1 || wanted > MOST) {
            fprintf(stderr, "usage: load [COUNT..]    how many keys, 1 to %d\n", MOST);
            return 2;
        }
        measure_all(RANDOM, (uint32_t)wanted);
        measure_all(PAGES, (uint32_t)wanted);
    }
    return 0;
}

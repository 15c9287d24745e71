/* Measures calls of the index beside others of its own, on random keys of 8 bytes: a count of 10,000 keys beside a scan of them, look-ups
 * with huge pages beside look-ups without, and look-ups of 64 keys a call beside those of one. A line has four cells, as bench/room.py reads them: what it is, which keys, how many, and the
 * nanoseconds of a processor that a call took where it was fastest. `bench/run own` builds and runs it, and bench/counter.c. */
#include "keys.h"
#include <sys/prctl.h>
#include <sys/wait.h>
#include <unistd.h>

/* Of how many keys a range is counted and listed, how often each thing is timed, by turns, and how many keys a call looks up; DRAWN is a
 * multiple of that. */
enum { RANGE = 10000, TIMES = 40, LOOKUPS = 200000, MANY = 64, DRAWN = 300 * MANY };

static hot_handle handle;

/* Makes an index of so many keys. */
static void fill(uint32_t keys)
{
    hot_stock stock;
    hot_index *index;
    uint32_t number;
    hot_stock_for_keys(keys, 8, &stock);
    must(hot_open_index(&stock, 1, &index), HOT_DONE);
    must(hot_open(index, &handle), HOT_DONE);
    for (number = 0; number < keys; number++) {
        uint8_t key[LONGEST];
        size_t length = key_of(RANDOM, number, key);
        must(hot_insert(&handle, key, length, number, NULL), HOT_INSERTED);
    }
}

/* Notes a time, if it is the first or the least. */
static void note(double *least, double began)
{
    double took = seconds(CLOCK_PROCESS_CPUTIME_ID) - began;
    if (*least == 0 || took < *least) {
        *least = took;
    }
}

static void tell(const char *what, uint32_t keys, double nanoseconds)
{
    printf("%s\t%s\t%u\t%.1f\n", what, kind_names[RANDOM], (unsigned)keys, nanoseconds);
    fflush(stdout);
}

/* Counts a range and lists it, by turns. */
static void count_and_list(uint32_t keys)
{
    static uint8_t bytes[RANGE * LONGEST];
    static hot_head heads[RANGE];
    double counting = 0, listing = 0;
    uint32_t more;
    int time;
    fill(keys);
    for (time = 0; time < TIMES; time++) {
        uint8_t from[LONGEST];
        const uint8_t *last;
        size_t count, found, length = key_of(RANDOM, keys / 2 + (uint32_t)time, from);
        double began = seconds(CLOCK_PROCESS_CPUTIME_ID);
        must(hot_scan_packed(&handle, from, length, HOT_TO_END, bytes, sizeof bytes, heads, RANGE, &found, &more), HOT_DONE);
        if (found < RANGE) {
            continue;
        }
        note(&listing, began);
        last = bytes + 8 * (RANGE - 1);
        began = seconds(CLOCK_PROCESS_CPUTIME_ID);
        must(hot_count(&handle, from, length, last, 8, &count), HOT_DONE);
        note(&counting, began);
        must(count == RANGE ? HOT_DONE : HOT_DIFFERS, HOT_DONE);
    }
    tell("a count of 10,000 keys", keys, 1e9 * counting);
    tell("a scan of 10,000 pairs", keys, 1e9 * listing);
}

/* Looks keys up, with the pages that this process may have. */
static void look_up(const char *what, uint32_t keys)
{
    double least = 0;
    uint64_t drawn = 0;
    int time;
    fill(keys);
    for (time = 0; time < TIMES / 4; time++) {
        double began = seconds(CLOCK_PROCESS_CPUTIME_ID);
        int call;
        for (call = 0; call < LOOKUPS; call++) {
            uint64_t number = mixed(~drawn++) % keys, value = 0;
            uint8_t key[LONGEST];
            size_t length = key_of(RANDOM, number, key);
            must(hot_get(&handle, key, length, &value), HOT_FOUND);
            must(value == number ? HOT_DONE : HOT_DIFFERS, HOT_DONE);
        }
        note(&least, began);
    }
    tell(what, keys, 1e9 * least / LOOKUPS);
}

static void with_huge_pages(uint32_t keys)
{
    look_up("look-ups with huge pages", keys);
}

static void without_huge_pages(uint32_t keys)
{
    prctl(PR_SET_THP_DISABLE, 1, 0, 0, 0);
    look_up("look-ups without huge pages", keys);
}

/* Looks keys up by hot_get_many and as many by hot_get, by turns. */
static void look_up_many(uint32_t keys)
{
    static uint8_t bytes[DRAWN][LONGEST];
    static hot_lookup lookups[DRAWN];
    double together = 0, single = 0;
    uint64_t drawn = 0;
    int turn;
    fill(keys);
    for (turn = 0; turn < 2 * TIMES; turn++) {
        double began;
        int place;
        for (place = 0; place < DRAWN; place++) {
            lookups[place].key = bytes[place];
            lookups[place].length = key_of(RANDOM, mixed(~drawn++) % keys, bytes[place]);
        }
        began = seconds(CLOCK_PROCESS_CPUTIME_ID);
        if (turn % 2) {
            for (place = 0; place < DRAWN; place++) {
                must(hot_get(&handle, bytes[place], lookups[place].length, &lookups[place].value), HOT_FOUND);
            }
            note(&single, began);
        } else {
            for (place = 0; place < DRAWN; place += MANY) {
                must(hot_get_many(&handle, &lookups[place], MANY), HOT_DONE);
            }
            note(&together, began);
        }
    }
    tell("look-ups of 64 keys a call", keys, 1e9 * together / DRAWN);
    tell("look-ups of one key a call", keys, 1e9 * single / DRAWN);
}

/* Runs a measurement in a process of its own. */
static int apart(void (*measure)(uint32_t keys), uint32_t keys)
{
    int status = 1;
    pid_t child = fork();
    if (child == 0) {
        measure(keys);
        exit(0);
    }
    return child < 0 || waitpid(child, &status, 0) != child || status != 0;
}

int main(void)
{
    return apart(count_and_list, 200000) | apart(with_huge_pages, 1000000) | apart(without_huge_pages, 1000000)
        | apart(look_up_many, 10000) | apart(look_up_many, 200000) | apart(look_up_many, 1000000);
}

/* Measures changes that several threads make at the same time, in an index of random keys: additions by hot_add, by one thread, by several to
 * one counter, and by as many to a counter each; and removals and inserts, by one thread, and by several of keys of their own. All take turns.
 * `bench/run counter` builds and runs it, and `bench/run own`. A line has four cells, as bench/room.py reads them: what it is, which keys, how
 * many, and the nanoseconds of a call by the clock, the median of all slots. A further line has the least share of one thread, in thousandths
 * of all additions to one counter. */
#include "keys.h"
#include <pthread.h>
#include <stdatomic.h>

/* The most threads and slots, the least keys, and how long a slot is, in milliseconds. */
enum { MOST = 64, SLOTS = 1000, LEAST = 1000, SLOT = 20 };

/* Additions by one thread; by several to one counter; and by several to one each. Removals and inserts by one thread, and by several. */
enum { ALONE, TOGETHER, APART, TURNS_ALONE, TURNS, FORMS };

/* So many keys of a thread are out of the index, once it has taken out as many. */
enum { WINDOW = 1000 };

/* One of several threads: the number of its counter, those of the keys that it takes out and puts in, and how many turns it has made. How many
 * calls it has made in a slot, and how long they took; and how many additions to one counter with the others. */
typedef struct worker {
    hot_handle handle;
    uint64_t number, from, count, turns, calls, together;
    double took;
} worker;

static worker workers[MOST];
static pthread_barrier_t gate;
static atomic_int is_over;
static int form; /* of the slot */

static void add(worker *me)
{
    uint8_t key[LONGEST];
    size_t length = key_of(RANDOM, me->number, key);
    for (; !atomic_load_explicit(&is_over, memory_order_relaxed); me->calls++) {
        must(hot_add(&me->handle, key, length, 1, NULL), HOT_WAS);
    }
}

/* Removes a key of the thread, and inserts one that it removed some turns before, again and again. */
static void take_turns(worker *me)
{
    uint64_t window = me->count / 2 < WINDOW ? me->count / 2 : WINDOW;
    uint8_t key[LONGEST];
    for (; !atomic_load_explicit(&is_over, memory_order_relaxed); me->turns++, me->calls++) {
        size_t length = key_of(RANDOM, me->from + me->turns % me->count, key);
        must(hot_remove(&me->handle, key, length, NULL), HOT_REMOVED);
        if (me->turns < window) {
            continue;
        }
        length = key_of(RANDOM, me->from + (me->turns - window) % me->count, key);
        must(hot_insert(&me->handle, key, length, me->turns, NULL), HOT_INSERTED);
        me->calls++;
    }
}

static void *work_on(void *given)
{
    worker *me = given;
    double began;
    pthread_barrier_wait(&gate);
    began = seconds(CLOCK_MONOTONIC);
    me->calls = 0;
    if (form < TURNS_ALONE) {
        add(me);
    } else {
        take_turns(me);
    }
    me->took = seconds(CLOCK_MONOTONIC) - began;
    return NULL;
}

/* Has so many threads at work for a slot, and returns how many calls they made in a second. */
static double work(int threads)
{
    static const struct timespec slot = { 0, SLOT * 1000000L };
    pthread_t started[MOST];
    double rate = 0;
    int place;
    is_over = 0;
    pthread_barrier_init(&gate, NULL, (unsigned)threads + 1);
    for (place = 0; place < threads; place++) {
        workers[place].number = form == APART ? (uint64_t)place : 0;
        if (pthread_create(&started[place], NULL, work_on, &workers[place])) {
            exit(1);
        }
    }
    pthread_barrier_wait(&gate);
    nanosleep(&slot, NULL);
    is_over = 1;
    for (place = 0; place < threads; place++) {
        pthread_join(started[place], NULL);
        rate += (double)workers[place].calls / workers[place].took;
        workers[place].together += form == TOGETHER ? workers[place].calls : 0;
    }
    pthread_barrier_destroy(&gate);
    return rate;
}

/* Makes an index of so many keys, of which the first are the counters, with a handle for each thread, and the others in parts for these. */
static void make(uint32_t keys, int threads)
{
    hot_stock stock;
    hot_index *index;
    uint32_t number;
    int place;
    hot_stock_for_keys(keys, 8, &stock);
    must(hot_open_index(&stock, (size_t)threads, &index), HOT_DONE);
    for (place = 0; place < threads; place++) {
        must(hot_open(index, &workers[place].handle), HOT_DONE);
        workers[place].count = (keys - MOST) / (uint32_t)threads;
        workers[place].from = MOST + (uint64_t)place * workers[place].count;
    }
    for (number = 0; number < keys; number++) {
        uint8_t key[LONGEST];
        size_t length = key_of(RANDOM, number, key);
        must(hot_insert(&workers[0].handle, key, length, 0, NULL), HOT_INSERTED);
    }
}

static void tell(const char *threads, const char *what, uint32_t keys, double figure)
{
    printf("%s%s\t%s\t%u\t%.1f\n", threads, what, kind_names[RANDOM], (unsigned)keys, figure);
}

static int compare(const void *one, const void *other)
{
    double a = *(const double *)one, b = *(const double *)other;
    return (a > b) - (a < b);
}

/* The nanoseconds of a call, by the median of the calls in a second of so many slots. */
static double median(double *rates, int slots)
{
    qsort(rates, (size_t)slots, sizeof *rates, compare);
    return 1e9 / rates[slots / 2];
}

/* Writes the lines of what was measured: the calls in a second of each form and slot. */
static void tell_all(uint32_t keys, int threads, int slots, double rates[FORMS][SLOTS])
{
    uint64_t all = 0, least = UINT64_MAX;
    char several[32];
    int place;
    for (place = 0; place < threads; place++) {
        all += workers[place].together;
        least = workers[place].together < least ? workers[place].together : least;
    }
    snprintf(several, sizeof several, "%d threads", threads);
    tell("1 thread", ": an addition", keys, median(rates[ALONE], slots));
    tell(several, " on one counter: an addition", keys, median(rates[TOGETHER], slots));
    tell(several, " on a counter each: an addition", keys, median(rates[APART], slots));
    tell(several, " on one counter: least share, thousandths", keys, 1000.0 * (double)least / (double)all);
    tell("1 thread", ": a removal or an insert", keys, median(rates[TURNS_ALONE], slots));
    tell(several, ": a removal or an insert", keys, median(rates[TURNS], slots));
}

int main(int words, char **word)
{
    int threads = words > 1 ? atoi(word[1]) : 4, slots = words > 2 ? atoi(word[2]) : 50, slot;
    uint64_t keys = words > 3 ? strtoull(word[3], NULL, 10) : 10000;
    static double rates[FORMS][SLOTS];
    if (words > 4 || threads < 1 || threads > MOST || slots < 1 || slots > SLOTS || keys < LEAST || keys > 20000000) {
        fprintf(stderr, "usage: counter [THREADS [SLOTS [KEYS]]]    1 to %d threads, and %d keys at least\n", MOST, LEAST);
        return 2;
    }
    make((uint32_t)keys, threads);
    for (slot = 0; slot < slots; slot++) {
        for (form = 0; form < FORMS; form++) {
            rates[form][slot] = work(form == ALONE || form == TURNS_ALONE ? 1 : threads);
        }
    }
    tell_all((uint32_t)keys, threads, slots, rates);
    return 0;
}

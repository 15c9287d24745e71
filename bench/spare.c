/* Measures removals and inserts where few leaf records are to spare, on an index of random keys of 8 bytes: each thread takes keys of its own
 * out and puts them back. It tells the time of a call, and how many calls are refused. `bench/run spare` builds and runs it. */
#include "keys.h"
#include <pthread.h>

enum { THREADS = 4, TURNS = 100000, LEAST = 100, MOST = 10000000, WAYS = 3, SPARES = 5 };

typedef hot_status removal(hot_handle *, const uint8_t *, size_t, uint64_t *);
typedef hot_status insertion(hot_handle *, const uint8_t *, size_t, uint64_t, uint64_t *);

/* Who makes the calls, and by which. */
static const struct way {
    const char *name;
    int threads;
    removal *remove;
    insertion *insert;
} ways[WAYS] = {
    { "1 thread", 1, hot_remove, hot_insert },
    { "4 threads, calls that wait", THREADS, hot_remove, hot_insert },
    { "4 threads, hot_try_..", THREADS, hot_try_remove, hot_try_insert },
};

/* How many leaf records are to spare, of a hundred keys. */
static const uint32_t spares[SPARES] = { 1, 5, 10, 25, 100 };

/* One of the threads: how often it was refused as full, as held back and as busy, and how long a processor was at it. */
typedef struct worker {
    hot_handle *handle;
    const struct way *way;
    uint32_t keys, place;
    pthread_barrier_t *gate;
    uint32_t full, held, busy;
    double used;
} worker;

static void note(worker *me, hot_status status)
{
    me->full += status == HOT_FULL_NODES || status == HOT_FULL_LEAVES;
    me->held += status == HOT_HELD_BACK;
    me->busy += status == HOT_BUSY;
}

static void *replace_all(void *given)
{
    worker *me = given;
    uint32_t turn;
    pthread_barrier_wait(me->gate);
    me->used = seconds(CLOCK_THREAD_CPUTIME_ID);
    for (turn = 0; turn < TURNS; turn++) {
        uint8_t key[LONGEST];
        uint64_t had;
        size_t length = key_of(RANDOM, (THREADS * turn + me->place) % me->keys, key);
        note(me, me->way->remove(me->handle, key, length, &had));
        note(me, me->way->insert(me->handle, key, length, turn, &had));
    }
    me->used = seconds(CLOCK_THREAD_CPUTIME_ID) - me->used;
    return NULL;
}

/* Lets so many threads, which begin apart, make their calls. Answers how many seconds that takes. */
static double run_all(worker *workers, int threads)
{
    pthread_t started[THREADS];
    pthread_barrier_t gate;
    double begun;
    int place;
    pthread_barrier_init(&gate, NULL, (unsigned)threads + 1);
    for (place = 0; place < threads; place++) {
        workers[place].gate = &gate;
        if (pthread_create(&started[place], NULL, replace_all, &workers[place])) {
            fprintf(stderr, "spare: a thread could not be started\n");
            exit(1);
        }
    }
    pthread_barrier_wait(&gate);
    begun = seconds(CLOCK_MONOTONIC);
    for (place = 0; place < threads; place++) {
        pthread_join(started[place], NULL);
    }
    pthread_barrier_destroy(&gate);
    return seconds(CLOCK_MONOTONIC) - begun;
}

static void measure(uint32_t keys, const struct way *way, uint32_t spare)
{
    hot_handle handles[THREADS] = { HOT_HANDLE, HOT_HANDLE, HOT_HANDLE, HOT_HANDLE };
    hot_stock stock = { keys / 4 + 64, keys + keys / 100 * spare, 0, 0, 0, 0 };
    worker workers[THREADS];
    uint32_t number, full = 0, held = 0, busy = 0;
    double took, used = 0;
    int place, calls = 2 * TURNS * way->threads;
    must(hot_create_with(&stock, handles, (size_t)way->threads), HOT_DONE);
    for (number = 0; number < keys; number++) {
        uint8_t key[LONGEST];
        uint64_t had;
        must(hot_insert(&handles[0], key, key_of(RANDOM, number, key), number, &had), HOT_INSERTED);
    }
    for (place = 0; place < way->threads; place++) {
        worker it = { &handles[place], way, keys, (uint32_t)place, NULL, 0, 0, 0, 0 };
        workers[place] = it;
    }
    took = run_all(workers, way->threads);
    for (place = 0; place < way->threads; place++) {
        full += workers[place].full;
        held += workers[place].held;
        busy += workers[place].busy;
        used += workers[place].used;
        must(hot_destroy(&handles[place]), HOT_DONE);
    }
    printf("%-26s%9u %%%14.0f%14.0f%11d%11u%11u%11u\n", way->name, spare, 1e9 * used / calls, 1e9 * took / calls, calls, full, held, busy);
}

int main(int words, char **word)
{
    uint64_t keys = words > 1 ? strtoull(word[1], NULL, 10) : 200000;
    int way, place;
    if (words > 2 || keys < LEAST || keys > MOST) {
        fprintf(stderr, "usage: spare [KEYS]    100 to 10,000,000\n");
        return 2;
    }
    printf("%-26s%11s%14s%14s%11s%11s%11s%11s\n", "ns a call", "to spare", "of processors", "by the clock", "calls", "full", "held back", "busy");
    for (way = 0; way < WAYS; way++) {
        for (place = 0; place < SPARES; place++) {
            measure((uint32_t)keys, &ways[way], spares[place]);
        }
    }
    return 0;
}

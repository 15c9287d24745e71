/* Measures how long single calls take while several threads make them: look-ups, and upserts of so many calls of a hundred, of random keys
 * that are all there. Each call is timed, so its time has that of the clock in it. A line for each kind of call goes to standard output:
 * the map, the threads, the upserts of a hundred calls, the call, and the nanoseconds below which so many of a thousand calls were: 500,
 * 990 and 999. bench/peers.py reads them. Each map is measured in a process of its own (bench/maps.c). */
#include "keys.h"
#include "map.h"
#include <pthread.h>
#include <stdatomic.h>
#include <sys/wait.h>
#include <unistd.h>

/* The most threads, how many keys, how often all is measured, and how long threads work at a time, in milliseconds. */
enum { MOST_THREADS = MAP_HANDS - 1, COUNT = 200000, REPETITIONS = 3, SLOT = 200 };

/* A time falls into one of 32 buckets for each power of two. */
enum { FINE = 5, BUCKETS = 64 << FINE };

static const int thread_counts[] = { 4, MOST_THREADS }, shares[] = { 5, 50 }, parts[] = { 500, 990, 999 };

/* How many calls took how long. */
typedef struct times {
    uint64_t calls, of[BUCKETS];
} times;

/* One of several threads. Its look-ups are the first kind of calls, its upserts the second. */
typedef struct worker {
    const map *map;
    void *hand;
    int place, share;
    pthread_barrier_t *gate;
    atomic_int *is_over;
    uint64_t wrong;
    times times[2];
} worker;

static int bucket_of(uint64_t time)
{
    int power = time < (2 << FINE) ? 0 : 63 - FINE - __builtin_clzll(time);
    return (power << FINE) + (int)(time >> power);
}

/* The least time that falls into the bucket behind this one. */
static uint64_t end_of(int bucket)
{
    int power = bucket < (2 << FINE) ? 0 : (bucket >> FINE) - 1;
    return ((uint64_t)(bucket + 1 - (power << FINE))) << power;
}

static uint64_t now(void)
{
    struct timespec at;
    clock_gettime(CLOCK_MONOTONIC, &at);
    return (uint64_t)at.tv_sec * 1000000000u + (uint64_t)at.tv_nsec;
}

static void *work_on(void *given)
{
    worker *me = given;
    uint64_t turn = mixed((uint64_t)me->place);
    pthread_barrier_wait(me->gate);
    while (!atomic_load_explicit(me->is_over, memory_order_relaxed)) {
        uint64_t chance = mixed(turn++), number = chance % COUNT, had = 0, began;
        int is_upsert = (int)(chance / COUNT % 100) < me->share, has;
        uint8_t bytes[LONGEST];
        key it = { bytes, 0, (uint32_t)number };
        times *to = &me->times[is_upsert];
        it.length = (uint32_t)key_of(RANDOM, number, bytes);
        began = now();
        has = is_upsert ? me->map->upsert(me->hand, &it, &had) : me->map->look_up(me->hand, &it, &had);
        to->of[bucket_of(now() - began)]++;
        to->calls++;
        me->wrong += !has || had != number;
    }
    return NULL;
}

/* Prints the times of a kind of call of all workers. */
static void tell(const map *map, const worker *workers, int threads, int share, int kind)
{
    uint64_t calls = 0, seen = 0, number;
    int place, bucket, part = 0;
    for (place = 0; place < threads; place++) {
        calls += workers[place].times[kind].calls;
    }
    printf("latency\t%s\t%d\t%d\t%s", map->name, threads, share, kind ? "upsert" : "get");
    for (bucket = 0; bucket < BUCKETS && part < 3; bucket++) {
        for (place = 0; place < threads; place++) {
            seen += workers[place].times[kind].of[bucket];
        }
        for (number = seen * 1000; part < 3 && number >= calls * (uint64_t)parts[part]; part++) {
            printf("\t%llu", (unsigned long long)end_of(bucket));
        }
    }
    printf("\n");
}

/* Has so many threads at work for a while. Returns how many answers were wrong. */
static uint64_t work_together(const map *map, void **hands, int threads, int share)
{
    static const struct timespec slot = { 0, SLOT * 1000000L };
    worker *workers = calloc((size_t)threads, sizeof *workers);
    pthread_t started[MOST_THREADS];
    pthread_barrier_t gate;
    atomic_int is_over = 0;
    uint64_t wrong = 0;
    int place;
    pthread_barrier_init(&gate, NULL, (unsigned)threads + 1);
    for (place = 0; workers && place < threads; place++) {
        worker it = { .map = map, .hand = hands[place], .place = place, .share = share, .gate = &gate, .is_over = &is_over };
        workers[place] = it;
        if (pthread_create(&started[place], NULL, work_on, &workers[place])) {
            exit(1);
        }
    }
    pthread_barrier_wait(&gate);
    nanosleep(&slot, NULL);
    is_over = 1;
    for (place = 0; place < threads; place++) {
        pthread_join(started[place], NULL);
        wrong += workers[place].wrong;
    }
    tell(map, workers, threads, share, 0);
    tell(map, workers, threads, share, 1);
    pthread_barrier_destroy(&gate);
    free(workers);
    return wrong;
}

/* Measures a map with all numbers of threads, in a stock with records to spare for each. Returns whether all answers were right. */
static int measure(const map *map)
{
    void *hands[MAP_HANDS];
    hot_stock stock;
    uint64_t had, wrong = 0;
    uint32_t number;
    size_t at, of;
    hot_stock_for_keys(COUNT, 8, &stock);
    stock.nodes += MAP_HANDS * 64;
    stock.short_leaves += MAP_HANDS * 64;
    map->make(&stock, hands, MAP_HANDS);
    for (number = 0; number < COUNT; number++) {
        uint8_t bytes[LONGEST];
        key it = { bytes, 0, number };
        it.length = (uint32_t)key_of(RANDOM, number, bytes);
        wrong += (uint64_t)map->insert(hands[MOST_THREADS], &it, &had);
    }
    for (at = 0; at < sizeof thread_counts / sizeof *thread_counts; at++) {
        for (of = 0; of < sizeof shares / sizeof *shares; of++) {
            wrong += work_together(map, hands, thread_counts[at], shares[of]);
        }
    }
    return wrong == 0;
}

int main(void)
{
    int place, repetition, status;
    for (repetition = 0; repetition < REPETITIONS; repetition++) {
        for (place = 0; maps[place]; place++) {
            pid_t child;
            fflush(stdout);
            child = fork();
            if (child == 0) {
                int is_right = measure(maps[place]);
                fflush(stdout);
                _exit(is_right ? 0 : 1);
            }
            if (child < 0 || waitpid(child, &status, 0) != child || status) {
                fprintf(stderr, "latency: the measurement of %s failed\n", maps[place]->name);
                return 1;
            }
        }
    }
    return 0;
}

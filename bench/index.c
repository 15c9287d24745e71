/* Measures the index beside other maps (bench/maps.c): the time of each kind of work, with keys of three kinds. What was measured goes to
 * standard output, in lines of which bench/table.py makes tables, and how far the run is to standard error. Each repetition is a
 * process of its own, of one map and then of the next. bench/run builds and runs it; where LONG is 1 the index is as hot_create makes
 * it. */
#include "keys.h"
#include "map.h"
#include <pthread.h>
#include <stdatomic.h>
#include <sys/wait.h>
#include <unistd.h>

#ifndef LONG
#define LONG 0
#endif
#ifndef REPETITIONS
#define REPETITIONS 20
#endif
enum { THREADS = 4, HANDLES = LONG ? 64 : THREADS + 1, MEASURED = 3 };

/* How many keys a thread makes at a time, while its time doesn't count; several threads make all that they use before they begin. */
enum { BATCH = 1024, MOST_OWN = 1 << 16 };

/* The fewest and the most keys, the most calls of one work by one thread but for inserts, the pairs of a scan, and for how many other
 * calls there is one. */
enum { FEWEST_KEYS = 100, MOST_KEYS = 20000000, MOST_CALLS = 1000000, PAGE = 100, STRIDE = 20 };

/* How long several threads work at a time, in milliseconds, and how many keys of its own a thread has taken out where they come and go. */
enum { SLOT = 100, WINDOW = 1000 };

/* The works, in their order: inserts of the first tenth of the keys, of those between, and of the last tenth; look-ups of stored keys
 * and of others; upserts; scans; several threads that look up, with so many upserts of a hundred calls; removals; and several threads
 * that remove and insert. */
enum { FIRST, INSERTS, LAST, HITS, MISSES, UPSERTS, SCANS, SHARE_0, SHARE_5, SHARE_50, REMOVALS, CHURN, WORKS };
static const char *const work_names[WORKS] = { "first", "inserts", "last", "hits", "misses", "upserts", "scans", "0%", "5%", "50%",
    "removals", "churn" };

/* Some keys, and the memory of their bytes. */
typedef struct keys {
    key *at;
    uint8_t *bytes;
} keys;

/* The keys that are stored, from number 0 on, and the order in which they are used. */
typedef struct load {
    int kind;
    uint32_t count, *order;
} load;

/* How long calls took: the time that processors were at it, and the time that passed; and what all answers make. */
typedef struct rate {
    uint64_t calls, checksum;
    double used, passed;
} rate;

/* What a repetition tells. */
typedef struct report {
    rate rates[WORKS];
    uint32_t nodes;
} report;

static void fail(const char *what)
{
    fprintf(stderr, "index: %s\n", what);
    exit(1);
}

static void *room_for(size_t count, size_t size)
{
    void *room = malloc(count * size);
    if (!room) {
        fail("out of memory");
    }
    return room;
}

/* The number of the key of a turn: stored ones are inserted from 0 on, and those behind them are not stored. Turns go round and round. */
static uint32_t number_of(const load *load, int work, uint32_t turn)
{
    switch (work) {
    case FIRST:
    case INSERTS:
    case LAST:
        return turn;
    case MISSES:
        return load->count + turn;
    default:
        return load->order[turn % load->count];
    }
}

static keys room_for_keys(uint32_t count)
{
    keys room = { room_for(count, sizeof(key)), room_for(count, LONGEST) };
    return room;
}

static void free_keys(keys *room)
{
    free(room->at);
    free(room->bytes);
}

/* Makes the keys of so many turns from this one on. */
static void make_keys(const load *load, int work, uint32_t turn, uint32_t count, keys *made)
{
    uint8_t *bytes = made->bytes;
    uint32_t place;
    for (place = 0; place < count; place++) {
        key *it = &made->at[place];
        it->number = number_of(load, work, turn + place);
        it->bytes = bytes;
        it->length = (uint32_t)key_of(load->kind, it->number, bytes);
        bytes += it->length;
    }
}

/* Adds an answer to a checksum. */
static void add_answer(uint64_t *checksum, int has, uint64_t had)
{
    *checksum = *checksum * 31 + (has ? had : UINT64_MAX);
}

static void list_page(const map *map, void *hand, const key *from, uint64_t *checksum)
{
    static uint8_t bytes[PAGE * LONGEST];
    static hot_head heads[PAGE];
    size_t count = map->list(hand, from, bytes, heads, PAGE), place;
    for (place = 0; place < count; place++) {
        add_answer(checksum, 1, heads[place].value);
    }
}

/* Makes the call of a work with a key. */
static void call(const map *map, void *hand, int work, const key *key, uint64_t *checksum)
{
    uint64_t had = 0;
    int has;
    switch (work) {
    case SCANS:
        list_page(map, hand, key, checksum);
        return;
    case HITS:
    case MISSES:
        has = map->look_up(hand, key, &had);
        break;
    case UPSERTS:
        has = map->upsert(hand, key, &had);
        break;
    case REMOVALS:
        has = map->take_out(hand, key, &had);
        break;
    default:
        has = map->insert(hand, key, &had);
    }
    add_answer(checksum, has, had);
}

/* Does a work by one thread, with the keys of these turns. */
static void work_alone(const map *map, void *hand, const load *load, int work, uint32_t from, uint32_t upto, rate *sum)
{
    keys made = room_for_keys(BATCH);
    uint32_t count, place;
    for (; from < upto; from += count) {
        double used, passed;
        count = upto - from < BATCH ? upto - from : BATCH;
        make_keys(load, work, from, count, &made);
        passed = seconds(CLOCK_MONOTONIC);
        used = seconds(CLOCK_THREAD_CPUTIME_ID);
        for (place = 0; place < count; place++) {
            call(map, hand, work, &made.at[place], &sum->checksum);
        }
        sum->used += seconds(CLOCK_THREAD_CPUTIME_ID) - used;
        sum->passed += seconds(CLOCK_MONOTONIC) - passed;
        sum->calls += count;
    }
    free_keys(&made);
}

/* One of several threads. */
typedef struct worker {
    const map *map;
    void *hand;
    int work;
    keys own;
    uint32_t count;
    pthread_barrier_t *gate;
    atomic_int *is_over;
    /* How many of its answers were wrong. */
    uint64_t wrong;
    rate rate;
} worker;

/* Looks up a key of the thread, or as often as the work says gives it its value again. */
static void share_turn(worker *me, uint64_t turn)
{
    uint64_t share = me->work == SHARE_0 ? 0 : me->work == SHARE_5 ? 5 : 50, had = 0;
    const key *key = &me->own.at[turn % me->count];
    int has = turn * share % 100 < share ? me->map->upsert(me->hand, key, &had) : me->map->look_up(me->hand, key, &had);
    me->wrong += !has || had != key->number;
    me->rate.calls++;
}

/* Removes a key of the thread, and inserts one that it removed some turns before. */
static void churn_turn(worker *me, uint64_t turn)
{
    uint32_t window = me->count / 2 < WINDOW ? me->count / 2 : WINDOW;
    const key *out = &me->own.at[turn % me->count], *in = &me->own.at[(turn + me->count - window) % me->count];
    uint64_t had = 0;
    me->wrong += !me->map->take_out(me->hand, out, &had) || had != out->number;
    me->rate.calls++;
    if (turn >= window) {
        me->wrong += me->map->insert(me->hand, in, &had) != 0;
        me->rate.calls++;
    }
}

static void *work_on(void *given)
{
    worker *me = given;
    uint64_t turn = 0;
    double used, passed;
    pthread_barrier_wait(me->gate);
    passed = seconds(CLOCK_MONOTONIC);
    used = seconds(CLOCK_THREAD_CPUTIME_ID);
    while (!atomic_load_explicit(me->is_over, memory_order_relaxed)) {
        if (me->work == CHURN) {
            churn_turn(me, turn++);
        } else {
            share_turn(me, turn++);
        }
    }
    me->rate.used = seconds(CLOCK_THREAD_CPUTIME_ID) - used;
    me->rate.passed = seconds(CLOCK_MONOTONIC) - passed;
    return NULL;
}

/* Has several threads at work for a while, each with keys of its own part of the order. The time that passed is the longest. */
static void work_together(const map *map, void **hands, const load *load, int work, rate *sum)
{
    static const struct timespec slot = { 0, SLOT * 1000000L };
    uint32_t part = load->count / THREADS, place;
    pthread_barrier_t gate;
    atomic_int is_over = 0;
    worker workers[THREADS];
    pthread_t threads[THREADS];
    pthread_barrier_init(&gate, NULL, THREADS + 1);
    for (place = 0; place < THREADS; place++) {
        worker it = { map, hands[place], work, { NULL, NULL }, part < MOST_OWN ? part : MOST_OWN, &gate, &is_over, 0, { 0, 0, 0, 0 } };
        it.own = room_for_keys(it.count);
        make_keys(load, work, place * part, it.count, &it.own);
        workers[place] = it;
        if (pthread_create(&threads[place], NULL, work_on, &workers[place])) {
            fail("a thread could not be started");
        }
    }
    pthread_barrier_wait(&gate);
    nanosleep(&slot, NULL);
    is_over = 1;
    for (place = 0; place < THREADS; place++) {
        worker *it = &workers[place];
        pthread_join(threads[place], NULL);
        if (it->wrong) {
            fail("an answer was wrong");
        }
        sum->calls += it->rate.calls;
        sum->used += it->rate.used;
        sum->passed = it->rate.passed > sum->passed ? it->rate.passed : sum->passed;
        free_keys(&it->own);
    }
    pthread_barrier_destroy(&gate);
}

/* Does each work once that the map does: all but the last with a map of this stock. The last is done with one that has room for keys that
 * come and go. */
static void measure(const map *map, const load *load, const hot_stock *stock, const hot_stock *roomy, report *told)
{
    uint32_t count = load->count, calls = count < MOST_CALLS ? count : MOST_CALLS, tenth = count / 10;
    void *hands[HANDLES];
    rate *rates = told->rates, filling = { 0, 0, 0, 0 };
    int work;
    map->make(stock, hands, HANDLES);
    work_alone(map, hands[THREADS], load, FIRST, 0, tenth, &rates[FIRST]);
    work_alone(map, hands[THREADS], load, INSERTS, tenth, count - tenth, &rates[INSERTS]);
    work_alone(map, hands[THREADS], load, LAST, count - tenth, count, &rates[LAST]);
    for (work = HITS; work <= SCANS; work++) {
        work_alone(map, hands[THREADS], load, work, 0, work == SCANS ? (calls + STRIDE - 1) / STRIDE : calls, &rates[work]);
    }
    for (work = SHARE_0; work <= SHARE_50; work++) {
        work_together(map, hands, load, work, &rates[work]);
    }
    told->nodes = map->nodes ? map->nodes(hands[THREADS]) : 0;
    if (!map->take_out) {
        return;
    }
    work_alone(map, hands[THREADS], load, REMOVALS, 0, calls, &rates[REMOVALS]);
    map->end(hands, HANDLES);
    map->make(roomy, hands, HANDLES);
    work_alone(map, hands[THREADS], load, INSERTS, 0, count, &filling);
    work_together(map, hands, load, CHURN, &rates[CHURN]);
}

/* Measures in a process of its own, so with memory that nothing has used. */
static void measure_apart(const map *map, const load *load, const hot_stock *stock, const hot_stock *roomy, report *told)
{
    int ends[2], status;
    pid_t child;
    size_t got = 0;
    ssize_t more = 1;
    memset(told, 0, sizeof *told);
    fflush(stdout);
    if (pipe(ends) || (child = fork()) < 0) {
        fail("a process could not be started");
    }
    if (child == 0) {
        measure(map, load, stock, roomy, told);
        _exit(write(ends[1], told, sizeof *told) == (ssize_t)sizeof *told ? 0 : 1);
    }
    close(ends[1]);
    for (; got < sizeof *told && more > 0; got += more > 0 ? (size_t)more : 0) {
        more = read(ends[0], (char *)told + got, sizeof *told - got);
    }
    close(ends[0]);
    if (waitpid(child, &status, 0) != child || status != 0 || got != sizeof *told) {
        fail("a measurement failed");
    }
}

/* So many leaf records of a class and some to spare, but none where there are none. */
static uint32_t with_spare(uint32_t count)
{
    return count == 0 ? 0 : count + count / 50 + 64 * HANDLES;
}

/* A stock that fits: a leaf record for each key, of the smallest class with room for it, with a fiftieth more of each class and some
 * for each handle; and as few nodes as keys of this kind need, with a tenth more above 200,000 keys. Answers the longest key's length. */
static size_t fit(const load *load, hot_stock *stock)
{
    static const uint32_t keys_a_node[MEASURED] = { 21, 18, 30 };
    uint32_t leaves[5] = { 0, 0, 0, 0, 0 }, nodes = load->count / keys_a_node[load->kind], number;
    size_t longest = 0;
    for (number = 0; number < load->count; number++) {
        uint8_t bytes[LONGEST];
        size_t length = key_of(load->kind, number, bytes);
        leaves[length <= 8 ? 0 : length <= 24 ? 1 : length <= 56 ? 2 : length <= 88 ? 3 : 4]++;
        longest = length > longest ? length : longest;
    }
    stock->nodes = nodes + (load->count > 200000 ? nodes / 10 : 0) + 64;
    stock->short_leaves = with_spare(leaves[0]);
    stock->medium_leaves = with_spare(leaves[1]);
    stock->large_leaves = with_spare(leaves[2]);
    stock->wide_leaves = with_spare(leaves[3]);
    stock->long_leaves = with_spare(leaves[4]);
    return longest;
}

/* The same records, where LONG says so with long leaf records alone, as hot_create makes them. */
static void lengthen(hot_stock *stock)
{
    if (LONG) {
        stock->long_leaves += stock->short_leaves + stock->medium_leaves + stock->large_leaves + stock->wide_leaves;
        stock->short_leaves = stock->medium_leaves = stock->large_leaves = stock->wide_leaves = 0;
    }
}

/* The order in which keys are used (Fisher and Yates, by Durstenfeld, CACM 1964). */
static uint32_t *order_of(uint32_t count)
{
    uint32_t *order = room_for(count, sizeof *order), place;
    for (place = 0; place < count; place++) {
        uint32_t other = (uint32_t)(mixed(2018 + (uint64_t)place) % (place + 1));
        order[place] = order[other];
        order[other] = place;
    }
    return order;
}

/* Measures a map once, and prints a line for each rate. Returns a checksum of its answers, which are to be those of the index: of the
 * works that it does, and of single threads. */
static uint64_t measure_map(const map *map, const load *load, const hot_stock *stock, const hot_stock *roomy, report *index)
{
    report told;
    uint64_t checksum = 0;
    int work;
    measure_apart(map, load, stock, roomy, &told);
    if (map == maps[0]) {
        *index = told;
    }
    for (work = 0; work < WORKS; work++) {
        const rate *it = &told.rates[work];
        if (it->calls == 0) {
            continue;
        }
        printf("rate %s %s %llu %.0f %.0f\n", map->name, work_names[work], (unsigned long long)it->calls, 1e9 * it->used, 1e9 * it->passed);
        if (it->checksum != index->rates[work].checksum) {
            fail("two maps gave different answers");
        }
        checksum = checksum * 31 + it->checksum;
    }
    return checksum;
}

/* Measures all maps with so many keys of a kind, in turn, REPETITIONS times at most, and once at least; no further time is begun after
 * `end`, in seconds of the clock. Returns a checksum of all answers. */
static uint64_t measure_load(int kind, uint32_t count, double end)
{
    load load = { kind, count, order_of(count) };
    hot_stock stock, roomy;
    size_t longest = fit(&load, &stock), fitting, safe;
    uint32_t repetition, repetitions = count > 1000000 ? 1 : count > 100000 ? 3000000 / count : 20;
    uint64_t checksum = 0;
    report index;
    int place;
    memset(&index, 0, sizeof index);
    hot_stock_for_keys(count, longest, &roomy);
    lengthen(&stock);
    lengthen(&roomy);
    must(hot_stock_bytes(&stock, HANDLES, &fitting), HOT_DONE);
    must(hot_stock_bytes(&roomy, HANDLES, &safe), HOT_DONE);
    printf("column %u %zu %zu\nstock %u %u %u %u %u %u\n", count, fitting, safe, stock.nodes, stock.short_leaves, stock.medium_leaves,
           stock.large_leaves, stock.wide_leaves, stock.long_leaves);
    for (repetition = 0; repetition < repetitions && repetition < REPETITIONS && (repetition == 0 || seconds(CLOCK_MONOTONIC) < end); repetition++) {
        for (place = 0; maps[place]; place++) {
            checksum = checksum * 31 + measure_map(maps[place], &load, &stock, &roomy, &index);
        }
    }
    printf("nodes %u\n", index.nodes);
    free(load.order);
    return checksum;
}

int main(int words, char **word)
{
    static char *usual[] = { "", "1000", "10000", "200000", NULL };
    const char *limit = getenv("MINUTES");
    double begun = seconds(CLOCK_MONOTONIC), most = limit ? 60 * strtod(limit, NULL) : 1e9, loads;
    uint64_t checksum = 0;
    int kind, place, done = 0;
    if (words < 2) {
        word = usual;
        words = 4;
    }
    loads = MEASURED * (words - 1);
    for (place = 1; word[place]; place++) {
        uint64_t count = strtoull(word[place], NULL, 10);
        if (count < FEWEST_KEYS || count > MOST_KEYS) {
            fprintf(stderr, "usage: index [COUNT..]    each 100 to 20,000,000\n");
            return 2;
        }
    }
    for (kind = 0; kind < MEASURED; kind++) {
        printf("kind %s\n", kind_names[kind]);
        for (place = 1; word[place]; place++) {
            fprintf(stderr, "%s %s ..\n", word[place], kind_names[kind]);
            checksum = checksum * 31 + measure_load(kind, (uint32_t)strtoull(word[place], NULL, 10), begun + most * ++done / loads);
        }
    }
    printf("the %s, checksum %016llx\n", maps[1] ? "maps gave the same answers" : "index gave its answers", (unsigned long long)checksum);
    return 0;
}

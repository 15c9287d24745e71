/* Tests of the library by threads: two that change keys of all lengths beside two that look up, scan and list, and beside children of forks
 * that do so; four that make calls by chance where few records are to spare, or none; eight on one core, so that each is stopped in the middle
 * of its calls; eight that share three handles; four that send each other moments; two that take most keys out and put them in again beside
 * two that scan; four that give held keys new values in a full index; and many that empty a full one. */
#define _GNU_SOURCE
#include "hot.h"
#include "check.h"
#include <pthread.h>
#include <sched.h>
#include <stdio.h>
#include <string.h>
#include <sys/wait.h>
#include <unistd.h>

#define NUMBERS 2000
#define DIGITS 6
#define ROUNDS 1500
#define CHANGES 100000
#define ADDS 5000
#define LIMIT 64

/* A key: the digits of its number and then as many bytes more as its number says, so that each size of leaf records has some. */
typedef struct key {
    uint8_t bytes[HOT_MAX_KEY];
    size_t length;
} key;

static key key_of(unsigned number) {
    static const size_t more[5] = {0, 10, 40, 70, 200};
    key made;
    char digits[16];
    snprintf(digits, sizeof digits, "%06u", number);
    memset(made.bytes, 'x', sizeof made.bytes);
    memcpy(made.bytes, digits, DIGITS);
    made.length = DIGITS + more[number / 2 % 5];
    return made;
}

/* Numbers by chance (xorshift, Marsaglia 2003). */
static unsigned next(uint64_t *state) {
    *state ^= *state << 13;
    *state ^= *state >> 7;
    *state ^= *state << 17;
    return (unsigned)(*state >> 33);
}

/* First test: the keys of even numbers stay, so each call has to tell of these what they are, and those of odd numbers come and go. A
 * value has its key's number as its low part. */
#define LOW 0xffffu

/* The number of a pair. */
static unsigned number_of(const hot_pair *pair) {
    unsigned number = NUMBERS;
    char digits[DIGITS + 1] = {0};
    key wanted;
    memcpy(digits, pair->key, DIGITS);
    CHECK(pair->length >= DIGITS && sscanf(digits, "%u", &number) == 1 && number < NUMBERS);
    wanted = key_of(number);
    CHECK(wanted.length == pair->length && memcmp(wanted.bytes, pair->key, pair->length) == 0 && (pair->value & LOW) == number);
    return number;
}

/* That these pairs are the keys from `first` on: rising, or falling by a step of -1, with each even number between them. */
static void check_pairs(const hot_pair *pairs, size_t count, int first, int step, int last, uint32_t more) {
    int expected = first;
    size_t i;
    for (i = 0; i < count; i++) {
        int number = (int)number_of(&pairs[i]);
        CHECK(number == expected || (expected % 2 != 0 && number == expected + step));
        expected = number + step;
    }
    if (!more)
        CHECK(expected == last + step || (expected % 2 != 0 && expected == last));
}

/* The key of a number that is even, which stays, or odd. */
static void check_found(hot_status status, uint64_t value, unsigned number) {
    CHECK((status == HOT_FOUND && (value & LOW) == number) || (status == HOT_ABSENT && number % 2 == 1));
}

static void read_many(hot_handle *handle, uint64_t *state) {
    hot_lookup looks[LIMIT];
    key keys[LIMIT];
    unsigned numbers[LIMIT];
    size_t i, count = 1 + next(state) % LIMIT;
    for (i = 0; i < count; i++) {
        numbers[i] = next(state) % NUMBERS;
        keys[i] = key_of(numbers[i]);
        looks[i].key = keys[i].bytes;
        looks[i].length = keys[i].length;
    }
    CHECK(hot_get_many(handle, looks, count) == HOT_DONE);
    for (i = 0; i < count; i++)
        check_found(looks[i].status, looks[i].value, numbers[i]);
}

/* Puts pairs into the other order. */
static void turn(hot_pair *pairs, size_t count) {
    size_t i;
    for (i = 0; i < count / 2; i++) {
        hot_pair one = pairs[i];
        pairs[i] = pairs[count - 1 - i];
        pairs[count - 1 - i] = one;
    }
}

static void unpack(const uint8_t *keys, const hot_head *heads, hot_pair *pairs, size_t count) {
    size_t i;
    for (i = 0; i < count; i++) {
        memcpy(pairs[i].key, keys, heads[i].length);
        pairs[i].length = heads[i].length;
        pairs[i].value = heads[i].value;
        keys += heads[i].length;
    }
}

static void read_scans(hot_handle *handle, uint64_t *state) {
    hot_pair pairs[LIMIT];
    hot_head heads[LIMIT];
    uint8_t keys[LIMIT * HOT_MAX_KEY];
    unsigned low = next(state) % (NUMBERS - 100), high = low + next(state) % 100;
    key from = key_of(low), upto = key_of(high);
    size_t count = 0, limit = 1 + next(state) % LIMIT, room;
    uint32_t more = 0;
    CHECK(hot_scan(handle, from.bytes, from.length, upto.bytes, upto.length, pairs, limit, &count, &more) == HOT_DONE);
    check_pairs(pairs, count, (int)low, 1, (int)high, more);
    CHECK(!more || count == limit);
    CHECK(hot_scan_reverse(handle, from.bytes, from.length, upto.bytes, upto.length, pairs, limit, &count, &more) == HOT_DONE);
    check_pairs(pairs, count, (int)high, -1, (int)low, more);
    CHECK(!more || count == limit);
    CHECK(hot_scan_last(handle, from.bytes, from.length, upto.bytes, upto.length, pairs, limit, &count, &more) == HOT_DONE);
    turn(pairs, count);
    check_pairs(pairs, count, (int)high, -1, (int)low, more);
    CHECK(!more || count == limit);
    room = next(state) % sizeof keys;
    CHECK(hot_scan_packed(handle, from.bytes, from.length, upto.bytes, upto.length, keys, room, heads, limit, &count, &more) == HOT_DONE);
    unpack(keys, heads, pairs, count);
    check_pairs(pairs, count, (int)low, 1, (int)high, more);
}

static void read_prefix(hot_handle *handle, uint64_t *state) {
    hot_pair pairs[LIMIT];
    unsigned low = next(state) % (NUMBERS / 10) * 10;
    key prefix = key_of(low);
    size_t count = 0;
    uint32_t more = 0;
    CHECK(hot_scan_prefix(handle, prefix.bytes, DIGITS - 1, NULL, 0, pairs, 4, &count, &more) == HOT_DONE && count == 4 && more);
    check_pairs(pairs, count, (int)low, 1, (int)low + 9, more);
    low = number_of(&pairs[3]);
    CHECK(hot_scan_prefix(handle, prefix.bytes, DIGITS - 1, pairs[3].key, pairs[3].length, pairs, LIMIT, &count, &more) == HOT_DONE && !more);
    check_pairs(pairs, count, (int)low + 1, 1, (int)(low / 10 * 10 + 9), more);
}

/* From a key of an odd number on and up to it there is that key or the next of an even one. */
static void read_ends(hot_handle *handle, uint64_t *state) {
    unsigned number = 1 + next(state) % (NUMBERS / 2 - 1) * 2;
    key at = key_of(number);
    hot_pair pair;
    CHECK(hot_first(handle, at.bytes, at.length, &pair) == HOT_FOUND);
    CHECK((number_of(&pair) | 1) == number || number_of(&pair) == number + 1);
    CHECK(hot_last(handle, at.bytes, at.length, &pair) == HOT_FOUND);
    CHECK((number_of(&pair) | 1) == number);
    CHECK(hot_first(handle, at.bytes, 0, &pair) == HOT_FOUND && number_of(&pair) == 0);
}

static uint64_t all_of(hot_states states) {
    return (uint64_t)states.free + states.held + states.live + states.obsolete;
}

static void read_counts(hot_handle *handle, const hot_stock *stock) {
    hot_counts counts;
    CHECK(hot_census(handle, &counts) == HOT_DONE);
    CHECK(all_of(counts.nodes) == stock->nodes + 1 && all_of(counts.short_leaves) == stock->short_leaves);
    CHECK(all_of(counts.medium_leaves) == stock->medium_leaves && all_of(counts.large_leaves) == stock->large_leaves);
    CHECK(all_of(counts.wide_leaves) == stock->wide_leaves && all_of(counts.long_leaves) == stock->long_leaves);
}

typedef struct worker {
    hot_handle *handle;
    const hot_stock *stock;
    uint64_t state;
    unsigned half;
} worker;

static void read_once(worker *me) {
    read_many(me->handle, &me->state);
    read_scans(me->handle, &me->state);
    read_prefix(me->handle, &me->state);
    read_ends(me->handle, &me->state);
    read_counts(me->handle, me->stock);
}

static void *read_all(void *given) {
    int round;
    for (round = 0; round < ROUNDS; round++)
        read_once(given);
    return NULL;
}

/* In the child of a fork: reads through a handle that was at rest, and then tries to give each key a value, which changes may stand in the way of
 * whose threads it hasn't. */
static void read_and_try(worker *me) {
    static const unsigned returned = 1u << HOT_NEW | 1u << HOT_WAS | 1u << HOT_BUSY | 1u << HOT_HELD_BACK | 1u << HOT_FULL_NODES | 1u << HOT_FULL_LEAVES;
    size_t count = 0;
    unsigned number;
    alarm(100);
    for (number = 0; number < 10; number++)
        read_once(me);
    CHECK(hot_count(me->handle, bytes(""), 0, HOT_TO_END, &count) == HOT_DONE && count > NUMBERS / 2);
    for (number = 0; number < NUMBERS; number++) {
        key at = key_of(number);
        CHECK(returned >> hot_try_upsert(me->handle, at.bytes, at.length, number, NULL) & 1);
    }
}

/* AddressSanitizer's malloc may hang in the child of a fork, if another thread was in it. */
#ifdef IS_WATCHED
enum { FORKS = 0 };
#else
enum { FORKS = 20 };
#endif

/* Forks some times while other threads are in calls. */
static void fork_readers(worker *me) {
    int times, status = 1;
    for (times = 0; times < FORKS; times++) {
        pid_t child = fork();
        if (child == 0) {
            failures = 0;
            read_and_try(me);
            _exit(failures);
        }
        CHECK(child > 0 && waitpid(child, &status, 0) == child);
        CHECK(!WIFSIGNALED(status));
        CHECK(WIFSIGNALED(status) || status == 0);
    }
}

/* Adds one to a value that both writers count with, whatever it was: the one writer by an addition, the other by exchanges. */
static void add_one(hot_handle *handle, int half) {
    uint64_t seen = 0;
    hot_status status;
    if (half) {
        CHECK(hot_add(handle, (const uint8_t *)"~", 1, 1, NULL) == HOT_WAS);
        return;
    }
    do
        status = hot_exchange(handle, (const uint8_t *)"~", 1, seen, seen + 1, &seen);
    while (status == HOT_DIFFERS);
    CHECK(status == HOT_EXCHANGED);
}

/* Puts a key in. */
static void put_in(hot_handle *handle, unsigned number) {
    key at = key_of(number);
    uint64_t had;
    CHECK(hot_insert(handle, at.bytes, at.length, number, &had) == HOT_INSERTED);
}

/* Takes a key out. */
static void take_out(hot_handle *handle, unsigned number) {
    key at = key_of(number);
    uint64_t had = 0;
    CHECK(hot_remove_if(handle, at.bytes, at.length, number, &had) == HOT_REMOVED && had == number);
}

/* Gives a key that stays another value with the same low part. */
static void overwrite(hot_handle *handle, unsigned number, uint64_t round) {
    key at = key_of(number);
    uint64_t had = 0;
    CHECK(hot_upsert(handle, at.bytes, at.length, round << 16 | number, &had) == HOT_WAS && (had & LOW) == number);
}

/* Puts keys of odd numbers of its own in and takes them out again: whether each is there is what it did last. */
static void *change_all(void *given) {
    static uint8_t is_in[2][NUMBERS];
    worker *me = given;
    uint8_t *in = is_in[me->half];
    int round;
    for (round = 0; round < CHANGES; round++) {
        unsigned number = next(&me->state) % (NUMBERS / 4) * 4 + 1 + 2 * me->half;
        if (in[number])
            take_out(me->handle, number);
        else
            put_in(me->handle, number);
        in[number] = !in[number];
        overwrite(me->handle, next(&me->state) % (NUMBERS / 2) * 2, (uint64_t)round);
        if (round < ADDS)
            add_one(me->handle, me->half);
    }
    for (round = 0; round < NUMBERS; round++) {
        key at = key_of((unsigned)round);
        uint64_t value = 0;
        if (in[round])
            CHECK(hot_get(me->handle, at.bytes, at.length, &value) == HOT_FOUND && value == (uint64_t)round);
    }
    return NULL;
}

static void test_readers(void) {
    static const hot_stock stock = {600, 500, 500, 500, 500, 500};
    static void *(*const does[4])(void *) = {change_all, change_all, read_all, read_all};
    hot_handle handles[5] = {HOT_HANDLE, HOT_HANDLE, HOT_HANDLE, HOT_HANDLE, HOT_HANDLE};
    worker workers[5];
    pthread_t threads[4];
    uint64_t had = 0;
    unsigned i;
    CHECK(hot_create_with(&stock, handles, 5) == HOT_DONE);
    for (i = 0; i < NUMBERS; i += 2)
        put_in(&handles[0], i);
    CHECK(hot_insert(&handles[0], (const uint8_t *)"~", 1, 0, &had) == HOT_INSERTED);
    for (i = 0; i < 5; i++) {
        workers[i].handle = &handles[i];
        workers[i].stock = &stock;
        workers[i].state = 88172645463325252u + i;
        workers[i].half = i % 2;
        CHECK(i == 4 || pthread_create(&threads[i], NULL, does[i], &workers[i]) == 0);
    }
    fork_readers(&workers[4]);
    for (i = 0; i < 4; i++)
        CHECK(pthread_join(threads[i], NULL) == 0);
    CHECK(hot_get(&handles[0], (const uint8_t *)"~", 1, &had) == HOT_FOUND && had == 2 * ADDS);
    for (i = 0; i < 5; i++)
        CHECK(hot_destroy(&handles[i]) == HOT_DONE);
}

/* Second test: each thread keeps how often it added each key, less how often it removed it. Together that is 1 where the key is there in
 * the end, and 0 where it is not; and each value that was told has the number of its key. */
#define CROWD_KEYS 500
#define CROWD_CALLS 5000

typedef struct member {
    hot_handle *handle;
    unsigned keys;
    uint64_t state;
    int held[CROWD_KEYS];
} member;

static void *crowd(void *given) {
    member *me = given;
    int turn;
    for (turn = 0; turn < CROWD_CALLS; turn++) {
        unsigned number = next(&me->state) % me->keys;
        uint64_t value = (uint64_t)turn << 16 | number, had = number;
        key at = key_of(number);
        hot_status status;
        switch (next(&me->state) % 4) {
        case 0:
            status = hot_try_insert(me->handle, at.bytes, DIGITS, value, &had);
            break;
        case 1:
            status = hot_try_upsert(me->handle, at.bytes, DIGITS, value, &had);
            break;
        case 2:
            status = hot_try_remove(me->handle, at.bytes, DIGITS, &had);
            break;
        default:
            status = hot_get(me->handle, at.bytes, DIGITS, &had);
        }
        me->held[number] += (status == HOT_INSERTED || status == HOT_NEW) - (status == HOT_REMOVED);
        CHECK((had & LOW) == number);
    }
    return NULL;
}

/* All keys are there that were added once more than they were removed. They are removed, and then no record is in use. */
static void judge(hot_handle *handle, const member *members, unsigned keys, unsigned nodes, unsigned leaves) {
    hot_counts counts;
    uint64_t had;
    uint32_t given[2];
    unsigned i, there = 0;
    CHECK(hot_collect(handle, &given[0], &given[1]) == HOT_DONE && hot_census(handle, &counts) == HOT_DONE);
    for (i = 0; i < keys; i++) {
        key at = key_of(i);
        int held = members[0].held[i] + members[1].held[i] + members[2].held[i] + members[3].held[i];
        CHECK(held == 0 || held == 1);
        CHECK(hot_remove(handle, at.bytes, DIGITS, &had) == (held ? HOT_REMOVED : HOT_ABSENT));
        there += (unsigned)held;
    }
    CHECK(counts.long_leaves.live == there && counts.long_leaves.held == 0 && counts.nodes.held == 0);
    CHECK(hot_collect(handle, &given[0], &given[1]) == HOT_DONE && hot_census(handle, &counts) == HOT_DONE);
    CHECK(counts.long_leaves.free == leaves && counts.nodes.free == nodes + 1);
}

static void test_crowd(unsigned keys, unsigned nodes, unsigned leaves) {
    static member members[4];
    hot_handle handles[5] = {HOT_HANDLE, HOT_HANDLE, HOT_HANDLE, HOT_HANDLE, HOT_HANDLE};
    pthread_t threads[4];
    unsigned i;
    CHECK(hot_create(nodes, leaves, handles, 5) == HOT_DONE);
    for (i = 0; i < 4; i++) {
        memset(&members[i], 0, sizeof members[i]);
        members[i].handle = &handles[i];
        members[i].keys = keys;
        members[i].state = 2463534242u + i;
        CHECK(pthread_create(&threads[i], NULL, crowd, &members[i]) == 0);
    }
    for (i = 0; i < 4; i++) {
        CHECK(pthread_join(threads[i], NULL) == 0);
        CHECK(hot_destroy(&handles[i]) == HOT_DONE);
    }
    judge(&handles[4], members, keys, nodes, leaves);
    CHECK(hot_destroy(&handles[4]) == HOT_DONE);
}

/* Third test: four threads that wait insert as many keys as there are leaves. */
#define ALL 400

static void *insert_fourth(void *given) {
    worker *me = given;
    unsigned i;
    for (i = me->half; i < ALL; i += 4)
        put_in(me->handle, i);
    return NULL;
}

static void test_filling(void) {
    hot_handle handles[4] = {HOT_HANDLE, HOT_HANDLE, HOT_HANDLE, HOT_HANDLE};
    static hot_pair pairs[ALL];
    worker workers[4];
    pthread_t threads[4];
    size_t count = 0;
    uint32_t more = 1;
    unsigned i;
    CHECK(hot_create(1000, ALL, handles, 4) == HOT_DONE);
    for (i = 0; i < 4; i++) {
        workers[i].handle = &handles[i];
        workers[i].half = i;
        CHECK(pthread_create(&threads[i], NULL, insert_fourth, &workers[i]) == 0);
    }
    for (i = 0; i < 4; i++)
        CHECK(pthread_join(threads[i], NULL) == 0);
    CHECK(hot_scan_prefix(&handles[0], NULL, 0, NULL, 0, pairs, ALL, &count, &more) == HOT_DONE && count == ALL && !more);
    for (i = 0; i < ALL; i++)
        CHECK(number_of(&pairs[i]) == i);
    for (i = 0; i < 4; i++)
        CHECK(hot_destroy(&handles[i]) == HOT_DONE);
}

/* Fourth test: eight threads on one core put keys in and take them out. While one is stopped in the middle of a call, it holds back what
 * the others retire, so that they find no record free, as is told; they wait, and none is refused. */
#define CROWDED 8
#define FEW_KEYS 800
#define FEW_LEAVES 1600

typedef struct setter {
    hot_handle *handle;
    unsigned calls, waits, refused;
    uint64_t state;
} setter;

static void *set_keys(void *given) {
    setter *me = given;
    unsigned turn;
    for (turn = 0; turn < me->calls; turn++) {
        key at = key_of(next(&me->state) % FEW_KEYS);
        int puts = next(&me->state) % 2;
        hot_status status = puts ? hot_try_upsert(me->handle, at.bytes, DIGITS, turn, NULL) : hot_try_remove(me->handle, at.bytes, DIGITS, NULL);
        me->waits += status == HOT_HELD_BACK;
        if (status == HOT_BUSY || status == HOT_HELD_BACK)
            status = puts ? hot_upsert(me->handle, at.bytes, DIGITS, turn, NULL) : hot_remove(me->handle, at.bytes, DIGITS, NULL);
        me->refused += status >= HOT_BUSY;
    }
    return NULL;
}

/* One core for all threads that this one makes from now on, or those that it had. */
static int keep_to(const cpu_set_t *cores) {
    return sched_setaffinity(0, sizeof *cores, cores) == 0;
}

/* So many changes; returns whether any found that other calls held records back. */
static int test_stopped(unsigned calls) {
    static const hot_stock stock = {FEW_LEAVES, FEW_LEAVES, 0, 0, 0, 0};
    hot_handle handles[CROWDED];
    setter setters[CROWDED];
    pthread_t threads[CROWDED];
    cpu_set_t all, one;
    unsigned i, waits = 0;
    hot_index *index = NULL;
    hot_refusals told;
    memset(handles, 0, sizeof handles);
    CPU_ZERO(&one);
    CHECK(sched_getaffinity(0, sizeof all, &all) == 0);
    for (i = 0; i < CPU_SETSIZE && !CPU_ISSET(i, &all); i++)
        ;
    CPU_SET(i, &one);
    CHECK(keep_to(&one));
    CHECK(hot_open_index(&stock, CROWDED, &index) == HOT_DONE);
    for (i = 0; i < CROWDED; i++) {
        CHECK(hot_open(index, &handles[i]) == HOT_DONE);
        memset(&setters[i], 0, sizeof setters[i]);
        setters[i].handle = &handles[i];
        setters[i].calls = calls / CROWDED;
        setters[i].state = 1442695040888963407u + i;
        CHECK(pthread_create(&threads[i], NULL, set_keys, &setters[i]) == 0);
    }
    for (i = 0; i < CROWDED; i++) {
        CHECK(pthread_join(threads[i], NULL) == 0);
        CHECK(setters[i].refused == 0);
        waits += setters[i].waits;
        CHECK(hot_close(&handles[i]) == HOT_DONE);
    }
    hot_stats(index, &told);
    CHECK(told.held_back >= waits && told.full == 0);
    CHECK(hot_close_index(index) == HOT_DONE);
    CHECK(keep_to(&all));
    return waits > 0;
}

/* Fifth test: eight threads share an index with three handles. Each opens one for a few calls, and closes it. In the end there are as
 * many keys as the counts of the handles tell. */
#define SHARED 3
#define VISITS 20000

static void *visit(void *given) {
    static const uint8_t name[1] = {'n'};
    hot_index *index = given;
    uint8_t other[1];
    int turn;
    for (turn = 0; turn < VISITS; turn++) {
        hot_handle handle = HOT_HANDLE;
        hot_status status;
        while ((status = hot_open(index, &handle)) == HOT_NO_HANDLE)
            sched_yield();
        CHECK(status == HOT_DONE);
        CHECK(hot_add(&handle, name, 1, 1, NULL) == HOT_WAS);
        other[0] = (uint8_t)(turn % 50);
        status = turn % 3 ? hot_upsert(&handle, other, 1, 0, NULL) : hot_remove(&handle, other, 1, NULL);
        CHECK(status < HOT_BUSY);
        CHECK(hot_close(&handle) == HOT_DONE);
    }
    return NULL;
}

static void test_opening(void) {
    static const hot_stock stock = {100, 100, 0, 0, 0, 0};
    hot_index *index;
    hot_handle handle = HOT_HANDLE;
    pthread_t threads[CROWDED];
    hot_pair pairs[LIMIT];
    size_t count, keys;
    uint32_t more;
    uint64_t value = 0;
    int i;
    CHECK(hot_open_index(&stock, SHARED, &index) == HOT_DONE);
    CHECK(hot_open(index, &handle) == HOT_DONE && hot_insert(&handle, (const uint8_t *)"n", 1, 0, NULL) == HOT_INSERTED);
    CHECK(hot_close(&handle) == HOT_DONE);
    for (i = 0; i < CROWDED; i++)
        CHECK(pthread_create(&threads[i], NULL, visit, index) == 0);
    for (i = 0; i < CROWDED; i++)
        CHECK(pthread_join(threads[i], NULL) == 0);
    CHECK(hot_open(index, &handle) == HOT_DONE && hot_get(&handle, (const uint8_t *)"n", 1, &value) == HOT_FOUND);
    CHECK(hot_scan(&handle, hot_last_key, 0, HOT_TO_END, pairs, LIMIT, &count, &more) == HOT_DONE && !more);
    CHECK(hot_len(&handle, &keys) == HOT_DONE && keys == count);
    CHECK(value == CROWDED * VISITS && hot_close(&handle) == HOT_DONE && hot_close_index(index) == HOT_DONE);
}

/* Sixth test: threads tell each other of moments. Each gives a key of its own the number of its turn, and sends a moment with that number;
 * whoever follows the moment finds the number, or a later one. Meanwhile the index can't be closed, since their handles are open. */
#define TELLERS 4
#define TURNS 20000

static pthread_mutex_t told_lock = PTHREAD_MUTEX_INITIALIZER;
static struct told {
    hot_moment moment;
    uint64_t number;
} told[TELLERS];

typedef struct teller {
    hot_handle *handle;
    uint8_t name;
} teller;

static void *tell(void *given) {
    teller *me = given;
    uint8_t next = (uint8_t)((me->name + 1) % TELLERS);
    struct told mine, other;
    uint64_t value;
    for (mine.number = 1; mine.number <= TURNS; mine.number++) {
        CHECK(hot_upsert(me->handle, &me->name, 1, mine.number, NULL) == HOT_WAS);
        CHECK(hot_stamp(me->handle, &mine.moment) == HOT_DONE);
        pthread_mutex_lock(&told_lock);
        told[me->name] = mine;
        other = told[next];
        pthread_mutex_unlock(&told_lock);
        CHECK(hot_follow(me->handle, &other.moment) == HOT_DONE);
        CHECK(hot_get(me->handle, &next, 1, &value) == HOT_FOUND && value >= other.number);
    }
    return NULL;
}

static void test_telling(void) {
    static const hot_stock stock = {100, 100, 0, 0, 0, 0};
    hot_index *index;
    hot_handle handles[TELLERS];
    teller tellers[TELLERS];
    pthread_t threads[TELLERS];
    uint8_t i;
    memset(handles, 0, sizeof handles);
    CHECK(hot_open_index(&stock, TELLERS + 1, &index) == HOT_DONE);
    for (i = 0; i < TELLERS; i++) {
        tellers[i].handle = &handles[i];
        tellers[i].name = i;
        CHECK(hot_open(index, &handles[i]) == HOT_DONE && hot_insert(&handles[i], &i, 1, 0, NULL) == HOT_INSERTED);
        CHECK(hot_stamp(&handles[i], &told[i].moment) == HOT_DONE && hot_meet(&handles[0], &handles[i]) == HOT_DONE);
    }
    for (i = 0; i < TELLERS; i++)
        CHECK(pthread_create(&threads[i], NULL, tell, &tellers[i]) == 0);
    for (i = 0; i < 100; i++)
        CHECK(hot_close_index(index) == HOT_OPEN);
    for (i = 0; i < TELLERS; i++)
        CHECK(pthread_join(threads[i], NULL) == 0);
    for (i = 0; i < TELLERS; i++)
        CHECK(hot_close_index(index) == HOT_OPEN && hot_close(&handles[i]) == HOT_DONE);
    CHECK(hot_close_index(index) == HOT_DONE);
}

/* Another test: two threads put keys in, and four take pairs from both ends until all are gone. Each pair is taken once. */
#define TAKERS 4
#define JOBS 20000

static unsigned taken[2 * JOBS];
static int at_work;

static void *put_jobs(void *given) {
    worker *me = given;
    unsigned i;
    for (i = 0; i < JOBS; i++)
        put_in(me->handle, 2 * i + me->half);
    __atomic_sub_fetch(&at_work, 1, __ATOMIC_SEQ_CST);
    return NULL;
}

static void *take_jobs(void *given) {
    worker *me = given;
    for (;;) {
        int is_last = __atomic_load_n(&at_work, __ATOMIC_SEQ_CST) == 0;
        hot_pair pair;
        hot_status status = (me->half ? hot_pop_last : hot_pop_first)(me->handle, hot_last_key, 0, HOT_TO_END, &pair);
        CHECK(status == HOT_REMOVED || status == HOT_ABSENT);
        if (status == HOT_REMOVED)
            CHECK(pair.value < 2 * JOBS && __atomic_add_fetch(&taken[pair.value], 1, __ATOMIC_SEQ_CST) == 1);
        else if (is_last)
            return NULL;
        else
            sched_yield();
    }
}

static void test_jobs(void) {
    static const hot_stock stock = {20000, 10000, 10000, 10000, 10000, 10000};
    hot_handle handles[TAKERS + 2];
    worker workers[TAKERS + 2];
    pthread_t threads[TAKERS + 2];
    size_t count;
    unsigned i;
    memset(handles, 0, sizeof handles);
    CHECK(hot_create_with(&stock, handles, TAKERS + 2) == HOT_DONE);
    at_work = 2;
    for (i = 0; i < TAKERS + 2; i++) {
        workers[i].handle = &handles[i];
        workers[i].half = i % 2;
        CHECK(pthread_create(&threads[i], NULL, i < TAKERS ? take_jobs : put_jobs, &workers[i]) == 0);
    }
    for (i = 0; i < TAKERS + 2; i++)
        CHECK(pthread_join(threads[i], NULL) == 0);
    for (i = 0; i < 2 * JOBS; i++)
        CHECK(taken[i] == 1);
    CHECK(hot_len(&handles[0], &count) == HOT_DONE && count == 0);
    for (i = 0; i < TAKERS + 2; i++)
        CHECK(hot_destroy(&handles[i]) == HOT_DONE);
}

/* Seventh test: two threads take all their keys out and put them in again, so that nodes merge and split, beside two that scan upwards and
 * downwards. Each scan has every key that stays, and none twice. */
#define STAYS 16
#define WAVES 60

/* The pairs rise from `first` on up to `last`, or fall by a step of -1, and every key that stays is there. */
static void check_stays(const hot_pair *pairs, size_t count, int first, int step, int last, uint32_t more) {
    int expected = first;
    size_t i;
    for (i = 0; i < count + !more; i++) {
        int number = i < count ? (int)number_of(&pairs[i]) : last + step;
        CHECK((number - expected) * step >= 0);
        for (; (number - expected) * step > 0; expected += step)
            CHECK(expected % STAYS != 0);
        expected = number + step;
    }
}

static void *scan_both_ways(void *given) {
    worker *me = given;
    while (__atomic_load_n(&at_work, __ATOMIC_SEQ_CST) > 0) {
        hot_pair pairs[LIMIT];
        unsigned low = next(&me->state) % (NUMBERS - 400), high = low + next(&me->state) % 400;
        key from = key_of(low), upto = key_of(high);
        size_t count = 0;
        uint32_t more = 0;
        CHECK(hot_scan(me->handle, from.bytes, from.length, upto.bytes, upto.length, pairs, LIMIT, &count, &more) == HOT_DONE);
        check_stays(pairs, count, (int)low, 1, (int)high, more);
        CHECK(hot_scan_reverse(me->handle, from.bytes, from.length, upto.bytes, upto.length, pairs, LIMIT, &count, &more) == HOT_DONE);
        check_stays(pairs, count, (int)high, -1, (int)low, more);
    }
    return NULL;
}

/* All keys of this half that don't stay go, and come again, in the same order; at last they go. */
static void *make_waves(void *given) {
    worker *me = given;
    unsigned turn, i;
    for (turn = 0; turn <= 2 * WAVES; turn++)
        for (i = 0; i < NUMBERS; i++) {
            unsigned number = i * 7919 % NUMBERS;
            if (number % STAYS == 0 || number % 2 != me->half)
                continue;
            if (turn % 2 == 0)
                take_out(me->handle, number);
            else
                put_in(me->handle, number);
        }
    __atomic_sub_fetch(&at_work, 1, __ATOMIC_SEQ_CST);
    return NULL;
}

/* At last there are six keys a node or more, since nodes have merged. */
static void test_waves(void) {
    static const hot_stock stock = {600, 500, 500, 500, 500, 500};
    static void *(*const does[4])(void *) = {make_waves, make_waves, scan_both_ways, scan_both_ways};
    hot_handle handles[4] = {HOT_HANDLE, HOT_HANDLE, HOT_HANDLE, HOT_HANDLE};
    worker workers[4];
    pthread_t threads[4];
    hot_counts counts;
    unsigned i;
    CHECK(hot_create_with(&stock, handles, 4) == HOT_DONE);
    for (i = 0; i < NUMBERS; i++)
        put_in(&handles[0], i);
    at_work = 2;
    for (i = 0; i < 4; i++) {
        workers[i].handle = &handles[i];
        workers[i].state = 6364136223846793005u + i;
        workers[i].half = i % 2;
        CHECK(pthread_create(&threads[i], NULL, does[i], &workers[i]) == 0);
    }
    for (i = 0; i < 4; i++)
        CHECK(pthread_join(threads[i], NULL) == 0);
    CHECK(hot_census(&handles[0], &counts) == HOT_DONE && counts.nodes.live * 6 <= NUMBERS / STAYS);
    for (i = 0; i < 4; i++)
        CHECK(hot_destroy(&handles[i]) == HOT_DONE);
}

/* Eighth test: four threads give held keys new values in an index that is full to the last leaf record. None is refused, each finds the value
 * that it gave its own key last, and one counter tells of all additions. A new key is refused all the while, and no record moves. */
#define FULL_LEAVES 100
#define GIVES 20000

/* Gives a key of its own, whose value is `old`, another in one of three ways. */
static void give_value(hot_handle *handle, const key *at, uint64_t old, uint64_t value) {
    uint64_t had = old;
    hot_status status;
    switch (value % 3) {
    case 0:
        CHECK(hot_upsert(handle, at->bytes, DIGITS, value, &had) == HOT_WAS);
        break;
    case 1:
        CHECK(hot_exchange(handle, at->bytes, DIGITS, old + 1, value, &had) == HOT_DIFFERS && had == old);
        CHECK(hot_exchange(handle, at->bytes, DIGITS, old, value, NULL) == HOT_EXCHANGED);
        break;
    default:
        do
            status = hot_try_add(handle, at->bytes, DIGITS, value - old, &had);
        while (status == HOT_BUSY);
        CHECK(status == HOT_WAS);
    }
    CHECK(had == old);
}

static void *give_values(void *given) {
    worker *me = given;
    const key own = key_of(1 + me->half), all = key_of(0), another = key_of(NUMBERS);
    uint64_t turn;
    for (turn = 1; turn <= GIVES; turn++) {
        give_value(me->handle, &own, turn - 1, turn);
        CHECK(hot_add(me->handle, all.bytes, DIGITS, 1, NULL) == HOT_WAS);
        if (turn % 64 == 0)
            CHECK(hot_insert(me->handle, another.bytes, DIGITS, turn, NULL) == HOT_FULL_LEAVES);
    }
    return NULL;
}

static void test_values(void) {
    hot_handle handles[4] = {HOT_HANDLE, HOT_HANDLE, HOT_HANDLE, HOT_HANDLE};
    const key all = key_of(0);
    worker workers[4];
    pthread_t threads[4];
    hot_counts before, after;
    uint32_t given[2];
    uint64_t sum = 0;
    unsigned i;
    CHECK(hot_create(FULL_LEAVES, FULL_LEAVES, handles, 4) == HOT_DONE);
    for (i = 0; i < FULL_LEAVES; i++) {
        key at = key_of(i);
        CHECK(hot_insert(&handles[0], at.bytes, DIGITS, 0, NULL) == HOT_INSERTED);
    }
    CHECK(hot_collect(&handles[0], &given[0], &given[1]) == HOT_DONE && hot_census(&handles[0], &before) == HOT_DONE);
    for (i = 0; i < 4; i++) {
        workers[i].handle = &handles[i];
        workers[i].half = i;
        CHECK(pthread_create(&threads[i], NULL, give_values, &workers[i]) == 0);
    }
    for (i = 0; i < 4; i++)
        CHECK(pthread_join(threads[i], NULL) == 0);
    CHECK(hot_get(&handles[0], all.bytes, DIGITS, &sum) == HOT_FOUND && sum == 4 * GIVES);
    CHECK(hot_census(&handles[0], &after) == HOT_DONE && after.long_leaves.live == FULL_LEAVES && after.nodes.live == before.nodes.live);
    for (i = 0; i < 4; i++)
        CHECK(hot_destroy(&handles[i]) == HOT_DONE);
}

/* Ninth test: threads fill an index of few nodes, and take half of their keys out again. One node record is left for the removals of all of
 * them, and none is refused, whoever has that record. */
#define EMPTIERS 24
#define FEW_NODES 40
#define REMOVALS 10000
#define MOST_OWN 512

typedef struct emptier {
    hot_index *index;
    uint64_t keys[MOST_OWN], state;
    unsigned number, count, removals;
} emptier;

/* A key of this thread alone, beside others where nodes have few entries: its bytes are those of a number, the highest first. */
static uint64_t own_key(emptier *me) {
    uint64_t number = (uint64_t)(next(&me->state) % 4) << 48 | (uint64_t)1 << (16 + next(&me->state) % 31) | next(&me->state) % 4 << 6 | me->number;
    return __builtin_bswap64(number);
}

/* Removes the key by one of the calls that do. */
static void empty_one(hot_handle *handle, const uint8_t *key, unsigned turn) {
    hot_pair pair;
    switch (turn % 8) {
    case 0: CHECK(hot_pop_first(handle, key, 8, key, 8, &pair) == HOT_REMOVED && pair.value == 1); break;
    case 1: CHECK(hot_pop_last(handle, key, 8, key, 8, &pair) == HOT_REMOVED && pair.value == 1); break;
    case 2: CHECK(hot_clear_range(handle, key, 8, key, 8) == HOT_DONE); break;
    case 3: CHECK(hot_remove_if(handle, key, 8, 1, NULL) == HOT_REMOVED); break;
    default: CHECK(hot_remove(handle, key, 8, NULL) == HOT_REMOVED); break;
    }
}

/* Puts keys in until the index is full. */
static void fill_own(emptier *me, hot_handle *handle) {
    hot_status status = HOT_INSERTED;
    while (me->count < MOST_OWN && (status == HOT_INSERTED || status == HOT_EXISTS)) {
        uint64_t key = own_key(me);
        status = hot_insert(handle, (uint8_t *)&key, 8, 1, NULL);
        if (status == HOT_INSERTED)
            me->keys[me->count++] = key;
    }
    CHECK(status == HOT_INSERTED || status == HOT_EXISTS || status == HOT_FULL_NODES);
}

/* Takes keys out, until so many are left. */
static void empty_own(emptier *me, hot_handle *handle, unsigned left) {
    while (me->count > left) {
        uint64_t *key = &me->keys[next(&me->state) % me->count];
        empty_one(handle, (uint8_t *)key, me->removals++);
        *key = me->keys[--me->count];
    }
}

static void *fill_and_empty(void *given) {
    emptier *me = given;
    hot_handle handle = HOT_HANDLE;
    CHECK(hot_open(me->index, &handle) == HOT_DONE);
    while (me->removals < REMOVALS) {
        fill_own(me, &handle);
        if (me->count == 0)
            sched_yield();
        empty_own(me, &handle, me->count / 2);
    }
    empty_own(me, &handle, 0);
    CHECK(hot_close(&handle) == HOT_DONE);
    return NULL;
}

static void test_emptying(void) {
    static const hot_stock stock = {FEW_NODES, EMPTIERS * MOST_OWN, 0, 0, 0, 0};
    static emptier emptiers[EMPTIERS];
    pthread_t threads[EMPTIERS];
    hot_handle handle = HOT_HANDLE;
    size_t keys = 1;
    unsigned i;
    hot_index *index = NULL;
    CHECK(hot_open_index(&stock, EMPTIERS, &index) == HOT_DONE);
    for (i = 0; i < EMPTIERS; i++) {
        emptiers[i].index = index;
        emptiers[i].number = i;
        emptiers[i].state = 1442695040888963407u + i;
        CHECK(pthread_create(&threads[i], NULL, fill_and_empty, &emptiers[i]) == 0);
    }
    for (i = 0; i < EMPTIERS; i++)
        CHECK(pthread_join(threads[i], NULL) == 0);
    CHECK(hot_open(index, &handle) == HOT_DONE && hot_len(&handle, &keys) == HOT_DONE && keys == 0);
    CHECK(hot_close(&handle) == HOT_DONE && hot_close_index(index) == HOT_DONE);
}

/* Tenth test: threads that add one to a key which others remove: by a call that puts it in, and by a function that is asked for the new value. What was removed
 * and what is left make as much as was added. */
#define ADDITIONS 20000

typedef struct adder {
    hot_handle handle;
    uint64_t sum; /* of what it has added, or removed */
} adder;

static int count_up(void *context, uint64_t *value) {
    ++*value;
    return context == NULL;
}

static void *add_ones(void *given) {
    adder *me = given;
    uint64_t had;
    int turn;
    for (turn = 0; turn < ADDITIONS; turn++) {
        hot_status status = turn % 2 ? hot_add_or_insert(&me->handle, bytes("sum"), 3, 1, &had)
                                     : hot_update(&me->handle, bytes("sum"), 3, count_up, NULL, &had);
        CHECK(status == HOT_WAS || status == (turn % 2 ? HOT_NEW : HOT_ABSENT));
        CHECK(status != HOT_WAS || had > 0);
        me->sum += status != HOT_ABSENT;
    }
    return NULL;
}

static void *remove_sums(void *given) {
    adder *me = given;
    uint64_t had;
    int turn;
    for (turn = 0; turn < ADDITIONS; turn++)
        if (hot_remove(&me->handle, bytes("sum"), 3, &had) == HOT_REMOVED)
            me->sum += had;
    return NULL;
}

static void test_sums(void) {
    static const hot_stock stock = {100, 100, 0, 0, 0, 0};
    hot_index *index;
    adder adders[4] = {{HOT_HANDLE, 0}, {HOT_HANDLE, 0}, {HOT_HANDLE, 0}, {HOT_HANDLE, 0}};
    pthread_t threads[4];
    uint64_t left = 0;
    unsigned i;
    CHECK(hot_open_index(&stock, 4, &index) == HOT_DONE);
    for (i = 0; i < 4; i++)
        CHECK(hot_open(index, &adders[i].handle) == HOT_DONE);
    for (i = 0; i < 4; i++)
        CHECK(pthread_create(&threads[i], NULL, i < 3 ? add_ones : remove_sums, &adders[i]) == 0);
    for (i = 0; i < 4; i++)
        CHECK(pthread_join(threads[i], NULL) == 0);
    hot_get(&adders[0].handle, bytes("sum"), 3, &left);
    CHECK(adders[0].sum + adders[1].sum + adders[2].sum == adders[3].sum + left && adders[0].sum >= ADDITIONS / 2);
    for (i = 0; i < 4; i++)
        CHECK(hot_close(&adders[i].handle) == HOT_DONE);
    CHECK(hot_close_index(index) == HOT_DONE);
}

int main(void) {
    /* Keys, nodes and leaves: room for all; more keys than leaves; one node, which comes and goes. */
    static const unsigned crowds[5][3] = {{500, 60, 520}, {12, 16, 8}, {5, 1, 16}, {3, 1, 2}, {2, 1, 1}};
    unsigned i;
    alarm(900); /* a call that never returns ends the test */
    test_readers();
    for (i = 0; i < 5; i++)
        test_crowd(crowds[i][0], crowds[i][1], crowds[i][2]);
    test_filling();
    for (i = 0; i < 10 && !test_stopped(1000000); i++)
        ;
    CHECK(i < 10);
    test_opening();
    test_telling();
    test_jobs();
    test_waves();
    test_values();
    test_emptying();
    test_sums();
    if (!failures)
        puts("passed: threads that read while others change keys of all lengths, or make nodes merge, threads where few records are to spare, "
             "threads that are stopped, threads that empty a full index, and threads that add to a key which comes and goes");
    return failures;
}

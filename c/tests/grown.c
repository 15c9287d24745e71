/* Tests of indexes that grow: changes beside a model while records are committed, and where no more may be; bounds; sections, moments and handles
 * where the table is made anew; a load of unknown length; sixty-four threads on one processor, beside a model each; and histories of calls that must
 * be linearizable. With a number it makes so many hundredths of the rounds. */
#define _GNU_SOURCE
#include "hot.h"
#include "check.h"
#include <pthread.h>
#include <sched.h>
#include <stdlib.h>
#include <string.h>
#include <sys/resource.h>
#include <sys/wait.h>
#include <time.h>
#include <unistd.h>

/* Numbers by chance (xorshift, Marsaglia 2003). */
static unsigned next(uint64_t *state) {
    *state ^= *state << 13;
    *state ^= *state >> 7;
    *state ^= *state << 17;
    return (unsigned)(*state >> 33);
}

/* A key: four bytes of its number, and as many more as its number says, so that each size of leaf records has some. */
typedef struct key {
    uint8_t bytes[HOT_MAX_KEY];
    size_t length;
} key;

static key key_of(unsigned number) {
    static const size_t more[5] = {0, 10, 40, 70, 200};
    key made;
    memset(made.bytes, 'x', sizeof made.bytes);
    made.bytes[0] = (uint8_t)(number >> 24), made.bytes[1] = (uint8_t)(number >> 16), made.bytes[2] = (uint8_t)(number >> 8);
    made.bytes[3] = (uint8_t)number;
    made.length = 4 + more[number % 5];
    return made;
}

/* An index that begins as small as it may, and a handle of it. */
static hot_index *open_small(size_t handles, hot_handle *handle) {
    hot_index *index = NULL;
    CHECK(hot_open_growing(NULL, SIZE_MAX, handles, &index) == HOT_DONE && hot_open(index, handle) == HOT_DONE);
    return index;
}

static void close_all(hot_handle *handle, hot_index *index) {
    CHECK(hot_close(handle) == HOT_DONE && hot_close_index(index) == HOT_DONE);
}

/* ---- A model: what some keys have. ---- */

enum { KEYS = 400 };

/* The value of each key, or 0 if it is absent. */
typedef struct model {
    unsigned first; /* the number of the first key */
    unsigned count;
    uint64_t values[KEYS];
} model;

/* Makes a change by chance, or a look-up, which must return what the model says. */
static void make_call(hot_handle *handle, model *of, uint64_t *state) {
    unsigned at = next(state) % of->count;
    key it = key_of(of->first + at);
    uint64_t old = of->values[at], value = 1 + next(state), had = old, expected = next(state) % 2 ? old : old + 1;
    switch (next(state) % 8) {
    case 0:
        CHECK(hot_insert(handle, it.bytes, it.length, value, &had) == (old ? HOT_EXISTS : HOT_INSERTED) && had == old);
        of->values[at] = old ? old : value;
        break;
    case 1:
    case 2:
        CHECK(hot_upsert(handle, it.bytes, it.length, value, &had) == (old ? HOT_WAS : HOT_NEW) && had == old);
        of->values[at] = value;
        break;
    case 3:
        CHECK(hot_remove(handle, it.bytes, it.length, &had) == (old ? HOT_REMOVED : HOT_ABSENT) && had == old);
        of->values[at] = 0;
        break;
    case 4:
        CHECK(hot_exchange(handle, it.bytes, it.length, expected, value, &had) ==
              (!old ? HOT_ABSENT : old == expected ? HOT_EXCHANGED : HOT_DIFFERS));
        of->values[at] = old && old == expected ? value : old;
        break;
    case 5:
        CHECK(hot_remove_if(handle, it.bytes, it.length, expected, &had) ==
              (!old ? HOT_ABSENT : old == expected ? HOT_REMOVED : HOT_DIFFERS));
        of->values[at] = old == expected ? 0 : old;
        break;
    case 6:
        CHECK(hot_add(handle, it.bytes, it.length, 3, &had) == (old ? HOT_WAS : HOT_ABSENT) && had == old);
        of->values[at] = old ? old + 3 : 0;
        break;
    default: CHECK(hot_get(handle, it.bytes, it.length, &had) == (old ? HOT_FOUND : HOT_ABSENT) && had == old);
    }
}

/* Whether an index has what the model says, by look-ups, and by scans if it has no other keys. */
static void check_model(hot_handle *handle, const model *of, int is_all) {
    hot_pair pairs[KEYS];
    size_t at, count = 0, listed = 0, number = 0;
    uint32_t more = 1;
    for (at = 0; at < of->count; at++) {
        key it = key_of(of->first + (unsigned)at);
        uint64_t value = 0;
        CHECK(hot_get(handle, it.bytes, it.length, &value) == (of->values[at] ? HOT_FOUND : HOT_ABSENT) && value == of->values[at]);
        count += of->values[at] != 0;
    }
    if (!is_all)
        return;
    CHECK(hot_scan(handle, hot_last_key, 0, HOT_TO_END, pairs, KEYS, &listed, &more) == HOT_DONE && listed == count && !more);
    for (at = 0; at < of->count && number < listed; at++)
        if (of->values[at]) {
            key it = key_of(of->first + (unsigned)at);
            CHECK(pairs[number].length == it.length && memcmp(pairs[number].key, it.bytes, it.length) == 0);
            CHECK(pairs[number++].value == of->values[at]);
        }
    CHECK(hot_len(handle, &listed) == HOT_DONE && listed == count);
    CHECK(hot_count(handle, hot_last_key, 0, HOT_TO_END, &listed) == HOT_DONE && listed == count);
}

/* ---- One thread ---- */

/* From a few records on, by one thread: an index that is made small commits as many as it must, and trimmed it has few again. */
static void test_growth(void) {
    hot_handle handle = HOT_HANDLE;
    hot_index *index = open_small(2, &handle);
    static model of;
    uint64_t state = 88172645463325252u;
    hot_counts counts;
    size_t first;
    unsigned turn;
    of.count = KEYS;
    CHECK(hot_census(&handle, &counts) == HOT_DONE);
    first = counts.bytes;
    for (turn = 0; turn < 5000; turn++)
        make_call(&handle, &of, &state);
    check_model(&handle, &of, 1);
    CHECK(hot_census(&handle, &counts) == HOT_DONE && counts.bytes > 4 * first);
    CHECK(hot_clear(&handle) == HOT_DONE && hot_trim(index) == HOT_OPEN && hot_close(&handle) == HOT_DONE);
    CHECK(hot_trim(index) == HOT_DONE && hot_open(index, &handle) == HOT_DONE);
    CHECK(hot_census(&handle, &counts) == HOT_DONE && counts.bytes <= 2 * first);
    memset(of.values, 0, sizeof of.values);
    check_model(&handle, &of, 1);
    close_all(&handle, index);
}

/* What calls with an index say that grows, and with one that doesn't. */
static void test_calls(void) {
    hot_handle handle = HOT_HANDLE;
    hot_index *index = open_small(1, &handle);
    hot_stock stock;
    uint32_t more = 7;
    CHECK(hot_open(index, &(hot_handle)HOT_HANDLE) == HOT_NO_HANDLE && hot_create(10, 10, &handle, 1) == HOT_OPEN);
    CHECK(hot_grow(index) == HOT_DONE && hot_grow_begin(index) == HOT_DONE && !hot_is_filling(index));
    CHECK(hot_grow_step(index, &more) == HOT_DONE && more == 0);
    close_all(&handle, index);
    hot_stock_for_keys(10, 8, &stock);
    CHECK(hot_open_index(&stock, 1, &index) == HOT_DONE && hot_grow(index) == HOT_FIXED && hot_trim(index) == HOT_FIXED);
    CHECK(hot_grow_begin(index) == HOT_FIXED && !hot_is_filling(index));
    more = 7;
    CHECK(hot_grow_step(index, &more) == HOT_FIXED && more == 7 && hot_close_index(index) == HOT_DONE);
    index = NULL;
    CHECK(hot_open_growing(NULL, SIZE_MAX, 0, &index) == HOT_OUT_OF_RANGE && hot_open_growing(NULL, SIZE_MAX, 1024, &index) == HOT_OUT_OF_RANGE);
    CHECK(hot_open_growing(&stock, 1000, 1, &index) == HOT_OUT_OF_RANGE && index == NULL);
    stock.nodes = 0;
    CHECK(hot_open_growing(&stock, SIZE_MAX, 1, &index) == HOT_OUT_OF_RANGE && index == NULL);
    CHECK(hot_open_growing(NULL, SIZE_MAX, 1023, &index) == HOT_DONE && hot_close_index(index) == HOT_DONE);
}

/* The bytes of records that an index has committed. */
static size_t committed(hot_handle *handle) {
    hot_counts counts;
    CHECK(hot_census(handle, &counts) == HOT_DONE);
    return counts.bytes;
}

/* Where no more may be committed, changes are refused as full and all stays; one key out and one in works, again and again; and all keys go. */
static void test_bound(void) {
    enum { MOST = 100000 };
    hot_handle handle = HOT_HANDLE;
    hot_index *index = NULL;
    hot_status status = HOT_INSERTED;
    unsigned number, first;
    uint64_t value = 0;
    CHECK(hot_open_growing(NULL, MOST, 1, &index) == HOT_DONE && hot_open(index, &handle) == HOT_DONE);
    for (number = 0; status == HOT_INSERTED && number < 10000; number += status == HOT_INSERTED) {
        key it = key_of(number);
        status = number % 2 ? hot_try_insert(&handle, it.bytes, it.length, number, NULL) : hot_insert(&handle, it.bytes, it.length, number, NULL);
    }
    CHECK((status == HOT_FULL_NODES || status == HOT_FULL_LEAVES) && number > 300 && number < 1500);
    CHECK(committed(&handle) <= MOST && committed(&handle) > MOST / 10 * 8);
    for (first = 0; first < 2000; first++) {
        key it = key_of(first), other = key_of(first + number / 5 * 5);
        CHECK(hot_remove(&handle, it.bytes, it.length, &value) == HOT_REMOVED && value == first);
        if (first + number / 5 * 5 >= number)
            CHECK(hot_insert(&handle, other.bytes, other.length, first + number / 5 * 5, NULL) == HOT_INSERTED);
    }
    CHECK(committed(&handle) <= MOST && hot_grow(index) == HOT_DONE);
    for (; hot_len(&handle, &(size_t){0}) == HOT_DONE && first < number / 5 * 5 + 2000; first++) {
        key it = key_of(first);
        CHECK(hot_remove(&handle, it.bytes, it.length, &value) == HOT_REMOVED && value == first);
    }
    CHECK(hot_count(&handle, hot_last_key, 0, HOT_TO_END, &(size_t){0}) == HOT_DONE);
    close_all(&handle, index);
}

/* Calls beside a model with an index that may commit so many bytes: a change that is refused changes nothing, no more is ever committed but one node
 * where a removal has none, and when keys have gone others find room. Returns how many calls were refused. */
static unsigned test_within(size_t most) {
    hot_handle handle = HOT_HANDLE;
    hot_index *index = NULL;
    static uint64_t has[KEYS];
    uint64_t state = 88172645463325252u + most, value;
    unsigned turn, refused = 0;
    memset(has, 0, sizeof has);
    if (hot_open_growing(NULL, most, 1, &index) == HOT_OUT_OF_RANGE)
        return 0;
    CHECK(hot_open(index, &handle) == HOT_DONE);
    for (turn = 0; turn < 1500 && !failures; turn++) {
        unsigned at = next(&state) % KEYS, is_upsert = next(&state) % 3;
        key it = key_of(at);
        hot_status status = is_upsert ? hot_upsert(&handle, it.bytes, it.length, turn + 1, NULL) : hot_remove(&handle, it.bytes, it.length, NULL);
        if (status == HOT_FULL_NODES || status == HOT_FULL_LEAVES) {
            CHECK(is_upsert && has[at] == 0);
            refused++;
        } else {
            CHECK(status == (is_upsert ? (has[at] ? HOT_WAS : HOT_NEW) : (has[at] ? HOT_REMOVED : HOT_ABSENT)));
            has[at] = is_upsert ? turn + 1 : 0;
        }
        value = 0;
        CHECK(hot_get(&handle, it.bytes, it.length, &value) == (has[at] ? HOT_FOUND : HOT_ABSENT) && value == has[at]);
    }
    CHECK(committed(&handle) <= most);
    for (turn = 0; turn < KEYS; turn++) {
        key it = key_of(turn);
        value = 0;
        CHECK(hot_get(&handle, it.bytes, it.length, &value) == (has[turn] ? HOT_FOUND : HOT_ABSENT) && value == has[turn]);
        CHECK(hot_remove(&handle, it.bytes, it.length, NULL) == (has[turn] ? HOT_REMOVED : HOT_ABSENT));
    }
    CHECK(hot_insert(&handle, bytes("a"), 1, 1, NULL) == HOT_INSERTED);
    close_all(&handle, index);
    return refused;
}

/* The same at each bound about what is needed: so commits are refused in each place. */
static void test_bounds(unsigned step) {
    size_t most;
    unsigned refused = 0, whole = 0;
    for (most = 5000; most < 120000; most += step) {
        unsigned its = test_within(most);
        refused += its > 0;
        whole += its == 0;
    }
    CHECK(refused > 0 && whole > 0);
}

/* At each bound near another one the greatest number of keys is about the same, and no byte more is taken. */
static void test_each_byte(void) {
    size_t most;
    unsigned before = 0, number;
    for (most = 20000; most < 20600; most++) {
        hot_handle handle = HOT_HANDLE;
        hot_index *index = NULL;
        CHECK(hot_open_growing(NULL, most, 1, &index) == HOT_DONE && hot_open(index, &handle) == HOT_DONE);
        for (number = 0; hot_insert(&handle, key_of(5 * number).bytes, 4, number, NULL) == HOT_INSERTED; number++)
            ;
        CHECK((before == 0 || (number + 16 > before && number < before + 16)) && committed(&handle) <= most && committed(&handle) > most / 10 * 7);
        before = number;
        close_all(&handle, index);
    }
}

/* An index of a stock that may exceed memory commits it by and by, and is full when all is in use; keys take larger leaves then, too. */
static void test_stock(void) {
    static const hot_stock stock = {2000, 700, 300, 0, 0, 500};
    hot_handle handle = HOT_HANDLE;
    hot_index *index = NULL;
    hot_counts counts;
    unsigned number;
    CHECK(hot_open_index_within(&stock, 2, SIZE_MAX, &index) == HOT_DONE && hot_open(index, &handle) == HOT_DONE);
    CHECK(hot_census(&handle, &counts) == HOT_DONE && counts.short_leaves.free < 10 && counts.nodes.free < 10 && counts.large_leaves.free == 0);
    for (number = 0; hot_insert(&handle, key_of(5 * number).bytes, 4, number, NULL) == HOT_INSERTED; number++)
        ;
    CHECK(number == 1500 && hot_insert(&handle, bytes("a"), 1, 1, NULL) == HOT_FULL_LEAVES && hot_upsert(&handle, bytes("a"), 1, 1, NULL) == HOT_FULL_LEAVES);
    CHECK(hot_census(&handle, &counts) == HOT_DONE && counts.short_leaves.live == 700 && counts.long_leaves.live == 500);
    for (number = 0; number < 1500; number++) {
        CHECK(hot_remove(&handle, key_of(5 * number).bytes, 4, NULL) == HOT_REMOVED);
        CHECK(hot_insert(&handle, key_of(5 * number + 100000).bytes, 4, 1, NULL) == HOT_INSERTED);
    }
    CHECK(hot_grow(index) == HOT_FIXED);
    close_all(&handle, index);
}

/* Where the table is made anew, what was retired before stays counted, a moment tells of what came before it, and each handle goes on. */
static void test_sections(void) {
    hot_handle handles[3] = {HOT_HANDLE, HOT_HANDLE, HOT_HANDLE};
    hot_index *index = open_small(4, &handles[0]);
    hot_retirement before;
    hot_moment moment;
    hot_memory now;
    uint64_t value = 0;
    unsigned at;
    CHECK(hot_open(index, &handles[1]) == HOT_DONE && hot_open(index, &handles[2]) == HOT_DONE);
    CHECK(hot_upsert(&handles[0], bytes("a"), 1, 1, NULL) == HOT_NEW && hot_upsert(&handles[2], bytes("b"), 1, 2, NULL) == HOT_NEW);
    CHECK(hot_stamp(&handles[0], &moment) == HOT_DONE && hot_enter(&handles[1]) == HOT_DONE);
    CHECK(hot_remove(&handles[0], bytes("a"), 1, NULL) == HOT_REMOVED && hot_retired(&handles[0], &before) == HOT_DONE);
    CHECK(hot_is_past(&handles[0], &before) == HOT_NOT_PAST && hot_trim(index) == HOT_OPEN && hot_leave(&handles[1]) == HOT_DONE);
    for (at = 0; at < 3; at++)
        CHECK(hot_close(&handles[at]) == HOT_DONE && hot_trim(index) == (at < 2 ? HOT_OPEN : HOT_DONE));
    hot_bytes(index, &now);
    CHECK(now.now <= now.most);
    for (at = 0; at < 3; at++) {
        uint16_t number = 9;
        CHECK(hot_open(index, &handles[at]) == HOT_DONE && hot_number(&handles[at], &number) == HOT_DONE && number == at);
        CHECK(hot_follow(&handles[at], &moment) == HOT_DONE && hot_is_past(&handles[at], &before) == HOT_DONE);
        CHECK(hot_get(&handles[at], bytes("a"), 1, &value) == HOT_ABSENT && hot_get(&handles[at], bytes("b"), 1, &value) == HOT_FOUND && value == 2);
        CHECK(hot_enter(&handles[at]) == HOT_DONE && hot_leave(&handles[at]) == HOT_DONE);
    }
    CHECK(hot_open(index, &(hot_handle)HOT_HANDLE) == HOT_NO_HANDLE && hot_meet(&handles[0], &handles[2]) == HOT_DONE);
    CHECK(hot_upsert(&handles[1], bytes("c"), 1, 3, NULL) == HOT_NEW && hot_remove(&handles[2], bytes("b"), 1, NULL) == HOT_REMOVED);
    for (at = 0; at < 3; at++)
        CHECK(hot_close(&handles[at]) == HOT_DONE);
    CHECK(hot_trim(index) == HOT_DONE && hot_open(index, &handles[0]) == HOT_DONE);
    CHECK(hot_get(&handles[0], bytes("c"), 1, &value) == HOT_FOUND && value == 3 && hot_len(&handles[0], &(size_t){0}) == HOT_DONE);
    close_all(&handles[0], index);
}

/* The child of a fork has an index of its own, which commits what it needs, and so has its parent. */
static void test_fork(void) {
    enum { BOTH = 1000, MORE = 20000 };
    hot_handle handle = HOT_HANDLE;
    hot_index *index = open_small(1, &handle);
    unsigned number, is_parent = 0;
    int status = 0;
    size_t count = 0;
    pid_t child = 0;
    for (number = 0; number < MORE; number++) {
        key it = key_of(number < BOTH ? number : 2 * number + is_parent);
        if (number == BOTH) {
            child = fork();
            is_parent = child != 0;
            it = key_of(2 * number + is_parent);
        }
        CHECK(hot_insert(&handle, it.bytes, it.length, number, NULL) == HOT_INSERTED);
    }
    CHECK(hot_count(&handle, hot_last_key, 0, HOT_TO_END, &count) == HOT_DONE && count == MORE);
    close_all(&handle, index);
    if (child == 0)
        _exit(failures);
    CHECK(child > 0 && waitpid(child, &status, 0) == child && WIFEXITED(status) && WEXITSTATUS(status) == 0);
}

/* A process that may have few addresses has a smaller table. A sanitizer has more of them. */
#ifndef IS_WATCHED
static void test_addresses(void) {
    struct rlimit was;
    size_t room;
    if (!limit_addresses((rlim_t)64 << 20, &was))
        return;
    CHECK(setrlimit(RLIMIT_AS, &was) == 0);
    for (room = (size_t)1 << 22; room < (size_t)1 << 40; room *= 4) {
        int status = 0;
        pid_t child = fork();
        if (child == 0) {
            struct rlimit most = {room + ((size_t)200 << 20), room + ((size_t)200 << 20)};
            hot_handle handle = HOT_HANDLE;
            hot_index *index = NULL;
            unsigned number;
            CHECK(setrlimit(RLIMIT_AS, &most) == 0 && hot_open_growing(NULL, SIZE_MAX, 1, &index) == HOT_DONE);
            CHECK(index != NULL && hot_open(index, &handle) == HOT_DONE);
            for (number = 0; number < 5000; number++) {
                key it = key_of(number);
                CHECK(hot_insert(&handle, it.bytes, it.length, number, NULL) == HOT_INSERTED);
            }
            close_all(&handle, index);
            _exit(failures);
        }
        CHECK(child > 0 && waitpid(child, &status, 0) == child && WIFEXITED(status) && WEXITSTATUS(status) == 0);
    }
}
#else
static void test_addresses(void) {
}
#endif

/* ---- Loads ---- */

/* Numbers to load; from `odd` on they don't rise, if that is not 0. */
typedef struct numbers {
    key now;
    unsigned next, end, odd;
} numbers;

static int next_number(void *context, const uint8_t **bytes, size_t *length, uint64_t *value) {
    numbers *all = context;
    if (all->next == all->end)
        return 0;
    all->now = key_of(all->odd && all->next == all->odd ? all->next - 1 : all->next);
    *bytes = all->now.bytes;
    *length = all->now.length;
    *value = 1 + all->next++;
    return 1;
}

/* A load of this many pairs, which has no more than `most` bytes: how many went in. */
static size_t load(unsigned end, unsigned odd, size_t most, hot_status status) {
    numbers all = {{{0}, 0}, 0, end, odd};
    hot_handle handle = HOT_HANDLE;
    hot_index *index = NULL;
    hot_counts counts;
    size_t loaded = 99, count = 99;
    unsigned number;
    uint64_t value = 0;
    CHECK(hot_load_growing(most, 2, next_number, &all, &index, &loaded) == status && loaded <= end && all.next == loaded + (status != HOT_DONE));
    CHECK(hot_open(index, &handle) == HOT_DONE && hot_len(&handle, &count) == HOT_DONE && count == loaded);
    for (number = 0; number < loaded; number++) {
        key it = key_of(number);
        CHECK(hot_get(&handle, it.bytes, it.length, &value) == HOT_FOUND && value == number + 1);
    }
    CHECK(hot_census(&handle, &counts) == HOT_DONE && counts.bytes <= most);
    CHECK(hot_upsert(&handle, bytes("last"), 4, 1, NULL) == HOT_NEW && (most == SIZE_MAX || committed(&handle) <= most));
    for (number = 0; number < 1000 && most == SIZE_MAX; number++) {
        key it = key_of(1000000 + number);
        CHECK(hot_insert(&handle, it.bytes, it.length, number, NULL) == HOT_INSERTED);
    }
    close_all(&handle, index);
    return loaded;
}

static int next_of_four(void *context, const uint8_t **bytes, size_t *length, uint64_t *value) {
    static const size_t lengths[4] = {8, 56, 88, HOT_MAX_KEY};
    static key now;
    unsigned *at = context;
    if (*at == 4)
        return 0;
    now = key_of(*at);
    *bytes = now.bytes;
    *length = lengths[*at];
    *value = (*at)++;
    return 1;
}

/* No load makes a table that is larger than it may be, however its keys differ in size. */
static void test_bounded_load(void) {
    size_t most, count, whole = 0;
    for (most = 8000; most < 40000; most += 40) {
        hot_handle handle = HOT_HANDLE;
        hot_index *index = NULL;
        hot_counts counts;
        unsigned at = 0;
        hot_status status = hot_load_growing(most, 1, next_of_four, &at, &index, &count);
        if (index == NULL) {
            CHECK(status == HOT_OUT_OF_RANGE && whole == 0);
            continue;
        }
        CHECK((status == HOT_DONE) == (count == 4) && (status == HOT_DONE || status == HOT_FULL_LEAVES));
        whole += count == 4;
        CHECK(hot_open(index, &handle) == HOT_DONE && hot_census(&handle, &counts) == HOT_DONE && counts.bytes <= most);
        close_all(&handle, index);
    }
    CHECK(whole > 0);
}

static void test_load(void) {
    hot_index *index = NULL;
    size_t count = 99, few = load(100000, 0, 100000, HOT_FULL_LEAVES);
    CHECK(few > 300 && few < 1000);
    CHECK(load(0, 0, SIZE_MAX, HOT_DONE) == 0 && load(1, 0, SIZE_MAX, HOT_DONE) == 1 && load(30000, 0, SIZE_MAX, HOT_DONE) == 30000);
    CHECK(load(2000, 1234, SIZE_MAX, HOT_NOT_RISING) == 1234);
    CHECK(hot_load_growing(100, 2, next_number, NULL, &index, &count) == HOT_OUT_OF_RANGE && index == NULL && count == 99);
}

/* ---- Many threads ---- */

/* What threads have in common: an index, and whether they are to end. */
static hot_index *shared;
static unsigned is_over;

static int is_done(void) {
    return (int)__atomic_load_n(&is_over, __ATOMIC_SEQ_CST);
}

static void share(hot_index *index) {
    shared = index;
    is_over = 0;
}

/* Puts keys in, so that records are committed, and takes them out again. */
static void *fill_all_along(void *given) {
    enum { MANY = 20000 };
    hot_handle handle = HOT_HANDLE;
    unsigned number, first = 1000000;
    (void)given;
    CHECK(hot_open(shared, &handle) == HOT_DONE);
    for (number = 0; !is_done(); number++) {
        key it = key_of(first + number % MANY);
        if (number / MANY % 2 == 0)
            CHECK(hot_insert(&handle, it.bytes, it.length, 1, NULL) == HOT_INSERTED);
        else
            CHECK(hot_remove(&handle, it.bytes, it.length, NULL) == HOT_REMOVED);
    }
    CHECK(hot_clear_range(&handle, key_of(first).bytes, 4, key_of(first + MANY).bytes, 4) == HOT_DONE && hot_close(&handle) == HOT_DONE);
    return NULL;
}

/* A thread whose keys no other changes. Each call must return what its model says. It opens its handle anew now and then. */
typedef struct member {
    model of;
    unsigned number, calls, added;
} member;

static void *make_calls(void *given) {
    member *me = given;
    hot_handle handle = HOT_HANDLE;
    uint64_t state = 88172645463325252u + me->number;
    unsigned turn;
    uint8_t sum[3] = {255, 's', 0};
    me->of.first = me->number * 1000;
    me->of.count = 24;
    CHECK(hot_open(shared, &handle) == HOT_DONE);
    for (turn = 0; turn < me->calls; turn++) {
        sum[2] = (uint8_t)(turn / 8 % 4);
        make_call(&handle, &me->of, &state);
        me->added += turn % 8 == 0;
        if (turn % 8 == 0)
            while (hot_add(&handle, sum, 3, 1, NULL) == HOT_ABSENT && hot_insert(&handle, sum, 3, 1, NULL) == HOT_EXISTS)
                ;
        if (turn % 64 == 63) {
            check_model(&handle, &me->of, 0);
            CHECK(hot_close(&handle) == HOT_DONE && hot_open(shared, &handle) == HOT_DONE);
        }
    }
    check_model(&handle, &me->of, 0);
    CHECK(hot_close(&handle) == HOT_DONE);
    return NULL;
}

static void test_members(unsigned count, unsigned calls) {
    static member members[64];
    pthread_t threads[64], filler;
    hot_handle handle = HOT_HANDLE;
    uint64_t sums = 0, value;
    size_t keys = 0, held = 4;
    unsigned at, key;
    share(open_small(count + 2, &handle));
    for (at = 0; at < count; at++) {
        memset(&members[at], 0, sizeof members[at]);
        members[at].number = at;
        members[at].calls = calls;
        CHECK(pthread_create(&threads[at], NULL, make_calls, &members[at]) == 0);
    }
    CHECK(pthread_create(&filler, NULL, fill_all_along, NULL) == 0);
    for (at = 0; at < count; at++)
        CHECK(pthread_join(threads[at], NULL) == 0);
    __atomic_store_n(&is_over, 1, __ATOMIC_SEQ_CST);
    CHECK(pthread_join(filler, NULL) == 0);
    for (at = 0; at < count; at++) {
        check_model(&handle, &members[at].of, 0);
        for (key = 0; key < members[at].of.count; key++)
            held += members[at].of.values[key] != 0;
        sums -= members[at].added;
    }
    for (at = 0; at < 4; at++) {
        uint8_t sum[3] = {255, 's', (uint8_t)at};
        CHECK(hot_get(&handle, sum, 3, &value) == HOT_FOUND);
        sums += value;
    }
    CHECK(sums == 0 && hot_len(&handle, &keys) == HOT_DONE && keys == held);
    close_all(&handle, shared);
}

/* Changes values again and again. */
static void *change_values(void *given) {
    hot_handle handle = HOT_HANDLE;
    unsigned count = *(unsigned *)given, turn;
    CHECK(hot_open(shared, &handle) == HOT_DONE);
    for (turn = 0; !is_done(); turn++) {
        key it = key_of(turn % count);
        CHECK(hot_upsert(&handle, it.bytes, it.length, turn, NULL) == HOT_WAS);
    }
    CHECK(hot_close(&handle) == HOT_DONE);
    return NULL;
}

/* Has this thread, and those that it makes, one processor alone; or those that it had. */
static void have_one_processor(cpu_set_t *had, int is_one) {
    cpu_set_t one;
    if (!is_one) {
        CHECK(sched_setaffinity(0, sizeof *had, had) == 0);
        return;
    }
    CHECK(sched_getaffinity(0, sizeof *had, had) == 0);
    CPU_ZERO(&one);
    CPU_SET((size_t)sched_getcpu(), &one);
    CHECK(sched_setaffinity(0, sizeof one, &one) == 0);
}

/* Insertions that need room aren't held up by changes whose threads wait for the one processor that there is. */
static void test_one_processor(unsigned count) {
    enum { THREADS = 3 };
    hot_handle handle = HOT_HANDLE;
    pthread_t threads[THREADS];
    cpu_set_t had;
    size_t before;
    unsigned at;
    have_one_processor(&had, 1);
    share(open_small(THREADS + 1, &handle));
    for (at = 0; at < count; at++) {
        key it = key_of(at);
        CHECK(hot_insert(&handle, it.bytes, it.length, 1, NULL) == HOT_INSERTED);
    }
    before = committed(&handle);
    for (at = 0; at < THREADS; at++)
        CHECK(pthread_create(&threads[at], NULL, change_values, &count) == 0);
    for (at = count; at < 2 * count; at++) {
        key it = key_of(at);
        CHECK(hot_insert(&handle, it.bytes, it.length, 1, NULL) == HOT_INSERTED);
    }
    __atomic_store_n(&is_over, 1, __ATOMIC_SEQ_CST);
    for (at = 0; at < THREADS; at++)
        CHECK(pthread_join(threads[at], NULL) == 0);
    CHECK(committed(&handle) > before);
    have_one_processor(&had, 0);
    close_all(&handle, shared);
}

/* Threads that share the last records that may be: each inserts until it is refused, and takes its keys out again. Removals that find
 * no node commit one beyond the bound, which others use then. */
enum { SHARES = 4 };

static void *fill_a_share(void *given) {
    unsigned number, turn, first = *(unsigned *)given * 100000;
    hot_handle handle = HOT_HANDLE;
    CHECK(hot_open(shared, &handle) == HOT_DONE);
    for (turn = 0; turn < 20; turn++) {
        hot_status status = HOT_INSERTED;
        for (number = 0; status == HOT_INSERTED; number += status == HOT_INSERTED) {
            key it = key_of(first + number);
            status = hot_insert(&handle, it.bytes, it.length, number, NULL);
        }
        CHECK(status == HOT_FULL_NODES || status == HOT_FULL_LEAVES);
        while (number-- > 0) {
            key it = key_of(first + number);
            CHECK(hot_remove(&handle, it.bytes, it.length, NULL) == HOT_REMOVED);
        }
    }
    CHECK(hot_close(&handle) == HOT_DONE);
    return NULL;
}

static void test_shares(void) {
    enum { MOST = 200000 };
    hot_handle handle = HOT_HANDLE;
    pthread_t threads[SHARES];
    unsigned numbers[SHARES], at;
    hot_index *index = NULL;
    CHECK(hot_open_growing(NULL, MOST, SHARES + 1, &index) == HOT_DONE && hot_open(index, &handle) == HOT_DONE);
    share(index);
    for (at = 0; at < SHARES; at++) {
        numbers[at] = at;
        CHECK(pthread_create(&threads[at], NULL, fill_a_share, &numbers[at]) == 0);
    }
    for (at = 0; at < SHARES; at++)
        CHECK(pthread_join(threads[at], NULL) == 0);
    CHECK(committed(&handle) > MOST / 10 * 9);
    close_all(&handle, index);
}

/* ---- Histories ---- */

/* A call with one key, when it was made, and what came of it. */
typedef struct event {
    uint64_t from, upto; /* it took effect in between */
    enum { GET, INSERT, UPSERT, REMOVE, EXCHANGE, ADD, REMOVE_IF } kind;
    hot_status status;
    uint64_t expected, value, had;
} event;

/* What a key has when an event has taken effect: writes it, or returns 0 if the event could not come out as it did. A value of 0 is none. */
static int can_be(const event *it, uint64_t state, uint64_t *after) {
    *after = state;
    switch (it->status) {
    case HOT_ABSENT: return state == 0;
    case HOT_FOUND:
    case HOT_EXISTS: return state != 0 && state == it->had;
    case HOT_DIFFERS: return state != 0 && state == it->had && state != it->expected;
    case HOT_INSERTED:
    case HOT_NEW: *after = it->value; return state == 0;
    case HOT_REMOVED: *after = 0; return state != 0 && state == (it->kind == REMOVE ? it->had : it->expected);
    case HOT_EXCHANGED: *after = it->value; return state != 0 && state == it->expected;
    case HOT_WAS: *after = it->kind == ADD ? it->had + it->value : it->value; return state != 0 && state == it->had;
    default: return 0;
    }
}

/* The search for an order (Wing and Gong 1993, with Lowe's memory of what was tried): the events that have taken effect, by their bits, and
 * the key's value then. */
enum { MOST_EVENTS = 64, TRIED = 1 << 14 };

typedef struct search {
    event events[MOST_EVENTS];
    unsigned count, used;
    struct {
        uint64_t done, state;
    } tried[TRIED];
} search;

/* Whether this was tried before; notes that it is. */
static int was_tried(search *of, uint64_t done, uint64_t state) {
    uint64_t hash = (done ^ state * 0x9E3779B97F4A7C15u) * 0xBF58476D1CE4E5B9u;
    size_t at = (size_t)(hash >> 40) % TRIED;
    while (of->tried[at].done != 0) {
        if (of->tried[at].done == done && of->tried[at].state == state)
            return 1;
        at = (at + 1) % TRIED;
    }
    if (++of->used > TRIED / 2) {
        fputs("grown.c: a history is too long to be judged\n", stderr);
        exit(1);
    }
    of->tried[at].done = done;
    of->tried[at].state = state;
    return 0;
}

static int has_order(search *of, uint64_t done, uint64_t state, uint64_t last) {
    uint64_t all = of->count == MOST_EVENTS ? UINT64_MAX : ((uint64_t)1 << of->count) - 1, first = UINT64_MAX, after;
    unsigned at;
    if (done == all)
        return last == state;
    if (done != 0 && was_tried(of, done, state))
        return 0;
    for (at = 0; at < of->count; at++)
        if (!(done >> at & 1) && of->events[at].upto < first)
            first = of->events[at].upto;
    for (at = 0; at < of->count; at++)
        if (!(done >> at & 1) && of->events[at].from <= first && can_be(&of->events[at], state, &after) &&
            has_order(of, done | (uint64_t)1 << at, after, last))
            return 1;
    return 0;
}

/* In a round each thread makes calls with few keys. A scan counts as a look-up of each key, at a moment of its own. */
enum { WRITERS = 4, FEW = 4, CALLS = 24, FILL = 60 };

typedef struct writer {
    hot_handle handle;
    uint64_t state;
    unsigned count[FEW];
    event events[FEW][CALLS * 2];
    unsigned number;
} writer;

static pthread_barrier_t begin, end;
static uint64_t values_made;

/* Nanoseconds of one clock of all threads, which may be so many off from another. */
enum { OFF = 100 };

static uint64_t clock_now(void) {
    struct timespec time;
    clock_gettime(CLOCK_MONOTONIC, &time);
    return (uint64_t)time.tv_sec * 1000000000u + (uint64_t)time.tv_nsec;
}

static key few_key(unsigned number) {
    return key_of(500000 + number);
}

/* Looks up all keys by one scan. */
static void scan_few(writer *me, event *seen) {
    hot_pair pairs[FEW];
    key from = few_key(0), upto = few_key(FEW - 1);
    size_t count = 0, at;
    uint32_t more;
    unsigned number;
    seen->from = clock_now() - OFF;
    if (me->number % 2)
        CHECK(hot_scan(&me->handle, from.bytes, from.length, upto.bytes, upto.length, pairs, FEW, &count, &more) == HOT_DONE);
    else
        CHECK(hot_scan_last(&me->handle, from.bytes, from.length, upto.bytes, upto.length, pairs, FEW, &count, &more) == HOT_DONE);
    seen->upto = clock_now() + OFF;
    seen->kind = GET;
    for (number = 0; number < FEW; number++) {
        event *to = &me->events[number][me->count[number]++];
        *to = *seen;
        to->status = HOT_ABSENT;
        for (at = 0; at < count; at++)
            if (pairs[at].key[3] == few_key(number).bytes[3]) {
                to->status = HOT_FOUND;
                to->had = pairs[at].value;
            }
    }
}

static void make_event(writer *me) {
    unsigned number = next(&me->state) % FEW, what = next(&me->state) % 16;
    key it = few_key(number);
    event *to = &me->events[number][me->count[number]];
    event made = {0, 0, GET, HOT_DONE, 0, 0, 0};
    uint64_t seen = 0;
    if (me->count[number] == CALLS * 2 || what == 15) {
        scan_few(me, &made);
        return;
    }
    made.kind = what < 5 ? GET : what < 7 ? UPSERT : what < 9 ? INSERT : what < 11 ? REMOVE : what < 13 ? ADD : what < 14 ? EXCHANGE : REMOVE_IF;
    made.value = made.kind == ADD ? 1000000000 : __atomic_add_fetch(&values_made, 1, __ATOMIC_RELAXED);
    if ((made.kind == EXCHANGE || made.kind == REMOVE_IF) && hot_get(&me->handle, it.bytes, it.length, &seen) == HOT_FOUND)
        made.expected = seen;
    made.from = clock_now() - OFF;
    switch (made.kind) {
    case GET: made.status = hot_get(&me->handle, it.bytes, it.length, &made.had); break;
    case INSERT: made.status = hot_insert(&me->handle, it.bytes, it.length, made.value, &made.had); break;
    case UPSERT: made.status = hot_upsert(&me->handle, it.bytes, it.length, made.value, &made.had); break;
    case REMOVE: made.status = hot_remove(&me->handle, it.bytes, it.length, &made.had); break;
    case EXCHANGE: made.status = hot_exchange(&me->handle, it.bytes, it.length, made.expected, made.value, &made.had); break;
    case ADD: made.status = hot_add(&me->handle, it.bytes, it.length, made.value, &made.had); break;
    case REMOVE_IF: made.status = hot_remove_if(&me->handle, it.bytes, it.length, made.expected, &made.had); break;
    }
    made.upto = clock_now() + OFF;
    *to = made;
    me->count[number]++;
}

static void *write_history(void *given) {
    writer *me = given;
    unsigned turn;
    for (;;) {
        pthread_barrier_wait(&begin);
        if (is_done())
            return NULL;
        for (turn = 0; turn < CALLS; turn++)
            make_event(me);
        pthread_barrier_wait(&end);
    }
}

/* Judges the history of a key in a round, and forgets it. */
static void judge(writer *writers, unsigned number, uint64_t before, uint64_t after) {
    static search of;
    unsigned at, place;
    of.count = of.used = 0;
    memset(of.tried, 0, sizeof of.tried);
    for (at = 0; at < WRITERS; at++) {
        for (place = 0; place < writers[at].count[number] && of.count < MOST_EVENTS; place++)
            of.events[of.count++] = writers[at].events[number][place];
        CHECK(place == writers[at].count[number]);
        writers[at].count[number] = 0;
    }
    if (has_order(&of, 0, before, after))
        return;
    CHECK(!"a history is linearizable");
    for (at = 0; at < of.count; at++)
        fprintf(stderr, "%lu to %lu: call %d, status %u, expected %lu, value %lu, had %lu\n", (unsigned long)of.events[at].from,
                (unsigned long)of.events[at].upto, (int)of.events[at].kind, of.events[at].status, (unsigned long)of.events[at].expected,
                (unsigned long)of.events[at].value, (unsigned long)of.events[at].had);
}

/* That the judge says what is right of histories made up by hand: a value is seen, and then the one before; or two calls overlap. */
static void test_judge(void) {
    static writer made[WRITERS];
    static search of;
    event first = {10, 20, UPSERT, HOT_NEW, 0, 5, 0}, second = {30, 60, UPSERT, HOT_WAS, 0, 6, 5}, sees = {35, 40, GET, HOT_FOUND, 0, 0, 6},
          later = {41, 50, GET, HOT_FOUND, 0, 0, 5};
    (void)made;
    of.count = 4;
    of.events[0] = first, of.events[1] = second, of.events[2] = sees, of.events[3] = later;
    CHECK(!has_order(&of, 0, 0, 6));
    memset(of.tried, 0, sizeof of.tried);
    of.events[3].from = 39;
    CHECK(has_order(&of, 0, 0, 6));
    memset(of.tried, 0, sizeof of.tried);
    CHECK(!has_order(&of, 0, 0, 5));
}

static void test_histories(unsigned rounds) {
    static writer writers[WRITERS];
    pthread_t threads[WRITERS], filler;
    hot_handle handle = HOT_HANDLE;
    uint64_t before[FEW] = {0}, after;
    unsigned at, round, number;
    share(open_small(WRITERS + 2, &handle));
    for (number = 0; number < FILL; number++) {
        key it = key_of(number);
        CHECK(hot_insert(&handle, it.bytes, it.length, 1, NULL) == HOT_INSERTED);
    }
    CHECK(pthread_barrier_init(&begin, NULL, WRITERS + 1) == 0 && pthread_barrier_init(&end, NULL, WRITERS + 1) == 0);
    for (at = 0; at < WRITERS; at++) {
        writers[at].state = 88172645463325252u + 7919 * at;
        writers[at].number = at;
        CHECK(hot_open(shared, &writers[at].handle) == HOT_DONE);
        CHECK(pthread_create(&threads[at], NULL, write_history, &writers[at]) == 0);
    }
    CHECK(pthread_create(&filler, NULL, fill_all_along, NULL) == 0);
    for (round = 0; round < rounds && !failures; round++) {
        pthread_barrier_wait(&begin);
        pthread_barrier_wait(&end);
        for (number = 0; number < FEW; number++) {
            key it = few_key(number);
            after = 0;
            hot_get(&handle, it.bytes, it.length, &after);
            judge(writers, number, before[number], after);
            before[number] = after;
        }
    }
    __atomic_store_n(&is_over, 1, __ATOMIC_SEQ_CST);
    pthread_barrier_wait(&begin);
    for (at = 0; at < WRITERS; at++)
        CHECK(pthread_join(threads[at], NULL) == 0 && hot_close(&writers[at].handle) == HOT_DONE);
    CHECK(pthread_join(filler, NULL) == 0);
    for (number = 0; number < FILL; number++) {
        key it = key_of(number);
        CHECK(hot_get(&handle, it.bytes, it.length, &after) == HOT_FOUND && after == 1);
    }
    close_all(&handle, shared);
}

int main(int count, char **words) {
    unsigned times = count > 1 ? (unsigned)atoi(words[1]) : 100;
    cpu_set_t had;
    test_growth();
    test_calls();
    test_bound();
    test_bounds(times < 5 ? 997 : 97);
    test_each_byte();
    test_stock();
    test_sections();
    test_fork();
    test_addresses();
    test_load();
    test_bounded_load();
    test_one_processor(times < 5 ? 2000 : 20000);
    test_shares();
    test_judge();
    test_histories(40 * times);
    test_members(4, 60 + 200 * times);
    have_one_processor(&had, 1);
    test_members(times < 5 ? 16 : 64, 60 + 4 * times); /* a sanitizer that watches sixty-four threads takes minutes */
    have_one_processor(&had, 0);
    puts(failures ? "the test of indexes that grow failed" : "passed: indexes that grow");
    return failures;
}

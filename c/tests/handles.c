/* Tests of indexes and handles: opened and closed in any order, what they have seen, how many keys there are, copies; and two threads on
 * one index, by calls that wait and by others, with what is told of those that were refused. */
#include "hot.h"
#include "check.h"
#include <pthread.h>
#include <string.h>

/* That a handle is closed; c/tests/closed.c tries each call with such handles. */
static void check_closed(hot_handle *handle) {
    uint16_t number = 7;
    CHECK(hot_number(handle, &number) == HOT_CLOSED && number == 7);
}

/* Making and closing: numbers out of range, handles that are open, any order of closing, and opening again. */
static void test_handles(void) {
    static const hot_stock stock = {10, 10, 0, 0, 0, 0};
    hot_handle handles[65];
    uint16_t number = 7;
    uint64_t value;
    memset(handles, 0, sizeof handles);
    check_closed(&handles[0]);
    CHECK(hot_create(10, 10, handles, 0) == HOT_OUT_OF_RANGE);
    CHECK(hot_create(10, 10, handles, 65) == HOT_OUT_OF_RANGE);
    /* The number of handles is looked at before the handles are: there are but 65. */
    CHECK(hot_create(10, 10, handles, (size_t)1 << 31) == HOT_OUT_OF_RANGE);
    CHECK(hot_create_with(&stock, handles, (size_t)1 << 31) == HOT_OUT_OF_RANGE);
    CHECK(hot_create(0, 10, handles, 2) == HOT_OUT_OF_RANGE);
    CHECK(hot_create(10, 262144, handles, 2) == HOT_OUT_OF_RANGE);
    check_closed(&handles[0]);
    CHECK(hot_create(10, 10, &handles[1], 1) == HOT_DONE);
    CHECK(hot_create(10, 10, handles, 3) == HOT_OPEN);
    CHECK(hot_destroy(&handles[1]) == HOT_DONE);
    CHECK(hot_create(10, 10, handles, 3) == HOT_DONE);
    CHECK(hot_number(&handles[2], &number) == HOT_DONE && number == 2);
    CHECK(hot_try_insert(&handles[0], bytes("a"), 1, 1, &value) == HOT_INSERTED);
    CHECK(hot_destroy(&handles[0]) == HOT_DONE);
    check_closed(&handles[0]);
    CHECK(hot_destroy(&handles[2]) == HOT_DONE);
    CHECK(hot_get(&handles[1], bytes("a"), 1, &value) == HOT_FOUND && value == 1);
    CHECK(hot_destroy(&handles[1]) == HOT_DONE);
    CHECK(hot_create(10, 10, handles, 64) == HOT_DONE);
    for (int i = 0; i < 64; i++)
        CHECK(hot_destroy(&handles[i]) == HOT_DONE);
}

/* An index whose handles are opened one by one: each has a number of its own, a closed one is given out again, and the index goes only
 * when none is open. */
static void test_index(void) {
    static const hot_stock stock = {10, 10, 0, 0, 0, 0}, none = {0, 10, 0, 0, 0, 0};
    hot_index *index = NULL;
    hot_handle handles[4] = {HOT_HANDLE, HOT_HANDLE, HOT_HANDLE, HOT_HANDLE}, alone = HOT_HANDLE;
    uint16_t number, seen = 0;
    uint64_t had = 7;
    int place;
    CHECK(hot_open_index(&none, 3, &index) == HOT_OUT_OF_RANGE && index == NULL);
    CHECK(hot_open_index(&stock, 0, &index) == HOT_OUT_OF_RANGE && hot_open_index(&stock, 1025, &index) == HOT_OUT_OF_RANGE);
    CHECK(hot_open_index(&stock, 3, &index) == HOT_DONE && index != NULL);
    for (place = 0; place < 3; place++) {
        CHECK(hot_open(index, &handles[place]) == HOT_DONE && hot_open(index, &handles[place]) == HOT_OPEN);
        CHECK(hot_number(&handles[place], &number) == HOT_DONE);
        seen |= (uint16_t)(1 << number);
    }
    CHECK(seen == 7);
    CHECK(hot_open(index, &handles[3]) == HOT_NO_HANDLE);
    check_closed(&handles[3]);
    CHECK(hot_insert(&handles[0], bytes("a"), 1, 1, NULL) == HOT_INSERTED);
    CHECK(hot_get(&handles[2], bytes("a"), 1, &had) == HOT_FOUND && had == 1);
    CHECK(hot_close_index(index) == HOT_OPEN);
    CHECK(hot_close(&handles[1]) == HOT_DONE && hot_close(&handles[1]) == HOT_CLOSED);
    check_closed(&handles[1]);
    CHECK(hot_close_index(index) == HOT_OPEN);
    CHECK(hot_open(index, &handles[3]) == HOT_DONE && hot_number(&handles[3], &number) == HOT_DONE);
    CHECK(hot_get(&handles[3], bytes("a"), 1, &had) == HOT_FOUND && hot_open(index, &handles[1]) == HOT_NO_HANDLE);
    CHECK(hot_close(&handles[0]) == HOT_DONE && hot_destroy(&handles[2]) == HOT_DONE);
    CHECK(hot_close_index(index) == HOT_OPEN);
    CHECK(hot_close(&handles[3]) == HOT_DONE && hot_close_index(index) == HOT_DONE);
    /* A handle that was opened with its index is closed for good. */
    CHECK(hot_create_with(&stock, &alone, 1) == HOT_DONE && hot_close(&alone) == HOT_DONE && hot_close(&alone) == HOT_CLOSED);
}

/* How many keys there are: by the counts of all handles, also of those that are closed, whichever call of which handle put a key in or
 * took it out. */
static void test_len(void) {
    static const hot_stock stock = {20, 40, 0, 0, 0, 0};
    hot_index *index;
    hot_handle handles[3] = {HOT_HANDLE, HOT_HANDLE, HOT_HANDLE};
    size_t count = 7;
    int round;
    CHECK(hot_len(&handles[0], &count) == HOT_CLOSED && count == 7);
    for (round = 0; round < 2; round++) {
        if (round == 0)
            CHECK(hot_create_with(&stock, handles, 3) == HOT_DONE);
        else
            CHECK(hot_open_index(&stock, 3, &index) == HOT_DONE && hot_open(index, &handles[0]) == HOT_DONE && hot_open(index, &handles[1]) == HOT_DONE);
        CHECK(hot_len(&handles[0], &count) == HOT_DONE && count == 0);
        CHECK(hot_insert(&handles[0], bytes("a"), 1, 1, NULL) == HOT_INSERTED && hot_insert(&handles[1], bytes("a"), 1, 2, NULL) == HOT_EXISTS);
        CHECK(hot_upsert(&handles[0], bytes("b"), 1, 1, NULL) == HOT_NEW && hot_try_upsert(&handles[1], bytes("b"), 1, 2, NULL) == HOT_WAS);
        CHECK(hot_try_insert(&handles[0], bytes("c"), 1, 1, NULL) == HOT_INSERTED && hot_exchange(&handles[1], bytes("c"), 1, 1, 2, NULL) == HOT_EXCHANGED);
        CHECK(hot_len(&handles[0], &count) == HOT_DONE && count == 3);
        CHECK(hot_remove_if(&handles[1], bytes("c"), 1, 1, NULL) == HOT_DIFFERS && hot_remove_if(&handles[1], bytes("c"), 1, 2, NULL) == HOT_REMOVED);
        CHECK(hot_try_remove(&handles[1], bytes("b"), 1, NULL) == HOT_REMOVED && hot_remove(&handles[0], bytes("b"), 1, NULL) == HOT_ABSENT);
        CHECK(hot_close(&handles[0]) == HOT_DONE && hot_len(&handles[1], &count) == HOT_DONE && count == 1);
        CHECK(hot_remove(&handles[1], bytes("a"), 1, NULL) == HOT_REMOVED && hot_len(&handles[1], &count) == HOT_DONE && count == 0);
        CHECK(hot_close(&handles[1]) == HOT_DONE && (round == 0 ? hot_close(&handles[2]) : hot_close_index(index)) == HOT_DONE);
    }
}

/* Handles that meet, and moments: of another index, of none, where no handle is left; copied, followed twice, and by several handles. What
 * takes a handle for them doesn't keep the index open. */
static void test_order(void) {
    static const hot_stock stock = {10, 10, 0, 0, 0, 0};
    hot_index *index = NULL, *other = NULL;
    hot_handle handles[3] = {HOT_HANDLE, HOT_HANDLE, HOT_HANDLE}, strange = HOT_HANDLE, alone = HOT_HANDLE;
    hot_moment moment = {NULL}, copy;
    uint64_t had = 7;
    CHECK(hot_open_index(&stock, 3, &index) == HOT_DONE && hot_open_index(&stock, 1, &other) == HOT_DONE);
    CHECK(hot_open(index, &handles[0]) == HOT_DONE && hot_open(index, &handles[1]) == HOT_DONE && hot_open(index, &handles[2]) == HOT_DONE);
    CHECK(hot_open(other, &strange) == HOT_DONE && hot_create_with(&stock, &alone, 1) == HOT_DONE);
    CHECK(hot_insert(&handles[0], bytes("a"), 1, 1, NULL) == HOT_INSERTED);
    CHECK(hot_meet(&handles[0], &handles[1]) == HOT_DONE && hot_meet(&handles[1], &handles[1]) == HOT_DONE);
    CHECK(hot_meet(&handles[0], &strange) == HOT_OTHER_INDEX && hot_meet(&strange, &handles[0]) == HOT_OTHER_INDEX);
    CHECK(hot_meet(&alone, &alone) == HOT_DONE && hot_meet(&handles[0], &alone) == HOT_OTHER_INDEX);
    CHECK(hot_follow(&handles[0], &moment) == HOT_OTHER_INDEX && hot_stamp(&alone, &moment) == HOT_NO_HANDLE);
    CHECK(hot_stamp(&handles[0], &moment) == HOT_NO_HANDLE && hot_stamp(&strange, &moment) == HOT_NO_HANDLE && moment.index == NULL);
    CHECK(hot_close(&handles[2]) == HOT_DONE && hot_stamp(&handles[0], &moment) == HOT_DONE && moment.index == index);
    CHECK(hot_open(index, &handles[2]) == HOT_NO_HANDLE && hot_meet(&handles[0], &handles[2]) == HOT_CLOSED);
    copy = moment;
    CHECK(hot_follow(&handles[1], &copy) == HOT_DONE && hot_follow(&handles[1], &copy) == HOT_DONE && hot_follow(&handles[0], &moment) == HOT_DONE);
    CHECK(hot_get(&handles[1], bytes("a"), 1, &had) == HOT_FOUND && had == 1);
    CHECK(hot_follow(&strange, &copy) == HOT_OTHER_INDEX && hot_follow(&alone, &copy) == HOT_OTHER_INDEX);
    CHECK(hot_close_index(index) == HOT_OPEN && hot_stamp(&handles[1], &moment) == HOT_DONE && hot_follow(&handles[0], &copy) == HOT_DONE);
    CHECK(hot_close(&handles[0]) == HOT_DONE && hot_close_index(index) == HOT_OPEN && hot_open(index, &handles[0]) == HOT_DONE);
    CHECK(hot_follow(&handles[0], &copy) == HOT_DONE && hot_close(&handles[0]) == HOT_DONE && hot_close(&handles[1]) == HOT_DONE);
    CHECK(hot_close_index(index) == HOT_DONE && hot_close(&strange) == HOT_DONE && hot_close_index(other) == HOT_DONE);
    CHECK(hot_destroy(&alone) == HOT_DONE);
}

/* A copy into another index, and an index that is cleared; more keys than are listed at a time. */
static void test_copy(void) {
    enum { MANY = 500 };
    hot_handle from = HOT_HANDLE, to = HOT_HANDLE, small = HOT_HANDLE;
    uint8_t key[2];
    size_t count = 7;
    uint64_t value = 0;
    uint32_t number;
    hot_pair pair;
    CHECK(hot_copy(&from, &to) == HOT_CLOSED && hot_clear(&from) == HOT_CLOSED && hot_len(&from, &count) == HOT_CLOSED && count == 7);
    CHECK(hot_create(200, 600, &from, 1) == HOT_DONE && hot_create(200, 600, &to, 1) == HOT_DONE && hot_create(10, 5, &small, 1) == HOT_DONE);
    CHECK(hot_copy(&from, &to) == HOT_DONE);
    for (number = 0; number < MANY; number++) {
        key[0] = (uint8_t)(number >> 8), key[1] = (uint8_t)number;
        CHECK(hot_insert(&from, key, 2, number, NULL) == HOT_INSERTED);
    }
    CHECK(hot_insert(&to, key, 2, 7, NULL) == HOT_INSERTED && hot_insert(&to, bytes("own"), 3, 8, NULL) == HOT_INSERTED);
    CHECK(hot_copy(&from, &to) == HOT_DONE);
    CHECK(hot_len(&from, &count) == HOT_DONE && count == MANY && hot_len(&to, &count) == HOT_DONE && count == MANY + 1);
    for (number = 0; number < MANY; number++) {
        key[0] = (uint8_t)(number >> 8), key[1] = (uint8_t)number;
        CHECK(hot_get(&to, key, 2, &value) == HOT_FOUND && value == number);
    }
    CHECK(hot_get(&to, bytes("own"), 3, &value) == HOT_FOUND && value == 8);
    CHECK(hot_copy(&from, &small) == HOT_FULL_LEAVES && hot_last(&small, HOT_TO_END, &pair) == HOT_FOUND && pair.value == 4);
    CHECK(hot_clear(&from) == HOT_DONE && hot_first(&from, key, 0, &pair) == HOT_ABSENT);
    CHECK(hot_len(&from, &count) == HOT_DONE && count == 0);
    CHECK(hot_clear(&from) == HOT_DONE && hot_get(&to, key, 2, &value) == HOT_FOUND);
    CHECK(hot_copy(&small, &to) == HOT_DONE && hot_destroy(&to) == HOT_DONE && hot_copy(&small, &to) == HOT_CLOSED);
    CHECK(hot_destroy(&from) == HOT_DONE && hot_destroy(&small) == HOT_DONE);
}

/* Pairs that are taken from the ends of a range, and a range that is cleared; more keys than are listed at a time. Other keys stay. */
static void test_range(void) {
    enum { MANY = 200 };
    static const uint8_t too_long[HOT_MAX_KEY + 1] = {0};
    const uint8_t from = 10, upto = MANY - 10, none = MANY + 1;
    hot_handle handle = HOT_HANDLE;
    hot_pair pair;
    size_t count = 0;
    uint8_t key;
    CHECK(hot_create(100, 300, &handle, 1) == HOT_DONE);
    CHECK(hot_clear_range(&handle, &from, 1, &upto, 1) == HOT_DONE && hot_pop_first(&handle, &from, 1, &upto, 1, &pair) == HOT_ABSENT);
    for (key = 0; key < MANY; key++)
        CHECK(hot_insert(&handle, &key, 1, key, NULL) == HOT_INSERTED);
    CHECK(hot_pop_first(&handle, &from, 1, &upto, 1, &pair) == HOT_REMOVED && pair.length == 1 && pair.key[0] == from && pair.value == from);
    CHECK(hot_pop_last(&handle, &from, 1, &upto, 1, &pair) == HOT_REMOVED && pair.length == 1 && pair.key[0] == upto && pair.value == upto);
    CHECK(hot_pop_first(&handle, &none, 1, HOT_TO_END, &pair) == HOT_ABSENT && hot_pop_last(&handle, &upto, 1, &from, 1, &pair) == HOT_ABSENT);
    CHECK(hot_pop_last(&handle, too_long, sizeof too_long, HOT_TO_END, &pair) == HOT_KEY_TOO_LONG && pair.value == upto);
    CHECK(hot_clear_range(&handle, &from, 1, too_long, sizeof too_long) == HOT_KEY_TOO_LONG);
    CHECK(hot_clear_range(&handle, &upto, 1, &from, 1) == HOT_DONE && hot_len(&handle, &count) == HOT_DONE && count == MANY - 2);
    CHECK(hot_clear_range(&handle, &from, 1, &upto, 1) == HOT_DONE && hot_len(&handle, &count) == HOT_DONE && count == 19);
    for (key = 0; key < from; key++)
        CHECK(hot_pop_first(&handle, hot_last_key, 0, HOT_TO_END, &pair) == HOT_REMOVED && pair.value == key);
    for (key = MANY - 1; key > upto; key--)
        CHECK(hot_pop_last(&handle, hot_last_key, 0, HOT_TO_END, &pair) == HOT_REMOVED && pair.value == key);
    CHECK(hot_pop_last(&handle, hot_last_key, 0, HOT_TO_END, &pair) == HOT_ABSENT && hot_destroy(&handle) == HOT_DONE);
}

/* Calls on a small stack, among them those that hand pairs to others. */
static void *call_all(void *given) {
    hot_handle *handles = given;
    static hot_pair pairs[64];
    uint8_t key[HOT_MAX_KEY];
    hot_counts counts;
    size_t count;
    uint32_t more, number;
    for (number = 0; number < 3000; number++) {
        memset(key, (int)(number * 7), sizeof key);
        memcpy(key + number % 200, &number, sizeof number);
        CHECK(hot_upsert(&handles[0], key, sizeof key, number, NULL) == HOT_NEW);
        CHECK(hot_add(&handles[0], key, sizeof key, 1, NULL) == HOT_WAS);
        if (number % 3 == 0)
            CHECK(hot_remove(&handles[0], key, sizeof key, NULL) == HOT_REMOVED);
    }
    CHECK(hot_scan(&handles[0], key, 0, HOT_TO_END, pairs, 64, &count, &more) == HOT_DONE && count == 64);
    CHECK(hot_scan_reverse(&handles[0], key, 0, HOT_TO_END, pairs, 64, &count, &more) == HOT_DONE && count == 64);
    CHECK(hot_scan_prefix(&handles[0], key, 0, NULL, 0, pairs, 64, &count, &more) == HOT_DONE && count == 64);
    CHECK(hot_copy(&handles[0], &handles[1]) == HOT_DONE && hot_clear(&handles[1]) == HOT_DONE);
    CHECK(hot_census(&handles[1], &counts) == HOT_DONE && counts.long_leaves.live == 0);
    return NULL;
}

/* With the stack that hot.h says, or the least that a thread may have. */
static void test_stack(void) {
    enum { STACK = 48 << 10 };
    size_t least = (size_t)sysconf(_SC_THREAD_STACK_MIN);
    hot_handle handles[2] = {HOT_HANDLE, HOT_HANDLE};
    pthread_attr_t small;
    pthread_t thread;
    CHECK(hot_create(3000, 3000, &handles[0], 1) == HOT_DONE && hot_create(3000, 3000, &handles[1], 1) == HOT_DONE);
    CHECK(pthread_attr_init(&small) == 0 && pthread_attr_setstacksize(&small, least < STACK ? STACK : least) == 0);
    CHECK(pthread_create(&thread, &small, call_all, handles) == 0 && pthread_join(thread, NULL) == 0);
    CHECK(pthread_attr_destroy(&small) == 0);
    CHECK(hot_destroy(&handles[0]) == HOT_DONE && hot_destroy(&handles[1]) == HOT_DONE);
}

/* An index that memory does not hold: no handle is opened. */
static void test_memory(void) {
    hot_handle handle = HOT_HANDLE;
    hot_stock stock;
    hot_index *index = NULL;
    struct rlimit all;
    if (!limit_addresses(64 << 20, &all))
        return;
    CHECK(hot_create(65535, 262143, &handle, 1) == HOT_NO_MEMORY);
    hot_stock_for_keys(1000000, 240, &stock);
    CHECK(hot_open_index(&stock, 1, &index) == HOT_NO_MEMORY && index == NULL);
    CHECK(setrlimit(RLIMIT_AS, &all) == 0);
    check_closed(&handle);
}

static int is_told(const hot_index *index, uint64_t busy, uint64_t held_back, uint64_t full) {
    hot_refusals told;
    hot_stats(index, &told);
    return told.busy == busy && told.held_back == held_back && told.full == full;
}

/* What is told of tries that were refused as full, also once their handle is closed: not that a key is too long. */
static void test_full(void) {
    static const hot_stock stock = {10, 5, 0, 0, 0, 0};
    static const uint8_t long_key[HOT_MAX_KEY + 1] = {0};
    hot_index *index = NULL;
    hot_handle handle = HOT_HANDLE;
    uint8_t name = 0;
    CHECK(hot_open_index(&stock, 1, &index) == HOT_DONE && is_told(index, 0, 0, 0));
    CHECK(hot_open(index, &handle) == HOT_DONE);
    while (hot_insert(&handle, &name, 1, 1, NULL) == HOT_INSERTED)
        name++;
    CHECK(name == 5 && is_told(index, 0, 0, 1));
    CHECK(hot_upsert(&handle, &name, 1, 1, NULL) == HOT_FULL_LEAVES && hot_try_insert(&handle, &name, 1, 1, NULL) == HOT_FULL_LEAVES);
    CHECK(is_told(index, 0, 0, 3));
    CHECK(hot_insert(&handle, long_key, 9, 1, NULL) == HOT_KEY_TOO_LONG && is_told(index, 0, 0, 3));
    CHECK(hot_insert(&handle, long_key, HOT_MAX_KEY + 1, 1, NULL) == HOT_KEY_TOO_LONG && is_told(index, 0, 0, 3));
    CHECK(hot_remove(&handle, &name, 1, NULL) == HOT_ABSENT && hot_add(&handle, &name, 1, 1, NULL) == HOT_ABSENT);
    name = 0;
    CHECK(hot_upsert(&handle, &name, 1, 2, NULL) == HOT_WAS && hot_exchange(&handle, &name, 1, 1, 2, NULL) == HOT_DIFFERS);
    CHECK(hot_remove(&handle, &name, 1, NULL) == HOT_REMOVED && is_told(index, 0, 0, 3));
    CHECK(hot_close(&handle) == HOT_DONE && hot_insert(&handle, &name, 1, 1, NULL) == HOT_CLOSED && is_told(index, 0, 0, 3));
    CHECK(hot_open(index, &handle) == HOT_DONE && is_told(index, 0, 0, 3));
    CHECK(hot_close(&handle) == HOT_DONE && hot_close_index(index) == HOT_DONE);
}

enum { KEYS = 300, ROUNDS = 40 };

/* The three changes of a key: those that wait, and those that do not. */
typedef struct changes {
    hot_status (*insert)(hot_handle *, const uint8_t *, size_t, uint64_t, uint64_t *);
    hot_status (*upsert)(hot_handle *, const uint8_t *, size_t, uint64_t, uint64_t *);
    hot_status (*remove)(hot_handle *, const uint8_t *, size_t, uint64_t *);
} changes;

static const changes waiting = {hot_insert, hot_upsert, hot_remove};
static const changes trying = {hot_try_insert, hot_try_upsert, hot_try_remove};

/* What a thread does in an index that it shares. */
typedef struct worker {
    const changes *call;
    hot_handle *handle;
    uint8_t name;
    long busy;
} worker;

/* Whether a call is to be made again: another stood in its way, or holds records back. */
static int again(worker *me, hot_status status) {
    me->busy += status == HOT_BUSY || status == HOT_HELD_BACK;
    return status == HOT_BUSY || status == HOT_HELD_BACK;
}

/* Puts keys of its own and one that all threads put, looks them up, and removes them. */
static void *work(void *given) {
    worker *me = given;
    uint64_t value;
    for (int round = 0; round < ROUNDS; round++) {
        for (int i = 0; i < KEYS; i++) {
            uint8_t key[3] = {(uint8_t)(i % 7), (uint8_t)i, me->name};
            uint64_t mine = (uint64_t)round * KEYS + i;
            hot_status status;
            do
                status = me->call->insert(me->handle, key, 3, mine, &value);
            while (again(me, status));
            CHECK(status == HOT_INSERTED);
            CHECK(hot_get(me->handle, key, 3, &value) == HOT_FOUND && value == mine);
            do
                status = me->call->upsert(me->handle, bytes("shared"), 6, me->name, &value);
            while (again(me, status));
            CHECK(status == HOT_NEW || status == HOT_WAS);
        }
        for (int i = 0; i < KEYS; i++) {
            uint8_t key[3] = {(uint8_t)(i % 7), (uint8_t)i, me->name};
            hot_status status;
            do
                status = me->call->remove(me->handle, key, 3, &value);
            while (again(me, status));
            CHECK(status == HOT_REMOVED && value == (uint64_t)round * KEYS + i);
        }
    }
    return NULL;
}

/* Two workers, at the same time. */
static void work_together(worker workers[2]) {
    pthread_t other;
    CHECK(pthread_create(&other, NULL, work, &workers[1]) == 0);
    work(&workers[0]);
    CHECK(pthread_join(other, NULL) == 0);
}

/* Two threads on one index. Rounds go on until a call met another's, which makes it busy, as is told; calls that wait never are. */
static void test_threads(void) {
    static const hot_stock stock = {2000, 0, 0, 0, 0, 3000};
    hot_handle handles[2] = {HOT_HANDLE, HOT_HANDLE};
    hot_index *index = NULL;
    hot_refusals before, told = {0, 0, 0};
    worker tries[2] = {{&trying, &handles[0], 1, 0}, {&trying, &handles[1], 2, 0}};
    worker waits[2] = {{&waiting, &handles[0], 1, 0}, {&waiting, &handles[1], 2, 0}};
    hot_pair pairs[2];
    size_t count;
    uint32_t more;
    CHECK(hot_open_index(&stock, 2, &index) == HOT_DONE);
    CHECK(hot_open(index, &handles[0]) == HOT_DONE && hot_open(index, &handles[1]) == HOT_DONE);
    for (int times = 0; times < 50 && !tries[0].busy && !tries[1].busy && !failures; times++) {
        work_together(waits);
        hot_stats(index, &before);
        work_together(tries);
        hot_stats(index, &told);
        CHECK(told.busy + told.held_back - before.busy - before.held_back == (uint64_t)(tries[0].busy + tries[1].busy));
    }
    CHECK(told.busy > 0 && told.full == 0);
    CHECK(tries[0].busy || tries[1].busy);
    CHECK(!waits[0].busy && !waits[1].busy);
    CHECK(hot_scan(&handles[0], bytes(""), 0, bytes("z"), 1, pairs, 2, &count, &more) == HOT_DONE);
    CHECK(count == 1 && more == 0 && (pairs[0].value == 1 || pairs[0].value == 2));
    CHECK(hot_close(&handles[0]) == HOT_DONE && hot_close(&handles[1]) == HOT_DONE);
    CHECK(hot_close_index(index) == HOT_DONE);
}

int main(void) {
    test_handles();
    test_index();
    test_len();
    test_order();
    test_copy();
    test_range();
    test_stack();
    test_memory();
    test_full();
    test_threads();
    puts(failures ? "c/tests/handles.c failed" : "passed: c/tests/handles.c");
    return failures;
}

/* Tests of cursors: up and down, where they turn and end, beside changes of the same thread and of others; and pairs that are handed over downwards and
 * by prefix. */
#include "hot.h"
#include "check.h"
#include <pthread.h>
#include <string.h>

/* Keys of all lengths in their order: each has its number, and other bytes behind it. */
enum { KEYS = 600 };

static size_t spell(size_t number, uint8_t *key) {
    memset(key, (int)number, HOT_MAX_KEY);
    key[0] = (uint8_t)(number >> 8), key[1] = (uint8_t)number;
    return number % 100 < 40 ? 2 + number % 7 : 2 + number * 37 % (HOT_MAX_KEY - 1);
}

/* An index of one handle with each `step`th of these keys. */
static void fill(hot_handle *handle, size_t step) {
    uint8_t key[HOT_MAX_KEY];
    size_t number;
    CHECK(hot_create(2 * KEYS, 2 * KEYS, handle, 1) == HOT_DONE);
    for (number = 0; number < KEYS; number += step)
        CHECK(hot_insert(handle, key, spell(number, key), number, NULL) == HOT_INSERTED);
}

typedef hot_status move(hot_cursor *cursor, const uint8_t **key, size_t *length, uint64_t *value);

/* Whether a cursor goes to the pair of this number. */
static int comes_to(move *go, hot_cursor *cursor, size_t number) {
    uint8_t expected[HOT_MAX_KEY];
    const uint8_t *key = NULL;
    size_t length = 999;
    uint64_t value = 999;
    return go(cursor, &key, &length, &value) == HOT_FOUND && value == number && length == spell(number, expected) && !memcmp(key, expected, length);
}

/* Whether a cursor finds no more pair, and writes nothing. */
static int ends(move *go, hot_cursor *cursor) {
    const uint8_t *key = NULL;
    size_t length = 999;
    uint64_t value = 999;
    return go(cursor, &key, &length, &value) == HOT_ABSENT && key == NULL && length == 999 && value == 999;
}

/* Where a cursor begins and ends: at a key that is there, between two, and before and behind all. */
static void test_ends(void) {
    static const uint8_t long_key[HOT_MAX_KEY + 1] = {0};
    hot_handle handle = HOT_HANDLE;
    hot_cursor cursor, other;
    uint8_t key[HOT_MAX_KEY];
    size_t length, number;
    memset(&cursor, 7, sizeof cursor);
    other = cursor;
    CHECK(hot_seek(&cursor, &handle, bytes(""), 0) == HOT_CLOSED && !memcmp(&cursor, &other, sizeof cursor));
    fill(&handle, 2);
    CHECK(hot_seek(&cursor, &handle, long_key, sizeof long_key) == HOT_KEY_TOO_LONG && !memcmp(&cursor, &other, sizeof cursor));
    for (number = 2; number < KEYS - 2; number++) {
        length = spell(number, key);
        CHECK(hot_seek(&cursor, &handle, key, length) == HOT_DONE && comes_to(hot_next, &cursor, (number + 1) / 2 * 2));
        CHECK(hot_seek(&cursor, &handle, key, length) == HOT_DONE && comes_to(hot_previous, &cursor, number / 2 * 2));
        CHECK(comes_to(hot_next, &cursor, number / 2 * 2 + 2) && comes_to(hot_previous, &cursor, number / 2 * 2));
    }
    CHECK(hot_seek(&cursor, &handle, bytes(""), 0) == HOT_DONE && ends(hot_previous, &cursor) && ends(hot_previous, &cursor));
    CHECK(comes_to(hot_next, &cursor, 0) && ends(hot_previous, &cursor) && comes_to(hot_next, &cursor, 2));
    CHECK(hot_seek(&cursor, &handle, HOT_TO_END) == HOT_DONE && ends(hot_next, &cursor) && comes_to(hot_previous, &cursor, KEYS - 2));
    CHECK(ends(hot_next, &cursor) && comes_to(hot_previous, &cursor, KEYS - 4) && comes_to(hot_next, &cursor, KEYS - 2));
    /* What comes later is found by a cursor that found no more. */
    CHECK(ends(hot_next, &cursor) && hot_insert(&handle, key, spell(KEYS - 1, key), KEYS - 1, NULL) == HOT_INSERTED);
    CHECK(comes_to(hot_next, &cursor, KEYS - 1) && ends(hot_next, &cursor));
    CHECK(hot_destroy(&handle) == HOT_DONE);
}

/* The empty key and the greatest one, alone and together; and an index without keys. */
static void test_least_and_greatest(void) {
    hot_handle handle = HOT_HANDLE;
    hot_cursor cursor;
    const uint8_t *key;
    size_t length;
    uint64_t value;
    CHECK(hot_create(10, 10, &handle, 1) == HOT_DONE && hot_seek(&cursor, &handle, HOT_TO_END) == HOT_DONE);
    CHECK(ends(hot_next, &cursor) && ends(hot_previous, &cursor));
    CHECK(hot_insert(&handle, HOT_TO_END, 5, NULL) == HOT_INSERTED && hot_insert(&handle, bytes(""), 0, 4, NULL) == HOT_INSERTED);
    CHECK(hot_next(&cursor, &key, &length, &value) == HOT_FOUND && length == HOT_MAX_KEY && value == 5 && !memcmp(key, hot_last_key, length));
    CHECK(ends(hot_next, &cursor) && hot_previous(&cursor, &key, &length, &value) == HOT_FOUND && length == 0 && value == 4);
    CHECK(ends(hot_previous, &cursor) && hot_next(&cursor, &key, &length, &value) == HOT_FOUND && length == HOT_MAX_KEY && value == 5);
    CHECK(hot_seek(&cursor, &handle, bytes(""), 0) == HOT_DONE && hot_previous(&cursor, &key, &length, &value) == HOT_FOUND && value == 4);
    CHECK(hot_destroy(&handle) == HOT_DONE);
}

static uint32_t next_random(uint64_t *state) {
    *state = *state * 6364136223846793005u + 1442695040888963407u;
    return (uint32_t)(*state >> 33);
}

/* All keys upwards and downwards, and then in runs of any length that turn anywhere; by a copy of the cursor, too. */
static void test_turns(void) {
    hot_handle handle = HOT_HANDLE;
    hot_cursor cursor, copy;
    uint64_t state = 1;
    size_t number, turn;
    fill(&handle, 1);
    CHECK(hot_seek(&cursor, &handle, bytes(""), 0) == HOT_DONE);
    for (number = 0; number < KEYS; number++)
        CHECK(comes_to(hot_next, &cursor, number));
    CHECK(ends(hot_next, &cursor));
    while (number-- > 1)
        CHECK(number == KEYS - 1 || comes_to(hot_previous, &cursor, number));
    CHECK(comes_to(hot_previous, &cursor, 0) && ends(hot_previous, &cursor));
    number = 0;
    for (turn = 0; turn < 3000; turn++) {
        size_t run = next_random(&state) % (turn % 10 ? 8 : 200);
        move *go = turn % 2 ? hot_previous : hot_next;
        for (; run > 0 && (turn % 2 ? number > 0 : number < KEYS - 1); run--) {
            number += turn % 2 ? (size_t)-1 : 1;
            copy = cursor;
            CHECK(comes_to(go, &cursor, number) && comes_to(go, &copy, number));
        }
    }
    CHECK(hot_destroy(&handle) == HOT_DONE);
}

/* Keys that are removed while a cursor is there, by the key that it gives: each comes once, and none is left. */
static void test_removing(move *go, const uint8_t *from, size_t from_length, size_t first, size_t step) {
    hot_handle handle = HOT_HANDLE;
    hot_cursor cursor;
    const uint8_t *key;
    size_t length, count = 0;
    uint64_t value;
    hot_status status;
    fill(&handle, 1);
    CHECK(hot_seek(&cursor, &handle, from, from_length) == HOT_DONE);
    for (; (status = go(&cursor, &key, &length, &value)) == HOT_FOUND; count++, first += step)
        CHECK(value == first && hot_remove(&handle, key, length, &value) == HOT_REMOVED && value == first);
    CHECK(status == HOT_ABSENT && count == KEYS && hot_len(&handle, &count) == HOT_DONE && count == 0);
    CHECK(hot_destroy(&handle) == HOT_DONE);
}

/* A cursor goes on behind a key that is gone, and sees what was put in once it has left its page. */
static void test_changes(void) {
    hot_handle handle = HOT_HANDLE;
    hot_cursor cursor;
    uint8_t key[HOT_MAX_KEY];
    size_t number;
    fill(&handle, 2);
    CHECK(hot_seek(&cursor, &handle, key, spell(200, key)) == HOT_DONE);
    for (number = 200; number < 300; number += 2)
        CHECK(comes_to(hot_next, &cursor, number));
    CHECK(hot_clear(&handle) == HOT_DONE && hot_insert(&handle, key, spell(599, key), 599, NULL) == HOT_INSERTED);
    CHECK(hot_insert(&handle, key, spell(1, key), 1, NULL) == HOT_INSERTED);
    for (; number < 300 + 2 * 64 && comes_to(hot_next, &cursor, number); number += 2)
        ;
    CHECK(number < 300 + 2 * 64 && ends(hot_next, &cursor));
    CHECK(hot_seek(&cursor, &handle, key, spell(number, key)) == HOT_DONE && comes_to(hot_previous, &cursor, 1) && comes_to(hot_next, &cursor, 599));
    CHECK(hot_destroy(&handle) == HOT_DONE);
}

/* A handle that is closed under a cursor, and opened again. */
static void test_closed(void) {
    static const hot_stock stock = {100, 0, 0, 0, 0, 100};
    hot_handle handle = HOT_HANDLE;
    hot_index *index;
    hot_cursor cursor;
    uint8_t key[HOT_MAX_KEY];
    const uint8_t *at = NULL;
    size_t number, length = 999;
    uint64_t value = 999;
    CHECK(hot_open_index(&stock, 1, &index) == HOT_DONE && hot_open(index, &handle) == HOT_DONE);
    for (number = 0; number < 50; number++)
        CHECK(hot_insert(&handle, key, spell(number, key), number, NULL) == HOT_INSERTED);
    CHECK(hot_seek(&cursor, &handle, bytes(""), 0) == HOT_DONE && comes_to(hot_next, &cursor, 0) && comes_to(hot_next, &cursor, 1));
    CHECK(hot_close(&handle) == HOT_DONE && hot_next(&cursor, &at, &length, &value) == HOT_CLOSED);
    CHECK(hot_previous(&cursor, &at, &length, &value) == HOT_CLOSED && at == NULL && length == 999 && value == 999);
    CHECK(hot_open(index, &handle) == HOT_DONE);
    for (number = 2; number < 50; number++)
        CHECK(comes_to(hot_next, &cursor, number));
    CHECK(hot_close(&handle) == HOT_DONE && hot_close_index(index) == HOT_DONE);
}

/* Threads: one puts keys of odd numbers in and takes them out, and others go over all keys by cursors, and turn at times. Each even number comes, in
 * order, and between two of them none but the odd one. */
enum { READERS = 3, ROUNDS = 600 };

typedef struct reader {
    hot_handle handle;
    size_t number;
} reader;

static uint32_t are_reading;

static void *read_all(void *given) {
    reader *me = given;
    hot_cursor cursor;
    const uint8_t *key;
    size_t round, length, at;
    uint64_t value;
    for (round = 0; round < ROUNDS; round++) {
        int falls = (round + me->number) % 2 == 1;
        move *go = falls ? hot_previous : hot_next;
        size_t last = falls ? KEYS : (size_t)-2;
        uint8_t expected[HOT_MAX_KEY];
        CHECK(hot_seek(&cursor, &me->handle, falls ? hot_last_key : bytes(""), falls ? HOT_MAX_KEY : 0) == HOT_DONE);
        while (go(&cursor, &key, &length, &value) == HOT_FOUND) {
            CHECK(length == spell((size_t)value, expected) && !memcmp(key, expected, length));
            at = (size_t)value;
            CHECK(falls ? at + 2 - at % 2 == last : at == last + 2 - at % 2);
            last = at % 2 ? last : at;
        }
        CHECK(last == (falls ? 0 : KEYS - 2));
    }
    __atomic_sub_fetch(&are_reading, 1, __ATOMIC_SEQ_CST);
    return NULL;
}

static void test_threads(void) {
    static const hot_stock stock = {2 * KEYS, 0, 0, 0, 0, 2 * KEYS};
    reader readers[READERS] = {{HOT_HANDLE, 0}, {HOT_HANDLE, 1}, {HOT_HANDLE, 2}};
    pthread_t threads[READERS];
    hot_handle handle = HOT_HANDLE;
    hot_index *index;
    uint8_t key[HOT_MAX_KEY];
    uint64_t state = 2;
    size_t number;
    CHECK(hot_open_index(&stock, READERS + 1, &index) == HOT_DONE && hot_open(index, &handle) == HOT_DONE);
    for (number = 0; number < KEYS; number += 2)
        CHECK(hot_insert(&handle, key, spell(number, key), number, NULL) == HOT_INSERTED);
    are_reading = READERS;
    for (number = 0; number < READERS; number++) {
        CHECK(hot_open(index, &readers[number].handle) == HOT_DONE);
        CHECK(pthread_create(&threads[number], NULL, read_all, &readers[number]) == 0);
    }
    while (__atomic_load_n(&are_reading, __ATOMIC_SEQ_CST) > 0) {
        number = next_random(&state) % (KEYS / 2) * 2 + 1;
        if (hot_insert(&handle, key, spell(number, key), number, NULL) == HOT_EXISTS)
            CHECK(hot_remove(&handle, key, spell(number, key), NULL) == HOT_REMOVED);
    }
    for (number = 0; number < READERS; number++)
        CHECK(pthread_join(threads[number], NULL) == 0 && hot_close(&readers[number].handle) == HOT_DONE);
    CHECK(hot_close(&handle) == HOT_DONE && hot_close_index(index) == HOT_DONE);
}

/* What pairs are handed to: numbers that go on by a step, up to the last; it removes them, if it has a handle. */
typedef struct visit {
    hot_handle *handle;
    size_t next, step, last, count;
} visit;

static int take(void *context, const hot_pair *pair) {
    visit *it = context;
    uint8_t key[HOT_MAX_KEY];
    CHECK(pair->value == it->next && pair->length == spell(it->next, key) && !memcmp(pair->key, key, pair->length));
    CHECK(it->handle == NULL || hot_remove(it->handle, pair->key, pair->length, NULL) == HOT_REMOVED);
    it->next += it->step;
    it->count++;
    return pair->value != it->last;
}

/* Pairs downwards and by prefix: all of them, some until the function says so, and none. */
static void test_each(void) {
    static const uint8_t long_key[HOT_MAX_KEY + 1] = {0};
    static const size_t down = (size_t)-1;
    hot_handle handle = HOT_HANDLE;
    visit all = {NULL, KEYS - 1, (size_t)-1, KEYS, 0}, part = {NULL, 300, (size_t)-1, KEYS, 0}, some = {NULL, 511, (size_t)-1, 400, 0};
    visit begin = {NULL, 256, 1, KEYS, 0}, end = {NULL, 511, (size_t)-1, KEYS, 0}, one = {NULL, 300, 1, KEYS, 0}, none = {NULL, 0, 1, KEYS, 0};
    visit gone = {&handle, 511, (size_t)-1, KEYS, 0}, rest = {&handle, 0, 1, KEYS, 0};
    uint8_t from[HOT_MAX_KEY], upto[HOT_MAX_KEY];
    size_t from_length = spell(201, from), upto_length = spell(300, upto), count;
    fill(&handle, 1);
    CHECK(hot_each_reverse(&handle, bytes(""), 0, HOT_TO_END, take, &all) == HOT_DONE && all.count == KEYS);
    CHECK(hot_each_reverse(&handle, from, from_length, upto, upto_length, take, &part) == HOT_DONE && part.count == 100);
    CHECK(hot_each_reverse(&handle, upto, upto_length, from, from_length, take, &none) == HOT_DONE && none.count == 0);
    CHECK(hot_each_prefix(&handle, upto, 1, take, &begin) == HOT_DONE && begin.count == 256 && begin.next == 512);
    CHECK(hot_each_prefix_reverse(&handle, upto, 1, take, &end) == HOT_DONE && end.count == 256 && end.next == 255);
    CHECK(hot_each_prefix_reverse(&handle, upto, 1, take, &some) == HOT_DONE && some.count == 112 && some.step == down);
    CHECK(hot_each_prefix(&handle, upto, upto_length, take, &one) == HOT_DONE && one.count == 1);
    CHECK(hot_each_prefix(&handle, hot_last_key, 2, take, &none) == HOT_DONE && hot_each_prefix_reverse(&handle, HOT_TO_END, take, &none) == HOT_DONE);
    CHECK(hot_each_prefix(&handle, long_key, sizeof long_key, take, &none) == HOT_KEY_TOO_LONG);
    CHECK(hot_each_prefix_reverse(&handle, long_key, sizeof long_key, take, &none) == HOT_KEY_TOO_LONG);
    CHECK(hot_each_reverse(&handle, bytes(""), 0, long_key, sizeof long_key, take, &none) == HOT_KEY_TOO_LONG && none.count == 0);
    CHECK(hot_each_prefix_reverse(&handle, upto, 1, take, &gone) == HOT_DONE && gone.count == 256);
    rest.last = 255;
    CHECK(hot_each_prefix(&handle, bytes(""), 0, take, &rest) == HOT_DONE && rest.count == 256 && rest.next == 256);
    CHECK(hot_len(&handle, &count) == HOT_DONE && count == KEYS - 512);
    CHECK(hot_insert(&handle, HOT_TO_END, KEYS, NULL) == HOT_INSERTED && hot_count_prefix(&handle, hot_last_key, 1, &count) == HOT_DONE && count == 1);
    CHECK(hot_destroy(&handle) == HOT_DONE);
}

int main(void) {
    test_ends();
    test_least_and_greatest();
    test_turns();
    test_removing(hot_next, bytes(""), 0, 0, 1);
    test_removing(hot_previous, HOT_TO_END, KEYS - 1, (size_t)-1);
    test_changes();
    test_closed();
    test_threads();
    test_each();
    puts(failures ? "c/tests/cursors.c failed" : "passed: c/tests/cursors.c");
    return failures;
}

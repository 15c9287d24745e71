/* Tests of the calls for one key and for many: what each returns and writes, keys of all lengths, texts, constants, waits. */
#define _POSIX_C_SOURCE 199309L
#include "hot.h"
#include "check.h"
#include <string.h>
#include <time.h>

/* One handle: what each call returns. */
static void test_calls(void) {
    hot_handle handle = HOT_HANDLE;
    uint64_t value = 7;
    CHECK(hot_create(100, 100, &handle, 1) == HOT_DONE);
    CHECK(hot_get(&handle, bytes("b"), 1, &value) == HOT_ABSENT && value == 7);
    CHECK(hot_try_insert(&handle, bytes("b"), 1, 20, &value) == HOT_INSERTED && value == 7);
    CHECK(hot_try_insert(&handle, bytes("b"), 1, 21, &value) == HOT_EXISTS && value == 20);
    CHECK(hot_try_upsert(&handle, bytes(""), 0, 10, &value) == HOT_NEW && value == 20);
    CHECK(hot_try_upsert(&handle, bytes("b"), 1, 22, &value) == HOT_WAS && value == 20);
    CHECK(hot_get(&handle, bytes("b"), 1, &value) == HOT_FOUND && value == 22);
    CHECK(hot_get(&handle, bytes(""), 0, &value) == HOT_FOUND && value == 10);
    CHECK(hot_try_remove(&handle, bytes("b"), 1, &value) == HOT_REMOVED && value == 22);
    CHECK(hot_try_remove(&handle, bytes("b"), 1, &value) == HOT_ABSENT && value == 22);
    CHECK(hot_insert(&handle, bytes("c"), 1, 30, &value) == HOT_INSERTED && value == 22);
    CHECK(hot_upsert(&handle, bytes("c"), 1, 31, &value) == HOT_WAS && value == 30);
    CHECK(hot_insert(&handle, bytes("c"), 1, 32, &value) == HOT_EXISTS && value == 31);
    CHECK(hot_remove(&handle, bytes("c"), 1, &value) == HOT_REMOVED && value == 31);
    CHECK(hot_remove(&handle, bytes("c"), 1, &value) == HOT_ABSENT);
    CHECK(hot_destroy(&handle) == HOT_DONE);
}

/* Keys looked up by one call: what each is told, also twice; and that nothing is written where it is refused. */
static void test_many(void) {
    static const uint8_t long_key[HOT_MAX_KEY + 1] = {0};
    hot_handle handle = HOT_HANDLE;
    hot_lookup looks[4] = {{bytes("b"), 1, 7, HOT_BUSY}, {bytes("a"), 1, 7, HOT_BUSY}, {bytes(""), 0, 7, HOT_BUSY}, {bytes("b"), 1, 7, HOT_BUSY}};
    uint64_t had;
    CHECK(hot_get_many(&handle, looks, 4) == HOT_CLOSED && looks[0].status == HOT_BUSY && looks[3].value == 7);
    CHECK(hot_create(100, 100, &handle, 1) == HOT_DONE);
    CHECK(hot_get_many(&handle, looks, 1) == HOT_DONE && looks[0].status == HOT_ABSENT && looks[0].value == 7);
    CHECK(hot_try_insert(&handle, bytes("b"), 1, 20, &had) == HOT_INSERTED);
    CHECK(hot_try_insert(&handle, bytes(""), 0, 0, &had) == HOT_INSERTED);
    CHECK(hot_get_many(&handle, looks, 0) == HOT_DONE && looks[0].status == HOT_ABSENT);
    CHECK(hot_get_many(&handle, looks, 4) == HOT_DONE);
    CHECK(looks[0].status == HOT_FOUND && looks[0].value == 20 && looks[3].status == HOT_FOUND && looks[3].value == 20);
    CHECK(looks[1].status == HOT_ABSENT && looks[1].value == 7 && looks[2].status == HOT_FOUND && looks[2].value == 0);
    CHECK(looks[1].length == 1 && looks[1].key[0] == 'a');
    CHECK(hot_try_remove(&handle, bytes("b"), 1, &had) == HOT_REMOVED);
    looks[3].key = long_key;
    looks[3].length = sizeof long_key;
    CHECK(hot_get_many(&handle, looks, 4) == HOT_KEY_TOO_LONG && looks[0].status == HOT_FOUND && looks[0].value == 20);
    CHECK(hot_get_many(&handle, looks, 3) == HOT_DONE && looks[0].status == HOT_ABSENT && looks[0].value == 20);
    CHECK(hot_destroy(&handle) == HOT_DONE);
}

/* Calls that expect a value: where the key has it, where it has another, which is told, and where it is absent. */
static void test_expected(void) {
    hot_handle handle = HOT_HANDLE;
    uint64_t value = 31;
    CHECK(hot_create(100, 100, &handle, 1) == HOT_DONE);
    CHECK(hot_try_exchange(&handle, bytes("d"), 1, 40, 41, &value) == HOT_ABSENT && value == 31);
    CHECK(hot_try_remove_if(&handle, bytes("d"), 1, 40, &value) == HOT_ABSENT && value == 31);
    CHECK(hot_insert(&handle, bytes("d"), 1, 40, &value) == HOT_INSERTED);
    CHECK(hot_try_exchange(&handle, bytes("d"), 1, 40, 41, &value) == HOT_EXCHANGED && value == 31);
    CHECK(hot_try_exchange(&handle, bytes("d"), 1, 40, 42, &value) == HOT_DIFFERS && value == 41);
    CHECK(hot_exchange(&handle, bytes("d"), 1, 41, 43, &value) == HOT_EXCHANGED && value == 41);
    CHECK(hot_try_remove_if(&handle, bytes("d"), 1, 41, &value) == HOT_DIFFERS && value == 43);
    CHECK(hot_remove_if(&handle, bytes("d"), 1, 40, &value) == HOT_DIFFERS && value == 43);
    CHECK(hot_remove_if(&handle, bytes("d"), 1, 43, &value) == HOT_REMOVED && value == 43);
    CHECK(hot_exchange(&handle, bytes("d"), 1, 43, 44, &value) == HOT_ABSENT && value == 43);
    CHECK(hot_remove_if(&handle, bytes("d"), 1, 43, &value) == HOT_ABSENT && value == 43);
    CHECK(hot_get(&handle, bytes("d"), 1, &value) == HOT_ABSENT);
    CHECK(hot_destroy(&handle) == HOT_DONE);
}

/* Each status has a text, and what is none has another. */
static void test_texts(void) {
    for (hot_status one = HOT_DONE; one <= HOT_NOT_RISING + 1; one++)
        for (hot_status other = HOT_DONE; other < one; other++)
            CHECK(strcmp(hot_status_text(one), hot_status_text(other)));
    CHECK(!strcmp(hot_status_text(UINT32_MAX), hot_status_text(HOT_FIXED + 1)));
}

/* Keys of the greatest length and beyond. */
static void test_long_keys(void) {
    hot_handle handle = HOT_HANDLE;
    uint8_t key[HOT_MAX_KEY + 1];
    hot_pair pair;
    uint64_t value = 7;
    size_t count = 9;
    uint32_t more = 9;
    memset(key, 0xff, sizeof key);
    CHECK(hot_create(10, 10, &handle, 1) == HOT_DONE);
    CHECK(hot_try_insert(&handle, key, HOT_MAX_KEY, 5, &value) == HOT_INSERTED);
    CHECK(hot_get(&handle, key, HOT_MAX_KEY, &value) == HOT_FOUND && value == 5);
    CHECK(hot_scan(&handle, key, 0, key, HOT_MAX_KEY, &pair, 1, &count, &more) == HOT_DONE);
    CHECK(count == 1 && pair.length == HOT_MAX_KEY && !memcmp(pair.key, key, HOT_MAX_KEY));
    CHECK(hot_get(&handle, key, sizeof key, &value) == HOT_KEY_TOO_LONG && value == 5);
    CHECK(hot_try_insert(&handle, key, sizeof key, 6, &value) == HOT_KEY_TOO_LONG);
    CHECK(hot_try_upsert(&handle, key, sizeof key, 6, &value) == HOT_KEY_TOO_LONG);
    CHECK(hot_try_remove(&handle, key, sizeof key, &value) == HOT_KEY_TOO_LONG);
    CHECK(hot_try_exchange(&handle, key, sizeof key, 5, 6, &value) == HOT_KEY_TOO_LONG);
    CHECK(hot_try_remove_if(&handle, key, sizeof key, 5, &value) == HOT_KEY_TOO_LONG && value == 5);
    CHECK(hot_insert(&handle, key, sizeof key, 6, &value) == HOT_KEY_TOO_LONG && hot_upsert(&handle, key, sizeof key, 6, &value) == HOT_KEY_TOO_LONG);
    CHECK(hot_remove(&handle, key, sizeof key, &value) == HOT_KEY_TOO_LONG && hot_try_add(&handle, key, sizeof key, 1, &value) == HOT_KEY_TOO_LONG);
    CHECK(hot_exchange(&handle, key, sizeof key, 5, 6, &value) == HOT_KEY_TOO_LONG);
    CHECK(hot_remove_if(&handle, key, sizeof key, 5, &value) == HOT_KEY_TOO_LONG && value == 5);
    CHECK(hot_scan(&handle, key, 0, key, sizeof key, &pair, 1, &count, &more) == HOT_KEY_TOO_LONG && count == 1);
    CHECK(hot_scan(&handle, key, sizeof key, key, 0, &pair, 1, &count, &more) == HOT_KEY_TOO_LONG && count == 1);
    CHECK(hot_scan_reverse(&handle, key, sizeof key, key, 0, &pair, 1, &count, &more) == HOT_KEY_TOO_LONG && count == 1);
    CHECK(hot_scan_last(&handle, key, sizeof key, key, 0, &pair, 1, &count, &more) == HOT_KEY_TOO_LONG && count == 1);
    CHECK(hot_scan_prefix(&handle, key, 0, key, sizeof key, &pair, 1, &count, &more) == HOT_KEY_TOO_LONG && count == 1);
    CHECK(hot_destroy(&handle) == HOT_DONE);
}

/* No value is wanted. */
static void test_unread(void) {
    hot_handle handle = HOT_HANDLE;
    const uint8_t *key = bytes("a");
    uint64_t value = 7;
    CHECK(hot_create(10, 10, &handle, 1) == HOT_DONE);
    CHECK(hot_try_insert(&handle, key, 1, 1, NULL) == HOT_INSERTED && hot_try_insert(&handle, key, 1, 2, NULL) == HOT_EXISTS);
    CHECK(hot_insert(&handle, key, 1, 2, NULL) == HOT_EXISTS && hot_upsert(&handle, key, 1, 3, NULL) == HOT_WAS);
    CHECK(hot_try_upsert(&handle, key, 1, 4, NULL) == HOT_WAS && hot_try_exchange(&handle, key, 1, 3, 5, NULL) == HOT_DIFFERS);
    CHECK(hot_exchange(&handle, key, 1, 4, 5, NULL) == HOT_EXCHANGED && hot_get(&handle, key, 1, &value) == HOT_FOUND && value == 5);
    CHECK(hot_try_remove_if(&handle, key, 1, 4, NULL) == HOT_DIFFERS && hot_remove_if(&handle, key, 1, 5, NULL) == HOT_REMOVED);
    CHECK(hot_try_remove(&handle, key, 1, NULL) == HOT_ABSENT && hot_remove(&handle, key, 1, NULL) == HOT_ABSENT);
    CHECK(hot_destroy(&handle) == HOT_DONE);
}

/* Adding to values: what each had, past the greatest number, and where the key is absent. */
static void test_add(void) {
    hot_handle handle = HOT_HANDLE;
    const uint8_t *key = bytes("a");
    static const uint8_t long_key[HOT_MAX_KEY + 1] = {0};
    uint64_t had = 7;
    CHECK(hot_add(&handle, key, 1, 1, &had) == HOT_CLOSED && hot_try_add(&handle, key, 1, 1, &had) == HOT_CLOSED && had == 7);
    CHECK(hot_create(10, 2, &handle, 1) == HOT_DONE);
    CHECK(hot_add(&handle, key, 1, 1, &had) == HOT_ABSENT && hot_try_add(&handle, key, 1, 1, NULL) == HOT_ABSENT && had == 7);
    CHECK(hot_insert(&handle, key, 1, 5, NULL) == HOT_INSERTED);
    CHECK(hot_add(&handle, key, 1, 3, &had) == HOT_WAS && had == 5);
    CHECK(hot_try_add(&handle, key, 1, UINT64_MAX, &had) == HOT_WAS && had == 8);
    CHECK(hot_add(&handle, key, 1, 0 - (uint64_t)8, NULL) == HOT_WAS && hot_get(&handle, key, 1, &had) == HOT_FOUND && had == UINT64_MAX);
    CHECK(hot_try_add(&handle, key, 1, 1, NULL) == HOT_WAS && hot_get(&handle, key, 1, &had) == HOT_FOUND && had == 0);
    CHECK(hot_add(&handle, long_key, sizeof long_key, 1, &had) == HOT_KEY_TOO_LONG);
    CHECK(hot_insert(&handle, bytes("b"), 1, 5, NULL) == HOT_INSERTED);
    /* The index is full, and a key that is there takes another value all the same. */
    CHECK(hot_add(&handle, key, 1, 1, &had) == HOT_WAS && had == 0 && hot_try_add(&handle, key, 1, 1, &had) == HOT_WAS && had == 1);
    CHECK(hot_destroy(&handle) == HOT_DONE);
}

/* Adding to a key that may be absent: it gets the number then, if there is room for it. */
static void test_add_or_insert(void) {
    hot_handle handle = HOT_HANDLE;
    const uint8_t *key = bytes("a");
    static const uint8_t long_key[HOT_MAX_KEY + 1] = {0};
    uint64_t had = 7;
    CHECK(hot_create(10, 2, &handle, 1) == HOT_DONE);
    CHECK(hot_add_or_insert(&handle, key, 1, 5, &had) == HOT_NEW && had == 7);
    CHECK(hot_add_or_insert(&handle, key, 1, UINT64_MAX, &had) == HOT_WAS && had == 5);
    CHECK(hot_add_or_insert(&handle, key, 0, 0, NULL) == HOT_NEW && hot_add_or_insert(&handle, key, 0, 1, NULL) == HOT_WAS);
    CHECK(hot_get(&handle, key, 1, &had) == HOT_FOUND && had == 4 && hot_get(&handle, key, 0, &had) == HOT_FOUND && had == 1);
    CHECK(hot_add_or_insert(&handle, long_key, sizeof long_key, 1, &had) == HOT_KEY_TOO_LONG && had == 1);
    CHECK(hot_add_or_insert(&handle, bytes("b"), 1, 1, &had) == HOT_FULL_LEAVES && had == 1 && hot_get(&handle, bytes("b"), 1, &had) == HOT_ABSENT);
    CHECK(hot_add_or_insert(&handle, key, 1, 3, &had) == HOT_WAS && had == 4);
    CHECK(hot_destroy(&handle) == HOT_DONE);
}

/* What changes a value: it doubles one of less than 100, and first changes or removes the key by a handle as often as it says. */
typedef struct changer {
    hot_handle *handle;
    int calls, changes, removals;
} changer;

static int make_twice(void *context, uint64_t *value) {
    changer *it = context;
    it->calls++;
    if (it->changes > 0 && it->changes-- > 0)
        CHECK(hot_add(it->handle, bytes("a"), 1, 1, NULL) == HOT_WAS);
    if (it->removals > 0 && it->removals-- > 0)
        CHECK(hot_remove(it->handle, bytes("a"), 1, NULL) == HOT_REMOVED);
    *value *= 2;
    return *value < 200;
}

/* A value that a function makes of the one before: it is asked again where the key has another by then. */
static void test_update(void) {
    hot_handle handle = HOT_HANDLE;
    static const uint8_t long_key[HOT_MAX_KEY + 1] = {0};
    changer it = {&handle, 0, 0, 0};
    uint64_t had = 7, value;
    CHECK(hot_create(10, 1, &handle, 1) == HOT_DONE);
    CHECK(hot_update(&handle, bytes("a"), 1, make_twice, &it, &had) == HOT_ABSENT && it.calls == 0 && had == 7);
    CHECK(hot_update(&handle, long_key, sizeof long_key, make_twice, &it, &had) == HOT_KEY_TOO_LONG && it.calls == 0 && had == 7);
    CHECK(hot_insert(&handle, bytes("a"), 1, 30, NULL) == HOT_INSERTED);
    CHECK(hot_update(&handle, bytes("a"), 1, make_twice, &it, &had) == HOT_WAS && it.calls == 1 && had == 30);
    it.changes = 3;
    CHECK(hot_update(&handle, bytes("a"), 1, make_twice, &it, &had) == HOT_WAS && it.calls == 5 && had == 63);
    CHECK(hot_get(&handle, bytes("a"), 1, &value) == HOT_FOUND && value == 126);
    CHECK(hot_update(&handle, bytes("a"), 1, make_twice, &it, &had) == HOT_EXISTS && it.calls == 6 && had == 126);
    CHECK(hot_update(&handle, bytes("a"), 1, make_twice, &it, NULL) == HOT_EXISTS && hot_get(&handle, bytes("a"), 1, &value) == HOT_FOUND);
    CHECK(value == 126 && hot_upsert(&handle, bytes("a"), 1, 1, NULL) == HOT_WAS);
    it.removals = 1;
    CHECK(hot_update(&handle, bytes("a"), 1, make_twice, &it, &had) == HOT_ABSENT && had == 126 && it.calls == 8);
    CHECK(hot_destroy(&handle) == HOT_DONE);
}

/* Look-ups of keys that lie one after another, more of them than are looked up at a time. */
static void test_get_packed(void) {
    enum { MANY = 150 };
    hot_handle handle = HOT_HANDLE;
    uint8_t keys[2 * MANY];
    size_t lengths[MANY];
    uint64_t values[MANY];
    hot_status statuses[MANY];
    size_t place;
    for (place = 0; place < MANY; place++)
        keys[2 * place] = 'k', keys[2 * place + 1] = (uint8_t)place, lengths[place] = 2, values[place] = 7, statuses[place] = HOT_BUSY;
    CHECK(hot_get_packed(&handle, keys, lengths, MANY, values, statuses) == HOT_CLOSED && statuses[0] == HOT_BUSY);
    CHECK(hot_create(100, 100, &handle, 1) == HOT_DONE);
    for (place = 0; place < MANY; place += 2)
        CHECK(hot_insert(&handle, keys + 2 * place, 2, 1000 + place, NULL) == HOT_INSERTED);
    lengths[MANY - 1] = HOT_MAX_KEY + 1;
    CHECK(hot_get_packed(&handle, keys, lengths, MANY, values, statuses) == HOT_KEY_TOO_LONG && statuses[0] == HOT_BUSY);
    lengths[MANY - 1] = 2;
    CHECK(hot_get_packed(&handle, keys, lengths, 0, values, statuses) == HOT_DONE && statuses[0] == HOT_BUSY);
    CHECK(hot_get_packed(&handle, keys, lengths, MANY, values, statuses) == HOT_DONE);
    for (place = 0; place < MANY; place++)
        CHECK(statuses[place] == (place % 2 ? HOT_ABSENT : HOT_FOUND) && values[place] == (place % 2 ? 7 : 1000 + place));
    CHECK(hot_destroy(&handle) == HOT_DONE);
}

/* The version, and the greatest key as the end of a range. */
static void test_constants(void) {
    hot_handle handle = HOT_HANDLE;
    hot_pair pair;
    size_t count, at;
    uint32_t more;
    CHECK(hot_version() == (HOT_VERSION_MAJOR << 16 | HOT_VERSION_MINOR << 8 | HOT_VERSION_PATCH));
    for (at = 0; at < HOT_MAX_KEY; at++)
        CHECK(hot_last_key[at] == 0xff);
    CHECK(hot_create(10, 10, &handle, 1) == HOT_DONE);
    CHECK(hot_insert(&handle, HOT_TO_END, 5, NULL) == HOT_INSERTED);
    CHECK(hot_scan(&handle, bytes(""), 0, HOT_TO_END, &pair, 1, &count, &more) == HOT_DONE && count == 1 && pair.value == 5 && !more);
    CHECK(hot_destroy(&handle) == HOT_DONE);
}

static double now(void) {
    struct timespec at;
    clock_gettime(CLOCK_MONOTONIC, &at);
    return (double)at.tv_sec * 1e6 + (double)at.tv_nsec / 1e3;
}

/* A loop of tries waits after a refusal that other calls end, and after no other status. It sleeps twice as long each time. */
static void test_waits(void) {
    enum { BEFORE_SLEEPS = 9 };
    hot_waits so_far = HOT_NO_WAITS, held = HOT_NO_WAITS;
    hot_status status;
    double began;
    int tries;
    for (status = 0; status <= HOT_NOT_RISING + 1; status++)
        CHECK(hot_wait(status, &so_far) == (status == HOT_BUSY || status == HOT_HELD_BACK));
    CHECK(so_far.tries == 1 && so_far.sleeps == 1);
    for (tries = 1; tries < BEFORE_SLEEPS; tries++)
        CHECK(hot_wait(HOT_BUSY, &so_far));
    CHECK(so_far.sleeps == 1);
    began = now();
    CHECK(hot_wait(HOT_BUSY, &so_far) && hot_wait(HOT_BUSY, &so_far));
    CHECK(now() - began >= 40 + 80 && so_far.sleeps == 3);
    began = now();
    CHECK(hot_wait(HOT_HELD_BACK, &held) && hot_wait(HOT_HELD_BACK, &held));
    CHECK(now() - began >= 50 + 100);
}

int main(void) {
    CHECK(sizeof(hot_handle) == 24 && sizeof(hot_pair) == 256 && sizeof(hot_stock) == 24 && sizeof(hot_head) == 16);
    CHECK(sizeof(hot_moment) == 8 && sizeof(hot_lookup) == 32 && sizeof(hot_states) == 16 && sizeof(hot_counts) == 104);
    CHECK(sizeof(hot_cursor) == 2976);
    test_calls();
    test_many();
    test_expected();
    test_texts();
    test_long_keys();
    test_unread();
    test_add();
    test_add_or_insert();
    test_update();
    test_get_packed();
    test_constants();
    test_waits();
    puts(failures ? "c/tests/keys.c failed" : "passed: c/tests/keys.c");
    return failures;
}

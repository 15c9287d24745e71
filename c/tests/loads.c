/* Tests of loads: what an index has that is made of sorted pairs, and what is refused. */
#include "hot.h"
#include "check.h"
#include <string.h>

/* Pairs to load: keys as text, the first of which is the empty key, with their places as values. */
typedef struct texts {
    const char *const *keys;
    size_t count, next;
} texts;

static int next_text(void *context, const uint8_t **key, size_t *length, uint64_t *value) {
    texts *all = context;
    if (all->next == all->count)
        return 0;
    *key = bytes(all->keys[all->next]);
    *length = strlen(all->keys[all->next]);
    *value = all->next++;
    return 1;
}

/* Numbers to load, from the first one on, as keys of eight bytes, the highest first. */
typedef struct numbers {
    uint8_t key[8];
    uint64_t next, end;
} numbers;

static const uint8_t *spell(uint64_t number, uint8_t *key) {
    int place;
    for (place = 0; place < 8; place++)
        key[place] = (uint8_t)(number >> (8 * (7 - place)));
    return key;
}

static int next_number(void *context, const uint8_t **key, size_t *length, uint64_t *value) {
    numbers *all = context;
    if (all->next == all->end)
        return 0;
    *key = spell(all->next, all->key);
    *length = 8;
    *value = 10 * all->next++;
    return 1;
}

static void close_all(hot_handle *handle, hot_index *index) {
    CHECK(hot_close(handle) == HOT_DONE && hot_close_index(index) == HOT_DONE);
}

static const hot_stock stock = {100, 10, 100, 0, 0, 0};

/* An index has what was loaded, in each of its handles, and goes on as any other. */
static void test_loaded(void) {
    static const char *const keys[5] = {"", "a", "a\1", "ab", "b with more bytes"};
    texts all = {keys, 5, 0};
    hot_handle handles[3] = {HOT_HANDLE, HOT_HANDLE, HOT_HANDLE};
    hot_index *index = NULL;
    hot_pair pairs[6];
    uint64_t value = 7;
    uint32_t more;
    size_t count = 99, place;
    CHECK(hot_load(&stock, 3, next_text, &all, &index, &count) == HOT_DONE && count == 5);
    for (place = 0; place < 3; place++) {
        CHECK(hot_open(index, &handles[place]) == HOT_DONE);
        CHECK(hot_len(&handles[place], &count) == HOT_DONE && count == 5);
        CHECK(hot_get(&handles[place], bytes("ab"), 2, &value) == HOT_FOUND && value == 3);
        CHECK(hot_scan(&handles[place], bytes(""), 0, HOT_TO_END, pairs, 6, &count, &more) == HOT_DONE && count == 5 && !more);
        CHECK(pairs[0].length == 0 && pairs[2].length == 2 && pairs[2].value == 2 && memcmp(pairs[4].key, keys[4], pairs[4].length) == 0);
    }
    CHECK(hot_insert(&handles[0], bytes("a"), 1, 9, &value) == HOT_EXISTS && value == 1);
    CHECK(hot_insert(&handles[1], bytes("aa"), 2, 9, NULL) == HOT_INSERTED);
    CHECK(hot_remove(&handles[2], bytes(""), 0, &value) == HOT_REMOVED && value == 0);
    CHECK(hot_len(&handles[0], &count) == HOT_DONE && count == 5);
    for (place = 0; place < 2; place++)
        CHECK(hot_close(&handles[place]) == HOT_DONE);
    close_all(&handles[2], index);
}

static int next_of_none(void *context, const uint8_t **key, size_t *length, uint64_t *value) {
    (void)key, (void)length, (void)value;
    CHECK(context == NULL);
    return 0;
}

static void test_none(void) {
    texts none = {NULL, 0, 0};
    hot_handle handle = HOT_HANDLE;
    hot_index *index = NULL;
    size_t count = 99;
    CHECK(hot_load(&stock, 1, next_text, &none, &index, &count) == HOT_DONE && count == 0);
    CHECK(hot_open(index, &handle) == HOT_DONE && hot_len(&handle, &count) == HOT_DONE && count == 0);
    CHECK(hot_insert(&handle, bytes("a"), 1, 9, NULL) == HOT_INSERTED);
    close_all(&handle, index);
    count = 99;
    CHECK(hot_load(&stock, 1, next_of_none, NULL, &index, &count) == HOT_DONE && count == 0 && hot_close_index(index) == HOT_DONE);
    count = 99;
    CHECK(hot_load_packed(&stock, 1, NULL, NULL, 0, &index, &count) == HOT_DONE && count == 0 && hot_close_index(index) == HOT_DONE);
}

/* A load of keys from a stock ends at a pair: with this status, and what came before is there. */
static void refuses(const hot_stock *of, const char *const *keys, size_t taken, hot_status why) {
    texts all = {keys, taken + 2, 0};
    hot_handle handle = HOT_HANDLE;
    hot_index *index = NULL;
    uint64_t value = 0;
    size_t count = 99, place;
    CHECK(hot_load(of, 2, next_text, &all, &index, &count) == why && count == taken && all.next == taken + 1);
    CHECK(hot_open(index, &handle) == HOT_DONE && hot_len(&handle, &count) == HOT_DONE && count == taken);
    for (place = 0; place < taken; place++)
        CHECK(hot_get(&handle, bytes(keys[place]), strlen(keys[place]), &value) == HOT_FOUND && value == place);
    close_all(&handle, index);
}

static void test_refused(void) {
    static const hot_stock few = {100, 3, 0, 0, 0, 0};
    static const char *const equal[4] = {"a", "b", "b", "c"}, *const lower[3] = {"ab", "a", "b"};
    static const char *const wide[3] = {"a", "a key of over 8 bytes", "b"}, *const many[5] = {"a", "b", "c", "d", "e"};
    static const char *const at_once[2] = {"a key of over 24 bytes, even", "b"};
    texts all = {many, 5, 0};
    hot_index *index = NULL;
    size_t count = 99;
    refuses(&stock, equal, 2, HOT_NOT_RISING);
    refuses(&stock, lower, 1, HOT_NOT_RISING);
    refuses(&few, wide, 1, HOT_KEY_TOO_LONG);
    refuses(&few, many, 3, HOT_FULL_LEAVES);
    refuses(&stock, at_once, 0, HOT_KEY_TOO_LONG);
    CHECK(hot_load(&stock, 0, next_text, &all, &index, &count) == HOT_OUT_OF_RANGE);
    CHECK(hot_load(&stock, 1025, next_text, &all, &index, &count) == HOT_OUT_OF_RANGE && index == NULL && count == 99 && all.next == 0);
}

/* A key of more bytes than there may be. */
static int next_long(void *context, const uint8_t **key, size_t *length, uint64_t *value) {
    static const uint8_t long_key[HOT_MAX_KEY + 1] = {0};
    size_t *taken = context;
    *key = long_key;
    *length = HOT_MAX_KEY + (*taken)++;
    *value = *taken;
    return 1;
}

static void test_long(void) {
    static const hot_stock roomy = {1, 0, 0, 0, 0, 3};
    hot_handle handle = HOT_HANDLE;
    hot_index *index = NULL;
    size_t asked = 0, count = 99;
    CHECK(hot_load(&roomy, 1, next_long, &asked, &index, &count) == HOT_KEY_TOO_LONG && count == 1 && asked == 2);
    CHECK(hot_open(index, &handle) == HOT_DONE);
    close_all(&handle, index);
}

/* Too few nodes: what went in is there, and can be taken out, with room for so many handles. One takes 32 pairs. */
static void test_few_nodes(size_t handles) {
    static const hot_stock few = {3, 1000, 0, 0, 0, 0}, one = {1, 1000, 0, 0, 0, 0};
    numbers all = {{0}, 0, 1000};
    hot_handle handle = HOT_HANDLE;
    hot_index *index = NULL;
    uint8_t key[8];
    uint64_t value, number;
    size_t count = 99, left;
    CHECK(hot_load(&few, handles, next_number, &all, &index, &count) == HOT_FULL_NODES && count >= 2 && count < 1000 && all.next == count + 1);
    CHECK(hot_open(index, &handle) == HOT_DONE);
    for (number = 0; number < count; number++)
        CHECK(hot_get(&handle, spell(number, key), 8, &value) == HOT_FOUND && value == 10 * number);
    for (number = 0; number < count; number++)
        CHECK(hot_remove(&handle, spell(number, key), 8, &value) == HOT_REMOVED && value == 10 * number);
    CHECK(hot_len(&handle, &left) == HOT_DONE && left == 0);
    close_all(&handle, index);
    all.next = 0;
    CHECK(hot_load(&one, handles, next_number, &all, &index, &count) == HOT_FULL_NODES && count == 32 && hot_close_index(index) == HOT_DONE);
}

/* Numbers to load, and the stock that the load was given, which each call overwrites. */
typedef struct over_stock {
    numbers all;
    hot_stock stock;
} over_stock;

static int next_over_stock(void *context, const uint8_t **key, size_t *length, uint64_t *value) {
    over_stock *it = context;
    memset(&it->stock, (int)it->all.next, sizeof it->stock);
    return next_number(&it->all, key, length, value);
}

/* A load has read its stock before it asks for pairs: also one whose table has pages of its own. */
static void test_stock_changed(void) {
    static const uint32_t room[2] = {100, 100000};
    static over_stock from;
    int place;
    for (place = 0; place < 2; place++) {
        hot_handle handle = HOT_HANDLE;
        hot_index *index = NULL;
        uint8_t key[8];
        uint64_t value = 0;
        size_t count = 99;
        from.all.next = 0;
        from.all.end = 50;
        hot_stock_for_keys(room[place], 8, &from.stock);
        CHECK(hot_load(&from.stock, 2, next_over_stock, &from, &index, &count) == HOT_DONE && count == 50);
        CHECK(hot_open(index, &handle) == HOT_DONE && hot_get(&handle, spell(49, key), 8, &value) == HOT_FOUND && value == 490);
        close_all(&handle, index);
    }
}

/* What scans write packed goes into another index as it is. Where it is cut, the load is. */
static void test_packed(void) {
    enum { MANY = 3000, ROOM = 8 * MANY };
    static uint8_t keys[ROOM], again[ROOM];
    static hot_head heads[MANY], others[MANY];
    numbers all = {{0}, 0, MANY};
    hot_stock all_stock;
    hot_handle handle = HOT_HANDLE;
    hot_index *index = NULL;
    size_t count = 99, place;
    uint32_t more;
    hot_stock_for_keys(MANY, 8, &all_stock);
    CHECK(hot_load(&all_stock, 1, next_number, &all, &index, &count) == HOT_DONE && count == MANY && hot_open(index, &handle) == HOT_DONE);
    CHECK(hot_scan_packed(&handle, keys, 0, HOT_TO_END, keys, ROOM, heads, MANY, &count, &more) == HOT_DONE && count == MANY);
    close_all(&handle, index);
    CHECK(hot_load_packed(&all_stock, 1, keys, heads, MANY, &index, &count) == HOT_DONE && count == MANY);
    CHECK(hot_open(index, &handle) == HOT_DONE);
    CHECK(hot_scan_packed(&handle, again, 0, HOT_TO_END, again, ROOM, others, MANY, &count, &more) == HOT_DONE && count == MANY);
    CHECK(memcmp(keys, again, ROOM) == 0);
    for (place = 0; place < MANY; place++)
        CHECK(others[place].length == 8 && others[place].value == 10 * place);
    close_all(&handle, index);
    memcpy(keys + 8 * 20, keys + 8 * 19, 8);
    CHECK(hot_load_packed(&all_stock, 1, keys, heads, MANY, &index, &count) == HOT_NOT_RISING && count == 20);
    CHECK(hot_close_index(index) == HOT_DONE);
}

/* Copies the pairs of another index, one by one, and makes a further index meanwhile. */
typedef struct copying {
    hot_handle handle;
    hot_pair pair;
    uint8_t from[HOT_MAX_KEY];
    size_t length;
    int has_ended;
} copying;

static int next_copied(void *context, const uint8_t **key, size_t *length, uint64_t *value) {
    copying *all = context;
    texts none = {NULL, 0, 0};
    hot_index *index;
    size_t count;
    CHECK(hot_load(&stock, 1, next_text, &none, &index, &count) == HOT_DONE && hot_close_index(index) == HOT_DONE);
    if (all->has_ended || hot_first(&all->handle, all->from, all->length, &all->pair) != HOT_FOUND)
        return 0;
    *key = all->pair.key;
    *length = all->pair.length;
    *value = all->pair.value;
    all->has_ended = hot_after(*key, *length, all->from, &all->length) == HOT_ABSENT;
    return 1;
}

static void test_nested(void) {
    enum { MANY = 50 };
    static copying from;
    numbers all = {{0}, 0, MANY};
    hot_stock large;
    hot_handle handle = HOT_HANDLE;
    hot_index *index, *copy;
    uint8_t key[8];
    uint64_t value = 0;
    size_t count;
    hot_stock_for_keys(100000, 8, &large);
    large.long_leaves = 1;
    CHECK(hot_load(&large, 1, next_number, &all, &index, &count) == HOT_DONE && hot_open(index, &from.handle) == HOT_DONE);
    CHECK(hot_insert(&from.handle, HOT_TO_END, 7, NULL) == HOT_INSERTED);
    CHECK(hot_load(&large, 1, next_copied, &from, &copy, &count) == HOT_DONE && count == MANY + 1 && hot_open(copy, &handle) == HOT_DONE);
    CHECK(hot_get(&handle, HOT_TO_END, &value) == HOT_FOUND && value == 7);
    CHECK(hot_get(&handle, spell(MANY - 1, key), 8, &value) == HOT_FOUND && value == 10 * (MANY - 1));
    close_all(&from.handle, index);
    close_all(&handle, copy);
}

int main(void) {
    test_loaded();
    test_none();
    test_refused();
    test_long();
    test_few_nodes(1);
    test_few_nodes(2);
    test_stock_changed();
    test_packed();
    test_nested();
    puts(failures ? "c/tests/loads.c failed" : "passed: c/tests/loads.c");
    return failures;
}

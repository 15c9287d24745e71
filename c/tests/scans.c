/* Tests of scans: upwards and downwards, of a prefix, packed, handed over pair by pair, and the keys around one. */
#include "hot.h"
#include "check.h"
#include <string.h>

/* Scans of a prefix, page by page, and the first pair from a key on. */
static void test_prefix(void) {
    hot_handle handle = HOT_HANDLE;
    hot_pair pairs[2], pair;
    uint8_t key[HOT_MAX_KEY + 1];
    uint64_t had;
    size_t count = 9;
    uint32_t more = 9;
    memset(key, 0xff, sizeof key);
    CHECK(hot_create(100, 100, &handle, 1) == HOT_DONE);
    CHECK(hot_first(&handle, bytes(""), 0, &pair) == HOT_ABSENT);
    CHECK(hot_try_insert(&handle, bytes("a"), 1, 1, &had) == HOT_INSERTED);
    CHECK(hot_try_insert(&handle, bytes("ab"), 2, 2, &had) == HOT_INSERTED);
    CHECK(hot_try_insert(&handle, bytes("a\377\377"), 3, 3, &had) == HOT_INSERTED);
    CHECK(hot_try_insert(&handle, bytes("b"), 1, 4, &had) == HOT_INSERTED);
    CHECK(hot_scan_prefix(&handle, bytes("a"), 1, NULL, 0, pairs, 2, &count, &more) == HOT_DONE);
    CHECK(count == 2 && more == 1 && pairs[0].value == 1 && pairs[1].value == 2);
    CHECK(hot_scan_prefix(&handle, bytes("a"), 1, pairs[1].key, pairs[1].length, pairs, 2, &count, &more) == HOT_DONE);
    CHECK(count == 1 && more == 0 && pairs[0].value == 3);
    CHECK(hot_scan_prefix(&handle, bytes("a"), 1, pairs[0].key, pairs[0].length, pairs, 2, &count, &more) == HOT_DONE && count == 0 && more == 0);
    CHECK(hot_scan_prefix(&handle, bytes(""), 0, pairs[0].key, pairs[0].length, pairs, 2, &count, &more) == HOT_DONE && count == 1 && pairs[0].value == 4);
    CHECK(hot_first(&handle, bytes(""), 0, &pair) == HOT_FOUND && pair.value == 1);
    CHECK(hot_scan_prefix(&handle, bytes("b"), 1, pair.key, pair.length, pairs, 2, &count, &more) == HOT_DONE && count == 1 && pairs[0].value == 4);
    CHECK(hot_scan_prefix(&handle, bytes("a"), 1, bytes("b"), 1, pairs, 2, &count, &more) == HOT_DONE && count == 0 && more == 0);
    CHECK(hot_first(&handle, bytes("ac"), 2, &pair) == HOT_FOUND && pair.length == 3 && pair.value == 3);
    CHECK(hot_first(&handle, bytes("c"), 1, &pair) == HOT_ABSENT && pair.value == 3);
    CHECK(hot_try_insert(&handle, key, HOT_MAX_KEY, 5, &had) == HOT_INSERTED);
    CHECK(hot_first(&handle, key, HOT_MAX_KEY, &pair) == HOT_FOUND && pair.value == 5);
    CHECK(hot_scan_prefix(&handle, bytes(""), 0, pair.key, pair.length, pairs, 2, &count, &more) == HOT_DONE && count == 0 && more == 0);
    count = 9;
    CHECK(hot_scan_prefix(&handle, key, sizeof key, NULL, 0, pairs, 2, &count, &more) == HOT_KEY_TOO_LONG && count == 9);
    CHECK(hot_first(&handle, key, sizeof key, &pair) == HOT_KEY_TOO_LONG);
    CHECK(hot_destroy(&handle) == HOT_DONE);
    CHECK(hot_scan_prefix(&handle, bytes("a"), 1, NULL, 0, pairs, 2, &count, &more) == HOT_CLOSED && count == 9);
    CHECK(hot_first(&handle, bytes("a"), 1, &pair) == HOT_CLOSED);
}

/* How many keys begin with a prefix: one that is a key, one that ends in the greatest byte, all keys, a key of the greatest length, none. */
static void test_count_prefix(void) {
    static const struct {
        const char *prefix;
        size_t count;
    } rows[] = {{"", 6}, {"a", 3}, {"ab", 1}, {"a\377", 1}, {"a\377\377", 1}, {"\377", 1}, {"ac", 0}, {"c", 0}};
    static const char *const keys[] = {"", "a", "ab", "a\377\377", "b"};
    hot_handle handle = HOT_HANDLE;
    uint8_t greatest[HOT_MAX_KEY + 1];
    size_t row, count = 9;
    memset(greatest, 0xff, sizeof greatest);
    CHECK(hot_create(100, 100, &handle, 1) == HOT_DONE && hot_insert(&handle, greatest, HOT_MAX_KEY, 5, NULL) == HOT_INSERTED);
    for (row = 0; row < sizeof keys / sizeof keys[0]; row++)
        CHECK(hot_insert(&handle, bytes(keys[row]), strlen(keys[row]), row, NULL) == HOT_INSERTED);
    for (row = 0; row < sizeof rows / sizeof rows[0]; row++)
        CHECK(hot_count_prefix(&handle, bytes(rows[row].prefix), strlen(rows[row].prefix), &count) == HOT_DONE && count == rows[row].count);
    CHECK(hot_count_prefix(&handle, greatest, HOT_MAX_KEY, &count) == HOT_DONE && count == 1);
    CHECK(hot_count_prefix(&handle, greatest, sizeof greatest, &count) == HOT_KEY_TOO_LONG && count == 1);
    CHECK(hot_destroy(&handle) == HOT_DONE);
    CHECK(hot_count_prefix(&handle, greatest, sizeof greatest, &count) == HOT_CLOSED && count == 1);
}

/* The same downwards. In each row a scan of a prefix ends before a key, or at the last one, and lists these values; then there may be more. */
static void test_prefix_reverse(void) {
    static const struct {
        const char *prefix, *before;
        size_t count;
        uint64_t values[2];
        uint32_t more;
    } rows[] = {
        {"a", NULL, 2, {3, 2}, 1}, {"a", "a\377\377", 2, {2, 1}, 0}, {"a", "ab", 1, {1, 0}, 0},  {"a", "a", 0, {0, 0}, 0},
        {"a", "", 0, {0, 0}, 0},   {"a", "0", 0, {0, 0}, 0},         {"a", "c", 2, {3, 2}, 1},   {"", NULL, 2, {5, 4}, 1},
        {"", "b", 2, {3, 2}, 1},   {"ab", NULL, 1, {2, 0}, 0},       {"ac", NULL, 0, {0, 0}, 0}, {"\377", NULL, 1, {5, 0}, 0},
    };
    static const char *const keys[] = {"a", "ab", "a\377\377", "b"};
    hot_handle handle = HOT_HANDLE;
    hot_pair pairs[2];
    uint8_t greatest[HOT_MAX_KEY + 1];
    size_t row, count = 9;
    uint32_t more = 9;
    memset(greatest, 0xff, sizeof greatest);
    CHECK(hot_create(100, 100, &handle, 1) == HOT_DONE && hot_insert(&handle, greatest, HOT_MAX_KEY, 5, NULL) == HOT_INSERTED);
    for (row = 0; row < 4; row++)
        CHECK(hot_insert(&handle, bytes(keys[row]), strlen(keys[row]), row + 1, NULL) == HOT_INSERTED);
    for (row = 0; row < sizeof rows / sizeof rows[0]; row++) {
        const char *before = rows[row].before;
        CHECK(hot_scan_prefix_reverse(&handle, bytes(rows[row].prefix), strlen(rows[row].prefix), before ? bytes(before) : NULL,
                                      before ? strlen(before) : 0, pairs, 2, &count, &more) == HOT_DONE);
        CHECK(count == rows[row].count && more == rows[row].more);
        CHECK((count < 1 || pairs[0].value == rows[row].values[0]) && (count < 2 || pairs[1].value == rows[row].values[1]));
    }
    count = 9;
    CHECK(hot_scan_prefix_reverse(&handle, greatest, sizeof greatest, NULL, 0, pairs, 2, &count, &more) == HOT_KEY_TOO_LONG && count == 9);
    CHECK(hot_scan_prefix_reverse(&handle, greatest, 1, greatest, sizeof greatest, pairs, 2, &count, &more) == HOT_KEY_TOO_LONG && count == 9);
    CHECK(hot_destroy(&handle) == HOT_DONE);
}

/* Scans: the order of keys, the limit, and the places that are left as they were. */
static void test_scan(void) {
    hot_handle handle = HOT_HANDLE;
    hot_pair pairs[3];
    uint64_t values[3] = {9, 9, 9};
    uint8_t key[HOT_MAX_KEY + 1] = {0};
    uint64_t had;
    size_t count = 9;
    uint32_t more = 9;
    CHECK(hot_create(100, 100, &handle, 1) == HOT_DONE);
    CHECK(hot_try_insert(&handle, bytes("b"), 1, 2, &had) == HOT_INSERTED);
    CHECK(hot_try_insert(&handle, bytes("aa"), 2, 1, &had) == HOT_INSERTED);
    CHECK(hot_try_insert(&handle, bytes("c"), 1, 3, &had) == HOT_INSERTED);
    memset(pairs, 0xee, sizeof pairs);
    CHECK(hot_scan(&handle, bytes("a"), 1, bytes("z"), 1, pairs, 2, &count, &more) == HOT_DONE);
    CHECK(count == 2 && more == 1);
    CHECK(pairs[0].length == 2 && !memcmp(pairs[0].key, "aa", 2) && pairs[0].value == 1);
    CHECK(pairs[1].length == 1 && pairs[1].key[0] == 'b' && pairs[1].value == 2);
    CHECK(pairs[2].length == 0xeeeeeeee && pairs[2].value == 0xeeeeeeeeeeeeeeee);
    CHECK(hot_scan(&handle, bytes("b"), 1, bytes("c"), 1, pairs, 3, &count, &more) == HOT_DONE);
    CHECK(count == 2 && more == 0 && pairs[1].value == 3);
    CHECK(hot_scan(&handle, bytes("x"), 1, bytes("z"), 1, pairs, 0, &count, &more) == HOT_DONE);
    CHECK(count == 0 && more == 0);
    CHECK(hot_count(&handle, bytes("a"), 1, bytes("b"), 1, &count) == HOT_DONE && count == 2);
    CHECK(hot_count(&handle, bytes("b"), 1, key, sizeof key, &count) == HOT_KEY_TOO_LONG && count == 2);
    CHECK(hot_count(&handle, bytes(""), 0, HOT_TO_END, &count) == HOT_DONE && count == 3);
    CHECK(hot_scan_values(&handle, bytes("a"), 1, bytes("z"), 1, values, 2, &count, &more) == HOT_DONE);
    CHECK(count == 2 && more == 1 && values[0] == 1 && values[1] == 2 && values[2] == 9);
    CHECK(hot_scan_values(&handle, bytes("b"), 1, bytes("z"), 1, values, 3, &count, &more) == HOT_DONE && count == 2 && more == 0);
    CHECK(hot_scan_values(&handle, key, sizeof key, bytes("z"), 1, values, 3, &count, &more) == HOT_KEY_TOO_LONG && count == 2);
    CHECK(hot_destroy(&handle) == HOT_DONE);
}

/* Scans whose pairs are packed: keys of all lengths, room for some of the pairs or of the bytes alone, and what is left as it was. */
static void test_packed(void) {
    hot_handle handle = HOT_HANDLE;
    hot_pair last;
    hot_head heads[4];
    uint8_t keys[HOT_MAX_KEY + 1], key[HOT_MAX_KEY + 1];
    uint64_t had;
    size_t count = 9, length;
    uint32_t more = 9;
    memset(key, 0xff, sizeof key);
    memset(keys, 0xee, sizeof keys);
    memset(heads, 0xee, sizeof heads);
    CHECK(hot_scan_packed(&handle, bytes("a"), 1, bytes("z"), 1, keys, sizeof keys, heads, 4, &count, &more) == HOT_CLOSED && count == 9);
    CHECK(hot_create(100, 100, &handle, 1) == HOT_DONE);
    CHECK(hot_try_insert(&handle, bytes("b"), 1, 3, &had) == HOT_INSERTED);
    CHECK(hot_try_insert(&handle, bytes("aa"), 2, 2, &had) == HOT_INSERTED);
    CHECK(hot_try_insert(&handle, bytes(""), 0, 1, &had) == HOT_INSERTED);
    CHECK(hot_try_insert(&handle, key, HOT_MAX_KEY, 4, &had) == HOT_INSERTED);
    CHECK(hot_scan_packed(&handle, bytes(""), 0, key, sizeof key, keys, sizeof keys, heads, 4, &count, &more) == HOT_KEY_TOO_LONG && more == 9);
    /* As many as there are heads for. */
    CHECK(hot_scan_packed(&handle, bytes(""), 0, key, HOT_MAX_KEY, keys, sizeof keys, heads, 2, &count, &more) == HOT_DONE);
    CHECK(count == 2 && more == 1 && heads[0].length == 0 && heads[0].value == 1 && heads[1].length == 2 && heads[1].value == 2);
    CHECK(!memcmp(keys, "aa", 2) && keys[2] == 0xee && heads[2].value == 0xeeeeeeeeeeeeeeee);
    /* As many as there are bytes for, and on from there. */
    CHECK(hot_scan_packed(&handle, bytes(""), 0, key, HOT_MAX_KEY, keys, sizeof keys, heads, 4, &count, &more) == HOT_DONE);
    CHECK(count == 3 && more == 1 && heads[2].length == 1 && heads[2].value == 3 && !memcmp(keys, "aab", 3));
    CHECK(keys[3] == 0xee && heads[3].value == 0xeeeeeeeeeeeeeeee);
    memcpy(last.key, keys + 2, 1);
    last.length = heads[2].length;
    CHECK(hot_after(last.key, last.length, key, &length) == HOT_DONE && length == 2);
    memset(key + 2, 0xff, sizeof key - 2);
    memset(key, 'b', 2);
    CHECK(hot_scan_packed(&handle, key, 2, bytes("c"), 1, keys, 0, heads, 4, &count, &more) == HOT_DONE && count == 0 && more == 0);
    memset(key, 0xff, 2);
    CHECK(hot_scan_packed(&handle, bytes("b\0"), 2, key, HOT_MAX_KEY, keys, HOT_MAX_KEY, heads, 4, &count, &more) == HOT_DONE);
    CHECK(count == 1 && more == 0 && heads[0].length == HOT_MAX_KEY && heads[0].value == 4 && !memcmp(keys, key, HOT_MAX_KEY));
    CHECK(keys[HOT_MAX_KEY] == 0xee);
    /* Downwards: as many as there are heads for, and on from there as many as there are bytes for. */
    memset(keys, 0xee, sizeof keys);
    CHECK(hot_scan_packed_reverse(&handle, bytes(""), 0, bytes("b"), 1, keys, sizeof keys, heads, 1, &count, &more) == HOT_DONE);
    CHECK(count == 1 && more == 1 && heads[0].length == 1 && heads[0].value == 3 && keys[0] == 'b' && keys[1] == 0xee);
    CHECK(hot_scan_packed_reverse(&handle, bytes(""), 0, HOT_TO_END, keys, HOT_MAX_KEY + 1, heads, 4, &count, &more) == HOT_DONE);
    CHECK(count == 2 && more == 1 && heads[0].length == HOT_MAX_KEY && heads[0].value == 4 && heads[1].value == 3 && keys[HOT_MAX_KEY] == 'b');
    CHECK(hot_before(bytes("b"), 1, key, &length) == HOT_DONE && length == HOT_MAX_KEY);
    CHECK(hot_scan_packed_reverse(&handle, bytes(""), 0, key, length, keys, 2, heads, 4, &count, &more) == HOT_DONE && count == 2 && more == 0);
    CHECK(heads[0].length == 2 && heads[0].value == 2 && heads[1].length == 0 && heads[1].value == 1 && !memcmp(keys, "aa", 2));
    CHECK(hot_scan_packed_reverse(&handle, key, HOT_MAX_KEY + 1, HOT_TO_END, keys, 2, heads, 4, &count, &more) == HOT_KEY_TOO_LONG && count == 2);
    memset(key, 0xff, sizeof key);
    /* A key of no bytes has room where none is, and no heads are room for none. */
    CHECK(hot_scan_packed(&handle, bytes(""), 0, bytes("b"), 1, keys, 0, heads, 4, &count, &more) == HOT_DONE && count == 1 && more == 1);
    CHECK(hot_scan_packed(&handle, bytes("a"), 1, bytes("b"), 1, keys, 1, heads, 4, &count, &more) == HOT_DONE && count == 0 && more == 1);
    CHECK(hot_scan_packed(&handle, bytes("a"), 1, bytes("b"), 1, keys, 9, heads, 0, &count, &more) == HOT_DONE && count == 0 && more == 1);
    CHECK(hot_scan_packed(&handle, bytes("c"), 1, bytes("d"), 1, keys, 9, heads, 4, &count, &more) == HOT_DONE && count == 0 && more == 0);
    CHECK(hot_destroy(&handle) == HOT_DONE);
}

/* A list that has grown large goes after the call, and the next scan makes another: the pairs are the same. */
static void test_large_scan(void) {
    enum { MANY = 3000 };
    static hot_pair pairs[MANY];
    static hot_head heads[MANY];
    static uint8_t keys[3 * MANY];
    hot_handle handle = HOT_HANDLE;
    uint8_t key[3] = {0};
    uint64_t had;
    size_t count, place, round;
    uint32_t more, number;
    CHECK(hot_create(2000, MANY, &handle, 1) == HOT_DONE);
    for (number = 0; number < MANY; number++) {
        key[1] = (uint8_t)(number >> 8), key[2] = (uint8_t)number;
        CHECK(hot_try_insert(&handle, key, 3, number, &had) == HOT_INSERTED);
    }
    for (round = 0; round < 3; round++) {
        CHECK(hot_scan(&handle, bytes(""), 0, bytes("\1"), 1, pairs, MANY, &count, &more) == HOT_DONE && count == MANY && more == 0);
        CHECK(hot_scan_packed(&handle, bytes(""), 0, bytes("\1"), 1, keys, sizeof keys, heads, MANY, &count, &more) == HOT_DONE);
        CHECK(count == MANY && more == 0);
        for (place = 0; place < MANY; place++) {
            CHECK(pairs[place].value == place && heads[place].value == place && pairs[place].length == 3 && heads[place].length == 3);
            CHECK(!memcmp(pairs[place].key, keys + 3 * place, 3));
        }
        CHECK(hot_scan_packed(&handle, bytes(""), 0, bytes("\1"), 1, keys, 10, heads, 5, &count, &more) == HOT_DONE && count == 3 && more == 1);
    }
    CHECK(hot_destroy(&handle) == HOT_DONE);
}

/* Keys of every class of leaves side by side, in their order: each has its number, and other bytes behind it. */
enum { SIDE_BY_SIDE = 80 };

static size_t side_by_side(size_t number, uint8_t *key) {
    static const size_t lengths[] = {2, 8, 9, 16, 17, 24, 25, 56, 57, 88, 89, HOT_MAX_KEY};
    memset(key, (int)number, HOT_MAX_KEY);
    key[0] = (uint8_t)(number >> 3), key[1] = (uint8_t)(number << 5);
    return lengths[number % (sizeof lengths / sizeof lengths[0])];
}

/* Asserts that a scan has listed so many of these keys, from a number on upwards or downwards: as pairs, and packed. Returns how many bytes
 * these keys have. */
static size_t check_listed(const hot_pair *pairs, const uint8_t *packed, const hot_head *heads, size_t count, size_t first, int step) {
    uint8_t key[HOT_MAX_KEY];
    size_t place, number = first, size = 0;
    for (place = 0; place < count; place++, number += (size_t)step) {
        size_t length = side_by_side(number, key);
        CHECK(pairs[place].length == length && pairs[place].value == number && !memcmp(pairs[place].key, key, length));
        CHECK(heads[place].length == length && heads[place].value == number && !memcmp(packed + size, key, length));
        size += length;
    }
    return size;
}

/* A range of these keys, from a number to another, and the keys at its ends. */
typedef struct part {
    size_t first, last, from_length, upto_length;
    uint8_t from[HOT_MAX_KEY], upto[HOT_MAX_KEY];
} part;

/* Scans such a range with a limit in each way. What packs has as many bytes as the keys need, and then one less. */
static void check_part(hot_handle *handle, const part *of, size_t limit) {
    static hot_pair pairs[SIDE_BY_SIDE + 2];
    static hot_head heads[SIDE_BY_SIDE + 2];
    static uint8_t packed[(SIDE_BY_SIDE + 2) * HOT_MAX_KEY];
    static uint64_t values[SIDE_BY_SIDE + 2];
    size_t count, room, size = of->last - of->first + 1, listed = limit < size ? limit : size, place;
    uint32_t more, cut = limit < size;
    CHECK(hot_scan(handle, of->from, of->from_length, of->upto, of->upto_length, pairs, limit, &count, &more) == HOT_DONE);
    CHECK(count == listed && more == cut);
    CHECK(hot_scan_packed(handle, of->from, of->from_length, of->upto, of->upto_length, packed, sizeof packed, heads, limit, &count, &more) == HOT_DONE);
    CHECK(count == listed && more == cut);
    room = check_listed(pairs, packed, heads, listed, of->first, 1);
    memset(packed, 0xee, room + 1);
    CHECK(hot_scan_packed(handle, of->from, of->from_length, of->upto, of->upto_length, packed, room, heads, limit, &count, &more) == HOT_DONE);
    CHECK(count == listed && more == cut && packed[room] == 0xee && check_listed(pairs, packed, heads, listed, of->first, 1) == room);
    if (listed) {
        memset(packed, 0xee, room);
        CHECK(hot_scan_packed(handle, of->from, of->from_length, of->upto, of->upto_length, packed, room - 1, heads, limit, &count, &more) == HOT_DONE);
        CHECK(count == listed - 1 && more == 1 && packed[room - 1] == 0xee);
        CHECK(packed[check_listed(pairs, packed, heads, listed - 1, of->first, 1)] == 0xee);
    }
    CHECK(hot_scan_reverse(handle, of->from, of->from_length, of->upto, of->upto_length, pairs, limit, &count, &more) == HOT_DONE);
    CHECK(count == listed && more == cut);
    CHECK(hot_scan_packed_reverse(handle, of->from, of->from_length, of->upto, of->upto_length, packed, sizeof packed, heads, limit, &count, &more) == HOT_DONE);
    CHECK(count == listed && more == cut);
    check_listed(pairs, packed, heads, listed, of->last, -1);
    CHECK(hot_scan_last(handle, of->from, of->from_length, of->upto, of->upto_length, pairs, limit, &count, &more) == HOT_DONE);
    CHECK(count == listed && more == cut);
    CHECK(hot_scan_values(handle, of->from, of->from_length, of->upto, of->upto_length, values, limit, &count, &more) == HOT_DONE);
    CHECK(count == listed && more == cut);
    for (place = 0; place < listed; place++)
        CHECK(pairs[place].value == of->last + 1 - listed + place && values[place] == of->first + place);
}

/* Each range of these keys, whose end comes inside a group of leaves that the walk reads together, at its end or behind it; with ends that are
 * keys, and with ends that lie between two; with a limit of one less than it has, as many, and one more; and its number. The table has so
 * many leaves of each class: the walk touches what comes next where all are many. */
static void test_groups(uint32_t leaves) {
    const uint32_t each[5] = {leaves, leaves, leaves, leaves, leaves};
    hot_handle handle = HOT_HANDLE;
    hot_stock stock;
    part of;
    uint8_t key[HOT_MAX_KEY];
    size_t count, limit, size;
    int between;
    hot_stock_for_lengths(each, &stock);
    CHECK(hot_create_with(&stock, &handle, 1) == HOT_DONE);
    for (of.first = 0; of.first < SIDE_BY_SIDE; of.first++)
        CHECK(hot_insert(&handle, of.from, side_by_side(of.first, of.from), of.first, NULL) == HOT_INSERTED);
    for (of.first = 0; of.first < SIDE_BY_SIDE; of.first++)
        for (of.last = of.first; of.last < SIDE_BY_SIDE; of.last++)
            for (between = 0; between < 2; between++) {
                of.from_length = side_by_side(of.first, of.from), of.upto_length = side_by_side(of.last, of.upto), size = of.last - of.first + 1;
                if (between) {
                    CHECK(hot_before(key, side_by_side(of.first, key), of.from, &of.from_length) == HOT_DONE);
                    CHECK(hot_after(key, side_by_side(of.last, key), of.upto, &of.upto_length) == HOT_DONE);
                }
                CHECK(hot_count(&handle, of.from, of.from_length, of.upto, of.upto_length, &count) == HOT_DONE && count == size);
                for (limit = size - 1; limit <= size + 1; limit++)
                    check_part(&handle, &of, limit);
            }
    CHECK(hot_destroy(&handle) == HOT_DONE);
}

/* What pairs are handed to: it looks whether their values rise one by one up to the last, and may remove them by a handle. */
typedef struct visit {
    hot_handle *handle;
    uint64_t next, last;
    int is_ordered;
} visit;

static int take_pair(void *context, const hot_pair *pair) {
    visit *given = context;
    uint64_t had;
    given->is_ordered &= pair->value == given->next++ && pair->length == 2;
    if (given->handle)
        given->is_ordered &= hot_remove(given->handle, pair->key, pair->length, &had) == HOT_REMOVED && had == pair->value;
    return pair->value != given->last;
}

/* Pairs handed to a function: all of a range, more than are listed at a time, and none after it says so. */
static void test_each(void) {
    hot_handle handle = HOT_HANDLE;
    visit all = {NULL, 0, 999, 1}, some = {NULL, 40, 77, 1}, gone = {&handle, 0, 999, 1}, none = {NULL, 0, 999, 1};
    uint8_t key[HOT_MAX_KEY + 1] = {0};
    uint64_t had, number;
    CHECK(hot_create(100, 1000, &handle, 1) == HOT_DONE);
    CHECK(hot_each(&handle, bytes(""), 0, bytes("\377"), 1, take_pair, &none) == HOT_DONE && none.next == 0);
    for (number = 0; number < 300; number++) {
        key[0] = (uint8_t)(number >> 8), key[1] = (uint8_t)number;
        CHECK(hot_try_insert(&handle, key, 2, number, &had) == HOT_INSERTED);
    }
    CHECK(hot_each(&handle, bytes(""), 0, bytes("\377"), 1, take_pair, &all) == HOT_DONE && all.next == 300 && all.is_ordered);
    CHECK(hot_each(&handle, bytes("\0\50"), 2, bytes("\0\117"), 2, take_pair, &some) == HOT_DONE && some.next == 78 && some.is_ordered);
    some.next = 40, some.last = 999;
    CHECK(hot_each(&handle, bytes("\0\50"), 2, bytes("\0\117"), 2, take_pair, &some) == HOT_DONE && some.next == 80 && some.is_ordered);
    CHECK(hot_each(&handle, bytes("b"), 1, bytes("a"), 1, take_pair, &none) == HOT_DONE && none.next == 0);
    CHECK(hot_each(&handle, bytes(""), 0, bytes("\377"), 1, take_pair, &gone) == HOT_DONE && gone.next == 300 && gone.is_ordered);
    CHECK(hot_each(&handle, bytes(""), 0, bytes("\377"), 1, take_pair, &none) == HOT_DONE && none.next == 0);
    CHECK(hot_each(&handle, key, sizeof key, bytes("a"), 1, take_pair, &none) == HOT_KEY_TOO_LONG && none.next == 0);
    CHECK(hot_destroy(&handle) == HOT_DONE);
    CHECK(hot_each(&handle, bytes(""), 0, bytes("a"), 1, take_pair, &none) == HOT_CLOSED && none.next == 0);
}

/* Scans downwards: the order of keys, the limit, and the places that are left as they were; the last pair up to a key. */
static void test_scan_reverse(void) {
    hot_handle handle = HOT_HANDLE;
    hot_pair pairs[3], pair;
    uint8_t key[HOT_MAX_KEY + 1];
    uint64_t had;
    size_t count = 9, length;
    uint32_t more = 9;
    memset(key, 0xff, sizeof key);
    CHECK(hot_create(100, 100, &handle, 1) == HOT_DONE);
    CHECK(hot_last(&handle, key, HOT_MAX_KEY, &pair) == HOT_ABSENT);
    CHECK(hot_try_insert(&handle, bytes("b"), 1, 2, &had) == HOT_INSERTED);
    CHECK(hot_last(&handle, bytes("b"), 1, &pair) == HOT_FOUND && pair.value == 2);
    CHECK(hot_try_insert(&handle, bytes("aa"), 2, 1, &had) == HOT_INSERTED);
    CHECK(hot_try_insert(&handle, bytes("c"), 1, 3, &had) == HOT_INSERTED);
    memset(pairs, 0xee, sizeof pairs);
    CHECK(hot_scan_reverse(&handle, bytes("a"), 1, bytes("z"), 1, pairs, 2, &count, &more) == HOT_DONE);
    CHECK(count == 2 && more == 1);
    CHECK(pairs[0].length == 1 && pairs[0].key[0] == 'c' && pairs[0].value == 3);
    CHECK(pairs[1].length == 1 && pairs[1].key[0] == 'b' && pairs[1].value == 2);
    CHECK(pairs[2].length == 0xeeeeeeee && pairs[2].value == 0xeeeeeeeeeeeeeeee);
    CHECK(hot_before(pairs[1].key, pairs[1].length, key, &length) == HOT_DONE);
    CHECK(hot_scan_reverse(&handle, bytes("a"), 1, key, length, pairs, 2, &count, &more) == HOT_DONE);
    CHECK(count == 1 && more == 0 && pairs[0].value == 1 && pairs[1].value == 2);
    CHECK(hot_scan_reverse(&handle, bytes("b"), 1, bytes("c"), 1, pairs, 3, &count, &more) == HOT_DONE);
    CHECK(count == 2 && more == 0 && pairs[0].value == 3 && pairs[1].value == 2);
    CHECK(hot_scan_reverse(&handle, bytes("a"), 1, bytes("b"), 1, pairs, 0, &count, &more) == HOT_DONE);
    CHECK(count == 0 && more == 1);
    CHECK(hot_scan_reverse(&handle, bytes("z"), 1, bytes("a"), 1, pairs, 3, &count, &more) == HOT_DONE);
    CHECK(count == 0 && more == 0);
    CHECK(hot_last(&handle, bytes("bz"), 2, &pair) == HOT_FOUND && pair.length == 1 && pair.value == 2);
    CHECK(hot_last(&handle, bytes("a"), 1, &pair) == HOT_ABSENT && pair.value == 2);
    memset(key, 0xff, sizeof key);
    CHECK(hot_last(&handle, key, HOT_MAX_KEY, &pair) == HOT_FOUND && pair.value == 3);
    count = 9;
    CHECK(hot_scan_reverse(&handle, bytes("a"), 1, key, sizeof key, pairs, 2, &count, &more) == HOT_KEY_TOO_LONG && count == 9);
    CHECK(hot_last(&handle, key, sizeof key, &pair) == HOT_KEY_TOO_LONG);
    CHECK(hot_destroy(&handle) == HOT_DONE);
    CHECK(hot_scan_reverse(&handle, bytes("a"), 1, bytes("z"), 1, pairs, 2, &count, &more) == HOT_CLOSED && count == 9);
    CHECK(hot_last(&handle, bytes("a"), 1, &pair) == HOT_CLOSED);
}

/* Scans of the last pairs: in rising order, and so what is below the first of them. */
static void test_scan_last(void) {
    hot_handle handle = HOT_HANDLE;
    hot_pair pairs[3];
    uint8_t key[HOT_MAX_KEY + 1] = {0};
    uint64_t had;
    size_t count = 9, length;
    uint32_t more = 9;
    CHECK(hot_scan_last(&handle, bytes("a"), 1, bytes("z"), 1, pairs, 2, &count, &more) == HOT_CLOSED && count == 9 && more == 9);
    CHECK(hot_create(100, 100, &handle, 1) == HOT_DONE);
    CHECK(hot_try_insert(&handle, bytes("b"), 1, 2, &had) == HOT_INSERTED);
    CHECK(hot_try_insert(&handle, bytes("aa"), 2, 1, &had) == HOT_INSERTED);
    CHECK(hot_try_insert(&handle, bytes("c"), 1, 3, &had) == HOT_INSERTED);
    memset(pairs, 0xee, sizeof pairs);
    CHECK(hot_scan_last(&handle, bytes("a"), 1, bytes("z"), 1, pairs, 2, &count, &more) == HOT_DONE && count == 2 && more == 1);
    CHECK(pairs[0].length == 1 && pairs[0].key[0] == 'b' && pairs[0].value == 2);
    CHECK(pairs[1].length == 1 && pairs[1].key[0] == 'c' && pairs[1].value == 3);
    CHECK(pairs[2].length == 0xeeeeeeee && pairs[2].value == 0xeeeeeeeeeeeeeeee);
    CHECK(hot_before(pairs[0].key, pairs[0].length, key, &length) == HOT_DONE);
    CHECK(hot_scan_last(&handle, bytes("a"), 1, key, length, pairs, 2, &count, &more) == HOT_DONE);
    CHECK(count == 1 && more == 0 && pairs[0].value == 1 && pairs[1].value == 3);
    CHECK(hot_scan_last(&handle, bytes("b"), 1, bytes("c"), 1, pairs, 3, &count, &more) == HOT_DONE);
    CHECK(count == 2 && more == 0 && pairs[0].value == 2 && pairs[1].value == 3);
    CHECK(hot_scan_last(&handle, bytes("a"), 1, bytes("b"), 1, pairs, 0, &count, &more) == HOT_DONE && count == 0 && more == 1);
    CHECK(hot_scan_last(&handle, bytes("z"), 1, bytes("a"), 1, pairs, 3, &count, &more) == HOT_DONE && count == 0 && more == 0);
    count = 9;
    CHECK(hot_scan_last(&handle, bytes("a"), 1, key, sizeof key, pairs, 2, &count, &more) == HOT_KEY_TOO_LONG && count == 9);
    CHECK(hot_destroy(&handle) == HOT_DONE);
}

/* Where a scan goes on: after a key, and after one to which no byte can be added. */
static void test_after(void) {
    hot_pair pair;
    uint8_t key[HOT_MAX_KEY];
    size_t length = 9;
    memset(&pair, 'a', sizeof pair);
    pair.length = 2;
    CHECK(hot_after(pair.key, pair.length, key, &length) == HOT_DONE && length == 3 && !memcmp(key, "aa", 3));
    pair.length = HOT_MAX_KEY - 1;
    CHECK(hot_after(pair.key, pair.length, key, &length) == HOT_DONE && length == HOT_MAX_KEY && key[HOT_MAX_KEY - 1] == 0);
    pair.length = HOT_MAX_KEY;
    CHECK(hot_after(pair.key, pair.length, key, &length) == HOT_DONE && length == HOT_MAX_KEY && key[HOT_MAX_KEY - 1] == 'b');
    memset(pair.key + 3, 0xff, HOT_MAX_KEY - 3);
    CHECK(hot_after(pair.key, pair.length, key, &length) == HOT_DONE && length == 3 && !memcmp(key, "aab", 3));
    memset(pair.key, 0xff, 3);
    CHECK(hot_after(pair.key, pair.length, key, &length) == HOT_ABSENT && length == 3);
    CHECK(hot_after((const uint8_t *)&pair, HOT_MAX_KEY + 1, key, &length) == HOT_KEY_TOO_LONG && length == 3);
    CHECK(hot_before((const uint8_t *)&pair, HOT_MAX_KEY + 1, key, &length) == HOT_KEY_TOO_LONG && length == 3);
}

/* Where a scan downwards goes on: before a key that ends with a byte of 0, before another, and before the empty one. */
static void test_before(void) {
    hot_pair pair;
    uint8_t key[HOT_MAX_KEY];
    size_t length = 9, at;
    memset(&pair, 'b', sizeof pair);
    pair.length = 2;
    CHECK(hot_before(pair.key, pair.length, key, &length) == HOT_DONE && length == HOT_MAX_KEY && key[0] == 'b' && key[1] == 'a');
    for (at = 2; at < HOT_MAX_KEY; at++)
        CHECK(key[at] == 0xff);
    pair.key[1] = 0;
    CHECK(hot_before(pair.key, pair.length, key, &length) == HOT_DONE && length == 1 && key[0] == 'b');
    pair.key[HOT_MAX_KEY - 1] = 1;
    pair.length = HOT_MAX_KEY;
    CHECK(hot_before(pair.key, pair.length, key, &length) == HOT_DONE && length == HOT_MAX_KEY && !memcmp(key, pair.key, HOT_MAX_KEY - 1) && key[HOT_MAX_KEY - 1] == 0);
    pair.length = 0;
    CHECK(hot_before(pair.key, pair.length, key, &length) == HOT_ABSENT && length == HOT_MAX_KEY);
}

int main(void) {
    test_scan();
    test_packed();
    test_large_scan();
    test_groups(SIDE_BY_SIDE);
    test_groups(8000);
    test_each();
    test_scan_reverse();
    test_scan_last();
    test_prefix();
    test_count_prefix();
    test_prefix_reverse();
    test_after();
    test_before();
    puts(failures ? "c/tests/scans.c failed" : "passed: c/tests/scans.c");
    return failures;
}

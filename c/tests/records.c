/* Tests of records: how many there are, which of them a key takes, when they run out and come back. */
#define _GNU_SOURCE
#include "hot.h"
#include "check.h"
#include <string.h>
#include <sys/mman.h>
#include <unistd.h>

static int are(hot_states states, uint32_t free, uint32_t held, uint32_t live, uint32_t obsolete) {
    return states.free == free && states.held == held && states.live == live && states.obsolete == obsolete;
}

/* What an index holds. A first key is a leaf alone, the second one makes a node of both; each further key and each removal replaces
 * that node, and a removal retires a leaf too. */
static void test_census(void) {
    hot_handle handle = HOT_HANDLE;
    hot_stock stock = {8, 1, 2, 0, 0, 3};
    hot_counts counts;
    uint32_t nodes, leaves;
    uint64_t had;
    memset(&counts, 0xee, sizeof counts);
    CHECK(hot_census(&handle, &counts) == HOT_CLOSED && counts.nodes.free == 0xeeeeeeee);
    CHECK(hot_create(100, 200, &handle, 1) == HOT_DONE);
    CHECK(hot_census(&handle, &counts) == HOT_DONE && are(counts.nodes, 101, 0, 0, 0) && are(counts.long_leaves, 200, 0, 0, 0));
    CHECK(counts.bytes == 384 + 128 + 464 * 101 + 264 * 200);
    CHECK(hot_try_insert(&handle, bytes("a"), 1, 1, &had) == HOT_INSERTED);
    CHECK(hot_census(&handle, &counts) == HOT_DONE && are(counts.nodes, 101, 0, 0, 0) && are(counts.long_leaves, 199, 0, 1, 0));
    CHECK(hot_try_insert(&handle, bytes("b"), 1, 2, &had) == HOT_INSERTED);
    CHECK(hot_census(&handle, &counts) == HOT_DONE && are(counts.nodes, 100, 0, 1, 0) && are(counts.long_leaves, 198, 0, 2, 0));
    CHECK(hot_try_insert(&handle, bytes("c"), 1, 3, &had) == HOT_INSERTED);
    CHECK(hot_census(&handle, &counts) == HOT_DONE && are(counts.nodes, 99, 0, 1, 1) && are(counts.long_leaves, 197, 0, 3, 0));
    CHECK(hot_try_remove(&handle, bytes("b"), 1, &had) == HOT_REMOVED);
    CHECK(hot_census(&handle, &counts) == HOT_DONE && are(counts.nodes, 98, 0, 1, 2) && are(counts.long_leaves, 197, 0, 2, 1));
    CHECK(hot_collect(&handle, &nodes, &leaves) == HOT_DONE && nodes == 2 && leaves == 1);
    CHECK(hot_census(&handle, &counts) == HOT_DONE && are(counts.nodes, 100, 0, 1, 0) && are(counts.long_leaves, 198, 0, 2, 0));
    CHECK(are(counts.short_leaves, 0, 0, 0, 0) && are(counts.wide_leaves, 0, 0, 0, 0));
    CHECK(hot_destroy(&handle) == HOT_DONE);
    CHECK(hot_create_with(&stock, &handle, 1) == HOT_DONE);
    CHECK(hot_try_insert(&handle, bytes("12345678"), 8, 1, &had) == HOT_INSERTED);
    CHECK(hot_try_insert(&handle, bytes("123456789"), 9, 2, &had) == HOT_INSERTED);
    CHECK(hot_census(&handle, &counts) == HOT_DONE && are(counts.nodes, 8, 0, 1, 0) && are(counts.short_leaves, 0, 0, 1, 0));
    CHECK(are(counts.medium_leaves, 1, 0, 1, 0) && are(counts.large_leaves, 0, 0, 0, 0) && are(counts.long_leaves, 3, 0, 0, 0));
    CHECK(hot_destroy(&handle) == HOT_DONE);
}

/* An index with few records: refused changes change nothing, and removals give room. */
static void test_full(void) {
    hot_handle handle = HOT_HANDLE;
    uint64_t had = 7;
    uint32_t nodes, leaves;
    CHECK(hot_create(10, 1, &handle, 1) == HOT_DONE);
    CHECK(hot_try_insert(&handle, bytes("a"), 1, 1, &had) == HOT_INSERTED);
    CHECK(hot_try_insert(&handle, bytes("b"), 1, 2, &had) == HOT_FULL_LEAVES && had == 7);
    CHECK(hot_insert(&handle, bytes("b"), 1, 2, &had) == HOT_FULL_LEAVES && had == 7);
    CHECK(hot_exchange(&handle, bytes("a"), 1, 1, 2, &had) == HOT_EXCHANGED && had == 7);
    CHECK(hot_exchange(&handle, bytes("a"), 1, 1, 3, &had) == HOT_DIFFERS && had == 2);
    CHECK(hot_try_remove_if(&handle, bytes("a"), 1, 2, &had) == HOT_REMOVED && had == 2);
    CHECK(hot_try_insert(&handle, bytes("a"), 1, 1, &had) == HOT_INSERTED);
    CHECK(hot_try_remove(&handle, bytes("a"), 1, &had) == HOT_REMOVED && had == 1);
    CHECK(hot_try_insert(&handle, bytes("b"), 1, 2, &had) == HOT_INSERTED);
    CHECK(hot_try_remove(&handle, bytes("b"), 1, &had) == HOT_REMOVED && had == 2);
    CHECK(hot_collect(&handle, &nodes, &leaves) == HOT_DONE && nodes == 0 && leaves == 1);
    CHECK(hot_destroy(&handle) == HOT_DONE);
    CHECK(hot_create(1, 10, &handle, 1) == HOT_DONE);
    CHECK(hot_try_insert(&handle, bytes("a"), 1, 1, &had) == HOT_INSERTED);
    CHECK(hot_try_insert(&handle, bytes("b"), 1, 2, &had) == HOT_INSERTED);
    CHECK(hot_try_insert(&handle, bytes("c"), 1, 3, &had) == HOT_FULL_NODES);
    CHECK(hot_get(&handle, bytes("c"), 1, &had) == HOT_ABSENT);
    CHECK(hot_destroy(&handle) == HOT_DONE);
}

/* Puts keys in by calls that wait, until one is full: numbers that follow `seed`. How many went in. */
static uint64_t fill(hot_handle *handle, uint64_t seed) {
    uint64_t had, count = 0;
    for (;; count++) {
        seed = seed * 6364136223846793005u + 1442695040888963407u;
        hot_status status = hot_insert(handle, (uint8_t *)&seed, sizeof seed, count, &had);
        CHECK(status == HOT_INSERTED || status == HOT_FULL_NODES);
        if (status != HOT_INSERTED)
            return count;
    }
}

/* Small indexes are filled to their last node record. Then an insertion that needs more than are free returns, and all can be removed. */
static void test_filled(void) {
    hot_handle handles[2] = {HOT_HANDLE, HOT_HANDLE}, large = HOT_HANDLE;
    hot_pair pair;
    uint64_t had, count;
    CHECK(hot_create(2, 1000, handles, 1) == HOT_DONE);
    for (int i = 0; i < 33; i++) {
        uint8_t key[2] = {(uint8_t)(i * 37), 0};
        CHECK(hot_insert(&handles[0], key, 2, 1, &had) == (i < 32 ? HOT_INSERTED : HOT_FULL_NODES));
    }
    CHECK(hot_destroy(&handles[0]) == HOT_DONE);
    CHECK(hot_create(200, 10000, &large, 1) == HOT_DONE && fill(&large, 1) > 2000);
    for (uint32_t nodes = 1; nodes <= 100; nodes++) {
        CHECK(hot_create(nodes, 10000, handles, nodes % 2 + 1) == HOT_DONE);
        count = fill(&handles[0], nodes);
        CHECK(hot_first(&handles[0], bytes(""), 0, &pair) == HOT_FOUND);
        CHECK(hot_try_remove(&handles[0], pair.key, pair.length, &had) == HOT_REMOVED);
        CHECK(hot_clear(&handles[0]) == HOT_DONE && hot_first(&handles[0], bytes(""), 0, &pair) == HOT_ABSENT);
        CHECK(fill(&handles[0], nodes) == count && hot_copy(&large, &handles[0]) == HOT_FULL_NODES && hot_clear(&handles[0]) == HOT_DONE);
        for (uint32_t i = 0; i < nodes % 2 + 1; i++)
            CHECK(hot_destroy(&handles[i]) == HOT_DONE);
    }
    CHECK(hot_destroy(&large) == HOT_DONE);
}

/* Fills the index, and takes all keys out by calls that wait, beside a handle that is open and makes no call. Closes the index. */
static void fill_and_empty(hot_index *index) {
    hot_handle mine = HOT_HANDLE, idle = HOT_HANDLE;
    hot_pair pair;
    CHECK(hot_open(index, &idle) == HOT_DONE && hot_open(index, &mine) == HOT_DONE);
    fill(&mine, 1);
    CHECK(hot_pop_first(&mine, bytes(""), 0, HOT_TO_END, &pair) == HOT_REMOVED && hot_clear(&mine) == HOT_DONE);
    CHECK(hot_first(&mine, bytes(""), 0, &pair) == HOT_ABSENT);
    CHECK(hot_close(&idle) == HOT_DONE && hot_close(&mine) == HOT_DONE && hot_close_index(index) == HOT_DONE);
}

/* Where no other call is under way a removal doesn't wait: in a full index, and in one that a load has filled. */
static void test_emptied(void) {
    enum { MANY = 10000 };
    static const hot_stock stock = {30, 2 * MANY, 0, 0, 0, 0};
    static uint8_t keys[2 * MANY];
    static hot_head heads[MANY];
    hot_index *index = NULL;
    size_t count;
    unsigned left = alarm(60); /* it takes no time */
    for (unsigned i = 0; i < MANY; i++) {
        keys[2 * i] = (uint8_t)(i >> 8);
        keys[2 * i + 1] = (uint8_t)i;
        heads[i].length = 2;
        heads[i].value = i;
    }
    CHECK(hot_open_index(&stock, 2, &index) == HOT_DONE);
    fill_and_empty(index);
    CHECK(hot_load_packed(&stock, 2, keys, heads, MANY, &index, &count) == HOT_FULL_NODES && count > 100 && count < MANY);
    fill_and_empty(index);
    alarm(left);
}

/* Leaves of several sizes: a key takes the smallest with room that is free. */
static void test_stock(void) {
    hot_handle handle = HOT_HANDLE;
    hot_stock stock = {8, 1, 1, 0, 0, 0};
    const uint8_t *key = bytes("0123456789012345678901234");
    uint64_t had = 7;
    CHECK(hot_create_with(&stock, &handle, 1) == HOT_DONE);
    CHECK(hot_create_with(&stock, &handle, 1) == HOT_OPEN);
    CHECK(hot_try_insert(&handle, key, 8, 1, &had) == HOT_INSERTED);
    CHECK(hot_try_insert(&handle, key, 25, 2, &had) == HOT_KEY_TOO_LONG && hot_upsert(&handle, key, 25, 2, &had) == HOT_KEY_TOO_LONG);
    CHECK(hot_try_remove(&handle, key, 25, &had) == HOT_ABSENT && hot_get(&handle, key, 25, &had) == HOT_ABSENT && had == 7);
    CHECK(hot_try_insert(&handle, key, 24, 2, &had) == HOT_INSERTED);
    CHECK(hot_try_insert(&handle, key, 7, 3, &had) == HOT_FULL_LEAVES);
    CHECK(hot_try_remove(&handle, key, 8, &had) == HOT_REMOVED && had == 1);
    CHECK(hot_try_insert(&handle, key, 9, 3, &had) == HOT_FULL_LEAVES);
    CHECK(hot_try_insert(&handle, key, 7, 3, &had) == HOT_INSERTED);
    CHECK(hot_get(&handle, key, 24, &had) == HOT_FOUND && had == 2);
    CHECK(hot_destroy(&handle) == HOT_DONE);
}

/* The stock for so many keys, what it takes, and which stocks and numbers of handles there are. */
static void test_stock_sizes(void) {
    enum { MANY = 1024 };
    static hot_handle handles[MANY];
    hot_stock stock;
    size_t size = 7;
    hot_stock_for_keys(7, 8, &stock);
    CHECK(stock.nodes == 3 && stock.short_leaves == 10 && !stock.medium_leaves && !stock.large_leaves);
    CHECK(hot_stock_bytes(&stock, 1, &size) == HOT_DONE && size == 2688);
    CHECK(hot_stock_bytes(&stock, MANY + 1, &size) == HOT_OUT_OF_RANGE && size == 2688);
    CHECK(hot_create_with(&stock, handles, 0) == HOT_OUT_OF_RANGE);
    CHECK(hot_create_with(&stock, handles, MANY) == HOT_DONE);
    for (int i = 0; i < MANY; i++)
        CHECK(hot_destroy(&handles[i]) == HOT_DONE);
    hot_stock_for_keys(8, 89, &stock);
    CHECK(stock.nodes == 3 && stock.long_leaves == 11 && !stock.short_leaves && !stock.wide_leaves);
    {
        static const uint32_t keys[5] = {8, 0, 80, 0, 1}, most[5] = {4294967295u, 4294967295u, 0, 0, 0};
        hot_stock_for_lengths(keys, &stock);
        CHECK(stock.nodes == 44 && stock.short_leaves == 11 && !stock.medium_leaves && stock.large_leaves == 121);
        CHECK(!stock.wide_leaves && stock.long_leaves == 2);
        hot_stock_for_lengths(most, &stock);
        CHECK(hot_create_with(&stock, handles, 1) == HOT_OUT_OF_RANGE);
        hot_stock_for_keys(8, 89, &stock);
    }
    hot_stock_for_any_keys(1000, 8, 3, &stock);
    CHECK(stock.nodes == 1000 + 3 * 145 && stock.short_leaves == 1003 && !stock.medium_leaves && !stock.long_leaves);
    hot_stock_for_any_keys(1000, 1000, 5000, &stock);
    CHECK(stock.nodes == 1000 + 1024 * 4321 && stock.long_leaves == 2024 && !stock.short_leaves);
    hot_stock_for_any_keys(4294967295u, 0, 1, &stock);
    CHECK(stock.nodes == 4294967295u && stock.short_leaves == 4294967295u);
    hot_stock_for_keys(8, 89, &stock);
    stock.medium_leaves = 4294967295u;
    CHECK(hot_create_with(&stock, handles, 1) == HOT_OUT_OF_RANGE);
    stock.medium_leaves = stock.nodes = 0;
    CHECK(hot_create_with(&stock, handles, 1) == HOT_OUT_OF_RANGE);
}

/* Keys that take many nodes: numbers with four bits set, numbers with one bit set in their lower half, and all prefixes of some long
 * keys. */
static size_t spread_key(int kind, uint32_t number, uint8_t *key) {
    uint64_t mixed = (number + 1) * UINT64_C(0x9e3779b97f4a7c15), bits;
    size_t at;
    if (kind == 2) {
        memset(key, (int)(number / (HOT_MAX_KEY + 1)), HOT_MAX_KEY);
        return number % (HOT_MAX_KEY + 1);
    }
    mixed ^= mixed >> 29;
    bits = UINT64_C(1) << mixed % 64 | UINT64_C(1) << mixed / 64 % 64 | UINT64_C(1) << mixed / 4096 % 64 | UINT64_C(1) << mixed / 262144 % 64;
    if (kind == 1)
        bits = (uint64_t)(number / 32) << 32 | UINT64_C(1) << number % 32;
    for (at = 0; at < 8; at++)
        key[at] = (uint8_t)(bits >> (56 - 8 * at));
    return 8;
}

/* A stock for any keys is enough for them, also where some go and come again. */
static void test_any_keys(void) {
    static const uint32_t many[3] = {100000, 20000, 20000};
    static const size_t longest[3] = {8, 8, HOT_MAX_KEY};
    int kind;
    for (kind = 0; kind < 3; kind++) {
        hot_handle handle = HOT_HANDLE;
        hot_stock stock;
        hot_counts counts;
        uint8_t key[HOT_MAX_KEY];
        uint32_t number, round;
        size_t keys;
        hot_stock_for_any_keys(many[kind], longest[kind], 1, &stock);
        CHECK(hot_create_with(&stock, &handle, 1) == HOT_DONE);
        for (round = 0; round < 4; round++) {
            for (number = 0; number < many[kind]; number++)
                CHECK(hot_upsert(&handle, key, spread_key(kind, number, key), number, NULL) < HOT_BUSY);
            CHECK(hot_len(&handle, &keys) == HOT_DONE && hot_census(&handle, &counts) == HOT_DONE && counts.nodes.live < keys);
            for (number = round; number < many[kind]; number += 3)
                CHECK(hot_remove(&handle, key, spread_key(kind, number, key), NULL) < HOT_BUSY);
        }
        CHECK(hot_destroy(&handle) == HOT_DONE);
    }
}

/* The stock for so many keys is enough for numbers with few bits set, and for those of tenants that have a bit for each of their buckets: they
 * take more nodes than others do. Some go, and come again. */
static void test_few_bits(void) {
    enum { MANY = 100000, BUCKETS = 32, EACH = 2 };
    int is_of_tenants;
    for (is_of_tenants = 0; is_of_tenants < 2; is_of_tenants++) {
        hot_handle handle = HOT_HANDLE;
        hot_stock stock;
        uint8_t key[8];
        uint32_t turn;
        hot_stock_for_keys(MANY, 8, &stock);
        CHECK(hot_create_with(&stock, &handle, 1) == HOT_DONE);
        for (turn = 0; turn < 3 * MANY; turn++) {
            uint32_t number = turn % MANY, whose = number / (BUCKETS * EACH), bucket = number / EACH % BUCKETS;
            uint64_t bits = is_of_tenants ? (uint64_t)whose << 40 | UINT64_C(1) << (8 + bucket) : (uint64_t)whose << 32 | UINT64_C(1) << bucket;
            int at;
            for (bits |= number % EACH, at = 0; at < 8; at++)
                key[at] = (uint8_t)(bits >> (56 - 8 * at));
            if (turn / MANY == 1 && number % 3 == 0)
                CHECK(hot_remove(&handle, key, 8, NULL) <= HOT_REMOVED);
            else
                CHECK(hot_upsert(&handle, key, 8, number, NULL) < HOT_BUSY);
        }
        CHECK(hot_destroy(&handle) == HOT_DONE);
    }
}

/* Keys that rise. */
typedef struct rising {
    uint32_t next, count;
    uint8_t key[8];
} rising;

static int next_rising(void *context, const uint8_t **key, size_t *length, uint64_t *value) {
    rising *all = context;
    uint64_t mixed = (all->next + 1) * UINT64_C(0x9e3779b97f4a7c15);
    int at;
    if (all->next == all->count)
        return 0;
    for (at = 0; at < 8; at++)
        all->key[at] = at == 0 ? (uint8_t)all->next : (uint8_t)(mixed >> (56 - 8 * at));
    *key = all->key;
    *length = 8;
    *value = all->next++;
    return 1;
}

/* The stock for few keys is enough for each number of them, also where they are loaded, or one at a time goes and another one comes. */
static void test_few_keys(void) {
    enum { FEW = 200, TURNS = 10 };
    uint32_t keys, turn;
    for (keys = 1; keys <= FEW; keys++) {
        hot_handle handle = HOT_HANDLE;
        rising all = {0, 0, {0}};
        hot_index *index = NULL;
        hot_stock stock;
        size_t count = 0;
        hot_stock_for_keys(keys, 8, &stock);
        all.count = keys;
        CHECK(hot_load(&stock, 1, next_rising, &all, &index, &count) == HOT_DONE && count == keys && hot_close_index(index) == HOT_DONE);
        CHECK(hot_create_with(&stock, &handle, 1) == HOT_DONE);
        for (turn = 0; turn < TURNS * keys; turn++) {
            uint64_t old = (turn - keys) * UINT64_C(0x9e3779b97f4a7c15), new = turn * UINT64_C(0x9e3779b97f4a7c15);
            CHECK(turn < keys || hot_remove(&handle, (uint8_t *)&old, 8, NULL) == HOT_REMOVED);
            CHECK(hot_insert(&handle, (uint8_t *)&new, 8, turn, NULL) == HOT_INSERTED);
        }
        CHECK(hot_destroy(&handle) == HOT_DONE);
    }
}

/* Keys of 8 bytes, 64 of a kind: by chance, numbers in a row, of one bit each, of all bits from one on, and those that differ in their last byte
 * alone. */
enum { KINDS = 5, OF_A_KIND = 64 };
static const uint8_t *few_key(int kind, uint32_t number, uint8_t *key) {
    uint64_t bits = (number + 1) * UINT64_C(0x9e3779b97f4a7c15);
    int at;
    switch (kind) {
    case 1: bits = number; break;
    case 2: bits = UINT64_C(1) << number; break;
    case 3: bits = UINT64_MAX << number; break;
    case 4: bits = UINT64_C(0x6b65796b65796b00) | (number * 37 & 255); break;
    default: break;
    }
    for (at = 0; at < 8; at++)
        key[at] = (uint8_t)(bits >> (56 - 8 * at));
    return key;
}

/* Which key of a kind comes at a turn: they rise, or fall, or are mixed. */
enum { ORDERS = 3 };
static uint32_t number_at(int order, uint32_t turn) {
    uint32_t number = turn % OF_A_KIND;
    return order == 0 ? number : order == 1 ? OF_A_KIND - 1 - number : (number * 37) % OF_A_KIND ^ 21;
}

/* So many keys of a kind come, in this order. Then for each that comes the oldest goes, and each gets a new value. At last all of them go, from the
 * newest on, and come again. */
static void come_and_go(hot_handle *handle, uint32_t keys, int kind, int order) {
    enum { TURNS = 3 * OF_A_KIND };
    uint8_t key[8];
    uint32_t turn;
    size_t count;
    for (turn = 0; turn < TURNS; turn++) {
        CHECK(turn < keys || hot_remove(handle, few_key(kind, number_at(order, turn - keys), key), 8, NULL) == HOT_REMOVED);
        CHECK(hot_insert(handle, few_key(kind, number_at(order, turn), key), 8, turn, NULL) == HOT_INSERTED);
        CHECK(hot_upsert(handle, key, 8, turn + 1, NULL) == HOT_WAS);
    }
    for (turn = TURNS; turn-- > TURNS - keys;)
        CHECK(hot_remove(handle, few_key(kind, number_at(order, turn), key), 8, NULL) == HOT_REMOVED);
    CHECK(hot_count(handle, key, 0, HOT_TO_END, &count) == HOT_DONE && count == 0);
    for (turn = TURNS; turn-- > TURNS - keys;)
        CHECK(hot_insert(handle, few_key(kind, number_at(order, turn), key), 8, turn, NULL) == HOT_INSERTED);
}

/* Loads what a handle has into an index with this stock. */
static hot_status load_again(hot_handle *handle, const hot_stock *stock) {
    uint8_t keys[8 * OF_A_KIND] = {0};
    hot_head heads[OF_A_KIND];
    hot_index *index = NULL;
    size_t count;
    uint32_t more;
    hot_status status;
    CHECK(hot_scan_packed(handle, keys, 0, HOT_TO_END, keys, sizeof keys, heads, OF_A_KIND, &count, &more) == HOT_DONE && !more);
    status = hot_load_packed(stock, 1, keys, heads, count, &index, &count);
    CHECK(hot_close_index(index) == HOT_DONE);
    return status;
}

/* It is enough for keys of all these kinds and orders; if they are 32 or fewer, also where they are loaded. */
static void test_few_of_all_kinds(void) {
    uint32_t keys;
    int kind, order;
    for (keys = 1; keys <= OF_A_KIND; keys++)
        for (kind = 0; kind < KINDS; kind++)
            for (order = 0; order < ORDERS; order++) {
                hot_handle handle = HOT_HANDLE;
                hot_stock stock;
                hot_stock_for_keys(keys, 8, &stock);
                CHECK(hot_create_with(&stock, &handle, 1) == HOT_DONE);
                come_and_go(&handle, keys, kind, order);
                CHECK(keys > 32 || load_again(&handle, &stock) == HOT_DONE);
                CHECK(hot_destroy(&handle) == HOT_DONE);
            }
}

/* How many leaves of each size are in use. */
static void count_leaves(hot_handle *handle, uint32_t live[5]) {
    hot_counts counts;
    CHECK(hot_census(handle, &counts) == HOT_DONE);
    live[0] = counts.short_leaves.live;
    live[1] = counts.medium_leaves.live;
    live[2] = counts.large_leaves.live;
    live[3] = counts.wide_leaves.live;
    live[4] = counts.long_leaves.live;
}

/* Which leaf a key gets: of the smallest size with room for it that has a free one. Each row is a key that begins with this byte and has
 * so many bytes, all others 0; it is inserted and takes a leaf of this size, or finds none, or it is removed and gives one back. */
static void test_sizes(void) {
    enum size { SHORT, MEDIUM, LARGE, WIDE, LONG, NONE, GIVES_BACK };
    static const struct {
        uint8_t first;
        size_t length;
        enum size size;
    } rows[] = {
        {1, 8, SHORT},   {2, 9, MEDIUM},   {3, 24, MEDIUM}, {4, 25, LARGE},  {5, 56, LARGE},      {6, 57, WIDE},
        {7, 88, WIDE},   {8, 89, LONG},    {9, 240, LONG},  {10, 1, SHORT},  {11, 3, SHORT},      {12, 1, NONE},
        {13, 89, NONE},  {9, 240, GIVES_BACK}, {14, 1, LONG}, {15, 2, NONE},   {1, 8, GIVES_BACK},  {16, 89, NONE},
        {17, 9, NONE},   {18, 2, SHORT},   {6, 57, GIVES_BACK}, {2, 9, GIVES_BACK}, {19, 4, MEDIUM}, {20, 4, WIDE},
    };
    static const hot_stock stock = {60, 3, 2, 2, 2, 2};
    hot_handle handle = HOT_HANDLE;
    size_t row;
    CHECK(hot_create_with(&stock, &handle, 1) == HOT_DONE);
    for (row = 0; row < sizeof rows / sizeof rows[0]; row++) {
        uint8_t key[HOT_MAX_KEY] = {0};
        uint32_t before[5], after[5], nodes, leaves;
        uint64_t had = 0;
        int size;
        key[0] = rows[row].first;
        count_leaves(&handle, before);
        if (rows[row].size == GIVES_BACK) {
            CHECK(hot_try_remove(&handle, key, rows[row].length, &had) == HOT_REMOVED);
            CHECK(hot_collect(&handle, &nodes, &leaves) == HOT_DONE && leaves == 1);
            continue;
        }
        CHECK(hot_try_insert(&handle, key, rows[row].length, 7, &had) == (rows[row].size == NONE ? HOT_FULL_LEAVES : HOT_INSERTED));
        count_leaves(&handle, after);
        for (size = 0; size < 5; size++)
            CHECK(after[size] == before[size] + (size == (int)rows[row].size));
    }
    CHECK(hot_destroy(&handle) == HOT_DONE);
}

/* Once a handle has found all leaves full, its next keys take the smallest ones that another handle's removals have freed. */
static void test_size_of_another(void) {
    static const hot_stock stock = {60, 3, 1, 0, 0, 0};
    static const char *const keys[4] = {"a", "b", "c", "d"};
    hot_handle handles[2] = {HOT_HANDLE, HOT_HANDLE};
    uint32_t live[5], place;
    uint64_t had;
    CHECK(hot_create_with(&stock, handles, 2) == HOT_DONE);
    for (place = 0; place < 4; place++)
        CHECK(hot_try_insert(&handles[0], bytes(keys[place]), 1, 1, &had) == HOT_INSERTED);
    for (place = 0; place < 4; place++)
        CHECK(place == 2 || hot_try_remove(&handles[1], bytes(keys[place]), 1, &had) == HOT_REMOVED);
    CHECK(hot_try_insert(&handles[0], bytes("e"), 1, 1, &had) == HOT_INSERTED && hot_try_insert(&handles[0], bytes("f"), 1, 1, &had) == HOT_INSERTED);
    count_leaves(&handles[0], live);
    CHECK(live[0] == 3 && live[1] == 0);
    CHECK(hot_destroy(&handles[0]) == HOT_DONE && hot_destroy(&handles[1]) == HOT_DONE);
}

/* Keys that one handle takes out and puts in again: no call is refused. Returns whether small rounds were enough. A full round would give
 * back what the other handle has retired, the one leaf for 24 bytes that is not in use; and no more leaves are kept back than make the
 * next round due. */
#define STEADY 100000
#define DUE 32
static int are_small_rounds(hot_handle handles[2], uint32_t calls) {
    hot_counts counts;
    uint32_t i, others = 0;
    uint64_t had;
    for (i = 0; i < calls; i++) {
        uint64_t key = i * UINT64_C(7919) % STEADY;
        CHECK(hot_try_remove(&handles[0], (uint8_t *)&key, sizeof key, &had) == HOT_REMOVED);
        CHECK(hot_try_insert(&handles[0], (uint8_t *)&key, sizeof key, i, &had) == HOT_INSERTED);
        if (i % 1000 == 999) {
            CHECK(hot_census(&handles[0], &counts) == HOT_DONE);
            others += !are(counts.medium_leaves, 0, 0, 1, 1) || counts.short_leaves.live != STEADY || counts.short_leaves.obsolete > DUE;
        }
    }
    return others == 0;
}

/* Retires a leaf record for 24 bytes by a handle that has one in use, so that none of two is free. */
static void retire_another(hot_handle *handle) {
    uint64_t had;
    CHECK(hot_try_remove(handle, bytes("of another size"), 15, &had) == HOT_REMOVED);
    CHECK(hot_try_insert(handle, bytes("of another size"), 15, 2, &had) == HOT_INSERTED);
}

/* Small rounds are enough where as many leaves are to spare as a handle retires records between two of them. With two leaves they are
 * not, until a change has found no leaf free: then they come sooner. */
static void test_small_rounds(void) {
    uint32_t spare;
    for (spare = 2; spare <= DUE; spare += DUE - 2) {
        hot_stock stock = {STEADY / 8, STEADY + spare, 2, 0, 0, 0};
        hot_handle handles[2] = {HOT_HANDLE, HOT_HANDLE};
        uint64_t key, had;
        CHECK(hot_create_with(&stock, handles, 2) == HOT_DONE);
        for (key = 0; key < STEADY; key++)
            CHECK(hot_try_insert(&handles[0], (uint8_t *)&key, sizeof key, key, &had) == HOT_INSERTED);
        CHECK(hot_try_insert(&handles[1], bytes("of another size"), 15, 1, &had) == HOT_INSERTED);
        retire_another(&handles[1]);
        CHECK(are_small_rounds(handles, spare == DUE ? 500000 : 2000) == (spare == DUE));
        if (spare < DUE) {
            retire_another(&handles[1]);
            CHECK(are_small_rounds(handles, 20000));
        }
        CHECK(hot_destroy(&handles[0]) == HOT_DONE && hot_destroy(&handles[1]) == HOT_DONE);
    }
}

/* One handle puts keys in, and another takes them out: what the second gives back the first finds again. */
static void test_queue(void) {
    enum { QUEUE = 2000, THROUGH = 60000 };
    hot_handle handles[2] = {HOT_HANDLE, HOT_HANDLE};
    hot_index *index = NULL;
    hot_memory filled, last;
    hot_stock stock;
    uint64_t i, key;
    hot_stock_for_keys(QUEUE + THROUGH, sizeof key, &stock);
    CHECK(hot_open_index(&stock, 2, &index) == HOT_DONE);
    CHECK(hot_open(index, &handles[0]) == HOT_DONE && hot_open(index, &handles[1]) == HOT_DONE);
    for (i = 0; i < QUEUE + THROUGH; i++) {
        if (i == QUEUE)
            hot_bytes(index, &filled);
        if (i >= QUEUE) {
            key = (i - QUEUE) * UINT64_C(0x9e3779b97f4a7c15);
            CHECK(hot_remove(&handles[1], (uint8_t *)&key, sizeof key, NULL) == HOT_REMOVED);
        }
        key = i * UINT64_C(0x9e3779b97f4a7c15);
        CHECK(hot_insert(&handles[0], (uint8_t *)&key, sizeof key, i, NULL) == HOT_INSERTED);
    }
    hot_bytes(index, &last);
    CHECK(last.now < 3 * filled.now);
    CHECK(hot_close(&handles[0]) == HOT_DONE && hot_close(&handles[1]) == HOT_DONE && hot_close_index(index) == HOT_DONE);
}

/* What an index takes of memory, and one that may take no more. */
static void test_bytes(void) {
    static const hot_stock stock = {20, 40, 0, 0, 0, 10};
    hot_index *index = NULL;
    hot_handle handle = HOT_HANDLE;
    hot_memory made, opened;
    size_t table;
    CHECK(hot_stock_bytes(&stock, 3, &table) == HOT_DONE);
    CHECK(hot_open_index_within(&stock, 3, table - 1, &index) == HOT_NO_MEMORY && index == NULL);
    CHECK(hot_open_index_within(&stock, 1025, table, &index) == HOT_OUT_OF_RANGE && index == NULL);
    CHECK(hot_open_index_within(&stock, 3, table, &index) == HOT_DONE);
    hot_bytes(index, &made);
    CHECK(made.now >= table && made.most > made.now);
    CHECK(hot_open(index, &handle) == HOT_DONE && hot_close(&handle) == HOT_DONE);
    hot_bytes(index, &opened);
    CHECK(opened.now > made.now && opened.most == made.most);
    CHECK(hot_close_index(index) == HOT_DONE);
}

/* Insertions read nothing behind a table. Here memory stands there that was written, and may not be read any more. The table gets addresses
 * such that it ends a page before 2 MiB do. */
static void test_behind(void) {
    enum { PAGE = 4096, HUGE = 2 << 20, FREE = 128 << 20 };
    hot_handle handle = HOT_HANDLE;
    hot_index *index = NULL;
    hot_stock stock = {20000, 400000, 0, 0, 0, 0};
    size_t size = 0, length;
    char *room = mmap(NULL, FREE, PROT_NONE, MAP_PRIVATE | MAP_ANONYMOUS | MAP_NORESERVE, -1, 0), *begin, *mine;
    uint32_t number;
    CHECK(hot_stock_bytes(&stock, 1, &size) == HOT_DONE && room != MAP_FAILED);
    size = (size + PAGE) / PAGE * PAGE; /* with what stands before a table */
    length = size + HUGE - PAGE;
    begin = (char *)((size_t)(room + FREE - 2 * HUGE) / HUGE * HUGE + (2 * size - PAGE) % HUGE);
    CHECK(munmap(room, (size_t)(begin - room)) == 0);
    CHECK(hot_open_index(&stock, 1, &index) == HOT_DONE && hot_open(index, &handle) == HOT_DONE);
    mine = mmap(NULL, length, PROT_READ | PROT_WRITE, MAP_PRIVATE | MAP_ANONYMOUS, -1, 0);
    CHECK(mine != MAP_FAILED);
    memset(mine, 1, length);
    CHECK(mprotect(mine, length, PROT_NONE) == 0);
    for (number = 0; number < 10000; number++)
        CHECK(hot_insert(&handle, (uint8_t *)&number, 4, number, NULL) == HOT_INSERTED);
    CHECK(munmap(mine, length) == 0);
    CHECK(hot_close(&handle) == HOT_DONE && hot_close_index(index) == HOT_DONE);
}

int main(void) {
    alarm(900); /* a call that never returns ends the test */
    test_census();
    test_small_rounds();
    test_queue();
    test_full();
    test_filled();
    test_emptied();
    test_stock();
    test_stock_sizes();
    test_any_keys();
    test_few_bits();
    test_few_keys();
    test_few_of_all_kinds();
    test_sizes();
    test_size_of_another();
    test_bytes();
    test_behind();
    puts(failures ? "c/tests/records.c failed" : "passed: c/tests/records.c");
    return failures;
}

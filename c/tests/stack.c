/* Tests of how much stack calls take: each call of hot.h, the first time and later, in a thread whose stack is painted before. None takes
 * more than hot.h says, the thread's own part included. It writes a line for each, as bench/room.py reads them. */
#define _GNU_SOURCE
#include "hot.h"
#include "check.h"
#include <pthread.h>
#include <stdlib.h>
#include <string.h>
#include <sys/mman.h>

/* What hot.h says, how much a thread has here so that one that takes more ends, too, and what is painted. */
enum { SAID = 48 << 10, HAD = 1 << 20, PAINT = 0x5a };

enum { KEYS = 20000, LOADED = 2000, HANDLES = 8, PAIRS = 200 };

/* What calls read and write. */
static struct {
    hot_stock stock;
    hot_index *index, *loaded, *within, *growing;
    hot_handle few[HANDLES], handle, other, copy, grown;
    uint8_t key[HOT_MAX_KEY], next[HOT_MAX_KEY], bytes[PAIRS * HOT_MAX_KEY];
    size_t length, count, next_length, lengths[PAIRS];
    uint64_t had, values[PAIRS];
    uint32_t more, nodes, leaves;
    uint16_t number;
    hot_pair pairs[PAIRS];
    hot_head heads[PAIRS];
    hot_lookup lookups[PAIRS];
    hot_status statuses[PAIRS];
    hot_counts counts;
    hot_moment moment;
    hot_retirement retirement;
    hot_refusals refusals;
    hot_memory memory;
    hot_waits waits;
    hot_cursor cursor;
    const uint8_t *at;
} it;

/* The key of a turn: of 8 to HOT_MAX_KEY bytes, of which the first and the last are by chance. */
static void write_key(size_t turn) {
    uint64_t x = turn * 2862933555777941757u + 3037000493u;
    size_t place;
    it.length = 8 + turn % (HOT_MAX_KEY - 7);
    memset(it.key, (int)(turn & 255), it.length);
    for (place = 0; place < 3; place++)
        it.key[place] = (uint8_t)(x >> (8 * place + 40) & 15);
    it.key[it.length - 1] = (uint8_t)x;
    it.key[it.length - 2] = (uint8_t)(x >> 8);
}

/* The pairs of a load. */
static int write_next(void *context, const uint8_t **key, size_t *length, uint64_t *value) {
    size_t *turn = context;
    if (*turn == LOADED)
        return 0;
    memset(it.key, 7, sizeof it.key);
    it.key[0] = (uint8_t)(*turn >> 8);
    it.key[1] = (uint8_t)*turn;
    *key = it.key;
    *length = sizeof it.key;
    *value = (*turn)++;
    return 1;
}

static int visit(void *context, const hot_pair *pair) {
    return context == NULL && pair->length > 0;
}

/* The value before. */
static int change(void *context, uint64_t *value) {
    --*value;
    return context == NULL;
}

/* Writes the keys of some turns for look-ups of many keys, one after another. */
static void write_keys(size_t turn) {
    uint8_t *at = it.bytes;
    size_t place;
    for (place = 0; place < PAIRS; place++, at += it.length) {
        write_key(turn + place);
        memcpy(at, it.key, it.length);
        it.lookups[place].key = at;
        it.lookups[place].length = it.lengths[place] = it.length;
    }
}

#define KEY it.key, it.length
#define ALL it.key, 0, HOT_TO_END

/* The calls, how often each is made, and with which key; in this order they come out as stands here. */
#define CALLS                                                                                                                      \
    CALL(1, hot_version() != 0)                                                                                                    \
    CALL(1, hot_status_text(HOT_DONE) != NULL)                                                                                     \
    CALL(1, (hot_stock_for_any_keys(KEYS, HOT_MAX_KEY, 64, &it.stock), 1))                                                         \
    CALL(1, (hot_stock_for_lengths((const uint32_t[]){1, 2, 3, 4, 5}, &it.stock), 1))                                              \
    CALL(1, (hot_stock_for_keys(KEYS, HOT_MAX_KEY, &it.stock), 1))                                                                 \
    CALL(1, hot_stock_bytes(&it.stock, 64, &it.count) == HOT_DONE)                                                                 \
    CALL(1, hot_create(1000, 1000, it.few, HANDLES) == HOT_DONE)                                                                   \
    CALL(HANDLES, hot_destroy(&it.few[turn]) == HOT_DONE)                                                                          \
    CALL(1, hot_create_with(&it.stock, it.few, HANDLES) == HOT_DONE)                                                               \
    CALL(HANDLES, hot_close(&it.few[turn]) == HOT_DONE)                                                                            \
    CALL(1, hot_open_index(&it.stock, HANDLES, &it.index) == HOT_DONE)                                                             \
    CALL(1, hot_open(it.index, &it.handle) == HOT_DONE)                                                                            \
    CALL(1, hot_open(it.index, &it.other) == HOT_DONE)                                                                             \
    CALL(2, hot_stamp(&it.handle, &it.moment) == HOT_DONE)                                                                         \
    CALL(2, hot_follow(&it.other, &it.moment) == HOT_DONE)                                                                         \
    CALL(2, hot_meet(&it.handle, &it.other) == HOT_DONE)                                                                           \
    CALL(2, hot_number(&it.handle, &it.number) == HOT_DONE)                                                                        \
    CALL(KEYS / 2, hot_try_insert(&it.handle, KEY, turn, NULL) == HOT_INSERTED)                                                    \
    CALL(KEYS, hot_insert(&it.handle, KEY, turn, &it.had) == (turn < KEYS / 2 ? HOT_EXISTS : HOT_INSERTED))                        \
    CALL(KEYS, hot_get(&it.handle, KEY, &it.had) == HOT_FOUND && it.had == turn)                                                   \
    CALL(2, (write_keys(turn), hot_get_many(&it.handle, it.lookups, PAIRS)) == HOT_DONE)                                           \
    CALL(KEYS, hot_try_upsert(&it.handle, KEY, turn + 1, NULL) == HOT_WAS)                                                         \
    CALL(KEYS, hot_upsert(&it.handle, KEY, turn, NULL) == HOT_WAS)                                                                 \
    CALL(KEYS, hot_try_exchange(&it.handle, KEY, turn, turn + 1, NULL) == HOT_EXCHANGED)                                           \
    CALL(KEYS, hot_exchange(&it.handle, KEY, turn + 1, turn, NULL) == HOT_EXCHANGED)                                               \
    CALL(KEYS, hot_try_add(&it.handle, KEY, 1, NULL) == HOT_WAS)                                                                   \
    CALL(KEYS, hot_add(&it.handle, KEY, 1, NULL) == HOT_WAS)                                                                       \
    CALL(KEYS, hot_add_or_insert(&it.handle, KEY, 1, NULL) == HOT_WAS)                                                             \
    CALL(KEYS, hot_update(&it.handle, KEY, change, NULL, NULL) == HOT_WAS)                                                         \
    CALL(2, hot_scan(&it.handle, ALL, it.pairs, PAIRS, &it.count, &it.more) == HOT_DONE && it.more)                                \
    CALL(2, hot_scan_reverse(&it.handle, ALL, it.pairs, PAIRS, &it.count, &it.more) == HOT_DONE && it.more)                        \
    CALL(2, hot_scan_last(&it.handle, ALL, it.pairs, PAIRS, &it.count, &it.more) == HOT_DONE && it.more)                           \
    CALL(2, hot_scan_prefix(&it.handle, it.key, 0, NULL, 0, it.pairs, PAIRS, &it.count, &it.more) == HOT_DONE)                     \
    CALL(2, hot_scan_prefix_reverse(&it.handle, it.key, 0, NULL, 0, it.pairs, PAIRS, &it.count, &it.more) == HOT_DONE)             \
    CALL(2, hot_scan_values(&it.handle, ALL, it.values, PAIRS, &it.count, &it.more) == HOT_DONE && it.more)                        \
    CALL(2, hot_scan_packed_reverse(&it.handle, ALL, it.bytes, sizeof it.bytes, it.heads, PAIRS, &it.count, &it.more) == HOT_DONE) \
    CALL(2, hot_scan_packed(&it.handle, ALL, it.bytes, sizeof it.bytes, it.heads, PAIRS, &it.count, &it.more) == HOT_DONE)         \
    CALL(1, hot_load_packed(&it.stock, 2, it.bytes, it.heads, PAIRS, &it.loaded, &it.count) == HOT_DONE && it.count == PAIRS)      \
    CALL(1, hot_close_index(it.loaded) == HOT_DONE)                                                                                \
    CALL(1, hot_load(&it.stock, 2, write_next, &turn, &it.loaded, &it.count) == HOT_DONE && it.count == LOADED)                    \
    CALL(2, (write_keys(turn), hot_get_packed(&it.handle, it.bytes, it.lengths, PAIRS, it.values, it.statuses)) == HOT_DONE)       \
    CALL(1, hot_open(it.loaded, &it.copy) == HOT_DONE)                                                                             \
    CALL(2, hot_copy(&it.copy, &it.handle) == HOT_DONE)                                                                            \
    CALL(2, hot_each(&it.handle, ALL, visit, NULL) == HOT_DONE)                                                                    \
    CALL(2, hot_each_reverse(&it.handle, ALL, visit, NULL) == HOT_DONE)                                                            \
    CALL(2, hot_each_prefix(&it.handle, it.key, 0, visit, NULL) == HOT_DONE)                                                       \
    CALL(2, hot_each_prefix_reverse(&it.handle, it.key, 0, visit, NULL) == HOT_DONE)                                               \
    CALL(2, hot_seek(&it.cursor, &it.handle, it.key, 0) == HOT_DONE)                                                               \
    CALL(KEYS, hot_next(&it.cursor, &it.at, &it.next_length, &it.had) == HOT_FOUND)                                                \
    CALL(KEYS - 1, hot_previous(&it.cursor, &it.at, &it.next_length, &it.had) == HOT_FOUND)                                        \
    CALL(2, hot_count(&it.handle, ALL, &it.count) == HOT_DONE && it.count == KEYS + LOADED)                                        \
    CALL(2, hot_count_prefix(&it.handle, it.key, 0, &it.count) == HOT_DONE && it.count == KEYS + LOADED)                           \
    CALL(2, hot_first(&it.handle, it.key, 0, it.pairs) == HOT_FOUND)                                                               \
    CALL(2, hot_last(&it.handle, HOT_TO_END, it.pairs) == HOT_FOUND)                                                               \
    CALL(2, hot_after(KEY, it.next, &it.next_length) == HOT_DONE)                                                                  \
    CALL(2, hot_before(KEY, it.next, &it.next_length) == HOT_DONE)                                                                 \
    CALL(2, hot_len(&it.handle, &it.count) == HOT_DONE && it.count == KEYS + LOADED)                                               \
    CALL(2, hot_census(&it.handle, &it.counts) == HOT_DONE)                                                                        \
    CALL(2, (hot_stats(it.index, &it.refusals), 1))                                                                                \
    CALL(20, hot_wait(HOT_BUSY, &it.waits) == 1)                                                                                   \
    CALL(1, hot_enter(&it.handle) == HOT_DONE)                                                                                     \
    CALL(1, hot_leave(&it.handle) == HOT_DONE)                                                                                     \
    CALL(2, hot_retired(&it.handle, &it.retirement) == HOT_DONE)                                                                   \
    CALL(2, hot_is_past(&it.handle, &it.retirement) == HOT_DONE)                                                                   \
    CALL(KEYS / 4, hot_try_remove(&it.handle, KEY, NULL) == HOT_REMOVED)                                                           \
    CALL(KEYS / 2, hot_remove(&it.handle, KEY, NULL) == (turn < KEYS / 4 ? HOT_ABSENT : HOT_REMOVED))                              \
    CALL(KEYS * 5 / 8, hot_try_remove_if(&it.handle, KEY, turn + 2, NULL) == (turn < KEYS / 2 ? HOT_ABSENT : HOT_REMOVED))         \
    CALL(KEYS * 3 / 4, hot_remove_if(&it.handle, KEY, turn + 2, NULL) == (turn < KEYS * 5 / 8 ? HOT_ABSENT : HOT_REMOVED))         \
    CALL(LOADED, hot_pop_first(&it.handle, ALL, it.pairs) == HOT_REMOVED)                                                          \
    CALL(LOADED, hot_pop_last(&it.handle, ALL, it.pairs) == HOT_REMOVED)                                                           \
    CALL(1, hot_clear_range(&it.handle, it.key, 0, it.key, 1) == HOT_DONE)                                                         \
    CALL(2, hot_clear(&it.handle) == HOT_DONE)                                                                                     \
    CALL(2, hot_collect(&it.handle, &it.nodes, &it.leaves) == HOT_DONE)                                                            \
    CALL(1, hot_close(&it.copy) == HOT_DONE)                                                                                       \
    CALL(1, hot_open(it.loaded, &it.copy) == HOT_DONE)                                                                             \
    CALL(2, (hot_bytes(it.index, &it.memory), 1))                                                                                  \
    CALL(1, hot_open_index_within(&it.stock, 2, SIZE_MAX, &it.within) == HOT_DONE)                                                 \
    CALL(1, hot_open_growing(NULL, SIZE_MAX, 4, &it.growing) == HOT_DONE)                                                          \
    CALL(1, hot_open(it.growing, &it.grown) == HOT_DONE)                                                                           \
    CALL(KEYS, hot_insert(&it.grown, KEY, turn, NULL) == HOT_INSERTED)                                                             \
    CALL(2, hot_is_filling(it.growing) <= 1)                                                                                       \
    CALL(2, hot_grow(it.growing) == HOT_DONE)                                                                                      \
    CALL(1, hot_grow_begin(it.growing) == HOT_DONE)                                                                                \
    CALL(2, hot_grow_step(it.growing, &it.more) == HOT_DONE)                                                                     \
    CALL(1, hot_close(&it.grown) == HOT_DONE)                                                                                      \
    CALL(2, hot_trim(it.growing) == HOT_DONE)                                                                                      \
    CALL(1, hot_close_index(it.growing) == HOT_DONE)                                                                               \
    CALL(1, hot_load_growing(SIZE_MAX, 2, write_next, &turn, &it.growing, &it.count) == HOT_DONE && it.count == LOADED)

/* The calls as text, and how often each is made. */
static const struct {
    const char *text;
    size_t times;
} calls[] = {
#define CALL(times, made) {#made, times},
    CALLS
#undef CALL
};

/* Makes the call of this number, and returns whether it came out so; 1, if there is none. */
static int make(size_t number, size_t turn) {
    size_t place = 0;
#define CALL(times, made)  \
    if (place++ == number) \
        return made;
    CALLS
#undef CALL
    return 1;
}

/* Makes a call as often as it is to be made. */
static void *run(void *context) {
    size_t number = *(size_t *)context, turn;
    for (turn = 0; turn < (number < sizeof calls / sizeof calls[0] ? calls[number].times : 1); turn++) {
        write_key(turn);
        if (!make(number, turn)) {
            fprintf(stderr, "stack.c: not so: turn %d of %s\n", (int)turn, calls[number].text);
            failures = 1;
            break;
        }
    }
    return NULL;
}

/* How many bytes of its stack a thread takes that makes the call of this number. */
static size_t taken(size_t number) {
    uint8_t *stack = mmap(NULL, HAD, PROT_READ | PROT_WRITE, MAP_PRIVATE | MAP_ANONYMOUS, -1, 0);
    pthread_attr_t attributes;
    pthread_t thread;
    size_t unused = 0;
    CHECK(stack != MAP_FAILED);
    memset(stack, PAINT, HAD);
    CHECK(pthread_attr_init(&attributes) == 0 && pthread_attr_setstack(&attributes, stack, HAD) == 0);
    CHECK(pthread_create(&thread, &attributes, run, &number) == 0 && pthread_join(thread, NULL) == 0);
    CHECK(pthread_attr_destroy(&attributes) == 0);
    while (unused < HAD && stack[unused] == PAINT)
        unused++;
    CHECK(munmap(stack, HAD) == 0);
    return HAD - unused;
}

int main(void) {
    size_t number, count = sizeof calls / sizeof calls[0], own = taken(count);
    for (number = 0; number < count; number++) {
        const char *name = strstr(calls[number].text, "hot_");
        size_t all = taken(number);
        printf("%.*s\t\t%d\t%d\n", (int)strcspn(name, "("), name, (int)calls[number].times, (int)(all - own));
        if (all > SAID) {
            fprintf(stderr, "stack.c: a thread takes %d bytes of stack: %s\n", (int)all, calls[number].text);
            failures = 1;
        }
    }
    CHECK(hot_close(&it.copy) == HOT_DONE && hot_close(&it.other) == HOT_DONE && hot_close(&it.handle) == HOT_DONE);
    CHECK(hot_close_index(it.index) == HOT_DONE && hot_close_index(it.loaded) == HOT_DONE);
    CHECK(hot_close_index(it.within) == HOT_DONE && hot_close_index(it.growing) == HOT_DONE);
    return failures;
}

/* Tests of closed handles: each call of hot.h, with a handle that was closed in each way that there is, returns HOT_CLOSED and writes
 * nothing. c/run runs it under valgrind, too, since such a call must not read what the index had. */
#include "hot.h"
#include "check.h"
#include <pthread.h>
#include <string.h>

/* What calls write to. */
typedef struct room {
    uint64_t value;
    size_t count;
    uint32_t more, nodes, leaves;
    uint16_t number;
    uint8_t key[HOT_MAX_KEY];
    hot_status status;
    hot_pair pair;
    hot_head head;
    hot_lookup lookup;
    hot_counts counts;
    hot_moment moment;
    hot_retirement retirement;
    const uint8_t *at;
    hot_cursor cursor;
    int visits;
} room;

static const uint8_t key[1] = {'a'};

static int visit(void *context, const hot_pair *pair) {
    room *to = context;
    to->visits++;
    return pair->length > 0;
}

static int change(void *context, uint64_t *value) {
    room *to = context;
    to->visits++;
    return *value > 0;
}

/* An open handle of another index, for the calls that take two. */
static hot_handle open_handle = HOT_HANDLE;

/* The calls, each with a closed handle. Those that take two have it in either place, and in both. */
#define CALLS                                                                                  \
    CALL(hot_close(closed))                                                                    \
    CALL(hot_destroy(closed))                                                                  \
    CALL(hot_meet(closed, closed))                                                             \
    CALL(hot_meet(closed, &open_handle))                                                       \
    CALL(hot_meet(&open_handle, closed))                                                       \
    CALL(hot_stamp(closed, &to->moment))                                                       \
    CALL(hot_follow(closed, &to->moment))                                                      \
    CALL(hot_number(closed, &to->number))                                                      \
    CALL(hot_get(closed, key, 1, &to->value))                                                  \
    CALL(hot_get_many(closed, &to->lookup, 1))                                                 \
    CALL(hot_get_packed(closed, key, one, 1, &to->value, &to->status))                         \
    CALL(hot_try_insert(closed, key, 1, 1, &to->value))                                        \
    CALL(hot_try_upsert(closed, key, 1, 1, &to->value))                                        \
    CALL(hot_try_exchange(closed, key, 1, 1, 2, &to->value))                                   \
    CALL(hot_try_add(closed, key, 1, 1, &to->value))                                           \
    CALL(hot_try_remove(closed, key, 1, &to->value))                                           \
    CALL(hot_try_remove_if(closed, key, 1, 1, &to->value))                                     \
    CALL(hot_insert(closed, key, 1, 1, &to->value))                                            \
    CALL(hot_upsert(closed, key, 1, 1, &to->value))                                            \
    CALL(hot_remove(closed, key, 1, &to->value))                                               \
    CALL(hot_exchange(closed, key, 1, 1, 2, &to->value))                                       \
    CALL(hot_add(closed, key, 1, 1, &to->value))                                               \
    CALL(hot_remove_if(closed, key, 1, 1, &to->value))                                         \
    CALL(hot_add_or_insert(closed, key, 1, 1, &to->value))                                     \
    CALL(hot_update(closed, key, 1, change, to, &to->value))                                   \
    CALL(hot_clear(closed))                                                                    \
    CALL(hot_clear_range(closed, key, 1, key, 1))                                              \
    CALL(hot_pop_first(closed, key, 1, key, 1, &to->pair))                                     \
    CALL(hot_pop_last(closed, key, 1, key, 1, &to->pair))                                      \
    CALL(hot_copy(closed, closed))                                                             \
    CALL(hot_copy(closed, &open_handle))                                                       \
    CALL(hot_copy(&open_handle, closed))                                                       \
    CALL(hot_scan(closed, key, 1, key, 1, &to->pair, 1, &to->count, &to->more))                \
    CALL(hot_scan_reverse(closed, key, 1, key, 1, &to->pair, 1, &to->count, &to->more))        \
    CALL(hot_scan_last(closed, key, 1, key, 1, &to->pair, 1, &to->count, &to->more))           \
    CALL(hot_scan_prefix(closed, key, 1, NULL, 0, &to->pair, 1, &to->count, &to->more))        \
    CALL(hot_scan_prefix(closed, key, 1, key, 1, &to->pair, 1, &to->count, &to->more))         \
    CALL(hot_scan_prefix_reverse(closed, key, 1, NULL, 0, &to->pair, 1, &to->count, &to->more)) \
    CALL(hot_scan_prefix_reverse(closed, key, 1, key, 1, &to->pair, 1, &to->count, &to->more))  \
    CALL(hot_scan_packed(closed, key, 1, key, 1, to->key, 1, &to->head, 1, &to->count, &to->more))         \
    CALL(hot_scan_packed_reverse(closed, key, 1, key, 1, to->key, 1, &to->head, 1, &to->count, &to->more)) \
    CALL(hot_each(closed, key, 1, key, 1, visit, to))                                          \
    CALL(hot_each_reverse(closed, key, 1, key, 1, visit, to))                                  \
    CALL(hot_each_prefix(closed, key, 1, visit, to))                                           \
    CALL(hot_each_prefix_reverse(closed, key, 1, visit, to))                                   \
    CALL(hot_seek(&to->cursor, closed, key, 1))                                                \
    CALL(hot_next(&to->cursor, &to->at, &to->count, &to->value))                               \
    CALL(hot_previous(&to->cursor, &to->at, &to->count, &to->value))                           \
    CALL(hot_count(closed, key, 1, key, 1, &to->count))                                        \
    CALL(hot_count_prefix(closed, key, 1, &to->count))                                         \
    CALL(hot_scan_values(closed, key, 1, key, 1, &to->value, 1, &to->count, &to->more))        \
    CALL(hot_first(closed, key, 1, &to->pair))                                                 \
    CALL(hot_last(closed, key, 1, &to->pair))                                                  \
    CALL(hot_collect(closed, &to->nodes, &to->leaves))                                         \
    CALL(hot_census(closed, &to->counts))                                                      \
    CALL(hot_len(closed, &to->count))                                                          \
    CALL(hot_enter(closed))                                                                    \
    CALL(hot_leave(closed))                                                                    \
    CALL(hot_retired(closed, &to->retirement))                                                 \
    CALL(hot_is_past(closed, &to->retirement))

/* Makes the call of this number, and writes its text; NULL, if there is none. */
static hot_status make(size_t number, hot_handle *closed, room *to, const char **text) {
    static const size_t one[1] = {1};
    size_t turn = 0;
#define CALL(made)        \
    *text = #made;        \
    if (turn++ == number) \
        return made;
    CALLS
#undef CALL
    *text = NULL;
    return HOT_DONE;
}

/* An index whose first handle is closed. */
typedef struct scene {
    hot_index *index;
    hot_handle handles[3];
} scene;

static const hot_stock stock = {10, 10, 0, 0, 0, 0};

static void leave_zeroed(scene *it) {
    memset(it->handles, 0, sizeof it->handles);
}

static void close_the_only_one(scene *it) {
    CHECK(hot_create(10, 10, it->handles, 1) == HOT_DONE && hot_close(&it->handles[0]) == HOT_DONE);
}

static void destroy_the_only_one(scene *it) {
    CHECK(hot_create_with(&stock, it->handles, 1) == HOT_DONE && hot_destroy(&it->handles[0]) == HOT_DONE);
}

static void close_one_of_three(scene *it) {
    CHECK(hot_create(10, 10, it->handles, 3) == HOT_DONE && hot_close(&it->handles[0]) == HOT_DONE);
}

static void close_the_last(scene *it) {
    CHECK(hot_create(10, 10, it->handles, 3) == HOT_DONE);
    CHECK(hot_close(&it->handles[1]) == HOT_DONE && hot_destroy(&it->handles[2]) == HOT_DONE && hot_close(&it->handles[0]) == HOT_DONE);
}

static int close_it(void *handle, const hot_pair *pair) {
    CHECK(pair->value == 1 && hot_close(handle) == HOT_DONE);
    return 1;
}

static void close_while_pairs_are_handed_over(scene *it) {
    CHECK(hot_create(10, 10, it->handles, 1) == HOT_DONE && hot_insert(&it->handles[0], key, 1, 1, NULL) == HOT_INSERTED);
    CHECK(hot_each(&it->handles[0], key, 1, key, 1, close_it, &it->handles[0]) == HOT_DONE);
}

static void refuse_to_create(scene *it) {
    CHECK(hot_create(0, 10, it->handles, 3) == HOT_OUT_OF_RANGE && hot_create(10, 10, it->handles, 0) == HOT_OUT_OF_RANGE);
}

static void open_all(scene *it) {
    size_t place;
    CHECK(hot_open_index(&stock, 3, &it->index) == HOT_DONE);
    for (place = 0; place < 3; place++)
        CHECK(hot_open(it->index, &it->handles[place]) == HOT_DONE);
}

static void give_back_the_first(scene *it) {
    open_all(it);
    CHECK(hot_close(&it->handles[0]) == HOT_DONE);
}

static void open_no_more(scene *it) {
    CHECK(hot_open_index(&stock, 2, &it->index) == HOT_DONE);
    CHECK(hot_open(it->index, &it->handles[1]) == HOT_DONE && hot_open(it->index, &it->handles[2]) == HOT_DONE);
    CHECK(hot_open(it->index, &it->handles[0]) == HOT_NO_HANDLE);
}

/* The last handle that is opened is the one that kept the others. */
static void give_back_the_last(scene *it) {
    CHECK(hot_open_index(&stock, 1, &it->index) == HOT_DONE && hot_open(it->index, &it->handles[0]) == HOT_DONE);
    CHECK(hot_destroy(&it->handles[0]) == HOT_DONE);
}

/* Another handle has its pass then. */
static void give_to_another(scene *it) {
    CHECK(hot_open_index(&stock, 1, &it->index) == HOT_DONE && hot_open(it->index, &it->handles[0]) == HOT_DONE);
    CHECK(hot_close(&it->handles[0]) == HOT_DONE && hot_open(it->index, &it->handles[1]) == HOT_DONE);
}

static void close_with_the_index(scene *it) {
    hot_moment moment;
    CHECK(hot_open_index(&stock, 2, &it->index) == HOT_DONE && hot_open(it->index, &it->handles[0]) == HOT_DONE);
    CHECK(hot_stamp(&it->handles[0], &moment) == HOT_DONE && hot_close(&it->handles[0]) == HOT_DONE);
    CHECK(hot_close_index(it->index) == HOT_DONE);
    it->index = NULL;
}

static void open_three_that_grow(scene *it) {
    size_t place;
    CHECK(hot_open_growing(&stock, SIZE_MAX, 3, &it->index) == HOT_DONE);
    for (place = 0; place < 3; place++)
        CHECK(hot_open(it->index, &it->handles[place]) == HOT_DONE);
}

static void close_one_that_grows(scene *it) {
    open_three_that_grow(it);
    CHECK(hot_upsert(&it->handles[0], key, 1, 1, NULL) == HOT_NEW && hot_close(&it->handles[0]) == HOT_DONE);
    CHECK(hot_remove(&it->handles[1], key, 1, NULL) == HOT_REMOVED);
}

static void close_for_another_table(scene *it) {
    size_t place;
    open_three_that_grow(it);
    for (place = 0; place < 3; place++)
        CHECK(hot_close(&it->handles[place]) == HOT_DONE);
    CHECK(hot_trim(it->index) == HOT_DONE && hot_open(it->index, &it->handles[1]) == HOT_DONE);
}

static void *close_there(void *handle) {
    CHECK(hot_close(handle) == HOT_DONE);
    return NULL;
}

static void close_in_another_thread(scene *it) {
    pthread_t other;
    CHECK(hot_create(10, 10, it->handles, 1) == HOT_DONE);
    CHECK(pthread_create(&other, NULL, close_there, &it->handles[0]) == 0 && pthread_join(other, NULL) == 0);
}

static void (*const ways[])(scene *) = {
    leave_zeroed, close_the_only_one, destroy_the_only_one, close_one_of_three, close_the_last, close_while_pairs_are_handed_over, refuse_to_create,
    give_back_the_first, open_no_more, give_back_the_last, give_to_another, close_with_the_index, close_in_another_thread, close_one_that_grows,
    close_for_another_table,
};

/* Each call with the closed handle. */
static void test_calls(hot_handle *closed, size_t way) {
    size_t number;
    for (number = 0;; number++) {
        room before, after;
        const char *text;
        hot_status status;
        memset(&before, 7, sizeof before);
        before.lookup.key = key;
        before.lookup.length = 1;
        before.cursor.handle = closed; /* as if it had been put somewhere before */
        after = before;
        status = make(number, closed, &after, &text);
        if (text == NULL)
            return;
        if (status != HOT_CLOSED || memcmp(&before, &after, sizeof before) != 0) {
            fprintf(stderr, "closed.c: way %d: %s returns %d, or writes\n", (int)way, text, (int)status);
            failures = 1;
        }
    }
}

/* The handle can be opened again, by either call, and the index goes when all are closed. */
static void end(scene *it) {
    size_t place;
    for (place = 1; place < 3; place++)
        hot_close(&it->handles[place]);
    CHECK((it->index == NULL ? hot_create(10, 10, &it->handles[0], 1) : hot_open(it->index, &it->handles[0])) == HOT_DONE);
    CHECK(hot_upsert(&it->handles[0], key, 1, 1, NULL) == HOT_NEW && hot_close(&it->handles[0]) == HOT_DONE);
    CHECK(it->index == NULL || hot_close_index(it->index) == HOT_DONE);
}

int main(void) {
    size_t way;
    CHECK(hot_create(10, 10, &open_handle, 1) == HOT_DONE);
    for (way = 0; way < sizeof ways / sizeof ways[0]; way++) {
        scene it = {NULL, {HOT_HANDLE, HOT_HANDLE, HOT_HANDLE}};
        ways[way](&it);
        test_calls(&it.handles[0], way);
        end(&it);
    }
    CHECK(hot_close(&open_handle) == HOT_DONE);
    puts(failures ? "the test of closed handles failed" : "passed: each call with a closed handle");
    return failures;
}

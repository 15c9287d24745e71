/* Tests of the store, without Python: small indexes that are filled to the last record, and threads that read, change and clear at
 * once. */
#include "../native/store.h"
#include <assert.h>
#include <stdio.h>
#include <stdlib.h>
#include <string.h>
#include <unistd.h>

/* The lock by which the threads take turns. */
static pthread_mutex_t turn = PTHREAD_MUTEX_INITIALIZER;
static void *end_turn(void) {
    pthread_mutex_unlock(&turn);
    return NULL;
}
static void begin_turn(void *ended) {
    (void)ended;
    pthread_mutex_lock(&turn);
}
static const turns of_lock = {end_turn, begin_turn};

typedef struct change {
    int removes;
    size_t length;
    uint8_t key[HOT_MAX_KEY];
    uint64_t had;
} change;

static hot_status try(hot_handle *handle, void *what) {
    change *it = what;
    return it->removes ? hot_try_remove(handle, it->key, it->length, &it->had)
                       : hot_try_upsert(handle, it->key, it->length, it->length, &it->had);
}

static hot_status wait(hot_handle *handle, void *what) {
    change *it = what;
    return it->removes ? hot_remove(handle, it->key, it->length, &it->had)
                       : hot_upsert(handle, it->key, it->length, it->length, &it->had);
}

static hot_status make(store *in, change *what) {
    return store_change(in, try, wait, what);
}

/* Removes all keys, or the one that is named. */
static hot_status clear(hot_handle *handle, void *what) {
    change *it = what;
    return it ? hot_clear_range(handle, it->key, it->length, it->key, it->length) : hot_clear(handle);
}

static hot_status count_keys(hot_handle *handle, void *what) {
    return hot_len(handle, what);
}

static hot_status look_up(hot_handle *handle, void *what) {
    change *it = what;
    return hot_get(handle, it->key, it->length, &it->had);
}

static size_t count_of(store *in) {
    size_t count = 0;
    assert(store_read(in, count_keys, &count) == HOT_DONE);
    return count;
}

/* Keys of different shapes: near each other in two bytes, then chains of prefixes, then numbers with few bits set. */
static void shape(change *to, int kind, unsigned number) {
    memset(to, 0, sizeof *to);
    to->length = 8;
    if (kind == 0) {
        to->length = 2;
        to->key[0] = (uint8_t)(number * 37);
        to->key[1] = (uint8_t)(number * 37 >> 8);
    } else if (kind == 1) {
        to->length = 1 + number % HOT_MAX_KEY;
        memset(to->key, 'a' + (int)(number / HOT_MAX_KEY), to->length);
    } else {
        uint64_t word = 0;
        for (int bit = 0; bit < 4; bit++)
            word |= (uint64_t)1 << ((number * 2654435761u >> 7 * bit) % 64);
        memcpy(to->key, &word, sizeof word);
    }
}

/* Fills an index until it is refused, and empties it; each key that was put in is there, and can be removed, alone or with all
 * others. */
static void fill(uint32_t nodes, int kind, int grows) {
    enum { KEYS = 1000 };
    wanted_store wanted = {.threads = 1, .grows = grows};
    store *in;
    change it;
    unsigned count = 0;
    hot_status status = HOT_NEW;
    wanted.stock.nodes = nodes;
    wanted.stock.long_leaves = KEYS;
    assert(store_open(&wanted, &of_lock, &in) == HOT_DONE);
    for (; count < KEYS; count++) {
        shape(&it, kind, count);
        status = make(in, &it);
        if (status != HOT_NEW && status != HOT_WAS)
            break;
    }
    assert(count == KEYS || (!grows && (status == HOT_FULL_NODES || status == HOT_FULL_LEAVES)));
    for (unsigned i = 0; i < count; i++) {
        shape(&it, kind, i);
        assert(store_read(in, look_up, &it) == HOT_FOUND && it.had == it.length);
    }
    if (nodes % 2)
        assert(store_long_in_turn(in, clear, NULL) == HOT_DONE && count_of(in) == 0);
    for (unsigned i = 0; i < count; i++) {
        shape(&it, kind, i);
        it.removes = 1;
        status = make(in, &it);
        assert(status == HOT_REMOVED || status == HOT_ABSENT);
    }
    assert(count_of(in) == 0);
    store_close(in);
}

/* What is loaded is there, also in a copy, and what is refused changes nothing. */
static void load(void) {
    enum { KEYS = 500 };
    static uint8_t bytes[KEYS * HOT_MAX_KEY];
    static hot_head heads[KEYS];
    sorted_pairs pairs = {bytes, heads, KEYS};
    wanted_store grows = {.threads = 2, .grows = 1}, stays = {.threads = 1};
    store *in, *copy, *small;
    change it;
    size_t at = 0, number;
    for (size_t place = 0; place < KEYS; at += heads[place++].length) {
        heads[place] = (hot_head){(uint8_t)(2 + place % (HOT_MAX_KEY - 1)), place};
        bytes[at] = (uint8_t)(place >> 8);
        bytes[at + 1] = (uint8_t)place;
    }
    stays.stock.nodes = stays.stock.long_leaves = 200;
    assert(store_open(&grows, &of_lock, &in) == HOT_DONE && store_open(&grows, &of_lock, &copy) == HOT_DONE);
    assert(store_open(&stays, &of_lock, &small) == HOT_DONE);
    shape(&it, 0, 1);
    assert(make(small, &it) == HOT_NEW);
    assert(store_load(in, &pairs, &number) == HOT_DONE && number == KEYS && count_of(in) == KEYS);
    assert(store_copy(copy, in) == HOT_DONE && count_of(copy) == KEYS && count_of(in) == KEYS);
    for (size_t place = at = 0; place < KEYS; at += heads[place++].length) {
        it.length = heads[place].length;
        memcpy(it.key, bytes + at, it.length);
        assert(store_read(copy, look_up, &it) == HOT_FOUND && it.had == place);
    }
    assert(store_load(small, &pairs, &number) == HOT_FULL_LEAVES && number == 200 && count_of(small) == 1);
    assert(store_copy(small, in) == HOT_FULL_LEAVES && count_of(small) == 1);
    bytes[0] = 9;
    assert(store_load(copy, &pairs, &number) == HOT_NOT_RISING && number == 1 && count_of(copy) == KEYS);
    store_close(in), store_close(copy), store_close(small);
}

enum { THREADS = 6, TURNS = 3000 };
static store *shared;

/* Each thread has keys of its own: it knows what is there of them, unless somebody clears the store. */
static void *work(void *place) {
    unsigned own = (unsigned)(uintptr_t)place;
    change it;
    for (unsigned i = 0; i < TURNS; i++) {
        begin_turn(NULL);
        shape(&it, 2, i * THREADS + own);
        it.length = i % 5 ? 8 : 100;
        it.removes = i % 3 == 2;
        hot_status status = make(shared, &it);
        assert(status == HOT_NEW || status == HOT_WAS || status == HOT_REMOVED || status == HOT_ABSENT);
        if (i % 50 == 49)
            assert(store_long_in_turn(shared, clear, &it) == HOT_DONE);
        if (own == 0 && i % 500 == 499)
            assert(store_clear(shared) == HOT_DONE);
        end_turn();
        for (int tries = 0; tries < 3; tries++) {
            status = store_long(shared, look_up, &it);
            assert(status == HOT_FOUND || status == HOT_ABSENT);
        }
    }
    return NULL;
}

/* Fewer handles than threads. */
static void together(void) {
    pthread_t threads[THREADS];
    wanted_store wanted = {.threads = 2, .grows = 1};
    assert(store_open(&wanted, &of_lock, &shared) == HOT_DONE);
    for (uintptr_t i = 0; i < THREADS; i++)
        pthread_create(&threads[i], NULL, work, (void *)i);
    for (int i = 0; i < THREADS; i++)
        pthread_join(threads[i], NULL);
    store_close(shared);
}

int main(int count, char **words) {
    (void)words;
    alarm(600); /* a call that never returns ends the program */
    wanted_store wanted = {.threads = MOST_THREADS + 1};
    store *none;
    assert(store_open(&wanted, &of_lock, &none) == HOT_OUT_OF_RANGE);
    begin_turn(NULL);
    for (uint32_t nodes = 1; nodes <= 100 && count == 1; nodes++)
        for (int kind = 0; kind < 3; kind++)
            for (int grows = 0; grows <= (nodes % 10 == 1); grows++)
                fill(nodes, kind, grows);
    load();
    end_turn();
    together();
    puts("the store passed");
}

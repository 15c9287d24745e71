/* Tests of sections: their statuses, what holds a moment back, and threads that read what values point to while others replace it, take it
 * out, and give it up once no reader has it. */
#include "hot.h"
#ifdef IS_TOLD
#include "hot_tsan.h"
#endif
#include "check.h"
#include <pthread.h>
#include <sched.h>
#include <string.h>
#include <unistd.h>

static const hot_stock stock = {100, 100, 0, 0, 0, 0};

/* Sections that are entered and left, twice too, a handle that is closed inside its section, and a moment of another index. */
static void test_statuses(void) {
    hot_handle handles[2] = {HOT_HANDLE, HOT_HANDLE}, other = HOT_HANDLE;
    hot_retirement moment, foreign;
    hot_index *index;
    CHECK(hot_create_with(&stock, handles, 2) == HOT_DONE && hot_open_index(&stock, 1, &index) == HOT_DONE && hot_open(index, &other) == HOT_DONE);
    CHECK(hot_leave(&handles[0]) == HOT_OUTSIDE);
    CHECK(hot_enter(&handles[0]) == HOT_DONE && hot_enter(&handles[0]) == HOT_INSIDE);
    CHECK(hot_close(&handles[0]) == HOT_INSIDE && hot_destroy(&handles[0]) == HOT_INSIDE);
    CHECK(hot_upsert(&handles[0], bytes("a"), 1, 1, NULL) == HOT_NEW);
    CHECK(hot_leave(&handles[0]) == HOT_DONE && hot_leave(&handles[0]) == HOT_OUTSIDE);
    CHECK(hot_enter(&other) == HOT_DONE && hot_close(&other) == HOT_INSIDE && hot_close_index(index) == HOT_OPEN && hot_leave(&other) == HOT_DONE);
    CHECK(hot_retired(&handles[0], &moment) == HOT_DONE && hot_retired(&other, &foreign) == HOT_DONE);
    CHECK(hot_is_past(&handles[1], &foreign) == HOT_OTHER_INDEX && hot_is_past(&other, &moment) == HOT_OTHER_INDEX);
    CHECK(hot_is_past(&handles[1], &moment) == HOT_DONE && hot_is_past(&other, &foreign) == HOT_DONE);
    CHECK(hot_close(&handles[0]) == HOT_DONE && hot_close(&handles[1]) == HOT_DONE);
    CHECK(hot_close(&other) == HOT_DONE && hot_close_index(index) == HOT_DONE);
}

/* Each of three sections, the asking handle's too, holds back just the moments from its entry on; and one that is entered later none before. */
static void test_holding(void) {
    enum { HANDLES = 3 };
    hot_handle handles[HANDLES] = {HOT_HANDLE, HOT_HANDLE, HOT_HANDLE};
    hot_retirement before, within;
    int holder, asks;
    CHECK(hot_create_with(&stock, handles, HANDLES) == HOT_DONE);
    for (holder = 0; holder < HANDLES; holder++) {
        CHECK(hot_retired(&handles[0], &before) == HOT_DONE);
        CHECK(hot_enter(&handles[holder]) == HOT_DONE && hot_retired(&handles[1], &within) == HOT_DONE);
        for (asks = 0; asks < HANDLES; asks++)
            CHECK(hot_is_past(&handles[asks], &before) == HOT_DONE && hot_is_past(&handles[asks], &within) == HOT_NOT_PAST);
        CHECK(hot_leave(&handles[holder]) == HOT_DONE && hot_enter(&handles[holder]) == HOT_DONE);
        for (asks = 0; asks < HANDLES; asks++)
            CHECK(hot_is_past(&handles[asks], &within) == HOT_DONE);
        CHECK(hot_leave(&handles[holder]) == HOT_DONE);
    }
    for (holder = 0; holder < HANDLES; holder++)
        CHECK(hot_close(&handles[holder]) == HOT_DONE);
}

/* Handles that are opened while sections are open, for the first time or again, hear of these. */
static void test_opening(void) {
    hot_handle handles[3] = {HOT_HANDLE, HOT_HANDLE, HOT_HANDLE};
    hot_retirement first, later;
    hot_index *index;
    CHECK(hot_open_index(&stock, 3, &index) == HOT_DONE && hot_open(index, &handles[0]) == HOT_DONE);
    CHECK(hot_enter(&handles[0]) == HOT_DONE && hot_retired(&handles[0], &first) == HOT_DONE);
    CHECK(hot_open(index, &handles[1]) == HOT_DONE && hot_is_past(&handles[1], &first) == HOT_NOT_PAST);
    CHECK(hot_enter(&handles[1]) == HOT_DONE && hot_leave(&handles[0]) == HOT_DONE);
    CHECK(hot_open(index, &handles[2]) == HOT_DONE && hot_is_past(&handles[2], &first) == HOT_DONE);
    CHECK(hot_retired(&handles[2], &later) == HOT_DONE && hot_is_past(&handles[0], &later) == HOT_NOT_PAST);
    CHECK(hot_close(&handles[2]) == HOT_DONE && hot_open(index, &handles[2]) == HOT_DONE && hot_is_past(&handles[2], &later) == HOT_NOT_PAST);
    CHECK(hot_leave(&handles[1]) == HOT_DONE && hot_is_past(&handles[2], &later) == HOT_DONE);
    CHECK(hot_close(&handles[0]) == HOT_DONE && hot_close(&handles[1]) == HOT_DONE && hot_close(&handles[2]) == HOT_DONE);
    CHECK(hot_close_index(index) == HOT_DONE);
}

/* How threads read and write an object. Plainly, ThreadSanitizer finds a race, unless it is told of the calls that order them. */
#ifdef IS_PLAIN
#define LOAD(word) (word)
#define STORE(word, value) ((word) = (value))
#else
#define LOAD(word) __atomic_load_n(&(word), __ATOMIC_SEQ_CST)
#define STORE(word, value) __atomic_store_n(&(word), value, __ATOMIC_SEQ_CST)
#endif

/* Threads: two replace objects and take them out, and give them up once their moments are past; two read. No reader sees one that was given
 * up. An object's place is used again. Each opens a handle, while others may be in their sections already. */
enum { KEYS = 8, ROUNDS = 20000, OBJECTS = 64, READERS = 2, WRITERS = 2 };

typedef struct object {
    uint32_t is_given_up;
    uint32_t key;
} object;

typedef struct worker {
    hot_handle *handle;
    uint32_t number;
    object objects[OBJECTS];
    hot_retirement moments[OBJECTS];
    int is_waiting[OBJECTS]; /* whether the object is out of the index, and its moment may not be past */
    int is_used[OBJECTS];
} worker;

static worker writers[WRITERS];
static int writers_left;
static hot_index *shared;

/* The object of a key, by a thread within its section. */
static void read_object(uint64_t value, uint8_t key) {
    object *found = (object *)(uintptr_t)value;
    int looks;
    CHECK(LOAD(found->key) == key);
    for (looks = 0; looks < 10; looks++)
        CHECK(LOAD(found->is_given_up) == 0);
}

static int visit_object(void *context, const hot_pair *pair) {
    (void)context;
    read_object(pair->value, pair->key[0]);
    return 1;
}

static void read_by_cursor(hot_handle *handle) {
    hot_cursor cursor;
    const uint8_t *key;
    size_t length;
    uint64_t value;
    CHECK(hot_seek(&cursor, handle, bytes(""), 0) == HOT_DONE);
    while (hot_next(&cursor, &key, &length, &value) == HOT_FOUND)
        read_object(value, key[0]);
}

static void *read_objects(void *given) {
    worker *me = given;
    uint32_t turn = 0;
    CHECK(hot_open(shared, me->handle) == HOT_DONE);
    while (__atomic_load_n(&writers_left, __ATOMIC_SEQ_CST) > 0) {
        uint8_t key = (uint8_t)(turn++ % KEYS);
        uint64_t value;
        CHECK(hot_enter(me->handle) == HOT_DONE);
        if (hot_get(me->handle, &key, 1, &value) == HOT_FOUND)
            read_object(value, key);
        if (turn % 16 == 0)
            CHECK(hot_each(me->handle, bytes(""), 0, HOT_TO_END, visit_object, NULL) == HOT_DONE);
        if (turn % 16 == 8)
            read_by_cursor(me->handle);
        CHECK(hot_leave(me->handle) == HOT_DONE);
    }
    return NULL;
}

/* Gives up each object whose moment is past, and returns the place of one that is free, or OBJECTS. */
static int find_free(worker *me) {
    int place, is_free = OBJECTS;
    for (place = 0; place < OBJECTS; place++) {
        if (me->is_waiting[place] && hot_is_past(me->handle, &me->moments[place]) == HOT_DONE) {
            STORE(me->objects[place].is_given_up, 1);
            me->is_waiting[place] = me->is_used[place] = 0;
        }
        if (!me->is_used[place])
            is_free = place;
    }
    return is_free;
}

/* An object of this writer is out of the index. */
static void retire(worker *me, uint64_t value) {
    ptrdiff_t place = (object *)(uintptr_t)value - me->objects;
    CHECK(place >= 0 && place < OBJECTS && me->is_used[place] && !me->is_waiting[place]);
    CHECK(hot_retired(me->handle, &me->moments[place]) == HOT_DONE);
    me->is_waiting[place] = 1;
}

/* Writes the key of an object that is given up, which becomes the value. */
static int put_object(void *context, uint64_t *value) {
    object *it = context;
    STORE(it->key, LOAD(((object *)(uintptr_t)*value)->key));
    STORE(it->is_given_up, 0);
    *value = (uintptr_t)it;
    return 1;
}

/* Each writer has half of the keys for itself. */
static void *change_objects(void *given) {
    worker *me = given;
    uint32_t turn;
    CHECK(hot_open(shared, me->handle) == HOT_DONE);
    for (turn = 0; turn < ROUNDS; turn++) {
        uint8_t key = (uint8_t)(turn % (KEYS / WRITERS) * WRITERS + me->number);
        uint64_t had;
        int place;
        hot_status status;
        while ((place = find_free(me)) == OBJECTS)
            sched_yield();
        STORE(me->objects[place].key, key);
        STORE(me->objects[place].is_given_up, 0);
        me->is_used[place] = 1;
        status = HOT_ABSENT;
        if (turn % 5 == 4)
            status = hot_update(me->handle, &key, 1, put_object, &me->objects[place], &had);
        if (status == HOT_ABSENT)
            status = hot_upsert(me->handle, &key, 1, (uintptr_t)&me->objects[place], &had);
        CHECK(status == HOT_NEW || status == HOT_WAS);
        if (status == HOT_WAS)
            retire(me, had);
        if (turn % 3 == 0 && hot_remove(me->handle, &key, 1, &had) == HOT_REMOVED)
            retire(me, had);
    }
    __atomic_sub_fetch(&writers_left, 1, __ATOMIC_SEQ_CST);
    return NULL;
}

static void test_threads(void) {
    static worker readers[READERS];
    hot_handle handles[READERS + WRITERS] = {HOT_HANDLE, HOT_HANDLE, HOT_HANDLE, HOT_HANDLE};
    pthread_t threads[READERS + WRITERS];
    int i, place;
    CHECK(hot_open_index(&stock, READERS + WRITERS, &shared) == HOT_DONE);
    writers_left = WRITERS;
    for (i = 0; i < READERS + WRITERS; i++) {
        worker *given = i < READERS ? &readers[i] : &writers[i - READERS];
        given->handle = &handles[i];
        given->number = (uint32_t)(i < READERS ? i : i - READERS);
        CHECK(pthread_create(&threads[i], NULL, i < READERS ? read_objects : change_objects, given) == 0);
    }
    for (i = 0; i < READERS + WRITERS; i++)
        CHECK(pthread_join(threads[i], NULL) == 0);
    /* All sections have been left: no moment is held back. */
    for (i = 0; i < WRITERS; i++) {
        find_free(&writers[i]);
        for (place = 0; place < OBJECTS; place++)
            CHECK(!writers[i].is_waiting[place]);
    }
    for (i = 0; i < READERS + WRITERS; i++)
        CHECK(hot_close(&handles[i]) == HOT_DONE);
    CHECK(hot_close_index(shared) == HOT_DONE);
}

int main(void) {
    alarm(900); /* a call that never returns ends the test */
    test_statuses();
    test_holding();
    test_opening();
    test_threads();
    puts(failures ? "c/tests/sections.c failed" : "passed: c/tests/sections.c");
    return failures;
}

/* Tests of the order of calls by two threads with a handle each, by the names that processors' manuals have for them.
 *
 *     litmus [ROUNDS]     so many rounds of each test (100,000)
 *
 * Store buffering, between sections: each thread leaves its section, and then asks whether a moment is past at which both were open. The one
 * that leaves last finds it past. Between that store and the load of the other's word stand the fewest instructions that there are between
 * two calls: so if stores had no fence, many rounds would fail.
 * Store buffering, between keys: each thread changes a key of its own, and then looks the other's up. One finds the other's change at least.
 * Message passing: one thread changes a key and then a flag. The other one that has found the flag finds the change. No store of x86-64 comes
 * before an earlier one, fence or not; of ARM64 one may, but no emulation on x86-64 shows that. */
#include "hot.h"
#include "check.h"
#include "../processor.h"
#include <pthread.h>
#include <sched.h>
#include <stdio.h>
#include <stdlib.h>
#include <unistd.h>

/* Keys between those of the two threads. With the few a look-up is short, and each thread that changes a value locks a node of its own. With
 * the many each thread's leaf has another node above its node, too, and that is what is locked where a key comes or goes. */
enum { FEW = 100, MANY = 3000 };

/* What two threads share in a test. */
typedef struct test {
    unsigned rounds;
    unsigned between;      /* keys between those of the threads */
    int is_by_presence;    /* a key comes and goes, where else its value rises */
    unsigned arrived;      /* how often the threads have come to a round */
    unsigned begun;        /* the rounds that have begun */
    uint64_t begin;        /* the cycle at which both go on */
    hot_retirement moment; /* at which both sections were open */
    uint8_t *found_old[2]; /* by round, whether a thread didn't find the other's change */
} test;

typedef struct side {
    test *of;
    unsigned number;
    hot_handle *handle;
} side;

/* The key of a thread, or one between these. */
static void key_of(unsigned number, uint8_t key[4]) {
    key[0] = (uint8_t)(number >> 8);
    key[1] = (uint8_t)number;
    key[2] = key[3] = 7;
}

static void own_key(const side *at, unsigned number, uint8_t key[4]) {
    key_of(number == 0 ? 0 : at->of->between + 1, key);
}

/* Begins a round for both threads: each has ended the one before. The last one that comes says when. */
static void begin_round(side *at, unsigned round) {
    enum { UNTIL_BOTH = 2500 };
    test *of = at->of;
    unsigned tries = 0;
    if (__atomic_add_fetch(&of->arrived, 1, __ATOMIC_SEQ_CST) == 2 * round) {
        CHECK(hot_retired(at->handle, &of->moment) == HOT_DONE);
        of->begin = ticks() + UNTIL_BOTH;
        __atomic_store_n(&of->begun, round, __ATOMIC_RELEASE);
        return;
    }
    while (__atomic_load_n(&of->begun, __ATOMIC_ACQUIRE) < round)
        if (++tries % 1000 == 0)
            sched_yield();
}

/* Lets both go on in the same cycle, but for some that are other ones from round to round, below `spread`. */
static void wait_for_both(const side *at, unsigned round, unsigned spread) {
    uint64_t begin = at->of->begin + (round * (at->number == 0 ? 2654435761u : 2246822519u) >> 16) % spread;
    while (ticks() < begin)
        ;
}

static void *leave(void *given) {
    side *at = given;
    unsigned round;
    for (round = 1; round <= at->of->rounds; round++) {
        CHECK(hot_enter(at->handle) == HOT_DONE);
        begin_round(at, round);
        CHECK(hot_is_past(at->handle, &at->of->moment) == HOT_NOT_PAST);
        wait_for_both(at, round, 100);
        CHECK(hot_leave(at->handle) == HOT_DONE);
        at->of->found_old[at->number][round - 1] = hot_is_past(at->handle, &at->of->moment) == HOT_NOT_PAST;
    }
    return NULL;
}

static void *buffer(void *given) {
    side *at = given;
    uint8_t mine[4], other[4];
    unsigned round;
    uint64_t value = 0;
    own_key(at, at->number, mine);
    own_key(at, !at->number, other);
    for (round = 1; round <= at->of->rounds; round++) {
        int is_here, goes = at->of->is_by_presence && round % 2 != 0;
        begin_round(at, round);
        hot_get(at->handle, other, 4, &value);
        wait_for_both(at, round, 400);
        if (!at->of->is_by_presence)
            CHECK(hot_upsert(at->handle, mine, 4, round, NULL) == HOT_WAS);
        else if (goes)
            CHECK(hot_remove(at->handle, mine, 4, NULL) == HOT_REMOVED);
        else
            CHECK(hot_insert(at->handle, mine, 4, round, NULL) == HOT_INSERTED);
        is_here = hot_get(at->handle, other, 4, &value) == HOT_FOUND;
        at->of->found_old[at->number][round - 1] = (uint8_t)(at->of->is_by_presence ? is_here == goes : value < round);
    }
    return NULL;
}

static void *send(void *given) {
    side *at = given;
    uint8_t data[4], flag[4];
    unsigned round;
    own_key(at, 0, data);
    own_key(at, 1, flag);
    for (round = 1; round <= at->of->rounds; round++) {
        if (at->of->is_by_presence) {
            CHECK(hot_remove(at->handle, data, 4, NULL) == HOT_REMOVED);
            CHECK(hot_insert(at->handle, data, 4, round, NULL) == HOT_INSERTED);
        } else {
            CHECK(hot_upsert(at->handle, data, 4, round, NULL) == HOT_WAS);
        }
        CHECK(hot_upsert(at->handle, flag, 4, round, NULL) == HOT_WAS);
    }
    return NULL;
}

static void *receive(void *given) {
    side *at = given;
    uint8_t data[4], flag[4];
    uint64_t told = 0, value;
    own_key(at, 0, data);
    own_key(at, 1, flag);
    while (told < at->of->rounds) {
        CHECK(hot_get(at->handle, flag, 4, &told) == HOT_FOUND);
        /* The key is absent where it is about to come again, in a later round. */
        if (hot_get(at->handle, data, 4, &value) == HOT_FOUND)
            CHECK(value >= told);
        else
            CHECK(at->of->is_by_presence && told < at->of->rounds);
    }
    return NULL;
}

/* Runs a test by two threads over an index with all keys. */
static void run(test *of, void *(*first)(void *), void *(*second)(void *)) {
    void *(*does[2])(void *) = {first, second};
    hot_handle handles[2] = {HOT_HANDLE, HOT_HANDLE};
    side sides[2];
    pthread_t threads[2];
    unsigned i;
    CHECK(hot_create(of->between, 2 * of->between, handles, 2) == HOT_DONE);
    for (i = 0; i <= of->between + 1; i++) {
        uint8_t key[4];
        key_of(i, key);
        CHECK(hot_insert(&handles[0], key, 4, 0, NULL) == HOT_INSERTED);
    }
    of->arrived = of->begun = 0;
    for (i = 0; i < 2; i++) {
        sides[i].of = of;
        sides[i].number = i;
        sides[i].handle = &handles[i];
        CHECK(pthread_create(&threads[i], NULL, does[i], &sides[i]) == 0);
    }
    for (i = 0; i < 2; i++)
        CHECK(pthread_join(threads[i], NULL) == 0);
    for (i = 0; i < 2; i++)
        CHECK(hot_destroy(&handles[i]) == HOT_DONE);
}

/* Runs a test of store buffering. In no round neither thread finds the other's change. */
static void test_store_buffering(test *of, void *(*does)(void *), const char *what) {
    unsigned round, forbidden = 0;
    run(of, does, does);
    for (round = 0; round < of->rounds; round++)
        forbidden += of->found_old[0][round] && of->found_old[1][round];
    if (forbidden)
        fprintf(stderr, "store buffering: in %u of %u rounds neither thread found that the other %s\n", forbidden, of->rounds, what);
    CHECK(forbidden == 0);
}

int main(int words, char **word) {
    static test of;
    unsigned i;
    alarm(900); /* a call that never returns ends the test */
    of.rounds = words > 1 ? (unsigned)strtoul(word[1], NULL, 10) : 100000;
    of.found_old[0] = malloc(of.rounds);
    of.found_old[1] = malloc(of.rounds);
    if (of.found_old[0] == NULL || of.found_old[1] == NULL)
        return 2;
    of.between = FEW;
    test_store_buffering(&of, leave, "has left its section");
    for (i = 0; i < 2 && !failures; i++) {
        of.is_by_presence = (int)i;
        of.between = i == 0 ? FEW : MANY;
        test_store_buffering(&of, buffer, i == 0 ? "has changed its key's value" : "has changed whether its key is there");
        run(&of, send, receive);
    }
    free(of.found_old[0]);
    free(of.found_old[1]);
    if (!failures)
        puts("passed: two threads that change keys, and look up what the other has changed");
    return failures;
}

/* An index that threads share and that grows, for a program whose threads take turns by a lock, such as Python's: quick calls are
 * made within a turn, and what may wait or take long without one. Nothing here knows Python. */
#ifndef STORE_H
#define STORE_H

#include <hot.h>
#include <pthread.h>
#include <stdatomic.h>

/* The most threads whose long calls run at once. The quick calls have one handle more, and an index that grows has 1,023 handles at
 * most: so of such a store one thread less. */
enum { MOST_THREADS = 1023 };

typedef struct lease {
    hot_handle handle;
    struct lease *next;
} lease;

/* An index with its handles. They stay where they are. */
typedef struct room {
    hot_index *index;
    hot_handle quick;
    lease *free;
    size_t opened; /* how many of the leases have a handle */
    lease leases[];
} room;

/* How a thread ends its turn, and begins the next one with what that returned. */
typedef struct turns {
    void *(*end)(void);
    void (*begin)(void *ended);
} turns;

/* What a store is made as: with room for this stock of records at first, or for few if it has none, for long calls of at most this
 * many threads at once, 1 to MOST_THREADS. */
typedef struct wanted_store {
    hot_stock stock;
    size_t threads;
    int grows;
} wanted_store;

typedef struct store {
    turns turns;
    wanted_store made_as;
    atomic_int is_held; /* set within a turn and under the mutex, cleared under the mutex */
    pthread_mutex_t mutex;
    pthread_cond_t changed;
    /* Under the mutex; and who holds the store has it alone: */
    room *room;
    hot_refusals refused; /* by indexes that it had before */
    size_t out;           /* how many leases calls have */
} store;

/* What is done with a handle. */
typedef hot_status store_call(hot_handle *handle, void *what);

/* Pairs whose keys rise and lie one after another. */
typedef struct sorted_pairs {
    const uint8_t *bytes;
    const hot_head *heads;
    size_t count;
} sorted_pairs;

/* HOT_DONE; or HOT_OUT_OF_RANGE, HOT_NO_MEMORY, HOT_OLD_PROCESSOR. */
hot_status store_open(const wanted_store *wanted, const turns *turns, store **made);
void store_close(store *it);

/* These are made within a turn, which ends meanwhile only if they must wait. */

/* Makes a call that changes nothing, and waits for nobody. */
hot_status store_read(store *it, store_call *call, void *what);

/* Makes a change: by `attempt`, which waits for nobody; and where that finds another one in its way, records held back, or in a
 * store that grows no room, by `change`, which waits. */
hot_status store_change(store *it, store_call *attempt, store_call *change, void *what);

/* Makes a call that may wait or take long, without a turn. */
hot_status store_long_in_turn(store *it, store_call *call, void *what);

/* Has a store that grows keep no more memory than its keys need. HOT_DONE, HOT_FIXED or HOT_NO_MEMORY. */
hot_status store_trim(store *it);

/* Removes all keys at once. HOT_DONE or HOT_NO_MEMORY. */
hot_status store_clear(store *it);

/* Has the store hold these pairs, and no others. HOT_DONE, HOT_NO_MEMORY; or HOT_NOT_RISING, and if it doesn't grow HOT_FULL_NODES,
 * HOT_FULL_LEAVES or HOT_KEY_TOO_LONG, for a pair whose number it writes, and then it holds what it held. */
hot_status store_load(store *it, const sorted_pairs *pairs, size_t *number);

/* Has the store hold the pairs of another, and no others. It returns what store_load does, but is never HOT_NOT_RISING. */
hot_status store_copy(store *it, store *from);

/* Without a turn: makes a call, which may wait, with a handle that no other thread has, and waits for one if it must. */
hot_status store_long(store *it, store_call *call, void *what);

/* Without a turn: hot_stats of all indexes that it has had. It waits while the store is held. */
void store_stats(store *it, hot_refusals *stats);

#endif

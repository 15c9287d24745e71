/* The handles of an index that threads share. */
#include "store.h"
#include <stdlib.h>

/* ---- An index with its handles ---- */

static void room_close(room *it) {
    if (!it)
        return;
    for (size_t i = 0; i < it->opened; i++)
        hot_close(&it->leases[i].handle);
    hot_close(&it->quick);
    if (it->index)
        hot_close_index(it->index);
    free(it);
}

/* What an index is made of: sorted pairs, and how many of them went in. */
typedef struct supply {
    hot_source *next;
    void *context;
    size_t count;
} supply;

/* Makes a store's index, which is empty if no pairs are named. */
static hot_status make_index(const wanted_store *as, supply *pairs, hot_index **made) {
    size_t handles = as->threads + 1;
    if (!as->grows)
        return pairs ? hot_load(&as->stock, handles, pairs->next, pairs->context, made, &pairs->count)
                     : hot_open_index(&as->stock, handles, made);
    return pairs ? hot_load_growing(SIZE_MAX, handles, pairs->next, pairs->context, made, &pairs->count)
                 : hot_open_growing(as->stock.nodes ? &as->stock : NULL, SIZE_MAX, handles, made);
}

/* The same with its handles. */
static hot_status room_open(const wanted_store *as, supply *pairs, room **made) {
    room *it = calloc(1, sizeof *it + as->threads * sizeof *it->leases);
    if (!it)
        return HOT_NO_MEMORY;
    hot_status status = make_index(as, pairs, &it->index);
    if (status == HOT_DONE)
        status = hot_open(it->index, &it->quick);
    if (status == HOT_DONE)
        *made = it;
    else
        room_close(it);
    return status;
}

/* Adds what an index tells of refusals. */
static void add_stats(hot_refusals *to, const room *of) {
    hot_refusals more;
    hot_stats(of->index, &more);
    to->busy += more.busy;
    to->held_back += more.held_back;
    to->full += more.full;
}

static void replace_room(store *it, room *new) {
    add_stats(&it->refused, it->room);
    room_close(it->room);
    it->room = new;
}

/* The pairs of an index, page by page. */
enum { LISTED = 64 };

typedef struct listing {
    hot_handle *of;
    uint8_t bytes[LISTED * HOT_MAX_KEY];
    hot_head heads[LISTED];
    const uint8_t *key;
    size_t at, count;
    uint32_t more;
    hot_status status; /* of the scans */
} listing;

/* Lists the first page, or the one behind the key that was listed last. There may be none. */
static int list_page(listing *it) {
    uint8_t from[HOT_MAX_KEY];
    size_t length = 0;
    if (it->count > 0 &&
        hot_after(it->key - it->heads[it->count - 1].length, it->heads[it->count - 1].length, from, &length) != HOT_DONE)
        return 0;
    it->key = it->bytes;
    it->at = it->count = 0;
    it->status =
        hot_scan_packed(it->of, from, length, HOT_TO_END, it->bytes, sizeof it->bytes, it->heads, LISTED, &it->count, &it->more);
    return it->status == HOT_DONE && it->count > 0;
}

static int next_listed(void *context, const uint8_t **key, size_t *length, uint64_t *value) {
    listing *it = context;
    if (it->at == it->count && !(it->more && list_page(it)))
        return 0;
    *key = it->key;
    *length = it->heads[it->at].length;
    *value = it->heads[it->at++].value;
    it->key += *length;
    return 1;
}

/* ---- Leases ---- */

/* A lease that is free, or has a handle opened for it; NULL if there is none, and why. Under the mutex. */
static lease *free_lease(store *it, hot_status *why) {
    room *in = it->room;
    lease *found = in->free;
    *why = HOT_NO_HANDLE;
    if (found) {
        in->free = found->next;
    } else if (in->opened < it->made_as.threads && (*why = hot_open(in->index, &in->leases[in->opened].handle)) == HOT_DONE) {
        found = &in->leases[in->opened++];
    }
    return found;
}

/* Waits for a lease. It may lack memory for a first one alone: others come back. */
static hot_status take(store *it, lease **taken) {
    hot_status why = HOT_DONE;
    *taken = NULL;
    pthread_mutex_lock(&it->mutex);
    for (;;) {
        if (!atomic_load(&it->is_held)) {
            *taken = free_lease(it, &why);
            if (*taken || it->out == 0)
                break;
        }
        pthread_cond_wait(&it->changed, &it->mutex);
    }
    it->out += *taken != NULL;
    pthread_mutex_unlock(&it->mutex);
    return why;
}

static void give_back(store *it, lease *taken) {
    pthread_mutex_lock(&it->mutex);
    taken->next = it->room->free;
    it->room->free = taken;
    it->out--;
    pthread_cond_broadcast(&it->changed);
    pthread_mutex_unlock(&it->mutex);
}

/* ---- A store that is held ---- */

/* Within a turn: whether the store is held for the caller from now on. It isn't if somebody holds it. */
static int hold(store *it) {
    pthread_mutex_lock(&it->mutex);
    int is_mine = !atomic_load(&it->is_held);
    atomic_store(&it->is_held, 1);
    pthread_mutex_unlock(&it->mutex);
    return is_mine;
}

static void wait_for_leases(store *it) {
    pthread_mutex_lock(&it->mutex);
    while (it->out)
        pthread_cond_wait(&it->changed, &it->mutex);
    pthread_mutex_unlock(&it->mutex);
}

/* Takes the mutex once nobody holds the store. */
static void lock_free(store *it) {
    pthread_mutex_lock(&it->mutex);
    while (atomic_load(&it->is_held))
        pthread_cond_wait(&it->changed, &it->mutex);
}

static void wait_for_holder(store *it) {
    lock_free(it);
    pthread_mutex_unlock(&it->mutex);
}

static void let_go(store *it) {
    pthread_mutex_lock(&it->mutex);
    atomic_store_explicit(&it->is_held, 0, memory_order_release);
    pthread_cond_broadcast(&it->changed);
    pthread_mutex_unlock(&it->mutex);
}

/* ---- Calls ---- */

/* Within a turn: makes a call at once, or returns HOT_BUSY if somebody holds the store. */
static hot_status quick(store *it, store_call *call, void *what) {
    return atomic_load_explicit(&it->is_held, memory_order_acquire) ? HOT_BUSY : call(&it->room->quick, what);
}

hot_status store_long(store *it, store_call *call, void *what) {
    lease *taken;
    hot_status status = take(it, &taken);
    if (taken) {
        status = call(&taken->handle, what);
        give_back(it, taken);
    }
    return status;
}

hot_status store_long_in_turn(store *it, store_call *call, void *what) {
    void *ended = it->turns.end();
    hot_status status = store_long(it, call, what);
    it->turns.begin(ended);
    return status;
}

hot_status store_read(store *it, store_call *call, void *what) {
    hot_status status = quick(it, call, what);
    return status == HOT_BUSY ? store_long_in_turn(it, call, what) : status;
}

hot_status store_change(store *it, store_call *attempt, store_call *change, void *what) {
    hot_status status = quick(it, attempt, what);
    int is_full = status == HOT_FULL_NODES || status == HOT_FULL_LEAVES;
    int is_in_the_way = status == HOT_BUSY || status == HOT_HELD_BACK || (is_full && it->made_as.grows);
    return is_in_the_way ? store_long_in_turn(it, change, what) : status;
}

/* Within a turn, which it ends: holds the store once nobody else does and all other calls have returned. Returns what begins the
 * next turn. */
static void *hold_alone(store *it) {
    int is_mine = hold(it);
    void *ended = it->turns.end();
    while (!is_mine) {
        wait_for_holder(it);
        it->turns.begin(ended);
        is_mine = hold(it);
        ended = it->turns.end();
    }
    wait_for_leases(it);
    return ended;
}

/* The index opens all its handles anew: they were given back, so that takes no memory. */
hot_status store_trim(store *it) {
    void *ended = hold_alone(it);
    room *in = it->room;
    hot_close(&in->quick);
    for (size_t i = 0; i < in->opened; i++)
        hot_close(&in->leases[i].handle);
    hot_status status = hot_trim(in->index);
    hot_open(in->index, &in->quick);
    for (size_t i = 0; i < in->opened; i++)
        hot_open(in->index, &in->leases[i].handle);
    let_go(it);
    it->turns.begin(ended);
    return status;
}

/* Takes an index that was made, if it was, and lets go of the store, which it has alone. */
static hot_status take_room(store *it, hot_status status, room *made, void *ended) {
    if (status == HOT_DONE)
        replace_room(it, made);
    let_go(it);
    it->turns.begin(ended);
    return status;
}

hot_status store_clear(store *it) {
    room *new = NULL;
    void *ended = hold_alone(it);
    hot_status status = room_open(&it->made_as, NULL, &new);
    return take_room(it, status, new, ended);
}

/* ---- Loads ---- */

static int next_packed(void *context, const uint8_t **key, size_t *length, uint64_t *value) {
    sorted_pairs *left = context;
    if (left->count == 0)
        return 0;
    *key = left->bytes;
    *length = left->heads->length;
    *value = left->heads->value;
    left->bytes += *length;
    left->heads++;
    left->count--;
    return 1;
}

hot_status store_load(store *it, const sorted_pairs *pairs, size_t *number) {
    room *new = NULL;
    sorted_pairs left = *pairs;
    supply all = {next_packed, &left, 0};
    void *ended = hold_alone(it);
    hot_status status = room_open(&it->made_as, &all, &new);
    *number = all.count;
    return take_room(it, status, new, ended);
}

/* An index that is made with the pairs of another store. */
typedef struct copying {
    const wanted_store *as;
    room *made;
} copying;

static hot_status copy_to_room(hot_handle *handle, void *what) {
    copying *it = what;
    listing pairs = {.of = handle, .more = 1, .status = HOT_DONE};
    supply all = {next_listed, &pairs, 0};
    hot_status status = room_open(it->as, &all, &it->made);
    if (status == HOT_DONE && pairs.status != HOT_DONE) {
        room_close(it->made);
        status = pairs.status;
    }
    return status;
}

hot_status store_copy(store *it, store *from) {
    copying what = {&it->made_as, NULL};
    hot_status status = store_long_in_turn(from, copy_to_room, &what);
    return status == HOT_DONE ? take_room(it, status, what.made, hold_alone(it)) : status;
}

void store_stats(store *it, hot_refusals *stats) {
    lock_free(it);
    *stats = it->refused;
    add_stats(stats, it->room);
    pthread_mutex_unlock(&it->mutex);
}

/* ---- A store ---- */

/* As it was asked for: in an index that doesn't grow few records are a stock, too. */
static wanted_store as_it_can_be(const wanted_store *wanted) {
    wanted_store as = *wanted;
    if (!as.grows && as.stock.nodes == 0) {
        as.stock.nodes = 64;
        as.stock.short_leaves = as.stock.medium_leaves = 128;
    }
    if (as.grows && as.threads == MOST_THREADS)
        as.threads--;
    return as;
}

hot_status store_open(const wanted_store *wanted, const turns *turns, store **made) {
    int is_in_range = wanted->threads >= 1 && wanted->threads <= MOST_THREADS;
    store *it = is_in_range ? calloc(1, sizeof *it) : NULL;
    if (!it)
        return is_in_range ? HOT_NO_MEMORY : HOT_OUT_OF_RANGE;
    it->turns = *turns;
    it->made_as = as_it_can_be(wanted);
    hot_status status = room_open(&it->made_as, NULL, &it->room);
    if (status == HOT_DONE) {
        pthread_mutex_init(&it->mutex, NULL);
        pthread_cond_init(&it->changed, NULL);
        *made = it;
    } else {
        free(it);
    }
    return status;
}

void store_close(store *it) {
    room_close(it->room);
    pthread_mutex_destroy(&it->mutex);
    pthread_cond_destroy(&it->changed);
    free(it);
}

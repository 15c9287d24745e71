/* What of the library for C is written in C, and tested, but for cursor.c and heap.c: the texts of statuses, pairs that are taken one by one by a load, calls for many keys, an index that opens its handles one by one, and the calls that wait: the proved library may neither wait
 * nor yield, so it says when to try again, and the wait is here. */
#define _POSIX_C_SOURCE 199506L
#include "index.h"
#include <pthread.h>
#include <sched.h>
#include <stdlib.h>
#include <string.h>
#include <time.h>
#include <unistd.h>

uint32_t hot_version(void) {
    return HOT_VERSION_MAJOR << 16 | HOT_VERSION_MINOR << 8 | HOT_VERSION_PATCH;
}

#define TEN 255, 255, 255, 255, 255, 255, 255, 255, 255, 255
#define EIGHTY TEN, TEN, TEN, TEN, TEN, TEN, TEN, TEN
const uint8_t hot_last_key[HOT_MAX_KEY] = {EIGHTY, EIGHTY, EIGHTY};

const char *hot_status_text(hot_status status) {
    switch (status) {
    case HOT_DONE: return "done";
    case HOT_FOUND: return "found";
    case HOT_ABSENT: return "absent";
    case HOT_INSERTED: return "inserted";
    case HOT_EXISTS: return "the key exists";
    case HOT_NEW: return "new";
    case HOT_WAS: return "replaced";
    case HOT_REMOVED: return "removed";
    case HOT_BUSY: return "another call stood in the way";
    case HOT_FULL_NODES: return "too few node records are free";
    case HOT_FULL_LEAVES: return "no leaf record with room for the key is free";
    case HOT_KEY_TOO_LONG: return "a key is too long";
    case HOT_CLOSED: return "the handle is closed";
    case HOT_OPEN: return "a handle is open";
    case HOT_OUT_OF_RANGE: return "a number is out of range";
    case HOT_NO_MEMORY: return "out of memory";
    case HOT_EXCHANGED: return "exchanged";
    case HOT_DIFFERS: return "the key has another value";
    case HOT_HELD_BACK: return "other calls hold records back";
    case HOT_NO_HANDLE: return "no handle is free";
    case HOT_OTHER_INDEX: return "it is of another index";
    case HOT_OLD_PROCESSOR: return "the processor is too old for this library";
    case HOT_INSIDE: return "the handle's section is open";
    case HOT_OUTSIDE: return "the handle's section is not open";
    case HOT_NOT_PAST: return "a section that was open then may still be open";
    case HOT_NOT_RISING: return "the key is not above the one before";
    case HOT_FIXED: return "the index does not grow";
    default: return "not a status";
    }
}

static const hot_stock no_stock = {0, 0, 0, 0, 0, 0};

void hot_stock_for_keys(uint32_t keys, size_t longest, hot_stock *stock) {
    if (is_processor_new())
        proved_stock_for_keys(keys, longest, stock);
    else
        *stock = no_stock;
}

void hot_stock_for_any_keys(uint32_t keys, size_t longest, size_t handles, hot_stock *stock) {
    if (is_processor_new())
        proved_stock_for_any_keys(keys, longest, handles, stock);
    else
        *stock = no_stock;
}

hot_status hot_stock_bytes(const hot_stock *stock, size_t handles, size_t *bytes) {
    return is_processor_new() ? proved_stock_bytes(stock, handles, bytes) : HOT_OLD_PROCESSOR;
}

/* A key of no bytes may be NULL here, but not where a proved call takes it. */
static const uint8_t *not_null(const uint8_t *key, size_t length) {
    return length > 0 ? key : hot_last_key;
}

hot_status hot_scan_prefix(hot_handle *handle, const uint8_t *prefix, size_t length, const uint8_t *after, size_t after_length,
                           hot_pair *pairs, size_t limit, size_t *count, uint32_t *more) {
    prefix = not_null(prefix, length);
    if (after == NULL)
        return proved_scan_whole_prefix(handle, prefix, length, pairs, limit, count, more);
    return proved_scan_prefix_after(handle, prefix, length, after, after_length, pairs, limit, count, more);
}

hot_status hot_scan_prefix_reverse(hot_handle *handle, const uint8_t *prefix, size_t length, const uint8_t *before, size_t before_length,
                                   hot_pair *pairs, size_t limit, size_t *count, uint32_t *more) {
    prefix = not_null(prefix, length);
    if (before == NULL)
        return proved_scan_whole_prefix_reverse(handle, prefix, length, pairs, limit, count, more);
    return proved_scan_prefix_before(handle, prefix, length, before, before_length, pairs, limit, count, more);
}

/* Writes the index of a handle. HOT_DONE; or HOT_CLOSED, and then nothing is written: a closed handle has none. */
static hot_status find_index(hot_handle *handle, hot_index **index) {
    uint16_t number;
    hot_status status = hot_number(handle, &number);
    if (status == HOT_DONE)
        *index = handle->place->index;
    return status;
}

/* Adds to a word that only the calls of one handle write, while others may load it. */
static void add_to(uint64_t *word, uint64_t more) {
    __atomic_store_n(word, __atomic_load_n(word, __ATOMIC_RELAXED) + more, __ATOMIC_RELAXED);
}

/* Notes why a try was refused, and returns that. */
static __attribute__((cold, noinline)) hot_status note_refusal(hot_refusals *to, hot_status status) {
    switch (status) {
    case HOT_BUSY: add_to(&to->busy, 1); break;
    case HOT_HELD_BACK: add_to(&to->held_back, 1); break;
    default: add_to(&to->full, 1); break;
    }
    return status;
}

/* A record of each kind has so many bytes: a node, and leaves by their size. */
static const uint32_t bytes_of[HEAP_KINDS] = {464, 32, 48, 80, 112, 264};

/* The kind of the smallest leaves with room for a key of this length. */
static uint32_t kind_for(size_t length) {
    return length <= 8 ? 1 : length <= 24 ? 2 : length <= 56 ? 3 : length <= 88 ? 4 : 5;
}

/* How many records of a kind are committed, as far as a call has seen. */
static uint32_t committed_of(const hot_index *index, uint32_t kind) {
    return __atomic_load_n(&index->committed[kind], __ATOMIC_RELAXED);
}

/* Takes room for so many records of a kind, or fewer, out of what the index may commit: for an eighth of that at most, but for one where it is less,
 * so that each kind gets some of the last. Leaves leave room for an eighth more nodes: where keys come and go, as many keys need more. Returns for how
 * many; for none if these are too few. */
static uint64_t take_room(hot_index *index, uint32_t kind, uint64_t count, uint64_t least) {
    size_t size = bytes_of[kind], left, taken = __atomic_load_n(&index->taken, __ATOMIC_RELAXED);
    size_t most = index->most - (kind == 0 ? 0 : (size_t)committed_of(index, 0) * bytes_of[0] / 8);
    do {
        left = taken < most ? most - taken : 0;
        if (count > left / 8 / size)
            count = left / 8 >= size ? left / 8 / size : count > 0 && left >= size;
        if (count < least)
            return 0;
    } while (count > 0 && !__atomic_compare_exchange_n(&index->taken, &taken, taken + count * size, 0, __ATOMIC_RELAXED, __ATOMIC_RELAXED));
    return count;
}

/* Notes that so many records of a kind are uncommitted, and gives back the room that was taken for some. The first call that sees that a record is
 * committed counts it. So no record goes uncounted: until it is counted, who committed it has taken room for it, unless a removal did. */
static void note_committed(hot_index *index, uint32_t kind, uint64_t left, uint64_t room) {
    const uint32_t *reserved = &index->reserved[kind];
    uint32_t is = (uint32_t)(*reserved - left), was = committed_of(index, kind);
    while (was < is && !__atomic_compare_exchange_n(&index->committed[kind], &was, is, 0, __ATOMIC_RELAXED, __ATOMIC_RELAXED))
        ;
    __atomic_add_fetch(&index->taken, ((was < is ? is - was : 0) - room) * bytes_of[kind], __ATOMIC_RELAXED);
}

/* A handle commits so many records of a kind at least, where there is room. So many are to be before it: more than it mostly claims until it looks
 * again. */
enum { LEAST_COMMITTED = 256, AHEAD = 128 };

/* Commits more records of a kind, which the handle then claims: an eighth of those that are, shared among the handles; ahead of need only where
 * there is room for all of these. Returns whether there was room; writes how many there were to commit. */
static int commit_more(hot_handle *handle, uint32_t kind, int is_ahead, uint64_t *left) {
    hot_index *index = handle->place->index;
    uint64_t room, more;
    proved_uncommitted(handle, kind, left);
    note_committed(index, kind, *left, 0);
    more = committed_of(index, kind) / 8 / __atomic_load_n(&index->opened, __ATOMIC_RELAXED);
    more = more > LEAST_COMMITTED ? more : LEAST_COMMITTED;
    more = more < *left ? more : *left;
    room = take_room(index, kind, more, is_ahead ? more : 1);
    if (room == 0)
        return 0;
    proved_commit(handle, kind, room, left);
    note_committed(index, kind, *left, room);
    return 1;
}

/* The bytes of all records, with pins and what stands before them; of those that are committed, if an index grows. */
static size_t bytes_committed(const hot_index *index) {
    return index->grows ? __atomic_load_n(&index->taken, __ATOMIC_RELAXED) : index->holds.table;
}

/* What a change lacked. */
typedef struct lack {
    int node, leaf;
    int are_used; /* whether each committed leaf is in use that it could take: none comes back */
} lack;

/* What a change lacked that was held back, by a count: leaves for its key, of a kind or larger ones, or else nodes. A change doesn't go on to larger
 * leaves behind a kind of which some are uncommitted, but by the proved calls these may come back. */
static lack count_lack(hot_handle *handle, uint32_t kind) {
    const hot_index *index = handle->place->index;
    hot_counts counts;
    hot_states all[HEAP_KINDS];
    lack found = {1, 0, 0};
    uint64_t free = 0, back = 0;
    if (proved_census(handle, &counts) != HOT_DONE)
        return found;
    memcpy(all, &counts, sizeof all);
    for (; kind < HEAP_KINDS; kind++) {
        free += all[kind].free;
        back += all[kind].held + (uint64_t)all[kind].obsolete;
        if (committed_of(index, kind) < index->reserved[kind])
            break;
    }
    found.leaf = free == 0;
    found.are_used = free + back == 0;
    found.node = free > 0 || counts.nodes.free < AHEAD;
    return found;
}

/* Commits records for a change of a key of this length, which lacked some. Returns whether it is to be tried again. If not, it is refused for want of
 * memory where the index has as many records as memory lets it, and all are committed. */
static __attribute__((cold, noinline)) int commit_for(hot_handle *handle, size_t length, hot_status *status) {
    const hot_index *index = handle->place->index;
    uint32_t kind = kind_for(length);
    lack of = {0, 0, 0};
    uint64_t nodes = 1, leaves = 1;
    int is_made = 0, is_more;
    if (!index->is_reserved)
        return 0;
    of.node = *status == HOT_FULL_NODES;
    of.leaf = *status == HOT_FULL_LEAVES;
    if (*status == HOT_HELD_BACK)
        of = count_lack(handle, kind);
    if (of.node)
        is_made = commit_more(handle, 0, 0, &nodes);
    for (; of.leaf && kind < HEAP_KINDS; kind++) {
        is_more = commit_more(handle, kind, 0, &leaves);
        is_made |= is_more;
        if (is_more || leaves > 0)
            break;
    }
    if (!is_made && of.are_used)
        *status = HOT_FULL_LEAVES;
    if (!is_made && (nodes == 0 || leaves == 0) && index->grows && bytes_committed(index) < index->most && *status != HOT_HELD_BACK)
        *status = HOT_NO_MEMORY;
    return is_made;
}

/* A handle looks at the pieces of the table each time it has put so many keys in. Where records are committed as they are needed, it looks more often
 * whether some are before it. */
enum { KEYS_TO_A_LOOK = 4096, KEYS_TO_A_COMMIT = 64 };

/* Commits nodes, and leaves for keys of this length, if too few are before the handle. */
static void commit_ahead(hot_handle *handle, size_t length) {
    uint64_t left;
    if (proved_is_short_of(handle, 0, AHEAD))
        commit_more(handle, 0, 1, &left);
    if (proved_is_short_of(handle, kind_for(length), AHEAD))
        commit_more(handle, kind_for(length), 1, &left);
}

/* Looks whether records are to be committed, and whether a piece of the table has filled, unless another call does. Returns what the try has come
 * to. */
static __attribute__((cold, noinline)) hot_status look_ahead(hot_handle *handle, size_t length, hot_status status) {
    hot_place *place = handle->place;
    hot_index *index = place->index;
    place->to_a_look = index->is_reserved ? KEYS_TO_A_COMMIT : KEYS_TO_A_LOOK;
    if (index->is_reserved) {
        commit_ahead(handle, length);
        if (++place->looks % (KEYS_TO_A_LOOK / KEYS_TO_A_COMMIT) != 0)
            return status;
    }
    if (__atomic_exchange_n(&index->filling, 1, __ATOMIC_ACQUIRE) == 0) {
        heap_fill(index->holds.pages);
        __atomic_store_n(&index->filling, 0, __ATOMIC_RELEASE);
    }
    return status;
}

/* What `note` returns where a change is to be tried again, and what it takes for the length of a key that is to be removed: for that nothing is
 * committed. */
enum { AGAIN = HOT_FIXED + 1 };
static const size_t removed = SIZE_MAX;

/* Notes what a try has done with the number of keys, or that it was refused, unless records were committed for it. Returns what it has come to. */
static __attribute__((noinline)) hot_status note(hot_handle *handle, size_t length, hot_status status) {
    hot_place *place = handle->place;
    if (status == HOT_INSERTED || status == HOT_NEW) {
        add_to(&place->keys, 1);
        return --place->to_a_look == 0 ? look_ahead(handle, length, status) : status;
    }
    if (status != HOT_REMOVED)
        return status != HOT_BUSY && length != removed && commit_for(handle, length, &status) ? AGAIN : note_refusal(&place->refusals, status);
    add_to(&place->keys, (uint64_t)-1);
    return status;
}

/* What a try has come to, which is noted where there is something to note. */
static __inline__ hot_status tried(hot_handle *handle, size_t length, hot_status status) {
    static const uint32_t noted = 1u << HOT_INSERTED | 1u << HOT_NEW | 1u << HOT_REMOVED | 1u << HOT_BUSY | 1u << HOT_HELD_BACK |
                                  1u << HOT_FULL_NODES | 1u << HOT_FULL_LEAVES;
    return noted >> status & 1 ? note(handle, length, status) : status;
}

hot_status hot_try_insert(hot_handle *handle, const uint8_t *key, size_t length, uint64_t value, uint64_t *had) {
    hot_status status;
    uint64_t unread;
    had = had ? had : &unread;
    do
        status = tried(handle, length, proved_try_insert(handle, key, length, value, had));
    while (status == AGAIN);
    return status;
}

hot_status hot_try_upsert(hot_handle *handle, const uint8_t *key, size_t length, uint64_t value, uint64_t *had) {
    hot_status status;
    uint64_t unread;
    had = had ? had : &unread;
    do
        status = tried(handle, length, proved_try_upsert(handle, key, length, value, had));
    while (status == AGAIN);
    return status;
}

hot_status hot_try_remove(hot_handle *handle, const uint8_t *key, size_t length, uint64_t *had) {
    uint64_t unread;
    had = had ? had : &unread;
    return tried(handle, removed, proved_try_remove(handle, key, length, had));
}

hot_status hot_try_exchange(hot_handle *handle, const uint8_t *key, size_t length, uint64_t expected, uint64_t value, uint64_t *had) {
    uint64_t unread;
    had = had ? had : &unread;
    return tried(handle, removed, proved_try_exchange(handle, key, length, expected, value, had));
}

hot_status hot_try_add(hot_handle *handle, const uint8_t *key, size_t length, uint64_t delta, uint64_t *had) {
    uint64_t unread;
    had = had ? had : &unread;
    return tried(handle, removed, proved_try_add(handle, key, length, delta, had));
}

hot_status hot_try_remove_if(hot_handle *handle, const uint8_t *key, size_t length, uint64_t expected, uint64_t *had) {
    uint64_t unread;
    had = had ? had : &unread;
    return tried(handle, removed, proved_try_remove_if(handle, key, length, expected, had));
}

/* Sleeps so many nanoseconds, and twice as long for each time that it has slept before, up to 32 times as long. That would be a cancellation point,
 * but the thread may hold locks. */
static __attribute__((cold, noinline)) void rest(hot_waits *so_far, long nanoseconds) {
    struct timespec time = {0, 0};
    int state;
    time.tv_nsec = nanoseconds << so_far->sleeps;
    if (so_far->sleeps < 5)
        ++so_far->sleeps;
    pthread_setcancelstate(PTHREAD_CANCEL_DISABLE, &state);
    nanosleep(&time, NULL);
    pthread_setcancelstate(state, &state);
}

/* Lets the processor pause so many times. */
static void pause_for(unsigned times) {
    while (times-- > 0)
        pause_once();
}

/* How often a call that finds another in its way pauses, and how often it yields, before it sleeps. */
enum { PAUSES = 7, YIELDS = 2 };

/* The waits with which a call begins that changes a value alone. That takes so little that a call in the way mostly is one of many, which want
 * the same key: so it yields once, and then sleeps. */
#define LAST_YIELD { PAUSES + YIELDS - 1, 0 }

/* Waits for another call that is in the way. That mostly needs a microsecond more, so the first tries come soon. If it is there still, its
 * thread may not run, and others run first. Else many want the same nodes: each try then takes lines of the cache from the one that is at
 * work, so this thread sleeps, which lets that one make many calls. */
static __attribute__((cold, noinline)) void wait_for_call(hot_waits *so_far) {
    enum { SLEEP = 20000 };
    if (so_far->tries >= PAUSES + YIELDS) {
        rest(so_far, SLEEP);
        return;
    }
    if (so_far->tries < PAUSES)
        pause_for(2u << so_far->tries);
    else
        sched_yield();
    ++so_far->tries;
}

/* Waits before a refused change is tried again, and returns whether it is to be. Where records are held back, each try goes through all of
 * them in vain until that call has gone on: so this thread sleeps at once. */
static int is_to_wait(hot_status status, hot_waits *so_far) {
    enum { HELD_BACK = 50000 };
    switch (status) {
    case HOT_BUSY: wait_for_call(so_far); return 1;
    case HOT_HELD_BACK: rest(so_far, HELD_BACK); return 1;
    default: return 0;
    }
}

int hot_wait(hot_status status, hot_waits *so_far) {
    return is_to_wait(status, so_far);
}

hot_status hot_insert(hot_handle *handle, const uint8_t *key, size_t length, uint64_t value, uint64_t *had) {
    hot_waits so_far = HOT_NO_WAITS;
    hot_status status;
    do
        status = hot_try_insert(handle, key, length, value, had);
    while (is_to_wait(status, &so_far));
    return status;
}

hot_status hot_upsert(hot_handle *handle, const uint8_t *key, size_t length, uint64_t value, uint64_t *had) {
    hot_waits so_far = HOT_NO_WAITS;
    hot_status status;
    do
        status = hot_try_upsert(handle, key, length, value, had);
    while (is_to_wait(status, &so_far));
    return status;
}

hot_status hot_remove(hot_handle *handle, const uint8_t *key, size_t length, uint64_t *had) {
    hot_waits so_far = HOT_NO_WAITS;
    hot_status status;
    do
        status = hot_try_remove(handle, key, length, had);
    while (is_to_wait(status, &so_far));
    return status;
}

hot_status hot_exchange(hot_handle *handle, const uint8_t *key, size_t length, uint64_t expected, uint64_t value, uint64_t *had) {
    hot_waits so_far = LAST_YIELD;
    hot_status status;
    do
        status = hot_try_exchange(handle, key, length, expected, value, had);
    while (is_to_wait(status, &so_far));
    return status;
}

hot_status hot_remove_if(hot_handle *handle, const uint8_t *key, size_t length, uint64_t expected, uint64_t *had) {
    hot_waits so_far = HOT_NO_WAITS;
    hot_status status;
    do
        status = hot_try_remove_if(handle, key, length, expected, had);
    while (is_to_wait(status, &so_far));
    return status;
}

hot_status hot_add(hot_handle *handle, const uint8_t *key, size_t length, uint64_t delta, uint64_t *had) {
    hot_waits so_far = LAST_YIELD;
    hot_status status;
    do
        status = hot_try_add(handle, key, length, delta, had);
    while (is_to_wait(status, &so_far));
    return status;
}

hot_status hot_add_or_insert(hot_handle *handle, const uint8_t *key, size_t length, uint64_t delta, uint64_t *had) {
    hot_status status;
    do {
        status = hot_add(handle, key, length, delta, had);
        if (status == HOT_ABSENT)
            status = hot_insert(handle, key, length, delta, NULL);
    } while (status == HOT_EXISTS);
    return status == HOT_INSERTED ? HOT_NEW : status;
}

hot_status hot_update(hot_handle *handle, const uint8_t *key, size_t length, hot_changer *change, void *context, uint64_t *had) {
    uint64_t was, value;
    hot_status status = hot_get(handle, key, length, &was);
    if (status != HOT_FOUND)
        return status;
    do {
        value = was;
        status = change(context, &value) ? hot_exchange(handle, key, length, was, value, &was) : HOT_EXISTS;
    } while (status == HOT_DIFFERS);
    if (had != NULL && (status == HOT_EXCHANGED || status == HOT_EXISTS))
        *had = was;
    return status == HOT_EXCHANGED ? HOT_WAS : status;
}

/* Hands each pair to `visit` with a handle in its context, and tells the first status that refused a change. */
typedef struct change_each {
    hot_handle *handle;
    hot_status status;
} change_each;

static int go_on(change_each *each, hot_status status) {
    each->status = status < HOT_BUSY ? HOT_DONE : status;
    return each->status == HOT_DONE;
}

static int remove_pair(void *context, const hot_pair *pair) {
    change_each *each = context;
    return go_on(each, hot_remove(each->handle, pair->key, pair->length, NULL));
}

static int copy_pair(void *context, const hot_pair *pair) {
    change_each *each = context;
    return go_on(each, hot_upsert(each->handle, pair->key, pair->length, pair->value, NULL));
}

/* What came of handing over pairs, and of the changes that they were handed to. */
static hot_status both(hot_status status, const change_each *each) {
    return status == HOT_DONE ? each->status : status;
}

hot_status hot_clear_range(hot_handle *handle, const uint8_t *from, size_t from_length, const uint8_t *upto, size_t upto_length) {
    change_each each;
    each.handle = handle;
    each.status = HOT_DONE;
    return both(hot_each(handle, from, from_length, upto, upto_length, remove_pair, &each), &each);
}

hot_status hot_clear(hot_handle *handle) {
    return hot_clear_range(handle, hot_last_key, 0, HOT_TO_END);
}

hot_status hot_copy(hot_handle *from, hot_handle *to) {
    change_each each;
    uint16_t number;
    each.handle = to;
    each.status = hot_number(to, &number);
    if (each.status != HOT_DONE)
        return each.status;
    return both(hot_each(from, hot_last_key, 0, HOT_TO_END, copy_pair, &each), &each);
}

/* hot_scan or hot_scan_reverse. */
typedef hot_status scan_call(hot_handle *handle, const uint8_t *from, size_t from_length, const uint8_t *upto, size_t upto_length,
                             hot_pair *pairs, size_t limit, size_t *count, uint32_t *more);

/* Removes the first pair that the scan lists. */
static hot_status pop(scan_call *scan, hot_handle *handle, const uint8_t *from, size_t from_length, const uint8_t *upto, size_t upto_length,
                      hot_pair *pair) {
    hot_pair found;
    hot_status status;
    size_t count;
    uint32_t more;
    do {
        status = scan(handle, from, from_length, upto, upto_length, &found, 1, &count, &more);
        if (status != HOT_DONE)
            return status;
        if (count == 0)
            return HOT_ABSENT;
        status = hot_remove(handle, found.key, found.length, &found.value);
    } while (status == HOT_ABSENT);
    if (status == HOT_REMOVED)
        *pair = found;
    return status;
}

hot_status hot_pop_first(hot_handle *handle, const uint8_t *from, size_t from_length, const uint8_t *upto, size_t upto_length, hot_pair *pair) {
    return pop(hot_scan, handle, from, from_length, upto, upto_length, pair);
}

hot_status hot_pop_last(hot_handle *handle, const uint8_t *from, size_t from_length, const uint8_t *upto, size_t upto_length, hot_pair *pair) {
    return pop(hot_scan_reverse, handle, from, from_length, upto, upto_length, pair);
}

hot_status hot_len(hot_handle *handle, size_t *count) {
    hot_index *index;
    size_t place;
    uint64_t keys = 0;
    hot_status status = find_index(handle, &index);
    if (status != HOT_DONE)
        return status;
    for (place = 0; place < index->count; place++)
        keys += __atomic_load_n(&index->places[place].keys, __ATOMIC_RELAXED);
    *count = keys <= INT64_MAX ? (size_t)keys : 0;
    return HOT_DONE;
}

void hot_stats(const hot_index *index, hot_refusals *stats) {
    size_t place;
    memset(stats, 0, sizeof *stats);
    for (place = 0; place < index->count; place++) {
        const hot_refusals *its = &index->places[place].refusals;
        stats->busy += __atomic_load_n(&its->busy, __ATOMIC_RELAXED);
        stats->held_back += __atomic_load_n(&its->held_back, __ATOMIC_RELAXED);
        stats->full += __atomic_load_n(&its->full, __ATOMIC_RELAXED);
    }
}

/* Waits until the word is 0, and makes it 1. Two are locked at once by hot_stamp, which takes `telling` first, and by hot_trim, which takes `opening`. */
static void lock_word(uint32_t *word) {
    hot_waits so_far = HOT_NO_WAITS;
    while (__atomic_exchange_n(word, 1, __ATOMIC_SEQ_CST) != 0)
        wait_for_call(&so_far);
}

static void unlock_word(uint32_t *word) {
    __atomic_store_n(word, 0, __ATOMIC_SEQ_CST);
}

/* The bytes of an index without its table and long lists, if so many handles have been opened. */
static size_t bytes_beside_table(const hot_index *index, size_t opened) {
    enum { SECTION = 128 };
    return sizeof *index + index->count * (sizeof *index->places + SECTION) + opened * (index->holds.lists + index->holds.scanned);
}

hot_status hot_census(hot_handle *handle, hot_counts *counts) {
    hot_status status = proved_census(handle, counts);
    if (status == HOT_DONE)
        counts->bytes = bytes_committed(handle->place->index);
    return status;
}

/* How many bytes of the table's pages take memory. */
static size_t bytes_held(const hot_index *index) {
    size_t committed[HEAP_KINDS];
    uint32_t kind;
    for (kind = 0; kind < HEAP_KINDS; kind++)
        committed[kind] = (size_t)committed_of(index, kind) * bytes_of[kind];
    return index->holds.pages == NULL ? index->holds.table : heap_held(index->holds.pages, index->is_reserved ? committed : NULL);
}

void hot_bytes(const hot_index *index, hot_memory *bytes) {
    const heap_lists *lists = &index->holds.long_lists;
    uint32_t *filling = (uint32_t *)&index->filling;
    size_t opened = 1 + __atomic_load_n(&index->opened, __ATOMIC_RELAXED);
    opened = opened < index->count ? opened : index->count;
    if (index->grows)
        lock_word(filling); /* hot_trim changes the table */
    bytes->now = bytes_held(index) + bytes_beside_table(index, opened) + heap_held_lists(lists);
    bytes->most = bytes_committed(index) + lists->size + bytes_beside_table(index, index->count);
    bytes->most = bytes->most > bytes->now ? bytes->most : bytes->now; /* removals commit nodes that may not be counted yet */
    if (index->grows)
        unlock_word(filling);
}

void hot_stock_for_lengths(const uint32_t *keys, hot_stock *stock) {
    static const size_t longest[5] = {8, 24, 56, 88, HOT_MAX_KEY};
    hot_stock each[5], all;
    uint64_t total = 0;
    int size;
    for (size = 0; size < 5; size++) {
        total += keys[size];
        memset(&each[size], 0, sizeof each[size]);
        if (keys[size] > 0)
            hot_stock_for_keys(keys[size], longest[size], &each[size]);
    }
    hot_stock_for_keys(total < UINT32_MAX ? (uint32_t)total : UINT32_MAX, HOT_MAX_KEY, &all);
    stock->nodes = all.nodes;
    stock->short_leaves = each[0].short_leaves;
    stock->medium_leaves = each[1].medium_leaves;
    stock->large_leaves = each[2].large_leaves;
    stock->wide_leaves = each[3].wide_leaves;
    stock->long_leaves = each[4].long_leaves;
}

/* One call of the proved library looks up so many keys at most, which, with what is found, take so many bytes each. */
enum { KEYS_AT_ONCE = 64, FOR_A_KEY = 272 };

/* Looks up a few keys, with room on the stack: it asks for no memory. */
static hot_status get_few(hot_handle *handle, hot_lookup *lookups, size_t count) {
    __attribute__((aligned(16))) char room[KEYS_AT_ONCE * FOR_A_KEY];
    hot_status status;
    heap_lend(room, sizeof room);
    status = proved_get_many(handle, lookups, count);
    heap_take_back();
    return status;
}

hot_status hot_get_many(hot_handle *handle, hot_lookup *lookups, size_t count) {
    uint16_t number;
    size_t first, size;
    hot_status status = hot_number(handle, &number);
    for (first = 0; status == HOT_DONE && first < count; first++)
        if (lookups[first].length > HOT_MAX_KEY)
            status = HOT_KEY_TOO_LONG;
    for (first = 0; status == HOT_DONE && first < count; first += size) {
        size = count - first < KEYS_AT_ONCE ? count - first : KEYS_AT_ONCE;
        status = get_few(handle, lookups + first, size);
    }
    return status;
}

hot_status hot_get_packed(hot_handle *handle, const uint8_t *bytes, const size_t *lengths, size_t count, uint64_t *values,
                          hot_status *statuses) {
    hot_lookup lookups[KEYS_AT_ONCE];
    uint16_t number;
    size_t first, place, size;
    hot_status status = hot_number(handle, &number);
    for (place = 0; status == HOT_DONE && place < count; place++)
        if (lengths[place] > HOT_MAX_KEY)
            status = HOT_KEY_TOO_LONG;
    for (first = 0; status == HOT_DONE && first < count; first += size) {
        size = count - first < KEYS_AT_ONCE ? count - first : KEYS_AT_ONCE;
        for (place = 0; place < size; place++) {
            lookups[place].key = bytes;
            lookups[place].length = lengths[first + place];
            bytes += lengths[first + place];
        }
        status = hot_get_many(handle, lookups, size);
        for (place = 0; status == HOT_DONE && place < size; place++) {
            statuses[first + place] = lookups[place].status;
            if (lookups[place].status == HOT_FOUND)
                values[first + place] = lookups[place].value;
        }
    }
    return status;
}

/* How many indexes there are that grow. */
static size_t growing;

static void free_index(hot_index *index) {
    size_t place;
    for (place = 0; place < index->count; place++)
        proved_close_section(&index->places[place].section);
    proved_close_section(&index->next);
    proved_close_section(&index->sections);
    heap_unmap_lists(&index->holds.long_lists);
    if (index->grows)
        __atomic_sub_fetch(&growing, 1, __ATOMIC_RELAXED);
    free(index->places);
    free(index);
}

static hot_status open_next_section(hot_index *index) {
    hot_status status = proved_open_section(&index->sections, &index->next);
    return status == HOT_OPEN ? HOT_DONE : status;
}

/* Has a handle that is opened for the first time have that section. */
static void give_section(hot_place *place) {
    static const section_handle none = {0, {NULL}};
    place->section = place->index->next;
    place->index->next = none;
}

static hot_index *new_index(size_t count) {
    static const hot_handle closed = HOT_HANDLE;
    static const section_handle none = {0, {NULL}};
    static const holding nothing;
    hot_index *index = malloc(sizeof *index);
    size_t place;
    if (index == NULL)
        return NULL;
    index->count = count;
    index->sections = index->next = none;
    index->left = 0;
    index->keeper = index->teller = closed;
    index->opening = index->telling = index->filling = 0;
    index->holds = nothing;
    index->opened = 0;
    index->is_reserved = index->grows = 0;
    index->places = calloc(count, sizeof *index->places);
    if (index->places == NULL) {
        free(index);
        return NULL;
    }
    for (place = 0; place < count; place++) {
        index->places[place].index = index;
        index->places[place].to_a_look = KEYS_TO_A_LOOK;
        index->places[place].state = UNOPENED;
    }
    if (proved_make_sections(count, &index->sections) != HOT_DONE) {
        free_index(index);
        return NULL;
    }
    return index;
}

/* An index whose handles are opened with it, so that each has its section; or NULL where memory is refused. */
static hot_index *new_opened_index(size_t count) {
    hot_index *index = new_index(count);
    size_t place;
    for (place = 0; index != NULL && place < count; place++)
        if (open_next_section(index) == HOT_DONE) {
            give_section(&index->places[place]);
        } else {
            free_index(index);
            index = NULL;
        }
    return index;
}

/* Writes where in the table the records of a kind stand that handles claim first, 128 KiB each, and those that each has of its own: as
 * crates/hot_index_calls/src/scratch.rt shares them out. */
static void share_out(heap_table *table, int kind, size_t records, size_t size, size_t handles) {
    enum { FIRST_BYTES = 128 << 10 };
    size_t share = records / handles, small = share < FIRST_BYTES / size ? share : FIRST_BYTES / size;
    table->from[kind] = table->from[kind + 1] - records * size;
    table->first[kind] = handles * small * size;
    table->own[kind] = (share - small) * size;
}

/* The table of an index with this stock and so many handles: its records end where it does, and stand there in this order. None if a number is
 * out of range. It may exceed all memory if its records are committed as they are needed. */
static heap_table table_of(const hot_stock *stock, size_t handles, int is_reserved) {
    static const heap_table none;
    heap_table table = none;
    if (proved_stock_bytes(stock, handles, &table.bytes) != HOT_DONE)
        return table;
    table.handles = is_reserved ? 0 : handles; /* then each claims what it commits */
    table.may_exceed_memory = is_reserved;
    table.from[HEAP_KINDS] = table.bytes;
    share_out(&table, 5, stock->long_leaves, 264, handles);
    share_out(&table, 4, stock->wide_leaves, 112, handles);
    share_out(&table, 3, stock->large_leaves, 80, handles);
    share_out(&table, 2, stock->medium_leaves, 48, handles);
    share_out(&table, 1, stock->short_leaves, 32, handles);
    share_out(&table, 0, stock->nodes, 464, handles);
    return table;
}

/* Notes what a table with this stock takes. */
static void note_stock(holding *holds, const hot_stock *stock, size_t handles) {
    enum { MOST_SCANNED = 64 << 10, FOR_A_PAIR = 300 };
    uint64_t leaves = (uint64_t)stock->short_leaves + stock->medium_leaves + stock->large_leaves + stock->wide_leaves + stock->long_leaves;
    holds->table = table_of(stock, handles, 1).bytes;
    holds->scanned = leaves < MOST_SCANNED / FOR_A_PAIR ? (size_t)leaves * FOR_A_PAIR : MOST_SCANNED;
}

/* Notes what this thread has made: the table, and so many handles with their lists. */
static void note_made(holding *holds, size_t handles) {
    holds->pages = heap_take_pages();
    holds->lists = heap_asked() / handles;
}

/* Gives handles that were opened together, with an index, their places in one; or closes them where memory is refused. */
static hot_status placed(hot_status status, holding *holds, hot_handle *handles, size_t count) {
    hot_index *index;
    size_t place;
    if (status != HOT_DONE)
        return status;
    index = new_opened_index(count);
    for (place = 0; place < count; place++)
        if (index == NULL)
            proved_destroy(&handles[place]);
        else
            handles[place].place = &index->places[place];
    if (index == NULL) {
        heap_unmap_lists(&holds->long_lists);
        return HOT_NO_MEMORY;
    }
    index->holds = *holds;
    index->left = count;
    return HOT_DONE;
}

/* Begins to make an index with this stock and so many handles, of which the records are committed as they are needed, or all at once. */
static void begin_making(const hot_stock *stock, size_t count, int is_reserved, holding *holds) {
    heap_table table = table_of(stock, count, is_reserved);
    note_stock(holds, stock, count);
    heap_map_lists(&holds->long_lists, table.bytes > 0 ? count : 0);
    heap_begin(&table, &holds->long_lists);
}

/* Ends that, and notes what this thread has made. If the table that was made may not be used, it closes the handles that were opened with it:
 * memory was refused. */
static hot_status end_making(hot_status status, hot_handle *handles, size_t count, holding *holds) {
    size_t place;
    if (!heap_end() && status == HOT_DONE) {
        for (place = 0; place < count; place++)
            proved_destroy(&handles[place]);
        status = HOT_NO_MEMORY;
    }
    if (status == HOT_DONE)
        note_made(holds, count);
    else
        heap_unmap_lists(&holds->long_lists);
    return status;
}

hot_status hot_create(uint32_t nodes, uint32_t leaves, hot_handle *handles, size_t count) {
    hot_stock stock = {0, 0, 0, 0, 0, 0};
    holding holds;
    if (!is_processor_new())
        return HOT_OLD_PROCESSOR;
    stock.nodes = nodes;
    stock.long_leaves = leaves;
    begin_making(&stock, count, 0, &holds);
    return placed(end_making(proved_create(nodes, leaves, handles, count), handles, count, &holds), &holds, handles, count);
}

hot_status hot_create_with(const hot_stock *stock, hot_handle *handles, size_t count) {
    holding holds;
    if (!is_processor_new())
        return HOT_OLD_PROCESSOR;
    begin_making(stock, count, 0, &holds);
    return placed(end_making(proved_create_with(stock, handles, count), handles, count, &holds), &holds, handles, count);
}

/* What an index is to reserve, what of that is committed at first, and how many bytes may be. */
typedef struct plan {
    hot_stock reserved, first;
    size_t most;
    int grows; /* whether it has reserved as much as it could */
} plan;

/* Notes that an index was made so. */
static void note_plan(hot_index *index, const plan *of) {
    size_t place;
    index->is_reserved = 1;
    index->grows = of->grows;
    index->most = of->most;
    memcpy(index->reserved, &of->reserved, sizeof index->reserved);
    memcpy(index->committed, &of->first, sizeof index->committed);
    proved_stock_bytes(&of->first, index->count, &index->taken);
    for (place = 0; place < index->count; place++)
        index->places[place].to_a_look = 1;
    if (of->grows)
        __atomic_add_fetch(&growing, 1, __ATOMIC_RELAXED);
}

/* Makes an index of this stock, all of which is committed if there is no plan. */
static hot_status open_index(const hot_stock *stock, const plan *of, size_t handles, hot_index **index) {
    size_t bytes;
    hot_index *made;
    hot_status status = hot_stock_bytes(stock, handles, &bytes);
    if (status != HOT_DONE)
        return status;
    made = new_index(handles);
    if (made == NULL)
        return HOT_NO_MEMORY;
    begin_making(stock, handles, of != NULL, &made->holds);
    status = end_making(proved_create_keeping(stock, of != NULL ? &of->first : stock, handles, &made->keeper), &made->keeper, 1, &made->holds);
    if (status != HOT_DONE) {
        free_index(made);
        return status;
    }
    if (of != NULL)
        note_plan(made, of);
    *index = made;
    return HOT_DONE;
}

hot_status hot_open_index(const hot_stock *stock, size_t handles, hot_index **index) {
    return open_index(stock, NULL, handles, index);
}

/* Has at least one record of each kind, or of each that another stock has. */
static void have_one(hot_stock *stock, const hot_stock *of) {
    uint32_t counts[HEAP_KINDS], its[HEAP_KINDS] = {1, 1, 1, 1, 1, 1};
    int kind;
    memcpy(counts, stock, sizeof counts);
    if (of != NULL)
        memcpy(its, of, sizeof its);
    for (kind = 0; kind < HEAP_KINDS; kind++)
        counts[kind] += counts[kind] == 0 && its[kind] > 0;
    memcpy(stock, counts, sizeof counts);
}

hot_status hot_open_index_within(const hot_stock *stock, size_t handles, size_t most, hot_index **index) {
    plan of;
    size_t bytes;
    hot_status status = hot_stock_bytes(stock, handles, &bytes);
    if (status != HOT_DONE)
        return status;
    if (bytes > most)
        return HOT_NO_MEMORY;
    of.reserved = *stock;
    of.first = no_stock;
    have_one(&of.first, stock);
    of.most = most;
    of.grows = 0;
    return open_index(stock, &of, handles, index);
}

/* Plans to reserve for each kind of records as many bytes, if these are as many as are there at first. */
static void reserve(plan *of, size_t bytes) {
    static const uint64_t most_of_leaves = (uint64_t)50 << 30; /* all leaves together have numbers of 32 bits */
    uint32_t counts[HEAP_KINDS];
    int kind;
    memcpy(counts, &of->first, sizeof counts);
    for (kind = 0; kind < HEAP_KINDS; kind++) {
        uint64_t its = (kind > 0 && bytes > most_of_leaves ? most_of_leaves : bytes) / bytes_of[kind];
        its = its < UINT32_MAX ? its : UINT32_MAX;
        counts[kind] = its > counts[kind] ? (uint32_t)its : counts[kind];
    }
    memcpy(&of->reserved, counts, sizeof counts);
}

/* Plans an index that grows, which has this stock at first, or a small one. It reserves as many bytes of each kind as there is memory, but no more than
 * leaves addresses for many such indexes. Where the system refuses them, it reserves a quarter of what it lets one have. HOT_DONE; or HOT_OUT_OF_RANGE or HOT_OLD_PROCESSOR. */
static hot_status plan_growing(const hot_stock *stock, size_t most, size_t handles, plan *of) {
    static const hot_stock small = {16, 16, 16, 1, 1, 1};
    static const size_t least = 192 << 10, all = (size_t)16 << 40;
    enum { MOST_HANDLES = 1023, SEVERAL = 64 };
    size_t bytes, memory = (size_t)sysconf(_SC_PHYS_PAGES) * page_size(),
                  share = all / HEAP_KINDS / (SEVERAL + __atomic_load_n(&growing, __ATOMIC_RELAXED));
    hot_status status = hot_stock_bytes(stock != NULL ? stock : &small, handles, &bytes);
    int are_few = 0;
    if (status != HOT_DONE)
        return status;
    of->first = stock != NULL ? *stock : small;
    have_one(&of->first, NULL);
    of->most = most;
    of->grows = 1;
    if (hot_stock_bytes(&of->first, handles, &bytes) != HOT_DONE || bytes > most || handles > MOST_HANDLES)
        return HOT_OUT_OF_RANGE;
    memory = memory < share ? memory : share;
    memory = memory / 2 < most ? memory : 2 * most; /* removals may commit nodes beyond that */
    for (memory = memory > least ? memory : least;; memory /= 2, are_few = 1) {
        reserve(of, memory);
        if (memory < least || (proved_stock_bytes(&of->reserved, handles, &bytes) == HOT_DONE && heap_may_map(bytes)))
            break;
    }
    if (are_few && memory / 4 > least)
        reserve(of, memory / 4); /* others want some, too */
    return HOT_DONE;
}

hot_status hot_open_growing(const hot_stock *stock, size_t most, size_t handles, hot_index **index) {
    plan of;
    hot_status status = plan_growing(stock, most, handles, &of);
    return status == HOT_DONE ? open_index(&of.reserved, &of, handles, index) : status;
}

/* What a load may take: in a table whose records are committed as they are needed, so many bytes. It fills nodes one after the other, from `from` on. */
typedef struct bound {
    size_t most, taken, nodes, from;
    const heap_pages *words;
} bound;

/* Whether there may be one more leaf for a key of this length, with the nodes that there are, and those that the load has to end with: by what is
 * known of it, as many as there are pairs, or some tens. */
static int has_room(bound *of, size_t length, size_t count) {
    enum { AT_THE_END = 32 };
    size_t bytes = bytes_of[kind_for(length)];
    while (heap_is_used(of->words, of->from + of->nodes * bytes_of[0]))
        of->nodes++;
    if (of->taken + bytes + (of->nodes + (count < AT_THE_END ? count + 1 : AT_THE_END)) * bytes_of[0] > of->most)
        return 0;
    of->taken += bytes;
    return 1;
}

/* Takes pairs into a load, until there is none or one is refused. Writes how many it took, and returns why the next one was refused, or
 * HOT_DONE. */
static hot_status take_pairs(loading *load, bound *of, hot_source *next, void *context, size_t *count) {
    const uint8_t *key;
    size_t length;
    uint64_t value;
    hot_status status = HOT_DONE;
    for (*count = 0; next(context, &key, &length, &value); ++*count) {
        status = of == NULL || has_room(of, length, *count) ? proved_load_pair(load, key, length, value) : HOT_FULL_LEAVES;
        if (status != HOT_DONE)
            break;
    }
    return status;
}

/* Begins a load, and writes what its table holds. HOT_DONE or HOT_NO_MEMORY. */
static hot_status begin_load(const hot_stock *stock, size_t handles, begun_load *begun, holding *holds) {
    hot_status status;
    note_stock(holds, stock, handles);
    heap_begin(&begun->table, NULL);
    status = proved_begin_load(stock, handles, &begun->load);
    if (heap_pause(&begun->words) || status != HOT_DONE)
        return status;
    proved_give_up_load(&begun->load);
    return HOT_NO_MEMORY;
}

/* Makes a table of what a load has taken, opens its keeper, and writes what it holds. HOT_DONE or HOT_NO_MEMORY. */
static hot_status end_load(begun_load *begun, const hot_stock *committed, size_t handles, hot_handle *keeper, holding *holds) {
    hot_status status;
    heap_map_lists(&holds->long_lists, handles);
    heap_go_on(&begun->table, begun->words, &holds->long_lists);
    status = end_making(proved_end_load(&begun->load, committed, keeper), keeper, 1, holds);
    if (status == HOT_DONE)
        heap_end_load(holds->pages);
    return status;
}

/* Bounds a load by what may be committed. */
static void bound_load(const plan *of, const begun_load *begun, size_t handles, bound *room) {
    proved_stock_bytes(&of->first, handles, &room->taken);
    room->most = of->most;
    room->nodes = 0;
    room->from = begun->table.from[0] - bytes_of[0]; /* one is kept for removals */
    room->words = begun->words;
}

/* Makes an index of what `next` gives, until it gives no more or a pair is refused: writes why, and how many it took. The stock is read before
 * `next` is called, which may change it. */
static hot_status load_index(const hot_stock *stock, const plan *of, hot_source *next, void *context, hot_index *made, hot_status *refused,
                             size_t *count) {
    static const begun_load none;
    static const hot_stock all = {UINT32_MAX, UINT32_MAX, UINT32_MAX, UINT32_MAX, UINT32_MAX, UINT32_MAX};
    begun_load begun = none;
    bound room;
    hot_status status;
    begun.table = table_of(stock, made->count, of != NULL);
    status = begin_load(stock, made->count, &begun, &made->holds);
    if (status != HOT_DONE)
        return status;
    if (of != NULL)
        bound_load(of, &begun, made->count, &room);
    *refused = take_pairs(&begun.load, of != NULL ? &room : NULL, next, context, count);
    if (*refused != HOT_NO_MEMORY)
        return end_load(&begun, of != NULL ? &of->first : &all, made->count, &made->keeper, &made->holds);
    proved_give_up_load(&begun.load);
    return HOT_NO_MEMORY;
}

/* Loads an index of this stock, all of which is committed if there is no plan. */
static hot_status load_any(const hot_stock *stock, const plan *of, size_t handles, hot_source *next, void *context, hot_index **index,
                           size_t *count) {
    hot_index *made = new_index(handles);
    hot_status refused, status;
    uint64_t left;
    uint32_t kind;
    size_t loaded;
    if (made == NULL)
        return HOT_NO_MEMORY;
    status = load_index(stock, of, next, context, made, &refused, &loaded);
    if (status != HOT_DONE) {
        free_index(made);
        return status;
    }
    if (of != NULL)
        note_plan(made, of);
    for (kind = 0; kind < HEAP_KINDS && of != NULL; kind++)
        if (proved_uncommitted(&made->keeper, kind, &left) == HOT_DONE)
            note_committed(made, kind, left, 0);
    made->places[0].keys = loaded;
    *index = made;
    *count = loaded;
    return refused;
}

hot_status hot_load(const hot_stock *stock, size_t handles, hot_source *next, void *context, hot_index **index, size_t *count) {
    size_t bytes;
    hot_status status = hot_stock_bytes(stock, handles, &bytes);
    return status == HOT_DONE ? load_any(stock, NULL, handles, next, context, index, count) : status;
}

hot_status hot_load_growing(size_t most, size_t handles, hot_source *next, void *context, hot_index **index, size_t *count) {
    plan of;
    hot_status status = plan_growing(NULL, most, handles, &of);
    return status == HOT_DONE ? load_any(&of.reserved, &of, handles, next, context, index, count) : status;
}

/* Pairs that lie packed, and a source that gives them. */
typedef struct packed {
    const uint8_t *bytes;
    const hot_head *heads;
    size_t count;
} packed;

static int next_packed(void *context, const uint8_t **key, size_t *length, uint64_t *value) {
    packed *left = context;
    if (left->count == 0)
        return 0;
    *key = left->bytes;
    *length = left->heads->length;
    *value = left->heads->value;
    left->bytes += left->heads->length;
    ++left->heads;
    --left->count;
    return 1;
}

hot_status hot_load_packed(const hot_stock *stock, size_t handles, const uint8_t *bytes, const hot_head *heads, size_t count, hot_index **index,
                           size_t *loaded) {
    packed all;
    all.bytes = bytes;
    all.heads = heads;
    all.count = count;
    return hot_load(stock, handles, next_packed, &all, index, loaded);
}

/* Takes a handle that was given back, at this place. */
static int take(hot_place *place) {
    uint32_t state = GIVEN_BACK;
    return __atomic_load_n(&place->state, __ATOMIC_SEQ_CST) == GIVEN_BACK &&
           __atomic_compare_exchange_n(&place->state, &state, TAKEN, 0, __ATOMIC_SEQ_CST, __ATOMIC_SEQ_CST);
}

static void set_state(hot_place *place, uint32_t state) {
    __atomic_store_n(&place->state, state, __ATOMIC_SEQ_CST);
}

/* Moves a handle to a place that has a closed one. */
static void move_handle(hot_handle *to, hot_handle *from) {
    static const hot_handle closed = HOT_HANDLE;
    *to = *from;
    *from = closed;
}

static hot_status open_next(hot_handle *keeper, hot_handle *handle, holding *holds) {
    size_t used = holds->long_lists.used;
    uint16_t number;
    hot_status status;
    heap_begin(NULL, &holds->long_lists);
    status = proved_open_kept(keeper, handle);
    heap_end();
    if (status != HOT_DONE)
        holds->long_lists.used = used;
    if (status == HOT_NO_HANDLE && hot_number(keeper, &number) == HOT_DONE) {
        move_handle(handle, keeper);
        status = HOT_DONE;
    }
    return status;
}

static void give_place(hot_place *place, hot_handle *handle) {
    handle->place = place;
    give_section(place);
    set_state(place, TAKEN);
}

/* Opens a handle that was not opened yet. */
static hot_status open_kept(hot_index *index, hot_handle *handle) {
    uint16_t number;
    hot_status status;
    lock_word(&index->opening);
    status = open_next_section(index);
    if (status == HOT_DONE)
        status = open_next(&index->keeper, handle, &index->holds);
    if (status == HOT_DONE && hot_number(handle, &number) == HOT_DONE)
{
        give_place(&index->places[number], handle);
        __atomic_add_fetch(&index->opened, 1, __ATOMIC_RELAXED);
    }
    unlock_word(&index->opening);
    return status == HOT_CLOSED ? HOT_NO_HANDLE : status;
}

hot_status hot_open(hot_index *index, hot_handle *handle) {
    size_t place;
    uint16_t number;
    if (hot_number(handle, &number) == HOT_DONE)
        return HOT_OPEN;
    for (place = 0; place < index->count; place++)
        if (take(&index->places[place])) {
            move_handle(handle, &index->places[place].closed);
            return HOT_DONE;
        }
    return open_kept(index, handle);
}

hot_status hot_close(hot_handle *handle) {
    hot_place *place = handle->place;
    uint16_t number;
    hot_status status = hot_number(handle, &number);
    if (status != HOT_DONE)
        return status;
    if (proved_is_inside(&place->section) == HOT_INSIDE)
        return HOT_INSIDE;
    if (__atomic_load_n(&place->index->left, __ATOMIC_SEQ_CST) > 0) {
        proved_destroy(handle);
        handle->place = NULL;
        if (__atomic_sub_fetch(&place->index->left, 1, __ATOMIC_SEQ_CST) == 0)
            free_index(place->index);
        return HOT_DONE;
    }
    move_handle(&place->closed, handle);
    set_state(place, GIVEN_BACK);
    return HOT_DONE;
}

/* Whether a handle that a program may open has been opened at this place. */
static int was_opened(const hot_place *place) {
    return __atomic_load_n(&place->state, __ATOMIC_SEQ_CST) != UNOPENED && place != place->index->teller.place;
}

/* Takes all handles that have been opened, if all were given back. */
static int take_all(hot_index *index) {
    size_t place;
    for (place = 0; place < index->count; place++)
        if (was_opened(&index->places[place]) && !take(&index->places[place])) {
            while (place-- > 0)
                if (was_opened(&index->places[place]))
                    set_state(&index->places[place], GIVEN_BACK);
            return 0;
        }
    return 1;
}

/* Frees an index whose handles are closed, with these. */
static void free_closed(hot_index *index) {
    size_t place;
    for (place = 0; place < index->count; place++)
        proved_destroy(&index->places[place].closed);
    proved_destroy(&index->teller);
    proved_destroy(&index->keeper);
    free_index(index);
}

hot_status hot_close_index(hot_index *index) {
    lock_word(&index->opening);
    if (!take_all(index)) {
        unlock_word(&index->opening);
        return HOT_OPEN;
    }
    free_closed(index);
    return HOT_DONE;
}

hot_status hot_destroy(hot_handle *handle) {
    return hot_close(handle);
}

hot_status hot_meet(hot_handle *one, hot_handle *other) {
    hot_index *index, *its_index;
    hot_status status = find_index(one, &index);
    if (status == HOT_DONE)
        status = find_index(other, &its_index);
    if (status != HOT_DONE)
        return status;
    if (index != its_index)
        return HOT_OTHER_INDEX;
    if (one != other) {
        proved_see(one, other);
        proved_see(other, one);
    }
    return HOT_DONE;
}

hot_status hot_stamp(hot_handle *handle, hot_moment *moment) {
    hot_index *index;
    hot_status status = find_index(handle, &index);
    if (status != HOT_DONE)
        return status;
    lock_word(&index->telling);
    if (index->teller.place == NULL)
        status = hot_open(index, &index->teller);
    if (status == HOT_DONE) {
        proved_see(&index->teller, handle);
        moment->index = index;
    }
    unlock_word(&index->telling);
    return status;
}

hot_status hot_follow(hot_handle *handle, const hot_moment *moment) {
    hot_index *index;
    hot_status status = find_index(handle, &index);
    if (status != HOT_DONE)
        return status;
    if (index != moment->index)
        return HOT_OTHER_INDEX;
    lock_word(&index->telling);
    status = proved_see(handle, &index->teller);
    unlock_word(&index->telling);
    return status;
}

/* The section of a handle; NULL if the handle is closed. */
static section_handle *section_of(hot_handle *handle) {
    uint16_t number;
    return hot_number(handle, &number) == HOT_DONE ? &handle->place->section : NULL;
}

hot_status hot_enter(hot_handle *handle) {
    section_handle *section = section_of(handle);
    return section == NULL ? HOT_CLOSED : proved_enter_section(section);
}

hot_status hot_leave(hot_handle *handle) {
    section_handle *section = section_of(handle);
    return section == NULL ? HOT_CLOSED : proved_leave_section(section);
}

hot_status hot_retired(hot_handle *handle, hot_retirement *moment) {
    section_handle *section = section_of(handle);
    if (section == NULL)
        return HOT_CLOSED;
    moment->index = handle->place->index;
    return proved_take_moment(section, &moment->number);
}

hot_status hot_is_past(hot_handle *handle, const hot_retirement *moment) {
    section_handle *section = section_of(handle);
    if (section == NULL)
        return HOT_CLOSED;
    return handle->place->index == moment->index ? proved_is_moment_past(section, moment->number) : HOT_OTHER_INDEX;
}

/* An index that grows has nothing to do ahead of need: what it reserves is committed by and by. */
hot_status hot_grow(hot_index *index) {
    return index->grows ? HOT_DONE : HOT_FIXED;
}

hot_status hot_grow_begin(hot_index *index) {
    return hot_grow(index);
}

hot_status hot_grow_step(hot_index *index, uint32_t *more) {
    if (index->grows)
        *more = 0;
    return hot_grow(index);
}

int hot_is_filling(hot_index *index) {
    (void)index;
    return 0;
}

/* A scan that gives its pairs to a load. */
typedef struct rescan {
    hot_handle *by;
    hot_pair pairs[32];
    uint8_t from[HOT_MAX_KEY];
    size_t at, count, from_length;
    uint32_t more;
    hot_status status; /* why it has ended too early, or HOT_DONE */
} rescan;

static int next_scanned(void *context, const uint8_t **key, size_t *length, uint64_t *value) {
    rescan *of = context;
    const hot_pair *pair = &of->pairs[of->at];
    if (of->at == of->count) {
        of->at = of->count = 0;
        if (of->more)
            of->status = hot_scan(of->by, of->from, of->from_length, HOT_TO_END, of->pairs, 32, &of->count, &of->more);
        if (of->status != HOT_DONE || of->count == 0)
            return 0;
        pair = &of->pairs[of->count - 1];
        of->more = of->more && hot_after(pair->key, pair->length, of->from, &of->from_length) == HOT_DONE;
        pair = of->pairs;
    }
    of->at++;
    *key = pair->key;
    *length = pair->length;
    *value = pair->value;
    return 1;
}

/* The handle of a place, of which all handles are closed: the teller, or that which was given back. */
static hot_handle *handle_at(hot_index *index, size_t place) {
    return index->teller.place == &index->places[place] ? &index->teller : &index->places[place].closed;
}

static void swap_bytes(void *one, void *other, size_t size) {
    uint8_t kept[sizeof(holding)];
    memcpy(kept, one, size);
    memcpy(one, other, size);
    memcpy(other, kept, size);
}

/* Two indexes change their tables, with as many handles of each. */
static void swap_tables(hot_index *index, hot_index *other) {
    size_t place;
    lock_word(&index->filling);
    for (place = 0; place < index->opened; place++) {
        hot_handle *its = handle_at(index, place);
        hot_place *kept = its->place;
        swap_bytes(its, &other->places[place].closed, sizeof *its);
        its->place = kept;
        index->places[place].keys = place == 0 ? other->places[0].keys : 0;
    }
    swap_bytes(&index->keeper, &other->keeper, sizeof index->keeper);
    swap_bytes(&index->holds, &other->holds, sizeof index->holds);
    swap_bytes(index->reserved, other->reserved, sizeof index->reserved);
    swap_bytes(index->committed, other->committed, sizeof index->committed);
    swap_bytes(&index->taken, &other->taken, sizeof index->taken);
    unlock_word(&index->filling);
}

/* Makes an index of the same pairs, with as many open handles. HOT_DONE or HOT_NO_MEMORY. */
static hot_status make_anew(hot_index *index, hot_index **made) {
    rescan of;
    uint16_t number;
    size_t place, count;
    hot_status status;
    of.by = hot_number(&index->keeper, &number) == HOT_DONE ? &index->keeper : handle_at(index, 0);
    of.at = of.count = of.from_length = 0;
    of.more = 1;
    of.status = HOT_DONE;
    status = hot_load_growing(index->most, index->count, next_scanned, &of, made, &count);
    if (*made == NULL)
        return HOT_NO_MEMORY;
    status = status == HOT_DONE ? of.status : status;
    for (place = 0; place < index->opened && status == HOT_DONE; place++)
        status = open_next(&(*made)->keeper, &(*made)->places[place].closed, &(*made)->holds);
    return status;
}

hot_status hot_trim(hot_index *index) {
    hot_index *made = NULL;
    hot_status status = hot_grow(index);
    size_t place;
    if (status != HOT_DONE)
        return status;
    lock_word(&index->opening);
    if (!take_all(index)) {
        unlock_word(&index->opening);
        return HOT_OPEN;
    }
    status = make_anew(index, &made);
    if (status == HOT_DONE)
        swap_tables(index, made);
    if (made != NULL)
        free_closed(made);
    for (place = 0; place < index->count; place++)
        if (was_opened(&index->places[place]))
            set_state(&index->places[place], GIVEN_BACK);
    unlock_word(&index->opening);
    return status;
}

/* Maps with an index: what values lead to, copies where few pairs are left, and what the server is told of their memory. */
#define _DEFAULT_SOURCE
#include "index.h"
#include "jobs.h"
#include "row.h"
#include "server.h"
#include <sched.h>
#include <string.h>
#include <sys/mman.h>

long long memory_limit;
atomic_ullong index_count, index_bytes;

int is_over_limit(size_t more) {
    return memory_limit > 0 && atomic_load(&index_bytes) + more > (unsigned long long)memory_limit;
}

/* ---- Memory ---- */

/* Gives the pages of what was never used back to the system: those that lie in it as a whole. */
static void forget_pages(void *at, size_t bytes) {
    enum { PAGE_BYTES = 4096 };
    uintptr_t begin = ((uintptr_t)at + PAGE_BYTES - 1) / PAGE_BYTES * PAGE_BYTES,
              end = ((uintptr_t)at + bytes) / PAGE_BYTES * PAGE_BYTES;
    if (begin < end)
        madvise((void *)begin, end - begin, MADV_DONTNEED);
}

/* A leaf record of the smallest size with room for the key, and a thirteenth of a node record, which is what random keys take of
 * one when they are loaded. */
size_t pair_bytes(size_t length) {
    enum { NODE_PART = 36 };
    return NODE_PART + (length <= 8 ? 32 : length <= 24 ? 48 : length <= 56 ? 80 : length <= 88 ? 112 : 264);
}

/* The first table takes as much as 500 short fields do. */
size_t bytes_for(size_t record_bytes) {
    enum { BESIDE = 72 << 10, LEAST = 88 << 10 };
    return BESIDE + record_bytes > LEAST ? BESIDE + record_bytes : LEAST;
}

/* How much memory an index takes. Of a small table hot_bytes counts what was never written, too: so there it goes by the records
 * that pairs have had. */
static size_t bytes_of(const indexed_map *of) {
    enum { MANY = 16384 };
    hot_memory bytes;
    size_t most = bytes_for(of->most_bytes);
    hot_bytes(of->index, &bytes);
    return of->most >= MANY || bytes.now < most ? bytes.now : most;
}

/* Gives a block out that is never used. */
static void *give_out(size_t bytes) {
    void *made = bytes == 0 ? NULL : RedisModule_TryAlloc(bytes);
    if (made != NULL)
        forget_pages(made, bytes);
    return made;
}

/* The server's allocator has four sizes of large blocks for each doubling, and counts the one that it gives. So one block is of the
 * largest size that is not too large, and one has the rest: both together are a thirtieth too large at most. */
void index_tell(indexed_map *of) {
    enum { SIZE_BITS = 3 };
    size_t bytes = bytes_of(of), far = bytes > of->told_bytes ? bytes - of->told_bytes : of->told_bytes - bytes, first;
    int unused = 64 - SIZE_BITS - __builtin_clzll(bytes);
    if (far < of->told_bytes / 32)
        return;
    first = bytes >> unused << unused;
    RedisModule_Free(of->told[0]);
    RedisModule_Free(of->told[1]);
    of->told[0] = give_out(first);
    of->told[1] = give_out(bytes - first);
    atomic_fetch_add(&index_bytes, bytes - of->told_bytes);
    of->told_bytes = bytes;
}

void index_leave(indexed_map *of) {
    RedisModule_Free(of->told[0]);
    RedisModule_Free(of->told[1]);
    atomic_fetch_sub(&index_bytes, of->told_bytes);
    of->told[0] = of->told[1] = NULL;
    of->told_bytes = 0;
}

size_t index_memory(const indexed_map *of) {
    size_t bytes = sizeof *of + bytes_of(of) + of->text_bytes + of->gone_room * sizeof *of->gone;
    return of->copy == NULL ? bytes : bytes + index_memory(of->copy);
}

/* ---- Retired values ---- */

/* They stand in a ring. */
static retired *gone_at(const indexed_map *of, size_t at) {
    size_t place = of->gone_first + at;
    return &of->gone[place < of->gone_room ? place : place - of->gone_room];
}

/* Frees up to two retired values that no job reads any more. As many come with each that is retired, no call frees more. */
static void free_past(indexed_map *of) {
    int times;
    for (times = 0; times < 2 && of->gone_count > 0; times++) {
        retired *it = gone_at(of, 0);
        if (hot_is_past(&of->handle, &it->moment) != HOT_DONE)
            return;
        word_free(it->value);
        of->gone_first = of->gone_first + 1 < of->gone_room ? of->gone_first + 1 : 0;
        of->gone_count--;
    }
}

/* Has room for one more retired value: 0 if there is no memory. */
static int has_room(indexed_map *of) {
    size_t room = of->gone_room * 2 + PAGE, before = of->gone_room - of->gone_first;
    retired *more;
    if (of->gone_count < of->gone_room)
        return 1;
    more = RedisModule_TryAlloc(room * sizeof *more);
    if (more == NULL)
        return 0;
    if (of->gone_count > 0) {
        memcpy(more, of->gone + of->gone_first, before * sizeof *more);
        memcpy(more + before, of->gone, of->gone_first * sizeof *more);
    }
    RedisModule_Free(of->gone);
    of->gone = more;
    of->gone_first = 0;
    of->gone_room = room;
    return 1;
}

void index_retire(indexed_map *of, word value) {
    retired it = {value, {NULL, 0}};
    free_past(of);
    if (word_kind(value) != LONG_TEXT)
        return;
    of->text_bytes -= word_bytes(value);
    if (atomic_load(&of->uses) == 1 && of->gone_count == 0) {
        word_free(value);
        return;
    }
    hot_retired(&of->handle, &it.moment);
    if (has_room(of)) {
        *gone_at(of, of->gone_count++) = it;
        return;
    }
    /* A job stays in its section for a page. */
    while (hot_is_past(&of->handle, &it.moment) == HOT_NOT_PAST)
        sched_yield();
    word_free(value);
}

/* ---- Making and freeing ---- */

/* Pairs whose values an index takes: a copy of what they lead to. Until the index is there they are noted. */
typedef struct taking {
    hot_source *next;
    void *context;
    indexed_map *of;
    word *made;
    size_t count, room;
    int is_refused;
} taking;

static int note_word(taking *from, word made) {
    if (from->count == from->room) {
        size_t room = from->room * 2 + PAGE;
        word *more = RedisModule_TryAlloc(room * sizeof *more);
        if (more == NULL)
            return 0;
        if (from->count > 0)
            memcpy(more, from->made, from->count * sizeof *more);
        RedisModule_Free(from->made);
        from->made = more;
        from->room = room;
    }
    from->made[from->count++] = made;
    return 1;
}

static int take_next(void *context, const uint8_t **key, size_t *length, uint64_t *value) {
    taking *from = context;
    char room[TEXT_ROOM];
    word given;
    if (!from->next(from->context, key, length, &given))
        return 0;
    *value = given;
    if (word_kind(given) == PACKED || word_kind(given) == LONG_TEXT) {
        from->is_refused = !word_make(word_text(given, room), value);
        if (!from->is_refused && !note_word(from, *value)) {
            word_free(*value);
            from->is_refused = 1;
        }
        if (from->is_refused)
            return 0;
    }
    from->of->record_bytes += pair_bytes(*length);
    from->of->text_bytes += word_bytes(*value);
    return 1;
}

static void note_most(indexed_map *of) {
    if (of->most < of->count)
        of->most = of->count;
    if (of->most_bytes < of->record_bytes)
        of->most_bytes = of->record_bytes;
}

/* Opens the handle of the main thread, once there is an index. */
static int begin_use(indexed_map *of, size_t count) {
    if (hot_open(of->index, &of->handle) != HOT_DONE) {
        hot_close_index(of->index);
        return 0;
    }
    of->form = INDEXED;
    of->uses = 1;
    of->count = count;
    note_most(of);
    of->next_look = 1;
    of->row_at = ROW_COUNT / 2;
    atomic_fetch_add(&index_count, 1);
    index_tell(of);
    return 1;
}

indexed_map *index_new(hot_source *next, void *context) {
    indexed_map *made = RedisModule_TryAlloc(sizeof *made);
    taking from = {next, context, made, NULL, 0, 0, 0};
    size_t count = 0;
    int is_made;
    if (made == NULL)
        return NULL;
    memset(made, 0, sizeof *made);
    is_made = hot_load_growing(SIZE_MAX, jobs_threads() + 1, take_next, &from, &made->index, &count) == HOT_DONE;
    if ((!is_made || from.is_refused) && made->index != NULL) {
        hot_close_index(made->index);
        is_made = 0;
    }
    if (!is_made || !begin_use(made, count)) {
        while (from.count > 0)
            word_free(from.made[--from.count]);
        RedisModule_Free(made);
        made = NULL;
    }
    RedisModule_Free(from.made);
    return made;
}

/* Frees what the values of the index lead to, page by page. */
static void free_texts(indexed_map *of) {
    key_page *page = RedisModule_TryAlloc(sizeof *page);
    key_range range;
    size_t at;
    range_of_all(&range);
    while (page != NULL && map_list((map *)of, &of->handle, &range, 0, PAGE, page) == HOT_DONE) {
        for (at = 0; at < page->count; at++)
            word_free(page->heads[at].value);
        if (!page->more || !range_go_on(&range, 0, page))
            break;
    }
    RedisModule_Free(page);
}

void index_free(indexed_map *of) {
    size_t at;
    if (of->text_bytes > 0)
        free_texts(of);
    for (at = 0; at < of->gone_count; at++)
        word_free(gone_at(of, at)->value);
    RedisModule_Free(of->gone);
    hot_close(&of->handle);
    hot_close_index(of->index);
    index_leave(of);
    atomic_fetch_sub(&index_count, 1);
    RedisModule_Free(of);
}

/* ---- Copies ---- */

int index_has_few(const indexed_map *of) {
    enum { LARGE = 2048 };
    return of->copy == NULL && of->count > 0 && of->most >= LARGE && of->count < of->most / 8;
}

static int no_pairs(void *context, const uint8_t **key, size_t *length, uint64_t *value) {
    (void)context;
    (void)key;
    (void)length;
    (void)value;
    return 0;
}

int index_begin_copy(indexed_map *of) {
    of->copy = index_new(no_pairs, NULL);
    of->rest_length = 0;
    return of->copy != NULL;
}

void index_end_copy(indexed_map *of) {
    if (of->copy != NULL)
        map_drop((map *)of->copy);
    of->copy = NULL;
}

/* Whether the copy has what there is of a field. */
static int is_copied(const indexed_map *of, field key) {
    size_t both = key.length < of->rest_length ? key.length : of->rest_length;
    int order = of->copy == NULL ? 1 : memcmp(key.at, of->rest, both);
    return order < 0 || (order == 0 && key.length < of->rest_length);
}

/* Gives a field of the copy a value. */
static void put_in_copy(indexed_map *of, field key, word value) {
    char room[TEXT_ROOM];
    word made, had;
    hot_status status = HOT_NO_MEMORY;
    if (word_make(word_text(value, room), &made)) {
        status = index_put(of->copy, key, made, &had);
        if (status == HOT_WAS)
            index_retire(of->copy, had);
        else if (status != HOT_NEW)
            word_free(made);
    }
    if (status != HOT_NEW && status != HOT_WAS)
        index_end_copy(of);
}

static void take_of_copy(indexed_map *of, field key) {
    word had;
    if (index_take(of->copy, key, &had))
        index_retire(of->copy, had);
}

static void put_page(indexed_map *of, const key_page *page) {
    const uint8_t *at = page->bytes;
    size_t place;
    for (place = 0; place < page->count && of->copy != NULL; place++) {
        field key = {at, page->heads[place].length};
        put_in_copy(of, key, page->heads[place].value);
        at += key.length;
    }
}

indexed_map *index_copy_on(indexed_map *of, portion left) {
    static key_page page;
    indexed_map *made = of->copy;
    key_range rest;
    range_of_all(&rest);
    rest.from_length = of->rest_length;
    memcpy(rest.from, of->rest, of->rest_length);
    do {
        if (map_list((map *)of, &of->handle, &rest, 0, PAGE, &page) != HOT_DONE) {
            index_end_copy(of);
            return NULL;
        }
        page_cut(&page, 1, &left);
        put_page(of, &page);
        if (of->copy == NULL)
            return NULL;
        if (!page.more || !range_go_on(&rest, 0, &page)) {
            of->copy = NULL;
            made->row_at = of->row_at;
            return made;
        }
    } while (left.pairs > 0 && left.bytes > 0);
    of->rest_length = rest.from_length;
    memcpy(of->rest, rest.from, rest.from_length);
    return NULL;
}

/* ---- Changes ---- */

static void look(indexed_map *of) {
    of->next_look = (uint32_t)(of->count / 64 < UINT32_MAX ? of->count / 64 : UINT32_MAX) + 64;
    note_most(of);
    index_tell(of);
    if (of->copy != NULL && of->count > of->most / 4)
        index_end_copy(of);
}

hot_status index_put(indexed_map *of, field key, word value, word *had) {
    hot_status status = hot_upsert(&of->handle, key.at, key.length, value, had);
    if (status != HOT_NEW && status != HOT_WAS)
        return status;
    of->text_bytes += word_bytes(value);
    if (is_copied(of, key))
        put_in_copy(of, key, value);
    if (status == HOT_NEW) {
        of->count++;
        of->record_bytes += pair_bytes(key.length);
        if (--of->next_look == 0)
            look(of);
    }
    return status;
}

int index_take(indexed_map *of, field key, word *had) {
    if (hot_remove(&of->handle, key.at, key.length, had) != HOT_REMOVED)
        return 0;
    of->count--;
    of->record_bytes -= pair_bytes(key.length);
    if (is_copied(of, key))
        take_of_copy(of, key);
    return 1;
}

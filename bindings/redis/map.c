/* Ordered maps of all forms. */
#include "map.h"
#include "index.h"
#include "jobs.h"
#include "row.h"
#include "server.h"
#include <string.h>

static small_map *small_of(const map *of) {
    return (small_map *)of;
}

static indexed_map *indexed_of(const map *of) {
    return (indexed_map *)of;
}

static row_map *row_of(const map *of) {
    return (row_map *)of;
}

/* The blocks of a map without an index. The one of a small map is written to `one`. */
static small_map *const *blocks_of(const map *of, small_map **one, size_t *count) {
    *one = small_of(of);
    *count = of->form == SMALL ? 1 : row_of(of)->count;
    return of->form == SMALL ? one : row_of(of)->blocks;
}

static text text_of(field value) {
    text of = {(const char *)value.at, value.length};
    return of;
}

hot_handle *map_handle(map *of) {
    return of->form == INDEXED ? &indexed_of(of)->handle : NULL;
}

uint64_t map_length(const map *of) {
    switch (of->form) {
    case SMALL: return small_of(of)->count;
    case ROW: return row_of(of)->pairs;
    default: return indexed_of(of)->count;
    }
}

uint64_t map_number(map *of) {
    static uint64_t last;
    if (of->number == 0)
        of->number = ++last;
    return of->number;
}

size_t map_bytes(const map *of) {
    switch (of->form) {
    case SMALL: return RedisModule_MallocSize((void *)of);
    case ROW: return row_bytes(row_of(of));
    default: return index_memory(indexed_of(of));
    }
}

void map_drop(map *of) {
    if (of->form == SMALL)
        RedisModule_Free(of);
    else if (of->form == ROW)
        row_free(row_of(of));
    else if (atomic_fetch_sub(&indexed_of(of)->uses, 1) == 1)
        jobs_free(indexed_of(of));
}

static void *move(void *at, RedisModuleDefragCtx *ctx) {
    void *to = RedisModule_DefragAlloc(ctx, at);
    return to == NULL ? at : to;
}

map *map_move(map *of, RedisModuleDefragCtx *ctx) {
    row_map *row;
    size_t at;
    if (of->form == INDEXED)
        return of;
    of = move(of, ctx);
    if (of->form == SMALL)
        return of;
    row = row_of(of);
    row->blocks = move(row->blocks, ctx);
    for (at = 0; at < row->count; at++)
        row->blocks[at] = move(row->blocks[at], ctx);
    return of;
}

void take_off(portion *from, size_t bytes) {
    from->pairs -= from->pairs > 0;
    from->bytes -= bytes < from->bytes ? bytes : from->bytes;
}

/* ---- Small maps ---- */

map *map_of_block(const uint8_t *bytes, size_t used, size_t count) {
    return (map *)block_make(bytes, used, count);
}

static block_edit edit_of(const small_map *of) {
    block_edit it = {edited, of == NULL ? 0 : of->used, of == NULL ? 0 : of->count};
    if (of != NULL)
        memcpy(edited, of->bytes, of->used);
    return it;
}

/* Sets a pair in a block: 0 if the block is too small for it. */
static int set_in_block(block_edit *of, setting *it, field key, field value) {
    int is_there = block_get(of->bytes, of->used, key.at, key.length) != NULL;
    if (it->which == (is_there ? ABSENT_FIELD : HELD_FIELD))
        return 1;
    if (value.length > SMALL_BYTES || of->used + PAIR_MORE + value.length > SMALL_BYTES || (!is_there && of->count == SMALL_COUNT))
        return 0;
    block_put(of, key.at, key.length, text_of(value));
    it->set++;
    it->new_fields += (uint64_t)!is_there;
    return 1;
}

/* Sets pairs in a block, and returns how many: all, or those before the first that the block is too small for. */
static size_t set_in_small(block_edit *of, setting *it) {
    size_t at = 0;
    while (at < it->count && set_in_block(of, it, it->words[2 * at], it->words[2 * at + 1]))
        at++;
    return at;
}

static size_t take_small(map *of, const field *fields, size_t count, map **made) {
    block_edit edit = edit_of(small_of(of));
    small_map *it = small_of(of);
    size_t at, taken = 0;
    for (at = 0; at < count; at++)
        taken += (size_t)block_take(&edit, fields[at].at, fields[at].length);
    *made = of;
    if (taken == 0)
        return 0;
    *made = map_of_block(edit.bytes, edit.used, edit.count);
    if (*made == NULL) {
        /* What is left fits where it stood. */
        it->count = (uint16_t)edit.count;
        it->used = (uint16_t)edit.used;
        memcpy(it->bytes, edit.bytes, edit.used);
        *made = of;
    }
    return taken;
}

/* ---- Sets ---- */

/* What setting a pair came to: the value that its field had, if it was not new. */
typedef struct step {
    enum { LEFT, MADE_NEW, REPLACED } did;
    word had;
} step;

static hot_status set_in_index(indexed_map *of, setting *it, field key, field value, step *did) {
    word made, held;
    hot_status status;
    did->did = LEFT;
    if (it->which != ANY_FIELD) {
        int is_there = hot_get(&of->handle, key.at, key.length, &held) == HOT_FOUND;
        if (it->which == (is_there ? ABSENT_FIELD : HELD_FIELD))
            return HOT_DONE;
    }
    if (!word_make(text_of(value), &made))
        return HOT_NO_MEMORY;
    status = index_put(of, key, made, &did->had);
    if (status != HOT_NEW && status != HOT_WAS) {
        word_free(made);
        return status;
    }
    did->did = status == HOT_NEW ? MADE_NEW : REPLACED;
    it->set++;
    it->new_fields += status == HOT_NEW;
    return HOT_DONE;
}

/* Takes back what was set of the first pairs. No part of that needs a record: so none is refused. */
static void take_back(indexed_map *of, const setting *it, const step *did, size_t count) {
    word put;
    while (count-- > 0) {
        field key = it->words[2 * count];
        if (did[count].did == MADE_NEW && index_take(of, key, &put)) {
            index_retire(of, put);
        } else if (did[count].did == REPLACED) {
            of->text_bytes -= word_bytes(did[count].had);
            index_put(of, key, did[count].had, &put);
            index_retire(of, put);
        }
    }
}

/* Sets the pairs, of which there are several. */
static hot_status set_many(indexed_map *of, setting *it) {
    step *did = RedisModule_TryAlloc(it->count * sizeof *did);
    hot_status status = HOT_DONE;
    size_t at, count = 0;
    if (did == NULL)
        return HOT_NO_MEMORY;
    while (status == HOT_DONE && count < it->count) {
        status = set_in_index(of, it, it->words[2 * count], it->words[2 * count + 1], &did[count]);
        count += status == HOT_DONE;
    }
    if (status != HOT_DONE)
        take_back(of, it, did, count);
    for (at = 0; status == HOT_DONE && at < count; at++)
        if (did[at].did == REPLACED)
            index_retire(of, did[at].had);
    RedisModule_Free(did);
    return status;
}

static hot_status set_indexed(indexed_map *of, setting *it) {
    hot_status status;
    step did;
    if (it->count > 1)
        return set_many(of, it);
    status = set_in_index(of, it, it->words[0], it->words[1], &did);
    if (did.did == REPLACED)
        index_retire(of, did.had);
    return status;
}

/* Sets pairs in an index of those that a source gives. */
static hot_status set_in_new_index(blocks_reader from, setting *it, map **made) {
    indexed_map *larger = index_new(next_of_blocks, &from);
    hot_status status;
    if (larger == NULL)
        return HOT_NO_MEMORY;
    status = set_indexed(larger, it);
    if (status == HOT_DONE)
        *made = (map *)larger;
    else
        map_drop((map *)larger);
    return status;
}

/* Sets pairs in a row, or in an index if it would be too large. Then that is written. */
static hot_status set_in_row(row_map *of, setting *it, map **made) {
    setting again = *it;
    hot_status status = row_set(of, it);
    blocks_reader from = {of->blocks, of->blocks + of->count, {0}};
    if (status != HOT_FULL_LEAVES)
        return status;
    *it = again;
    return set_in_new_index(from, it, made);
}

/* Sets the rest of the pairs in a larger map of the block that has the first. */
static hot_status set_beyond(const block_edit *of, setting *it, size_t first, map **made) {
    small_map *block = block_make(of->bytes, of->used, of->count);
    blocks_reader from = {&block, &block + 1, {0}}, once_more = from;
    setting rest = *it;
    row_map *larger;
    map *set = NULL;
    hot_status status;
    if (block == NULL)
        return HOT_NO_MEMORY;
    rest.words += 2 * first;
    rest.count -= first;
    larger = of->count == 0 ? NULL : row_new(next_of_blocks, &from);
    status = larger == NULL ? set_in_new_index(once_more, &rest, &set) : set_in_row(larger, &rest, &set);
    if (status == HOT_DONE)
        *made = set == NULL ? (map *)larger : set;
    if (larger != NULL && *made != (map *)larger)
        row_free(larger);
    RedisModule_Free(block);
    it->set = rest.set;
    it->new_fields = rest.new_fields;
    return status;
}

hot_status map_set(map *of, setting *it, map **made) {
    block_edit edit;
    size_t first;
    *made = of;
    it->set = it->new_fields = 0;
    if (of != NULL && of->form == INDEXED)
        return set_indexed(indexed_of(of), it);
    if (of != NULL && of->form == ROW)
        return set_in_row(row_of(of), it, made);
    edit = edit_of(small_of(of));
    first = set_in_small(&edit, it);
    if (first < it->count)
        return set_beyond(&edit, it, first, made);
    if (it->set > 0)
        *made = map_of_block(edit.bytes, edit.used, edit.count);
    return *made == NULL && it->set > 0 ? HOT_NO_MEMORY : HOT_DONE;
}

/* ---- Removals ---- */

/* The pairs of a map with an index as a source. */
typedef struct walk {
    const map *of;
    hot_handle *handle;
    key_range range;
    key_page *page;
    size_t at;
    const uint8_t *key;
    int is_refused;
} walk;

static int next_page(walk *from) {
    if (from->page->count > 0 && (!from->page->more || !range_go_on(&from->range, 0, from->page)))
        return 0;
    from->is_refused = map_list(from->of, from->handle, &from->range, 0, PAGE, from->page) != HOT_DONE;
    from->at = 0;
    from->key = from->page->bytes;
    return !from->is_refused && from->page->count > 0;
}

static int next_of_walk(void *context, const uint8_t **key, size_t *length, uint64_t *value) {
    walk *from = context;
    if (from->at == from->page->count && !next_page(from))
        return 0;
    *key = from->key;
    *length = from->page->heads[from->at].length;
    *value = from->page->heads[from->at++].value;
    from->key += *length;
    return 1;
}

static walk walk_of(const map *of) {
    static key_page page;
    walk from = {of, map_handle((map *)of), {0}, &page, 0, NULL, 0};
    page.count = 0;
    range_of_all(&from.range);
    return from;
}

/* Makes a small map of what is left in a row, if that fits in one. */
static map *small_again(const row_map *of) {
    blocks_reader from = {of->blocks, of->blocks + of->count, {0}};
    uint8_t before[HOT_MAX_KEY];
    const uint8_t *key;
    char room[TEXT_ROOM];
    size_t length, before_length = 0, used = 0;
    word value;
    if (of->bytes > SMALL_BYTES / 2)
        return NULL;
    while (next_of_blocks(&from, &key, &length, &value)) {
        used += block_write(edited + used, key, length, before, before_length, word_text(value, room));
        memcpy(before, key, length);
        before_length = length;
    }
    return map_of_block(edited, used, of->pairs);
}

/* Makes a row of what is left in an index. Where that has too long values, fewer pairs are tried later. */
static map *row_again(indexed_map *of) {
    walk from = walk_of((map *)of);
    row_map *made = of->text_bytes > ROW_BYTES / 2 ? NULL : row_new(next_of_walk, &from);
    if (made != NULL && made->pairs != of->count) {
        row_free(made);
        made = NULL;
    }
    of->row_at = of->count / 2;
    return (map *)made;
}

/* Gives an index that has lost pairs another form, if few are left. */
static void settle(indexed_map *of, map **made) {
    map *smaller = of->count > 0 && of->count <= of->row_at ? row_again(of) : NULL;
    if (smaller != NULL)
        *made = smaller;
}

static size_t take_of_row(row_map *of, const field *fields, size_t count, portion *left, uint64_t *taken, map **made) {
    uint32_t before = of->pairs;
    size_t at;
    map *smaller;
    for (at = 0; at < count && of->pairs > 0 && left->pairs > 0 && left->bytes > 0; at++)
        take_off(left, row_take(of, fields[at]) ? fields[at].length : 0);
    *taken += before - of->pairs;
    smaller = of->pairs > 0 && of->pairs <= SMALL_AGAIN ? small_again(of) : NULL;
    if (smaller != NULL)
        *made = smaller;
    return of->pairs == 0 ? count : at;
}

static size_t take_indexed(indexed_map *of, const field *fields, size_t count, portion *left, uint64_t *taken, map **made) {
    uint64_t before = of->count;
    size_t at;
    word had;
    for (at = 0; at < count && left->pairs > 0 && left->bytes > 0; at++) {
        int is_there = index_take(of, fields[at], &had);
        take_off(left, is_there ? fields[at].length + word_length(had) : 0);
        if (is_there)
            index_retire(of, had);
    }
    *taken += before - of->count;
    if (of->count < before)
        settle(of, made);
    return at;
}

size_t map_take(map *of, const field *fields, size_t count, portion *left, uint64_t *taken, map **made) {
    *made = of;
    if (of->form == INDEXED)
        return take_indexed(indexed_of(of), fields, count, left, taken, made);
    if (of->form == ROW)
        return take_of_row(row_of(of), fields, count, left, taken, made);
    left->pairs -= count < left->pairs ? count : left->pairs;
    *taken += take_small(of, fields, count, made);
    return count;
}

/* ---- Look-ups ---- */

int map_get(map *of, field key, word *value) {
    const uint8_t *packed;
    if (of->form == INDEXED)
        return hot_get(&indexed_of(of)->handle, key.at, key.length, value) == HOT_FOUND;
    packed = of->form == ROW ? row_get(row_of(of), key) : block_get(small_of(of)->bytes, small_of(of)->used, key.at, key.length);
    if (packed == NULL)
        return 0;
    *value = packed_word(packed);
    return 1;
}

void map_get_many(map *of, hot_lookup *lookups, size_t count) {
    size_t at;
    if (of->form == INDEXED) {
        hot_get_many(&indexed_of(of)->handle, lookups, count);
        return;
    }
    for (at = 0; at < count; at++) {
        field key = {lookups[at].key, lookups[at].length};
        lookups[at].status = map_get(of, key, &lookups[at].value) ? HOT_FOUND : HOT_ABSENT;
    }
}

/* ---- Ranges ---- */

void range_of_all(key_range *to) {
    to->from_length = 0;
    to->upto_length = HOT_MAX_KEY;
    memcpy(to->upto, hot_last_key, HOT_MAX_KEY);
}

hot_status map_list(const map *of, hot_handle *handle, const key_range *range, int falls, size_t limit, key_page *page) {
    small_map *one, *const *blocks;
    size_t count;
    limit = limit < PAGE ? limit : PAGE;
    if (of->form != INDEXED) {
        blocks = blocks_of(of, &one, &count);
        blocks_list(blocks, count, range, falls, limit, page);
        return HOT_DONE;
    }
    return (falls ? hot_scan_packed_reverse : hot_scan_packed)(handle, range->from, range->from_length, range->upto,
                                                               range->upto_length, page->bytes, sizeof page->bytes, page->heads,
                                                               limit, &page->count, &page->more);
}

hot_status map_count(const map *of, hot_handle *handle, const key_range *range, size_t *count) {
    small_map *one, *const *blocks;
    size_t block_count;
    if (of->form == INDEXED)
        return hot_count(handle, range->from, range->from_length, range->upto, range->upto_length, count);
    blocks = blocks_of(of, &one, &block_count);
    *count = blocks_count(blocks, block_count, range);
    return HOT_DONE;
}

field page_last(const key_page *page) {
    field key = {page->bytes, 0};
    size_t at;
    for (at = 0; at + 1 < page->count; at++)
        key.at += page->heads[at].length;
    key.length = page->heads[at].length;
    return key;
}

void page_cut(key_page *page, int with_values, portion *left) {
    size_t at;
    for (at = 0; at < page->count && left->bytes > 0; at++)
        take_off(left, page->heads[at].length + (with_values ? word_length(page->heads[at].value) : 0));
    page->more |= at < page->count;
    page->count = at;
}

int range_go_on(key_range *range, int falls, const key_page *page) {
    field key;
    if (page->count == 0)
        return 0;
    key = page_last(page);
    if (falls)
        return hot_before(key.at, key.length, range->upto, &range->upto_length) == HOT_DONE;
    return hot_after(key.at, key.length, range->from, &range->from_length) == HOT_DONE;
}

/* ---- Whole maps ---- */

map *map_of_pairs(hot_source *next, void *context) {
    return (map *)index_new(next, context);
}

map *map_copy(const map *of) {
    walk from;
    map *made;
    if (of->form == SMALL)
        return map_of_block(small_of(of)->bytes, small_of(of)->used, small_of(of)->count);
    if (of->form == ROW)
        return (map *)row_copy(row_of(of));
    from = walk_of(of);
    made = map_of_pairs(next_of_walk, &from);
    if (made != NULL && from.is_refused) {
        map_drop(made);
        made = NULL;
    }
    return made;
}

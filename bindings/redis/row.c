/* Pairs in a row of blocks. */
#include "row.h"
#include "server.h"
#include <string.h>

uint8_t edited[SMALL_BYTES + PAIR_MORE];

static int compare(const uint8_t *one, size_t one_length, const uint8_t *other, size_t other_length) {
    int by = memcmp(one, other, one_length < other_length ? one_length : other_length);
    return by != 0 ? by : (one_length > other_length) - (one_length < other_length);
}

/* The first key of a block, which has nothing in common with one before. */
static field first_key(const small_map *of) {
    field key = {of->bytes + ENTRY_HEAD, of->bytes[1]};
    return key;
}

static block_reader reader_of(const small_map *of) {
    block_reader from;
    from.at = of->bytes;
    from.end = of->bytes + of->used;
    from.length = 0;
    return from;
}

/* The last block whose first key is not above a key; or the first block. */
static size_t find_block(small_map *const *blocks, size_t count, const uint8_t *key, size_t length) {
    size_t low = 0, high = count;
    while (high - low > 1) {
        size_t middle = low + (high - low) / 2;
        field first = first_key(blocks[middle]);
        if (compare(first.at, first.length, key, length) <= 0)
            low = middle;
        else
            high = middle;
    }
    return low;
}

small_map *block_make(const uint8_t *bytes, size_t used, size_t count) {
    small_map *made = RedisModule_TryAlloc(sizeof *made + used);
    if (made == NULL)
        return NULL;
    ((map *)made)->number = 0;
    made->form = SMALL;
    made->count = (uint16_t)count;
    made->used = (uint16_t)used;
    memcpy(made->bytes, bytes, used);
    return made;
}

/* ---- Making and freeing ---- */

typedef struct row_making {
    row_map *of;
    size_t room, used, count;
    uint8_t last[HOT_MAX_KEY];
    size_t last_length;
} row_making;

/* Puts a block at a place of a list: 0 if there is no memory. */
static int put_block(small_map ***blocks, uint32_t *count, size_t *room, size_t at, small_map *block) {
    if (*count == *room) {
        size_t more_room = *room + *room / 4 + 4;
        small_map **more = RedisModule_TryAlloc(more_room * sizeof *more);
        if (more == NULL)
            return 0;
        if (*count > 0)
            memcpy(more, *blocks, *count * sizeof *more);
        RedisModule_Free(*blocks);
        *blocks = more;
        *room = more_room;
    }
    memmove(*blocks + at + 1, *blocks + at, (*count - at) * sizeof **blocks);
    (*blocks)[at] = block;
    ++*count;
    return 1;
}

static int end_block(row_making *to) {
    small_map *made = to->count == 0 ? NULL : block_make(edited, to->used, to->count);
    if (to->count == 0)
        return 1;
    if (made == NULL || !put_block(&to->of->blocks, &to->of->count, &to->room, to->of->count, made)) {
        RedisModule_Free(made);
        return 0;
    }
    to->of->pairs += (uint32_t)to->count;
    to->of->bytes += (uint32_t)to->used;
    to->count = to->used = to->last_length = 0;
    return 1;
}

static int add_pair(row_making *to, const uint8_t *key, size_t length, word value) {
    char room[TEXT_ROOM];
    text of = word_text(value, room);
    if (of.length > ROW_VALUE || to->of->pairs >= ROW_COUNT || to->of->bytes >= ROW_BYTES)
        return 0;
    to->used += block_write(edited + to->used, key, length, to->last, to->last_length, of);
    memcpy(to->last, key, length);
    to->last_length = length;
    return ++to->count < ROW_BLOCK && to->used < ROW_BLOCK_BYTES ? 1 : end_block(to);
}

row_map *row_new(hot_source *next, void *context) {
    row_making to = {RedisModule_TryAlloc(sizeof *to.of), 0, 0, 0, {0}, 0};
    const uint8_t *key;
    size_t length;
    word value;
    int is_made = to.of != NULL;
    if (!is_made)
        return NULL;
    memset(to.of, 0, sizeof *to.of);
    to.of->form = ROW;
    while (is_made && next(context, &key, &length, &value))
        is_made = add_pair(&to, key, length, value);
    if (is_made && end_block(&to) && to.of->pairs <= ROW_COUNT)
        return to.of;
    row_free(to.of);
    return NULL;
}

row_map *row_copy(const row_map *of) {
    row_map *made = RedisModule_TryAlloc(sizeof *made);
    size_t room = 0, at;
    if (made == NULL)
        return NULL;
    memset(made, 0, sizeof *made);
    made->form = ROW;
    made->pairs = of->pairs;
    made->bytes = of->bytes;
    for (at = 0; at < of->count; at++) {
        small_map *block = block_make(of->blocks[at]->bytes, of->blocks[at]->used, of->blocks[at]->count);
        if (block == NULL || !put_block(&made->blocks, &made->count, &room, at, block)) {
            RedisModule_Free(block);
            row_free(made);
            return NULL;
        }
    }
    return made;
}

void row_free(row_map *of) {
    size_t at;
    for (at = 0; at < of->count; at++)
        RedisModule_Free(of->blocks[at]);
    RedisModule_Free(of->blocks);
    RedisModule_Free(of);
}

size_t row_bytes(const row_map *of) {
    size_t sum = RedisModule_MallocSize((void *)of) + RedisModule_MallocSize(of->blocks), at;
    for (at = 0; at < of->count; at++)
        sum += RedisModule_MallocSize(of->blocks[at]);
    return sum;
}

/* ---- Sets ---- */

/* A change of a row. Blocks are made anew, with the number 1, and take the place of others in another list: so the row stays as it
 * is until all are there. One block is open, and stands in the room. */
typedef struct row_edit {
    small_map **blocks, **gone; /* the new list, and what it has no more of the old one */
    uint32_t count, gone_count;
    size_t room, gone_room;
    size_t open; /* the number of the open block, or NONE */
    block_edit at;
    int is_changed; /* the open block is */
    uint32_t pairs, bytes;
} row_edit;
enum { NONE = UINT32_MAX };

/* Takes a block out of the new list. */
static int let_go(row_edit *it, size_t at) {
    small_map *block = it->blocks[at];
    it->bytes -= block->used;
    it->pairs -= block->count;
    if (block->number == 0 && !put_block(&it->gone, &it->gone_count, &it->gone_room, it->gone_count, block))
        return 0;
    if (block->number == 1)
        RedisModule_Free(block);
    it->count--;
    memmove(it->blocks + at, it->blocks + at + 1, (it->count - at) * sizeof *it->blocks);
    return 1;
}

/* Puts the first pairs of the room into a block of the new list, and leaves the others there. */
static int cut_room(row_edit *it, size_t at, size_t most, size_t most_bytes) {
    static uint8_t rest[sizeof edited];
    block_reader from = {it->at.bytes, it->at.bytes + it->at.used, 0, {0}};
    size_t count = 0, used;
    small_map *made;
    while (count < most && (count == 0 || (size_t)(from.at - it->at.bytes) < most_bytes) && block_next(&from) != NULL)
        count++;
    used = (size_t)(from.at - it->at.bytes);
    made = block_make(it->at.bytes, used, count);
    if (made == NULL)
        return 0;
    made->number = 1;
    if (!put_block(&it->blocks, &it->count, &it->room, at, made)) {
        RedisModule_Free(made);
        return 0;
    }
    it->pairs += made->count;
    it->bytes += made->used;
    it->at.count -= count;
    if (it->at.count > 0) {
        /* The next key has nothing in common with one before now. */
        size_t shared = from.at[0], length = shared + from.at[1], left = it->at.used - used - ENTRY_HEAD - from.at[1];
        rest[0] = 0;
        rest[1] = (uint8_t)length;
        memcpy(rest + ENTRY_HEAD, from.key, shared);
        memcpy(rest + ENTRY_HEAD + shared, from.at + ENTRY_HEAD, length - shared + left);
        it->at.used = ENTRY_HEAD + length + left;
        memcpy(it->at.bytes, rest, it->at.used);
    }
    return 1;
}

/* Puts the open block back, in two parts if it is too large. The last one of a row, which gets rising keys, is cut behind what
 * fits. */
static int close_block(row_edit *it) {
    size_t at = it->open, most = ROW_BLOCK, bytes = ROW_BLOCK_BYTES;
    it->open = NONE;
    if (at == NONE || !it->is_changed)
        return 1;
    if (at + 1 < it->count && (it->at.count > ROW_BLOCK || it->at.used > ROW_BLOCK_BYTES)) {
        most = (it->at.count + 1) / 2;
        bytes = it->at.used / 2 + HOT_MAX_KEY;
    }
    if (!let_go(it, at))
        return 0;
    for (; it->at.count > 0; at++)
        if (!cut_room(it, at, most, bytes))
            return 0;
    return 1;
}

static int open_block(row_edit *it, field key) {
    size_t at = find_block(it->blocks, it->count, key.at, key.length);
    const small_map *block;
    if (at == it->open)
        return 1;
    if (!close_block(it))
        return 0;
    it->open = find_block(it->blocks, it->count, key.at, key.length);
    block = it->blocks[it->open];
    it->at.bytes = edited;
    it->at.used = block->used;
    it->at.count = block->count;
    it->is_changed = 0;
    memcpy(edited, block->bytes, block->used);
    return 1;
}

static hot_status set_in_row(row_edit *it, setting *by, field key, field value) {
    text of = {(const char *)value.at, value.length};
    int is_there;
    if (!open_block(it, key))
        return HOT_NO_MEMORY;
    is_there = block_get(it->at.bytes, it->at.used, key.at, key.length) != NULL;
    if (by->which == (is_there ? ABSENT_FIELD : HELD_FIELD))
        return HOT_DONE;
    if (value.length > ROW_VALUE)
        return HOT_FULL_LEAVES;
    block_put(&it->at, key.at, key.length, of);
    it->is_changed = 1;
    by->set++;
    by->new_fields += (uint64_t)!is_there;
    if ((it->at.count > ROW_BLOCK || it->at.used > ROW_BLOCK_BYTES) && !close_block(it))
        return HOT_NO_MEMORY;
    return it->pairs > ROW_COUNT || it->bytes > ROW_BYTES ? HOT_FULL_LEAVES : HOT_DONE;
}

/* Takes the new list over, or drops it. */
static void end_edit(row_map *of, row_edit *it, int is_done) {
    size_t at;
    for (at = 0; at < (is_done ? it->gone_count : 0); at++)
        RedisModule_Free(it->gone[at]);
    for (at = 0; at < it->count; at++)
        if (is_done)
            it->blocks[at]->number = 0;
        else if (it->blocks[at]->number == 1)
            RedisModule_Free(it->blocks[at]);
    RedisModule_Free(it->gone);
    RedisModule_Free(is_done ? of->blocks : it->blocks);
    if (!is_done)
        return;
    of->blocks = it->blocks;
    of->count = it->count;
    of->pairs = it->pairs;
    of->bytes = it->bytes;
}

hot_status row_set(row_map *of, setting *by) {
    row_edit it = {NULL, NULL, of->count, 0, of->count + 1, 0, NONE, {NULL, 0, 0}, 0, of->pairs, of->bytes};
    hot_status status = HOT_DONE;
    size_t at;
    it.blocks = RedisModule_TryAlloc(it.room * sizeof *it.blocks);
    if (it.blocks == NULL)
        return HOT_NO_MEMORY;
    memcpy(it.blocks, of->blocks, of->count * sizeof *it.blocks);
    for (at = 0; status == HOT_DONE && at < by->count; at++)
        status = set_in_row(&it, by, by->words[2 * at], by->words[2 * at + 1]);
    if (status == HOT_DONE && !close_block(&it))
        status = HOT_NO_MEMORY;
    if (status == HOT_DONE && (it.pairs > ROW_COUNT || it.bytes > ROW_BYTES))
        status = HOT_FULL_LEAVES;
    end_edit(of, &it, status == HOT_DONE);
    return status;
}

/* ---- Removals and look-ups ---- */

int row_take(row_map *of, field key) {
    size_t at = find_block(of->blocks, of->count, key.at, key.length);
    small_map *block = of->blocks[at], *made;
    block_edit edit = {edited, block->used, block->count};
    memcpy(edited, block->bytes, block->used);
    if (!block_take(&edit, key.at, key.length))
        return 0;
    of->pairs--;
    of->bytes -= (uint32_t)(block->used - edit.used);
    made = edit.count == 0 ? NULL : block_make(edited, edit.used, edit.count);
    if (edit.count == 0) {
        of->count--;
        memmove(of->blocks + at, of->blocks + at + 1, (of->count - at) * sizeof *of->blocks);
        RedisModule_Free(block);
    } else if (made != NULL) {
        of->blocks[at] = made;
        RedisModule_Free(block);
    } else {
        /* What is left fits where it stood. */
        block->count = (uint16_t)edit.count;
        block->used = (uint16_t)edit.used;
        memcpy(block->bytes, edited, edit.used);
    }
    return 1;
}

const uint8_t *row_get(const row_map *of, field key) {
    const small_map *block = of->blocks[find_block(of->blocks, of->count, key.at, key.length)];
    return block_get(block->bytes, block->used, key.at, key.length);
}

/* ---- Reads ---- */

int next_of_blocks(void *context, const uint8_t **key, size_t *length, uint64_t *value) {
    blocks_reader *from = context;
    const uint8_t *packed = block_next(&from->from);
    while (packed == NULL) {
        if (from->at == from->end)
            return 0;
        from->from = reader_of(*from->at++);
        packed = block_next(&from->from);
    }
    *key = from->from.key;
    *length = from->from.length;
    *value = packed_word(packed);
    return 1;
}

static int is_upto(const uint8_t *key, size_t length, const key_range *range) {
    return compare(key, length, range->upto, range->upto_length) <= 0;
}

/* Goes to the first pair of a range, and returns its packed value: NULL if there is none in the block. */
static const uint8_t *first_of_range(block_reader *from, const small_map *of, const key_range *range) {
    const uint8_t *packed;
    *from = reader_of(of);
    do
        packed = block_next(from);
    while (packed != NULL && compare(from->key, from->length, range->from, range->from_length) < 0);
    return packed;
}

/* Counts the pairs of a block that are in a range. */
static size_t count_in(const small_map *of, const key_range *range) {
    block_reader from;
    const uint8_t *packed = first_of_range(&from, of, range);
    size_t count = 0;
    for (; packed != NULL && is_upto(from.key, from.length, range); packed = block_next(&from))
        count++;
    return count;
}

size_t blocks_count(small_map *const *blocks, size_t count, const key_range *range) {
    size_t first = find_block(blocks, count, range->from, range->from_length);
    size_t last = find_block(blocks, count, range->upto, range->upto_length), sum, at;
    if (compare(range->from, range->from_length, range->upto, range->upto_length) > 0)
        return 0;
    sum = count_in(blocks[first], range);
    for (at = first + 1; at < last; at++)
        sum += blocks[at]->count;
    return last > first ? sum + count_in(blocks[last], range) : sum;
}

static void add_to_page(key_page *page, size_t *used, const uint8_t *key, hot_head head) {
    memcpy(page->bytes + *used, key, head.length);
    page->heads[page->count++] = head;
    *used += head.length;
}

/* Lists the first pairs of a range behind those that it skips. */
static void list_rising(small_map *const *blocks, size_t count, const key_range *range, size_t skip, size_t limit, key_page *to) {
    size_t at = find_block(blocks, count, range->from, range->from_length), used = 0;
    block_reader from;
    const uint8_t *packed = first_of_range(&from, blocks[at], range);
    to->count = 0;
    to->more = 0;
    for (;;) {
        while (packed == NULL && ++at < count) {
            if (skip >= blocks[at]->count) {
                skip -= blocks[at]->count;
                continue;
            }
            from = reader_of(blocks[at]);
            packed = block_next(&from);
        }
        if (packed == NULL || !is_upto(from.key, from.length, range))
            return;
        if (to->count == limit)
            break;
        if (skip > 0) {
            skip--;
        } else {
            hot_head head = {(uint8_t)from.length, packed_word(packed)};
            add_to_page(to, &used, from.key, head);
        }
        packed = block_next(&from);
    }
    to->more = 1;
}

/* Turns a page around. */
static void turn(const key_page *from, key_page *to) {
    size_t at, left = 0, written = 0;
    to->count = 0;
    to->more = from->more;
    for (at = 0; at < from->count; at++)
        left += from->heads[at].length;
    while (at-- > 0) {
        left -= from->heads[at].length;
        add_to_page(to, &written, from->bytes + left, from->heads[at]);
    }
}

void blocks_list(small_map *const *blocks, size_t count, const key_range *range, int falls, size_t limit, key_page *to) {
    static key_page rising;
    size_t pairs;
    if (!falls) {
        list_rising(blocks, count, range, 0, limit, to);
        return;
    }
    pairs = blocks_count(blocks, count, range);
    list_rising(blocks, count, range, pairs > limit ? pairs - limit : 0, limit, &rising);
    rising.more = pairs > limit;
    turn(&rising, to);
}

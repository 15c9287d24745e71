/* The data type: how a map is saved and loaded, copied, freed and measured. */
#define _DEFAULT_SOURCE
#include "type.h"
#include "index.h"
#include "map.h"
#include "row.h"
#include <string.h>
#include <unistd.h>

RedisModuleType *map_type;

/* A saved map is its number of pairs, and then blocks: the number of pairs of each, and its bytes. The first key of a block has
 * nothing in common with the one before. A block ends behind so many bytes, or with one pair more. */
enum { ENCODING = 0, BLOCK_BYTES = 48 << 10 };

/* ---- Saving ---- */

/* A map that is walked through. It needs no memory: the child of a fork may walk, since the main thread's handle is in no call
 * then. */
typedef struct walk {
    const map *of;
    key_range range;
} walk;

static key_page page;

/* Tells that memory was refused. A child ends, and so the server keeps the file that it has. What the parent has written can't be
 * loaded. */
static void refuse(RedisModuleIO *io) {
    RedisModule_LogIOError(io, "warning", "an ordered map can't be saved: no memory for a page");
    if (RedisModule_GetContextFlags(RedisModule_GetContextFromIO(io)) & IS_CHILD)
        _exit(1);
}

/* Lists the next page: 0 if there is none. Where memory is refused it tries pages of one pair, again and again for two seconds. */
static int next_page(walk *from, RedisModuleIO *io) {
    enum { TIMES = 200, MICROSECONDS = 10000 };
    int times;
    if (page.count > 0 && (!page.more || !range_go_on(&from->range, 0, &page)))
        return 0;
    for (times = 0; times < TIMES; times++) {
        if (map_list(from->of, map_handle((map *)from->of), &from->range, 0, times == 0 ? PAGE : 1, &page) == HOT_DONE)
            return page.count > 0;
        usleep(MICROSECONDS);
    }
    refuse(io);
    return 0;
}

static void begin_walk(walk *from, const map *of) {
    from->of = of;
    range_of_all(&from->range);
    page.count = 0;
}

/* A block that is being written, and the last key in it. */
typedef struct writing {
    RedisModuleIO *io;
    size_t used, count, last_length;
    const uint8_t *last;
} writing;

static uint8_t written[BLOCK_BYTES + PAIR_MORE + (1 << 16)];

static void end_block(writing *to) {
    if (to->count == 0)
        return;
    RedisModule_SaveUnsigned(to->io, to->count);
    RedisModule_SaveStringBuffer(to->io, (const char *)written, to->used);
    to->used = to->count = to->last_length = 0;
}

/* A pair whose value is too long for the room is a block of its own. */
static void write_alone(writing *to, const uint8_t *key, size_t length, text value) {
    size_t size = PAIR_MORE + value.length;
    uint8_t *made = RedisModule_TryAlloc(size);
    end_block(to);
    if (made == NULL) {
        refuse(to->io);
        return;
    }
    size = block_write(made, key, length, key, 0, value);
    RedisModule_SaveUnsigned(to->io, 1);
    RedisModule_SaveStringBuffer(to->io, (const char *)made, size);
    RedisModule_Free(made);
}

static void write_pair(writing *to, const uint8_t *key, size_t length, text value) {
    if (value.length > 1 << 16) {
        write_alone(to, key, length, value);
        return;
    }
    to->used += block_write(written + to->used, key, length, to->last, to->last_length, value);
    to->count++;
    to->last = key;
    to->last_length = length;
    if (to->used >= BLOCK_BYTES)
        end_block(to);
}

static void save(RedisModuleIO *io, void *value) {
    writing to = {io, 0, 0, 0, NULL};
    uint8_t last[HOT_MAX_KEY];
    char room[TEXT_ROOM];
    walk from;
    begin_walk(&from, value);
    RedisModule_SaveUnsigned(io, map_length(value));
    while (next_page(&from, io)) {
        const uint8_t *key = page.bytes;
        size_t at;
        for (at = 0; at < page.count; key += page.heads[at++].length)
            write_pair(&to, key, page.heads[at].length, word_text(page.heads[at].value, room));
        /* The page is written again before the next pair. */
        if (to.last_length > 0)
            memmove(last, to.last, to.last_length);
        to.last = last;
    }
    end_block(&to);
}

/* ---- Loading ---- */

/* Whether an index is refused for pairs that take so much of its records: not to a replica, nor while a file is loaded. */
static int is_over(size_t record_bytes) {
    return is_over_limit(bytes_for(record_bytes)) && (RedisModule_GetContextFlags(NULL) & (IS_REPLICA | IS_LOADING)) == 0;
}

/* The blocks of a saved map. All are read and checked before a table is made. */
typedef struct saved_block {
    uint8_t *bytes;
    size_t used;
    uint64_t count;
} saved_block;
typedef struct saved_map {
    saved_block *blocks;
    size_t count, room;
    uint64_t pairs;
    size_t record_bytes;
    size_t at; /* the block that is read next */
    block_reader from;
} saved_map;

static int has_block_room(saved_map *to) {
    size_t room = to->room * 2 + 8;
    saved_block *more;
    if (to->count < to->room)
        return 1;
    more = RedisModule_TryAlloc(room * sizeof *more);
    if (more == NULL)
        return 0;
    if (to->count > 0)
        memcpy(more, to->blocks, to->count * sizeof *more);
    RedisModule_Free(to->blocks);
    to->blocks = more;
    to->room = room;
    return 1;
}

/* Checks a block that was read, whose first key is above the last one of the block before. */
static int check_block(const saved_block *of, saved_map *to) {
    block_reader *from = &to->from;
    uint8_t last[HOT_MAX_KEY];
    size_t last_length = from->length;
    uint64_t count = 0;
    int is_first = to->count == 1;
    memcpy(last, from->key, last_length);
    from->at = of->bytes;
    from->end = of->bytes + of->used;
    from->length = 0;
    while (from->at != from->end) {
        size_t common;
        if (!block_check_next(from, count == 0))
            return 0;
        common = count == 0 && !is_first ? common_bytes(last, last_length, from->key, from->length) : 0;
        if (count == 0 && !is_first && (common == from->length || (common < last_length && from->key[common] < last[common])))
            return 0;
        count++;
        to->record_bytes += pair_bytes(from->length);
    }
    return count > 0 && count == of->count;
}

/* Reads the next block: 0 if it is damaged, or there is no memory. */
static int read_block(RedisModuleIO *io, saved_map *to) {
    saved_block it;
    it.count = RedisModule_LoadUnsigned(io);
    if (RedisModule_IsIOError(io) || it.count == 0 || it.count > to->pairs)
        return 0;
    it.bytes = (uint8_t *)RedisModule_LoadStringBuffer(io, &it.used);
    if (it.bytes == NULL)
        return 0;
    if (RedisModule_IsIOError(io) || !has_block_room(to)) {
        RedisModule_Free(it.bytes);
        return 0;
    }
    to->blocks[to->count++] = it;
    return check_block(&it, to);
}

static int read_blocks(RedisModuleIO *io, saved_map *to) {
    uint64_t left;
    to->pairs = RedisModule_LoadUnsigned(io);
    if (RedisModule_IsIOError(io) || to->pairs == 0)
        return 0;
    for (left = to->pairs; left > 0; left -= to->blocks[to->count - 1].count)
        if (!read_block(io, to) || to->blocks[to->count - 1].count > left)
            return 0;
    return 1;
}

static int next_saved(void *context, const uint8_t **key, size_t *length, uint64_t *value) {
    saved_map *from = context;
    const uint8_t *packed;
    while ((packed = block_next(&from->from)) == NULL) {
        if (from->at == from->count)
            return 0;
        from->from.at = from->blocks[from->at].bytes;
        from->from.end = from->from.at + from->blocks[from->at++].used;
        from->from.length = 0;
    }
    *key = from->from.key;
    *length = from->from.length;
    *value = packed_word(packed);
    return 1;
}

static saved_map *begin_saved(saved_map *of) {
    of->at = 0;
    of->from.at = of->from.end = NULL;
    return of;
}

/* Makes the map of blocks that are right; NULL if there is no memory, or no index may have so much. */
static map *map_of_saved(saved_map *from) {
    map *made;
    if (from->count == 1 && from->pairs <= SMALL_COUNT && from->blocks[0].used <= SMALL_BYTES)
        return map_of_block(from->blocks[0].bytes, from->blocks[0].used, (size_t)from->pairs);
    made = from->pairs > ROW_COUNT ? NULL : (map *)row_new(next_saved, begin_saved(from));
    if (made != NULL)
        return made;
    if (is_over(from->record_bytes))
        return NULL;
    made = map_of_pairs(next_saved, begin_saved(from));
    if (made != NULL && map_length(made) != from->pairs) {
        map_drop(made);
        made = NULL;
    }
    return made;
}

static void *load(RedisModuleIO *io, int version) {
    saved_map from = {0};
    map *made = NULL;
    const char *why = "of a later version";
    if (version == ENCODING) {
        why = "damaged";
        if (read_blocks(io, &from)) {
            why = "refused, since ordered maps have no more memory";
            made = map_of_saved(&from);
        }
    }
    if (made == NULL)
        RedisModule_LogIOError(io, "warning", "a saved ordered map is %s", why);
    while (from.count > 0)
        RedisModule_Free(from.blocks[--from.count].bytes);
    RedisModule_Free(from.blocks);
    return made;
}

/* ---- The rest of its life ---- */

/* Emits commands of so many pairs. */
static void rewrite(RedisModuleIO *io, RedisModuleString *name, void *value) {
    enum { TO_A_COMMAND = 64 };
    RedisModuleString *words[2 * TO_A_COMMAND];
    char room[TEXT_ROOM];
    size_t count = 0;
    walk from;
    begin_walk(&from, value);
    while (next_page(&from, io)) {
        const uint8_t *key = page.bytes;
        size_t at;
        for (at = 0; at < page.count; key += page.heads[at++].length) {
            text of = word_text(page.heads[at].value, room);
            words[count++] = RedisModule_CreateString(NULL, (const char *)key, page.heads[at].length);
            words[count++] = RedisModule_CreateString(NULL, of.at, of.length);
            if (count < 2 * TO_A_COMMAND && at + 1 < page.count)
                continue;
            RedisModule_EmitAOF(io, "OM.SET", "sv", name, words, count);
            while (count > 0)
                RedisModule_FreeString(NULL, words[--count]);
        }
    }
}

static void digest(RedisModuleDigest *of, void *value) {
    char room[TEXT_ROOM];
    int is_more = 1;
    walk from;
    begin_walk(&from, value);
    while (is_more && map_list(value, map_handle(value), &from.range, 0, PAGE, &page) == HOT_DONE) {
        const uint8_t *key = page.bytes;
        size_t at;
        for (at = 0; at < page.count; key += page.heads[at++].length) {
            text it = word_text(page.heads[at].value, room);
            RedisModule_DigestAddStringBuffer(of, (const char *)key, page.heads[at].length);
            RedisModule_DigestAddStringBuffer(of, it.at, it.length);
        }
        is_more = page.more && range_go_on(&from.range, 0, &page);
    }
    RedisModule_DigestEndSequence(of);
}

static size_t usage(const void *value) {
    return map_bytes(value);
}

static void drop(void *value) {
    map_drop(value);
}

/* It takes no effort: a job frees what is large. */
static size_t effort(RedisModuleString *name, const void *value) {
    (void)name;
    (void)value;
    return 1;
}

static int defrag(RedisModuleDefragCtx *ctx, RedisModuleString *name, void **value) {
    (void)name;
    *value = map_move(*value, ctx);
    return 0;
}

static void *copy(RedisModuleString *from, RedisModuleString *to, const void *value) {
    (void)from;
    (void)to;
    if (((const map *)value)->form == INDEXED && is_over(((const indexed_map *)value)->record_bytes)) {
        RedisModule_Log(NULL, "warning", "an ordered map is not copied: ordered maps have no more memory");
        return NULL;
    }
    return map_copy(value);
}

int type_make(RedisModuleCtx *ctx) {
    RedisModuleTypeMethods methods = {0};
    methods.version = 3;
    methods.rdb_load = load;
    methods.rdb_save = save;
    methods.aof_rewrite = rewrite;
    methods.mem_usage = usage;
    methods.digest = digest;
    methods.free = drop;
    methods.free_effort = effort;
    methods.copy = copy;
    methods.defrag = defrag;
    map_type = RedisModule_CreateDataType(ctx, "hot-o-map", ENCODING, &methods);
    return map_type != NULL ? REDISMODULE_OK : REDISMODULE_ERR;
}

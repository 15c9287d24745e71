/* Replies with the values of named fields, by the main thread or by a job. */
#include "lookups.h"
#include "jobs.h"
#include "ranges.h"
#include <string.h>

static const char NO_READER[] = "OOM no memory for a reader";

/* Returns how many bytes the value has. */
static size_t reply_with_found(RedisModuleCtx *ctx, const hot_lookup *found) {
    if (found->status == HOT_FOUND)
        return reply_with_word(ctx, found->value);
    RedisModule_ReplyWithNull(ctx);
    return 0;
}

/* Looks fields up for a client that waits. */
typedef struct lookup_job {
    read_job base;
    size_t count, at;     /* how many they are, and the next one */
    hot_lookup lookups[]; /* and behind them the bytes of their fields */
} lookup_job;

static int refuse_rest(lookup_job *it, const char *why) {
    for (; it->at < it->count; it->at++)
        RedisModule_ReplyWithError(it->base.ctx, why);
    return 0;
}

/* Looks a page up, and replies with as many as the portion has bytes for. Returns how many bytes these have. */
static uint64_t look_page_up(lookup_job *it, hot_handle *handle, portion *left) {
    size_t size = it->count - it->at < PAGE ? it->count - it->at : PAGE, at;
    uint64_t bytes = 0;
    hot_enter(handle);
    hot_get_many(handle, it->lookups + it->at, size);
    for (at = 0; at < size && left->bytes > 0; at++) {
        size_t more = reply_with_found(it->base.ctx, &it->lookups[it->at + at]);
        take_off(left, more);
        bytes += more;
    }
    hot_leave(handle);
    it->at += at;
    return bytes;
}

static int look_up(read_job *base, RedisModuleCtx *ctx, hot_handle *handle) {
    lookup_job *it = (lookup_job *)base;
    portion left = read_portion;
    if (it->at == 0 && handle == NULL)
        return RedisModule_ReplyWithError(ctx, NO_READER), 0;
    if (it->at == 0)
        RedisModule_ReplyWithArray(ctx, (long)it->count);
    if (handle == NULL)
        return refuse_rest(it, NO_READER);
    while (it->at < it->count && left.pairs > 0 && left.bytes > 0) {
        const char *cut = why_cut(base, look_page_up(it, handle, &left));
        if (cut != NULL)
            return refuse_rest(it, cut);
    }
    return it->at < it->count;
}

/* Has a job reply: 0 if there is no memory for one. */
static int give_to_job(RedisModuleCtx *ctx, map *of, const hot_lookup *lookups, size_t count) {
    size_t at, bytes = 0;
    lookup_job *it;
    uint8_t *to;
    for (at = 0; at < count; at++)
        bytes += lookups[at].length;
    it = RedisModule_TryAlloc(sizeof *it + count * sizeof *lookups + bytes);
    if (it == NULL)
        return 0;
    it->base.read = look_up;
    it->count = count;
    it->at = 0;
    to = (uint8_t *)&it->lookups[count];
    for (at = 0; at < count; at++) {
        it->lookups[at].key = to;
        it->lookups[at].length = lookups[at].length;
        memcpy(to, lookups[at].key, lookups[at].length);
        to += lookups[at].length;
    }
    jobs_read(ctx, &it->base, (indexed_map *)of);
    return 1;
}

/* Has a job reply, unless the client tracks keys. */
static int is_given(RedisModuleCtx *ctx, map *of, const hot_lookup *lookups, size_t count, int *tracks) {
    *tracks = is_tracking(ctx);
    return !*tracks && give_to_job(ctx, of, lookups, count);
}

/* Whether what was found has more bytes than the main thread goes through in one go. */
static int is_heavy(const map *of, const hot_lookup *lookups, size_t count) {
    uint64_t bytes = 0;
    size_t at;
    for (at = 0; may_be_heavy(of) && at < count; at++)
        if (lookups[at].status == HOT_FOUND)
            bytes += word_length(lookups[at].value);
    return bytes > at_once.bytes;
}

int reply_with_values(RedisModuleCtx *ctx, map *of, hot_lookup *lookups, size_t count, int is_atomic) {
    int may = !is_atomic && may_wait(ctx), may_give = of != NULL && of->form == INDEXED && may && jobs_threads() > 0, tracks = 0;
    size_t at;
    if (may_give && count > at_once.pairs && is_given(ctx, of, lookups, count, &tracks))
        return REDISMODULE_OK;
    for (at = 0; of == NULL && at < count; at++)
        lookups[at].status = HOT_ABSENT;
    if (of != NULL)
        map_get_many(of, lookups, count);
    if (may_give && is_heavy(of, lookups, count) && is_given(ctx, of, lookups, count, &tracks))
        return REDISMODULE_OK;
    RedisModule_ReplyWithArray(ctx, (long)count);
    for (at = 0; at < count; at++)
        reply_with_found(ctx, &lookups[at]);
    if (of != NULL && may && !tracks)
        note_at_once(count);
    return REDISMODULE_OK;
}

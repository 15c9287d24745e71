/* Removals of ranges and of named fields, at once or in portions. */
#include "removals.h"
#include "jobs.h"
#include "keys.h"
#include "ranges.h"
#include <limits.h>
#include <string.h>

/* A removal of pairs from one end of a range on, or of named fields. */
typedef struct removal {
    RedisModuleString **names; /* the fields that are left of it; NULL of a range */
    uint64_t named;            /* how many these are */
    range_request asked;       /* what is left of it; `with_values` if it replies with the pairs, and not with their number */
    RedisModuleCtx *to;        /* replies here */
    uint64_t taken;
    key_range took; /* the least and the greatest field of the last portion */
    int has_limit;  /* so it can't be sent again as it is, once it has taken some */
    int is_done, is_refused, has_moved;
} removal;

static removal removal_of_all(RedisModuleCtx *ctx) {
    removal it = {NULL, 0, all_pairs, ctx, 0, {0, 0, {0}, {0}}, 0, 0, 0, 0};
    range_of_all(&it.asked.range);
    return it;
}

/* ---- Portions ---- */

/* Removes the pairs of a page. */
static void take_page(opened *of, const key_page *page) {
    field fields[PAGE];
    const uint8_t *key = page->bytes;
    size_t at;
    portion left = everything;
    uint64_t taken = 0;
    for (at = 0; at < page->count; key += page->heads[at++].length) {
        fields[at].at = key;
        fields[at].length = page->heads[at].length;
    }
    take_fields(of, fields, page->count, &left, &taken);
}

static void reply_with_pairs(RedisModuleCtx *ctx, const key_page *page) {
    const uint8_t *key = page->bytes;
    size_t at;
    for (at = 0; at < page->count; key += page->heads[at++].length) {
        RedisModule_ReplyWithStringBuffer(ctx, (const char *)key, page->heads[at].length);
        reply_with_word(ctx, page->heads[at].value);
    }
}

/* Lists the next pairs that it takes: 0 if there are none, or memory is refused. */
static int list_next(const opened *of, removal *it, portion *left, key_page *page) {
    uint64_t most = left->pairs < it->asked.limit ? left->pairs : it->asked.limit;
    if (of->now == NULL)
        return 0;
    it->is_refused =
        map_list(of->now, map_handle(of->now), &it->asked.range, it->asked.falls, most < PAGE ? most : PAGE, page) != HOT_DONE;
    if (it->is_refused)
        return 0;
    page_cut(page, 1, left);
    return page->count > 0;
}

static void note_field(uint8_t *to, size_t *to_length, field key) {
    memcpy(to, key.at, key.length);
    *to_length = key.length;
}

/* Notes which fields a portion takes, of which this is a further page. */
static void note_page(removal *it, const key_page *page, int is_first) {
    field begin = {page->bytes, page->heads[0].length}, end = page_last(page);
    if (is_first || it->asked.falls)
        note_field(it->took.from, &it->took.from_length, it->asked.falls ? end : begin);
    if (is_first || !it->asked.falls)
        note_field(it->took.upto, &it->took.upto_length, it->asked.falls ? begin : end);
}

/* Takes a portion, and returns how many pairs. A reply begins once a page is there. */
static uint64_t take_portion(opened *of, removal *it, portion left) {
    static key_page page;
    uint64_t taken = 0;
    it->is_done = it->asked.is_empty || it->asked.limit == 0;
    while (!it->is_done && left.pairs > 0 && left.bytes > 0) {
        if (!list_next(of, it, &left, &page)) {
            it->is_done = 1;
            break;
        }
        if (it->asked.with_values && it->taken == 0)
            begin_list(it->to, 1, REDISMODULE_POSTPONED_LEN);
        if (it->asked.with_values)
            reply_with_pairs(it->to, &page);
        note_page(it, &page, taken == 0);
        take_page(of, &page);
        taken += page.count;
        it->taken += page.count;
        it->asked.limit -= page.count;
        it->is_done = it->asked.limit == 0 || !page.more || !range_go_on(&it->asked.range, it->asked.falls, &page);
    }
    return taken;
}

/* Replies once it has ended. Where its rest is in another server, it says so if it can be sent again as it is. */
static void end_reply(removal *it) {
    if (it->has_moved && (it->taken == 0 || !it->has_limit))
        refuse(it->to, "TRYAGAIN the rest of the fields has moved");
    else if (it->is_refused && it->taken == 0)
        refuse(it->to, "OOM no memory for a page");
    else if (!it->asked.with_values)
        RedisModule_ReplyWithLongLong(it->to, (long long)it->taken);
    else if (it->taken > 0)
        end_list(it->to, 1, it->taken);
    else
        begin_list(it->to, 1, 0);
}

/* Takes a portion that replicas take by its fields: they are all that there are from the least to the greatest. */
static void take_and_tell(opened *of, removal *it, portion left, const char *event) {
    char least[1 + HOT_MAX_KEY] = "[", greatest[1 + HOT_MAX_KEY] = "[";
    if (take_portion(of, it, left) == 0)
        return;
    memcpy(least + 1, it->took.from, it->took.from_length);
    memcpy(greatest + 1, it->took.upto, it->took.upto_length);
    RedisModule_Replicate(of->ctx, "om.delrange", "sbb", of->name, least, 1 + it->took.from_length, greatest,
                          1 + it->took.upto_length);
    tell(of, event);
}

/* Takes a portion of the named fields, and has replicas take the same: as the command is written, if it goes as a whole. */
static void take_next_named(opened *of, removal *it, portion left, int is_whole) {
    RedisModuleString **first = it->names;
    uint64_t before = it->taken;
    field fields[PAGE];
    while (it->named > 0 && of->now != NULL && left.pairs > 0 && left.bytes > 0) {
        size_t at, count = it->named < PAGE ? it->named : PAGE;
        for (at = 0; at < count; at++)
            fields[at] = field_of(it->names[at]);
        count = take_fields(of, fields, count, &left, &it->taken);
        it->names += count;
        it->named -= count;
    }
    it->is_done = it->named == 0 || of->now == NULL || map_length(of->now) == 0;
    if (it->taken == before)
        return;
    if (is_whole && it->is_done)
        RedisModule_ReplicateVerbatim(of->ctx);
    else
        RedisModule_Replicate(of->ctx, "om.del", "sv", of->name, first, (size_t)(it->names - first));
    tell(of, "om.del");
}

/* ---- Long removals ---- */

/* A removal whose client waits. All is done by the main thread. */
typedef struct long_removal {
    struct long_removal *next;
    removal it;
    const char *event;
    RedisModuleString *name;
    uint64_t map; /* the number of the map in which it began */
    RedisModuleBlockedClient *client;
    int database, is_gone;
    size_t count;
    RedisModuleString *names[]; /* all that are left when it begins */
} long_removal;

/* They have their turns. */
static long_removal *first_waiting, **last_waiting = &first_waiting;

static void line_up(long_removal *it) {
    it->next = NULL;
    *last_waiting = it;
    last_waiting = &it->next;
}

static void note_gone(RedisModuleCtx *ctx, RedisModuleBlockedClient *client) {
    long_removal *it;
    (void)ctx;
    for (it = first_waiting; it != NULL; it = it->next)
        if (it->client == client)
            it->is_gone = 1;
    atomic_fetch_add(&gone_count, 1);
}

/* Whether an absent key is looked for in another server: then the server refuses a call that reads it. */
static int is_elsewhere(RedisModuleCtx *ctx, RedisModuleString *name) {
    RedisModuleCallReply *found = RedisModule_Call(ctx, "om.len", "s", name);
    if (found == NULL)
        return 1;
    RedisModule_FreeCallReply(found);
    return 0;
}

static void take_next(opened *key, long_removal *of) {
    uint64_t before = of->it.taken;
    if (of->count > 0)
        take_next_named(key, &of->it, at_once, 0);
    else
        take_and_tell(key, &of->it, at_once, of->event);
    note_at_once(of->it.taken - before);
}

/* Takes the next portion, if the key still has the map in which the removal began: another one is not touched. */
static void go_on(RedisModuleCtx *ctx, long_removal *of) {
    opened key;
    RedisModule_BlockedClientMeasureTimeStart(of->client);
    RedisModule_SelectDb(ctx, of->database);
    of->it.is_done = 1;
    if (find_key(&key, ctx, of->name, REDISMODULE_READ | REDISMODULE_WRITE)) {
        if (key.now == NULL)
            of->it.has_moved = is_elsewhere(ctx, of->name);
        else if (map_number(key.now) == of->map)
            take_next(&key, of);
        close_key(&key);
    }
    RedisModule_BlockedClientMeasureTimeEnd(of->client);
}

static void end(long_removal *of) {
    end_reply(&of->it);
    RedisModule_FreeThreadSafeContext(of->it.to);
    RedisModule_FreeString(NULL, of->name);
    while (of->count > 0)
        RedisModule_FreeString(NULL, of->names[--of->count]);
    RedisModule_UnblockClient(of->client, NULL);
    RedisModule_Free(of);
}

/* Between two portions other clients have their commands run. While the server is to make no changes none is taken. */
enum { PAUSE_MILLISECONDS = 1 };
static void take_turn(RedisModuleCtx *ctx, void *unused) {
    long_removal *of = first_waiting;
    (void)unused;
    if (of->is_gone || !RedisModule_AvoidReplicaTraffic()) {
        first_waiting = of->next;
        if (first_waiting == NULL)
            last_waiting = &first_waiting;
        if (!of->is_gone)
            go_on(ctx, of);
        if (of->is_gone || of->it.is_done)
            end(of);
        else
            line_up(of);
    }
    if (first_waiting != NULL)
        RedisModule_CreateTimer(ctx, PAUSE_MILLISECONDS, take_turn, NULL);
}

/* Keeps the names, which are the command's words. */
static void hold_names(long_removal *of) {
    for (of->count = 0; of->count < of->it.named; of->count++) {
        of->names[of->count] = of->it.names[of->count];
        RedisModule_RetainString(NULL, of->names[of->count]);
    }
    of->it.names = of->names;
}

/* Has the client wait for the rest of a removal: 0 if there is no memory for that. */
static int wait_for_rest(const opened *of, const removal *it, const char *event) {
    field name = field_of(of->name);
    long_removal *made = RedisModule_TryAlloc(sizeof *made + it->named * sizeof *made->names);
    if (made == NULL)
        return 0;
    made->it = *it;
    hold_names(made);
    made->event = event;
    made->is_gone = 0;
    made->database = RedisModule_GetSelectedDb(of->ctx);
    made->name = RedisModule_CreateString(NULL, (const char *)name.at, name.length);
    made->map = map_number(of->now);
    made->client = RedisModule_BlockClient(of->ctx, NULL, NULL, NULL, 0);
    made->it.to = RedisModule_GetThreadSafeContext(made->client);
    RedisModule_SetDisconnectCallback(made->client, note_gone);
    if (first_waiting == NULL)
        RedisModule_CreateTimer(of->ctx, PAUSE_MILLISECONDS, take_turn, NULL);
    line_up(made);
    return 1;
}

/* ---- Commands ---- */

void take_named(opened *of, RedisModuleString **names, size_t count) {
    removal it = removal_of_all(of->ctx);
    int may = may_wait(of->ctx);
    it.names = names;
    it.named = count;
    take_next_named(of, &it, may ? at_once : everything, 1);
    if (may)
        note_at_once(it.taken);
    if (!it.is_done && wait_for_rest(of, &it, "om.del"))
        return;
    if (!it.is_done)
        take_next_named(of, &it, everything, 0);
    end_reply(&it);
}

/* One portion, of which the client is told at once: what a failover kept from it would be gone. */
static void pop_from_key(opened *of, removal *it, const char *name) {
    int may = may_wait(of->ctx);
    take_portion(of, it, may ? at_once : everything);
    /* Replicas take as many as were taken here. */
    if (it->taken > 0) {
        RedisModule_Replicate(of->ctx, name, "sl", of->name, (long long)it->taken);
        tell(of, name);
    }
    end_reply(it);
    if (may)
        note_at_once(it->taken);
}

static int pop(RedisModuleCtx *ctx, RedisModuleString **argv, int argc, int falls) {
    removal it = removal_of_all(ctx);
    opened of;
    long long count = 1;
    if (argc != 2 && argc != 3)
        return RedisModule_WrongArity(ctx);
    if (argc == 3 && (RedisModule_StringToLongLong(argv[2], &count) != REDISMODULE_OK || count < 0))
        return RedisModule_ReplyWithError(ctx, "ERR value is out of range, must be positive");
    if (!open_key(&of, ctx, argv[1], REDISMODULE_READ | REDISMODULE_WRITE))
        return REDISMODULE_OK;
    it.has_limit = 1;
    it.asked.with_values = 1;
    it.asked.falls = falls;
    it.asked.limit = (uint64_t)count;
    pop_from_key(&of, &it, falls ? "om.popmax" : "om.popmin");
    close_key(&of);
    return REDISMODULE_OK;
}

int om_popmin(RedisModuleCtx *ctx, RedisModuleString **argv, int argc) {
    return pop(ctx, argv, argc, 0);
}

int om_popmax(RedisModuleCtx *ctx, RedisModuleString **argv, int argc) {
    return pop(ctx, argv, argc, 1);
}

/* Whether a range has all pairs of a map: then the map goes as a whole, which a job frees. */
static int is_all(const removal *it, const map *of) {
    const key_range *range = &it->asked.range;
    return of != NULL && !it->asked.is_empty && range->from_length == 0 && range->upto_length == HOT_MAX_KEY &&
           it->asked.limit >= map_length(of) && memcmp(range->upto, hot_last_key, HOT_MAX_KEY) == 0;
}

/* Removes a range of a key, whose ends are the words of a command, and replies. */
static void take_from_key(opened *of, RedisModuleString *least, RedisModuleString *most, removal *it) {
    int may = may_wait(of->ctx);
    if (is_all(it, of->now)) {
        it->taken = map_length(of->now);
        it->is_done = 1;
        of->now = NULL;
    } else {
        take_portion(of, it, may ? at_once : everything);
        if (may)
            note_at_once(it->taken);
    }
    if (it->taken > 0) {
        RedisModule_Replicate(of->ctx, "om.delrange", "ssscl", of->name, least, most, "LIMIT", (long long)it->taken);
        tell(of, "om.delrange");
    }
    if (!it->is_done && wait_for_rest(of, it, "om.delrange"))
        return;
    if (!it->is_done)
        take_and_tell(of, it, everything, "om.delrange");
    end_reply(it);
}

int om_delrange(RedisModuleCtx *ctx, RedisModuleString **argv, int argc) {
    removal it = removal_of_all(ctx);
    opened of;
    long long limit = LLONG_MAX;
    if (argc != 4 && argc != 6)
        return RedisModule_WrongArity(ctx);
    if (!read_range(argv[2], argv[3], &it.asked))
        return refuse_range(ctx);
    if (argc == 6 && !is_word(argv[4], "LIMIT"))
        return RedisModule_ReplyWithError(ctx, "ERR syntax error");
    if (argc == 6 && (RedisModule_StringToLongLong(argv[5], &limit) != REDISMODULE_OK || limit < 0))
        return RedisModule_ReplyWithError(ctx, "ERR value is not an integer or out of range");
    if (!open_key(&of, ctx, argv[1], REDISMODULE_READ | REDISMODULE_WRITE))
        return REDISMODULE_OK;
    it.has_limit = argc == 6;
    it.asked.limit = (uint64_t)limit;
    take_from_key(&of, argv[2], argv[3], &it);
    close_key(&of);
    return REDISMODULE_OK;
}

/* Ranges of a map, and replies with them. */
#define _DEFAULT_SOURCE
#include "ranges.h"
#include "jobs.h"
#include <limits.h>
#include <string.h>
#include <strings.h>

const portion at_once = {1000, 1 << 20}, everything = {UINT64_MAX, UINT64_MAX};

static const char NO_PAGE[] = "OOM no memory for a page";

const range_request all_pairs = {{0, 0, {0}, {0}}, 0, 0, 0, 0, LISTS, 0, LLONG_MAX};

field field_of(const RedisModuleString *of) {
    field it;
    it.at = (const uint8_t *)RedisModule_StringPtrLen(of, &it.length);
    return it;
}

int is_word(const RedisModuleString *of, const char *expected) {
    field it = field_of(of);
    return strlen(expected) == it.length && strncasecmp((const char *)it.at, expected, it.length) == 0;
}

/* ---- Ends ---- */

/* An end that is a field: `(` leaves the field itself out. 0 if it has none of the forms. */
static int read_end(field from, int is_upper, uint8_t *to, size_t *length, int *is_empty) {
    if (from.length == 0 || from.length > 1 + HOT_MAX_KEY || (from.at[0] != '[' && from.at[0] != '('))
        return 0;
    if (from.at[0] == '[') {
        *length = from.length - 1;
        memcpy(to, from.at + 1, *length);
    } else if ((is_upper ? hot_before : hot_after)(from.at + 1, from.length - 1, to, length) != HOT_DONE) {
        *is_empty = 1;
    }
    return 1;
}

int read_range(RedisModuleString *least, RedisModuleString *most, range_request *to) {
    field from = field_of(least), upto = field_of(most);
    range_of_all(&to->range);
    to->is_empty = 0;
    if (from.length == 1 && from.at[0] == '+')
        to->is_empty = 1;
    else if ((from.length != 1 || from.at[0] != '-') && !read_end(from, 0, to->range.from, &to->range.from_length, &to->is_empty))
        return 0;
    if (upto.length == 1 && upto.at[0] == '-')
        to->is_empty = 1;
    else if ((upto.length != 1 || upto.at[0] != '+') && !read_end(upto, 1, to->range.upto, &to->range.upto_length, &to->is_empty))
        return 0;
    return 1;
}

int refuse_range(RedisModuleCtx *ctx) {
    return RedisModule_ReplyWithError(ctx, "ERR min or max is not -, +, [field or (field of at most 240 bytes");
}

int read_prefix(RedisModuleString *prefix, range_request *to) {
    field from = field_of(prefix);
    range_of_all(&to->range);
    to->is_empty = 0;
    if (from.length > HOT_MAX_KEY)
        return 0;
    memcpy(to->range.from, from.at, from.length);
    memcpy(to->range.upto, from.at, from.length);
    to->range.from_length = from.length;
    return 1;
}

/* ---- Replies ---- */

void begin_list(RedisModuleCtx *ctx, int with_values, long length) {
    if (with_values)
        RedisModule_ReplyWithMap(ctx, length);
    else
        RedisModule_ReplyWithArray(ctx, length);
}

void end_list(RedisModuleCtx *ctx, int with_values, uint64_t length) {
    if (with_values)
        RedisModule_ReplySetMapLength(ctx, (long)length);
    else
        RedisModule_ReplySetArrayLength(ctx, (long)length);
}

size_t reply_with_word(RedisModuleCtx *ctx, word value) {
    char room[TEXT_ROOM];
    text of = word_text(value, room);
    RedisModule_ReplyWithStringBuffer(ctx, of.at, of.length);
    return of.length;
}

/* A reply with a range, which is made page by page. */
typedef struct listing {
    RedisModuleCtx *ctx;
    const map *of;
    hot_handle *handle;
    read_job *by;        /* NULL where nobody waits */
    range_request asked; /* what is left of it */
    uint64_t told;       /* how many pairs it has replied with */
    uint64_t listed;     /* how many it has gone through */
    key_page *page;
} listing;

/* Replies with the pairs of a page that are asked for. Returns how many bytes they have. */
static uint64_t reply_with_page(listing *it) {
    const uint8_t *key = it->page->bytes;
    uint64_t bytes = 0;
    size_t at;
    for (at = 0; at < it->page->count && it->asked.limit > 0; key += it->page->heads[at++].length) {
        if (it->asked.skip > 0) {
            it->asked.skip--;
            continue;
        }
        RedisModule_ReplyWithStringBuffer(it->ctx, (const char *)key, it->page->heads[at].length);
        bytes += it->page->heads[at].length;
        if (it->asked.with_values)
            bytes += reply_with_word(it->ctx, it->page->heads[at].value);
        it->asked.limit--;
        it->told++;
    }
    return bytes;
}

static hot_status list_next(listing *it) {
    uint64_t most = it->asked.skip < PAGE && it->asked.limit < PAGE ? it->asked.skip + it->asked.limit : PAGE;
    hot_status status = map_list(it->of, it->handle, &it->asked.range, it->asked.falls, most, it->page);
    it->listed += status == HOT_DONE ? it->page->count : 0;
    return status;
}

static int is_last_page(const listing *it) {
    return !it->page->more || it->asked.skip + it->asked.limit <= it->page->count;
}

/* How many of a page's pairs are asked for. */
static uint64_t asked_of_page(const listing *it) {
    uint64_t left = it->page->count > it->asked.skip ? it->page->count - it->asked.skip : 0;
    return left < it->asked.limit ? left : it->asked.limit;
}

/* The cursor of the next page: the last field of this one behind a `(`; or `0` if there is none. */
static void reply_with_cursor(listing *it) {
    char cursor[1 + HOT_MAX_KEY] = "(";
    field key;
    if (!it->page->more) {
        RedisModule_ReplyWithStringBuffer(it->ctx, "0", 1);
        return;
    }
    key = page_last(it->page);
    memcpy(cursor + 1, key.at, key.length);
    RedisModule_ReplyWithStringBuffer(it->ctx, cursor, 1 + key.length);
}

/* Ends a reply of several pages. The pairs before were sent as part of it: so an error is its last field, whose value is nil. */
static int end_pages(listing *it, const char *error) {
    if (error != NULL) {
        RedisModule_ReplyWithError(it->ctx, error);
        it->told++;
    }
    if (error != NULL && it->asked.with_values)
        RedisModule_ReplyWithNull(it->ctx);
    end_list(it->ctx, it->asked.with_values, it->told);
    return 0;
}

/* Replies with the page that is listed, which the portion has cut, and with those after it: 1 if there are more once the portion is
 * used up. Another thread lists each page within a section. */
static int reply_with_pages(listing *it, portion left) {
    for (;;) {
        int is_last = is_last_page(it);
        uint64_t bytes = reply_with_page(it);
        const char *cut = it->by == NULL ? NULL : why_cut(it->by, bytes);
        if (cut != NULL || is_last || !range_go_on(&it->asked.range, it->asked.falls, it->page))
            return end_pages(it, is_last ? NULL : cut);
        if (left.pairs == 0 || left.bytes == 0)
            return 1;
        if (it->by != NULL) {
            hot_leave(it->handle);
            hot_enter(it->handle);
        }
        if (list_next(it) != HOT_DONE)
            return end_pages(it, NO_PAGE);
        page_cut(it->page, it->asked.with_values, &left);
    }
}

/* Replies with a range whose first page is listed: 1 if there are more. */
static int reply_with_list(listing *it, portion left) {
    if (it->asked.what == PAGES) {
        RedisModule_ReplyWithArray(it->ctx, 2);
        reply_with_cursor(it);
    } else {
        page_cut(it->page, it->asked.with_values, &left);
    }
    if (!is_last_page(it)) {
        begin_list(it->ctx, it->asked.with_values, REDISMODULE_POSTPONED_LEN);
        return reply_with_pages(it, left);
    }
    begin_list(it->ctx, it->asked.with_values, (long)asked_of_page(it));
    reply_with_page(it);
    return 0;
}

/* Counts what is left of a range, and replies. */
static void count_rest(listing *it) {
    size_t count;
    if (map_count(it->of, it->handle, &it->asked.range, &count) != HOT_DONE) {
        RedisModule_ReplyWithError(it->ctx, "ERR the count was refused");
        return;
    }
    it->listed += count;
    RedisModule_ReplyWithLongLong(it->ctx, (long long)it->listed);
}

/* Counts the page that is listed, and those after it: 1 if there are more. */
static int count_pages(listing *it, portion left) {
    for (;;) {
        if (!it->page->more || it->by->is_gone || !range_go_on(&it->asked.range, 0, it->page)) {
            RedisModule_ReplyWithLongLong(it->ctx, (long long)it->listed);
            return 0;
        }
        left.pairs -= it->page->count < left.pairs ? it->page->count : left.pairs;
        if (left.pairs == 0)
            return 1;
        if (list_next(it) != HOT_DONE) {
            RedisModule_ReplyWithError(it->ctx, NO_PAGE);
            return 0;
        }
    }
}

static void reply_with_first(listing *it, hot_status status) {
    if (status != HOT_DONE)
        RedisModule_ReplyWithError(it->ctx, NO_PAGE);
    else if (it->asked.what != COUNTS)
        reply_with_list(it, everything);
    else if (it->page->more && range_go_on(&it->asked.range, 0, it->page))
        count_rest(it);
    else
        RedisModule_ReplyWithLongLong(it->ctx, (long long)it->listed);
}

/* ---- By a job ---- */

typedef struct range_job {
    read_job base;
    listing made;
    int has_begun;
    key_page page;
} range_job;

/* Replies with a portion whose first page is listed, if the status says so. */
static int list_portion(range_job *it, hot_status status) {
    int has_begun = it->has_begun;
    it->has_begun = 1;
    if (status == HOT_DONE)
        return has_begun ? reply_with_pages(&it->made, read_portion) : reply_with_list(&it->made, read_portion);
    if (has_begun)
        return end_pages(&it->made, NO_PAGE);
    RedisModule_ReplyWithError(it->made.ctx, NO_PAGE);
    return 0;
}

/* Counts a portion by pages. The rest goes faster in one go, which no other read can interrupt. */
static int count_portion(range_job *it, hot_status status) {
    if (status != HOT_DONE) {
        RedisModule_ReplyWithError(it->made.ctx, NO_PAGE);
        return 0;
    }
    if (!count_pages(&it->made, read_portion))
        return 0;
    it->base.is_whole = may_read_whole();
    return 1;
}

static int read_by_job(read_job *base, RedisModuleCtx *ctx, hot_handle *handle) {
    range_job *it = (range_job *)base;
    int counts = it->made.asked.what == COUNTS, has_more;
    it->made.ctx = ctx;
    it->made.handle = handle;
    if (base->is_whole && handle != NULL) {
        count_rest(&it->made);
        return 0;
    }
    if (counts)
        return count_portion(it, handle == NULL ? HOT_NO_MEMORY : list_next(&it->made));
    /* A count reads no value: so none need stay for it. */
    if (handle != NULL)
        hot_enter(handle);
    has_more = list_portion(it, handle == NULL ? HOT_NO_MEMORY : list_next(&it->made));
    if (handle != NULL)
        hot_leave(handle);
    return has_more;
}

/* Has a job reply: 0 if there is no memory for one. */
static int give_to_job(RedisModuleCtx *ctx, map *of, const range_request *asked) {
    range_job *it = RedisModule_TryAlloc(sizeof *it);
    if (it == NULL)
        return 0;
    it->base.read = read_by_job;
    it->made = (listing){NULL, of, NULL, &it->base, *asked, 0, 0, &it->page};
    it->has_begun = 0;
    jobs_read(ctx, &it->base, (indexed_map *)of);
    return 1;
}

/* ---- How much is asked ---- */

int may_be_heavy(const map *of) {
    return of->form == INDEXED && ((const indexed_map *)of)->text_bytes + at_once.pairs * HOT_MAX_KEY > at_once.bytes;
}

/* How many bytes the pairs of a page have that are asked for. It takes them off what is left. */
static uint64_t weigh_page(listing *it) {
    uint64_t bytes = 0;
    size_t at;
    for (at = 0; at < it->page->count && it->asked.limit > 0; at++)
        if (it->asked.skip > 0) {
            it->asked.skip--;
        } else {
            it->asked.limit--;
            bytes += it->page->heads[at].length + word_length(it->page->heads[at].value);
        }
    return bytes;
}

/* Whether the pairs of a listing, whose first page is there, have more bytes than the main thread goes through in one go. */
static int is_heavy(const listing *of) {
    static key_page next;
    listing it = *of;
    uint64_t bytes = 0;
    for (;;) {
        int is_last = is_last_page(&it);
        bytes += weigh_page(&it);
        if (is_last || bytes > at_once.bytes || !range_go_on(&it.asked.range, it.asked.falls, it.page))
            break;
        it.page = &next;
        if (list_next(&it) != HOT_DONE)
            break;
    }
    return bytes > at_once.bytes;
}

/* The same of their number, too, which is at most the map's. */
static int goes_far(const map *of, const listing *it) {
    uint64_t far = it->asked.skip + it->asked.limit;
    if (of->form == INDEXED && !is_last_page(it) && far > at_once.pairs && map_length(of) > at_once.pairs)
        return 1;
    return it->asked.with_values && may_be_heavy(of) && is_heavy(it);
}

static int reply_with_none(RedisModuleCtx *ctx, const range_request *asked) {
    if (asked->what == COUNTS)
        return RedisModule_ReplyWithLongLong(ctx, 0);
    if (asked->what == PAGES) {
        RedisModule_ReplyWithArray(ctx, 2);
        RedisModule_ReplyWithStringBuffer(ctx, "0", 1);
    }
    begin_list(ctx, asked->with_values, 0);
    return REDISMODULE_OK;
}

int reply_with_range(RedisModuleCtx *ctx, map *of, const range_request *asked) {
    static key_page page;
    listing it = {ctx, of, NULL, NULL, *asked, 0, 0, &page};
    hot_status status;
    int may_ask, is_far, tracks;
    if (of == NULL || asked->is_empty || asked->limit == 0)
        return reply_with_none(ctx, asked);
    it.handle = map_handle(of);
    status = list_next(&it);
    may_ask = !asked->is_atomic && may_wait(ctx);
    is_far = status == HOT_DONE && jobs_threads() > 0 && may_ask && goes_far(of, &it);
    tracks = is_far && is_tracking(ctx);
    if (is_far && !tracks && give_to_job(ctx, of, asked))
        return REDISMODULE_OK;
    reply_with_first(&it, status);
    if (may_ask && !tracks)
        note_at_once(it.listed);
    return REDISMODULE_OK;
}

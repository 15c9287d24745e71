/* The commands. Each opens its key, reads or changes its map, and replies. */
#define _DEFAULT_SOURCE
#include "commands.h"
#include "arguments.h"
#include "index.h"
#include "keys.h"
#include "lookups.h"
#include "ranges.h"
#include "removals.h"
#include <limits.h>
#include <stdio.h>
#include <string.h>

/* ---- Words of commands ---- */

/* Reads fields: 0, with a reply, if one is too long. Each is followed by `more` other words. */
static int read_fields(RedisModuleCtx *ctx, RedisModuleString **argv, int argc, int more, field *to) {
    int at;
    for (at = 0; at < argc; at++) {
        to[at] = field_of(argv[at]);
        if (at % (1 + more) == 0 && to[at].length > HOT_MAX_KEY)
            return refuse(ctx, "ERR a field has more than 240 bytes");
        if (to[at].length > UINT32_MAX)
            return refuse(ctx, "ERR a value has more than 4294967295 bytes");
    }
    return 1;
}

/* Whether changes that take memory are refused: not those that another server has made, nor those of a file. */
static int is_full(RedisModuleCtx *ctx) {
    return is_over_limit(1) && (RedisModule_GetContextFlags(ctx) & (IS_REPLICATED | IS_LOADING)) == 0;
}

static int refuse_memory(RedisModuleCtx *ctx) {
    return refuse(ctx, "OOM ordered maps have no more memory");
}

/* Room for the words of a command: 0, with a reply, if there is none. Few stand on the stack. */
enum { FEW = 16 };
static int take_room(RedisModuleCtx *ctx, int argc, void *few, size_t size, void **room) {
    *room = argc <= FEW ? few : RedisModule_TryAlloc((size_t)argc * size);
    return *room != NULL || refuse_memory(ctx);
}

static void give_room(void *few, void *room) {
    if (room != few)
        RedisModule_Free(room);
}

/* ---- Single fields ---- */

/* Makes a change: 0, with a reply, if it is refused. */
static int change_pairs(RedisModuleCtx *ctx, RedisModuleString *name, setting *it, const char *event) {
    opened of;
    hot_status status;
    if (is_full(ctx))
        return refuse_memory(ctx);
    if (!open_key(&of, ctx, name, REDISMODULE_READ | REDISMODULE_WRITE))
        return 0;
    status = map_set(of.was, it, &of.now);
    if (status == HOT_DONE && it->set > 0) {
        keep(&of);
        finish(&of, event);
    }
    close_key(&of);
    return status == HOT_DONE || refuse_memory(ctx);
}

static int om_set(RedisModuleCtx *ctx, RedisModuleString **argv, int argc) {
    field few[FEW];
    void *room;
    setting it = {NULL, (size_t)(argc - 2) / 2, ANY_FIELD, 0, 0};
    if (argc < 4)
        return RedisModule_WrongArity(ctx);
    if (argc % 2 == 1) {
        it.which = is_word(argv[argc - 1], "NX") ? ABSENT_FIELD : HELD_FIELD;
        if (argc < 5 || (it.which == HELD_FIELD && !is_word(argv[argc - 1], "XX")))
            return RedisModule_ReplyWithError(ctx, "ERR syntax error");
    }
    if (!take_room(ctx, argc, few, sizeof *few, &room))
        return REDISMODULE_OK;
    it.words = room;
    if (read_fields(ctx, argv + 2, (int)it.count * 2, 1, room) && change_pairs(ctx, argv[1], &it, "om.set"))
        RedisModule_ReplyWithLongLong(ctx, (long long)(it.which == HELD_FIELD ? it.set : it.new_fields));
    give_room(few, room);
    return REDISMODULE_OK;
}

/* Opens a key for a command that reads one field: 0, with a reply, if that is refused. */
static int open_field(opened *of, RedisModuleCtx *ctx, RedisModuleString **argv, field *key) {
    return read_fields(ctx, argv + 2, 1, 0, key) && open_key(of, ctx, argv[1], REDISMODULE_READ);
}

static int om_get(RedisModuleCtx *ctx, RedisModuleString **argv, int argc) {
    opened of;
    field key;
    word value;
    if (argc != 3)
        return RedisModule_WrongArity(ctx);
    if (!open_field(&of, ctx, argv, &key))
        return REDISMODULE_OK;
    if (of.now != NULL && map_get(of.now, key, &value))
        reply_with_word(ctx, value);
    else
        RedisModule_ReplyWithNull(ctx);
    close_key(&of);
    return REDISMODULE_OK;
}

static int om_exists(RedisModuleCtx *ctx, RedisModuleString **argv, int argc) {
    opened of;
    field key;
    word value;
    if (argc != 3)
        return RedisModule_WrongArity(ctx);
    if (!open_field(&of, ctx, argv, &key))
        return REDISMODULE_OK;
    RedisModule_ReplyWithLongLong(ctx, of.now != NULL && map_get(of.now, key, &value));
    close_key(&of);
    return REDISMODULE_OK;
}

/* How many words of OM.MGET come before its fields: `ATOMIC FIELDS n` may, where n is how many fields there are. */
static int words_before_fields(RedisModuleString **argv, int argc) {
    long long count;
    int is_atomic = argc > 5 && is_word(argv[2], "ATOMIC") && is_word(argv[3], "FIELDS") &&
                    RedisModule_StringToLongLong(argv[4], &count) == REDISMODULE_OK && count == argc - 5;
    return is_atomic ? 5 : 2;
}

static int om_mget(RedisModuleCtx *ctx, RedisModuleString **argv, int argc) {
    hot_lookup few[FEW], *lookups;
    void *room;
    opened of;
    int at, is_right = 1, first = words_before_fields(argv, argc);
    if (argc < 3)
        return RedisModule_WrongArity(ctx);
    if (!take_room(ctx, argc, few, sizeof *few, &room))
        return REDISMODULE_OK;
    lookups = room;
    for (at = 0; is_right && at < argc - first; at++) {
        field key;
        is_right = read_fields(ctx, argv + first + at, 1, 0, &key);
        lookups[at].key = key.at;
        lookups[at].length = key.length;
    }
    if (is_right && open_key(&of, ctx, argv[1], REDISMODULE_READ)) {
        reply_with_values(ctx, of.now, lookups, (size_t)(argc - first), first > 2);
        close_key(&of);
    }
    give_room(few, room);
    return REDISMODULE_OK;
}

static int om_del(RedisModuleCtx *ctx, RedisModuleString **argv, int argc) {
    field few[FEW];
    void *room;
    opened of;
    if (argc < 3)
        return RedisModule_WrongArity(ctx);
    if (!take_room(ctx, argc, few, sizeof *few, &room))
        return REDISMODULE_OK;
    if (read_fields(ctx, argv + 2, argc - 2, 0, room) && open_key(&of, ctx, argv[1], REDISMODULE_READ | REDISMODULE_WRITE)) {
        take_named(&of, argv + 2, (size_t)argc - 2);
        close_key(&of);
    }
    give_room(few, room);
    return REDISMODULE_OK;
}

/* Writes the number that a field has, 0 if it is absent: 0, with a reply, if it has something else. */
static int read_held(RedisModuleCtx *ctx, RedisModuleString **argv, field key, int64_t *number) {
    opened of;
    word value;
    char room[TEXT_ROOM];
    int is_right = 1;
    *number = 0;
    if (!open_key(&of, ctx, argv[1], REDISMODULE_READ))
        return 0;
    if (of.now != NULL && map_get(of.now, key, &value))
        is_right = read_number(word_text(value, room), number);
    close_key(&of);
    return is_right || refuse(ctx, "ERR the value is not an integer");
}

static int om_add(RedisModuleCtx *ctx, RedisModuleString **argv, int argc) {
    field words[2];
    char room[TEXT_ROOM];
    setting it = {words, 1, ANY_FIELD, 0, 0};
    long long more;
    int64_t number;
    if (argc != 4)
        return RedisModule_WrongArity(ctx);
    if (!read_fields(ctx, argv + 2, 1, 0, words))
        return REDISMODULE_OK;
    if (RedisModule_StringToLongLong(argv[3], &more) != REDISMODULE_OK)
        return RedisModule_ReplyWithError(ctx, "ERR value is not an integer or out of range");
    if (!read_held(ctx, argv, words[0], &number))
        return REDISMODULE_OK;
    if (__builtin_add_overflow(number, (int64_t)more, &number))
        return RedisModule_ReplyWithError(ctx, "ERR increment or decrement would overflow");
    words[1].at = (const uint8_t *)room;
    words[1].length = write_number(number, room);
    if (change_pairs(ctx, argv[1], &it, "om.add"))
        RedisModule_ReplyWithLongLong(ctx, number);
    return REDISMODULE_OK;
}

/* Whether a field has the expected value; -1 if it is absent, and -2, with a reply, if the key has another type. */
static int is_held(RedisModuleCtx *ctx, RedisModuleString **argv, field key) {
    opened of;
    word value;
    char room[TEXT_ROOM];
    int is_same = -1;
    if (!open_key(&of, ctx, argv[1], REDISMODULE_READ))
        return -2;
    if (of.now != NULL && map_get(of.now, key, &value)) {
        text has = word_text(value, room);
        field expected = field_of(argv[3]);
        is_same = has.length == expected.length && memcmp(has.at, expected.at, has.length) == 0;
    }
    close_key(&of);
    return is_same;
}

static int om_cas(RedisModuleCtx *ctx, RedisModuleString **argv, int argc) {
    field words[3], pair[2];
    setting it = {pair, 1, HELD_FIELD, 0, 0};
    int is_same;
    if (argc != 5)
        return RedisModule_WrongArity(ctx);
    if (!read_fields(ctx, argv + 2, 3, 2, words))
        return REDISMODULE_OK;
    pair[0] = words[0];
    pair[1] = words[2];
    is_same = is_held(ctx, argv, words[0]);
    if (is_same == -1)
        return RedisModule_ReplyWithNull(ctx);
    if (is_same == -2 || (is_same == 1 && !change_pairs(ctx, argv[1], &it, "om.cas")))
        return REDISMODULE_OK;
    return RedisModule_ReplyWithLongLong(ctx, is_same);
}

static int om_len(RedisModuleCtx *ctx, RedisModuleString **argv, int argc) {
    opened of;
    if (argc != 2)
        return RedisModule_WrongArity(ctx);
    if (!open_key(&of, ctx, argv[1], REDISMODULE_READ))
        return REDISMODULE_OK;
    RedisModule_ReplyWithLongLong(ctx, of.now == NULL ? 0 : (long long)map_length(of.now));
    close_key(&of);
    return REDISMODULE_OK;
}

/* ---- Ranges ---- */

/* Reads REV, LIMIT, WITHVALUES and ATOMIC: 0, with a reply, if a word is none of these. */
static int read_options(RedisModuleCtx *ctx, RedisModuleString **argv, int argc, range_request *to) {
    long long skip, limit;
    int at;
    for (at = 0; at < argc; at++) {
        if (is_word(argv[at], "REV")) {
            to->falls = 1;
        } else if (is_word(argv[at], "WITHVALUES")) {
            to->with_values = 1;
        } else if (is_word(argv[at], "ATOMIC")) {
            to->is_atomic = 1;
        } else if (is_word(argv[at], "LIMIT") && at + 2 < argc) {
            if (RedisModule_StringToLongLong(argv[at + 1], &skip) != REDISMODULE_OK ||
                RedisModule_StringToLongLong(argv[at + 2], &limit) != REDISMODULE_OK || skip < 0)
                return refuse(ctx, "ERR value is not an integer or out of range");
            to->skip = (uint64_t)skip;
            to->limit = limit < 0 ? LLONG_MAX : (uint64_t)limit;
            at += 2;
        } else {
            return refuse(ctx, "ERR syntax error");
        }
    }
    return 1;
}

static int read_key(RedisModuleCtx *ctx, RedisModuleString *name, const range_request *asked) {
    opened of;
    if (!open_key(&of, ctx, name, REDISMODULE_READ))
        return REDISMODULE_OK;
    reply_with_range(ctx, of.now, asked);
    close_key(&of);
    return REDISMODULE_OK;
}

static int om_range(RedisModuleCtx *ctx, RedisModuleString **argv, int argc) {
    range_request asked = all_pairs;
    if (argc < 4)
        return RedisModule_WrongArity(ctx);
    if (!read_range(argv[2], argv[3], &asked))
        return refuse_range(ctx);
    return read_options(ctx, argv + 4, argc - 4, &asked) ? read_key(ctx, argv[1], &asked) : REDISMODULE_OK;
}

static int om_prefix(RedisModuleCtx *ctx, RedisModuleString **argv, int argc) {
    range_request asked = all_pairs;
    if (argc < 3)
        return RedisModule_WrongArity(ctx);
    if (!read_prefix(argv[2], &asked))
        return RedisModule_ReplyWithError(ctx, "ERR a prefix has more than 240 bytes");
    return read_options(ctx, argv + 3, argc - 3, &asked) ? read_key(ctx, argv[1], &asked) : REDISMODULE_OK;
}

static int om_count(RedisModuleCtx *ctx, RedisModuleString **argv, int argc) {
    range_request asked = all_pairs;
    if (argc != 4 && argc != 5)
        return RedisModule_WrongArity(ctx);
    if (argc == 5 && !is_word(argv[4], "ATOMIC"))
        return RedisModule_ReplyWithError(ctx, "ERR syntax error");
    asked.what = COUNTS;
    asked.is_atomic = argc == 5;
    return read_range(argv[2], argv[3], &asked) ? read_key(ctx, argv[1], &asked) : refuse_range(ctx);
}

/* Has a range go on behind a cursor: 0 if that is none. */
static int begin_at_cursor(RedisModuleString *cursor, range_request *to) {
    field at = field_of(cursor);
    uint8_t from[HOT_MAX_KEY];
    size_t length, common;
    if (at.length == 1 && at.at[0] == '0')
        return 1;
    if (at.length == 0 || at.length > 1 + HOT_MAX_KEY || at.at[0] != '(')
        return 0;
    if (hot_after(at.at + 1, at.length - 1, from, &length) != HOT_DONE) {
        to->is_empty = 1;
        return 1;
    }
    common = common_bytes(from, length, to->range.from, to->range.from_length);
    if (common < length && (common == to->range.from_length || from[common] > to->range.from[common])) {
        memcpy(to->range.from, from, length);
        to->range.from_length = length;
    }
    return 1;
}

static int om_scan(RedisModuleCtx *ctx, RedisModuleString **argv, int argc) {
    range_request asked = all_pairs;
    long long count = 10;
    int at;
    if (argc < 3 || argc % 2 == 0)
        return RedisModule_WrongArity(ctx);
    range_of_all(&asked.range);
    for (at = 3; at < argc; at += 2)
        if (is_word(argv[at], "COUNT")) {
            if (RedisModule_StringToLongLong(argv[at + 1], &count) != REDISMODULE_OK || count < 1)
                return RedisModule_ReplyWithError(ctx, "ERR value is not an integer or out of range");
        } else if (!is_word(argv[at], "PREFIX") || !read_prefix(argv[at + 1], &asked)) {
            return RedisModule_ReplyWithError(ctx, "ERR syntax error");
        }
    asked.what = PAGES;
    asked.with_values = 1;
    asked.limit = count < PAGE ? (uint64_t)count : PAGE;
    return begin_at_cursor(argv[2], &asked) ? read_key(ctx, argv[1], &asked)
                                            : RedisModule_ReplyWithError(ctx, "ERR invalid cursor");
}

/* ---- What a map is ---- */

static void reply_with_figure(RedisModuleCtx *ctx, const char *name, uint64_t figure) {
    RedisModule_ReplyWithStringBuffer(ctx, name, strlen(name));
    RedisModule_ReplyWithLongLong(ctx, (long long)figure);
}

static int om_stat(RedisModuleCtx *ctx, RedisModuleString **argv, int argc) {
    opened of;
    const indexed_map *it;
    if (argc != 2)
        return RedisModule_WrongArity(ctx);
    if (!open_key(&of, ctx, argv[1], REDISMODULE_READ))
        return REDISMODULE_OK;
    if (of.now == NULL) {
        close_key(&of);
        return RedisModule_ReplyWithNull(ctx);
    }
    it = of.now->form != INDEXED ? NULL : (const indexed_map *)of.now;
    RedisModule_ReplyWithMap(ctx, 5);
    reply_with_figure(ctx, "fields", map_length(of.now));
    reply_with_figure(ctx, "bytes", map_bytes(of.now));
    reply_with_figure(ctx, "has_index", it != NULL);
    reply_with_figure(ctx, "text_bytes", it == NULL ? 0 : it->text_bytes);
    reply_with_figure(ctx, "jobs", it == NULL ? 0 : it->uses - 1);
    close_key(&of);
    return REDISMODULE_OK;
}

/* ---- All of them ---- */

typedef struct command {
    const char *name;
    RedisModuleCmdFunc *run;
    const char *flags;
    int arity;
    uint64_t key;
    RedisModuleCommandArg *arguments;
    const char *summary, *complexity;
} command;

static const command commands[] = {
    {"om.set", om_set, "write deny-oom fast", -4, KEY_RW | KEY_UPDATE, arguments_of_set, "Sets fields of an ordered map",
     "O(k) a field"},
    {"om.get", om_get, "readonly fast", 3, KEY_RO | KEY_ACCESS, arguments_of_field, "Returns the value of a field", "O(k)"},
    {"om.mget", om_mget, "readonly blocking", -3, KEY_RO | KEY_ACCESS, arguments_of_mget, "Returns the values of fields",
     "O(k) a field"},
    {"om.del", om_del, "write fast blocking", -3, KEY_RW | KEY_DELETE, arguments_of_fields, "Removes fields", "O(k) a field"},
    {"om.add", om_add, "write deny-oom fast", 4, KEY_RW | KEY_ACCESS | KEY_UPDATE, arguments_of_add,
     "Adds to the integer of a field", "O(k)"},
    {"om.cas", om_cas, "write deny-oom fast", 5, KEY_RW | KEY_ACCESS | KEY_UPDATE, arguments_of_cas,
     "Sets a field if it has the expected value", "O(k)"},
    {"om.exists", om_exists, "readonly fast", 3, KEY_RO, arguments_of_field, "Says whether there is a field", "O(k)"},
    {"om.len", om_len, "readonly fast", 2, KEY_RO, arguments_of_key, "Counts the fields", "O(1)"},
    {"om.range", om_range, "readonly blocking", -4, KEY_RO | KEY_ACCESS, arguments_of_range, "Lists fields of a range", "O(k + n)"},
    {"om.prefix", om_prefix, "readonly blocking", -3, KEY_RO | KEY_ACCESS, arguments_of_prefix, "Lists fields with a prefix",
     "O(k + n)"},
    {"om.count", om_count, "readonly blocking", -4, KEY_RO, arguments_of_count, "Counts the fields of a range", "O(k + n)"},
    {"om.scan", om_scan, "readonly blocking", -3, KEY_RO | KEY_ACCESS, arguments_of_scan, "Lists fields page by page", "O(k + n)"},
    {"om.popmin", om_popmin, "write", -2, KEY_RW | KEY_ACCESS | KEY_DELETE, arguments_of_pop,
     "Removes the first pairs and returns them", "O(k) a pair"},
    {"om.popmax", om_popmax, "write", -2, KEY_RW | KEY_ACCESS | KEY_DELETE, arguments_of_pop,
     "Removes the last pairs and returns them", "O(k) a pair"},
    {"om.delrange", om_delrange, "write blocking", -4, KEY_RW | KEY_DELETE, arguments_of_delrange, "Removes the fields of a range",
     "O(k) a field"},
    {"om.stat", om_stat, "readonly fast", 2, KEY_RO, arguments_of_key, "Says how a map is stored", "O(1)"},
};

/* The categories of a command for access lists, in a server that lets modules have them. */
static void write_categories(const command *it, char *to, size_t room) {
    snprintf(to, room, "%s %s%s", strstr(it->flags, "write") != NULL ? "write" : "read",
             strstr(it->flags, "fast") != NULL ? "fast" : "slow", strstr(it->flags, "blocking") != NULL ? " blocking" : "");
}

static int make_command(RedisModuleCtx *ctx, const command *it) {
    static const RedisModuleCommandInfoVersion version = {1, sizeof(RedisModuleCommandHistoryEntry),
                                                          sizeof(RedisModuleCommandKeySpec), sizeof(RedisModuleCommandArg)};
    RedisModuleCommandKeySpec keys[2] = {{0}};
    RedisModuleCommandInfo info = {0};
    RedisModuleCommand *of;
    char categories[40];
    keys[0].flags = it->key;
    keys[0].begin_search_type = BEGIN_INDEX;
    keys[0].bs.index.pos = 1;
    keys[0].find_keys_type = FIND_RANGE;
    keys[0].fk.range.keystep = 1;
    info.version = &version;
    info.summary = it->summary;
    info.complexity = it->complexity;
    info.since = "1.0.0";
    info.arity = it->arity;
    info.key_specs = keys;
    info.args = it->arguments;
    if (RedisModule_CreateCommand(ctx, it->name, it->run, it->flags, 1, 1, 1) != REDISMODULE_OK)
        return REDISMODULE_ERR;
    of = RedisModule_GetCommand(ctx, it->name);
    write_categories(it, categories, sizeof categories);
    if (RedisModule_SetCommandACLCategories != NULL && RedisModule_SetCommandACLCategories(of, categories) != REDISMODULE_OK)
        return REDISMODULE_ERR;
    return RedisModule_SetCommandInfo(of, &info);
}

int commands_make(RedisModuleCtx *ctx) {
    size_t at;
    for (at = 0; at < sizeof commands / sizeof *commands; at++)
        if (make_command(ctx, &commands[at]) != REDISMODULE_OK)
            return REDISMODULE_ERR;
    return REDISMODULE_OK;
}

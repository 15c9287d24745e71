/* ordered_map.so: an ordered map as a data type of Redis 7 and Valkey, over libhot.
 *
 *     loadmodule ./ordered_map.so
 *
 * Its configuration, in the server's file behind that line, or by CONFIG SET what isn't fixed:
 *
 *     ordered_map.threads 3         how many threads read long ranges, 0 to 64; fixed when the module is loaded
 *     ordered_map.memory-limit 0    how many bytes the indexes may have together; 0 is no limit */
#include "commands.h"
#include "index.h"
#include "jobs.h"
#include "server.h"
#include "trims.h"
#include "type.h"
#include <limits.h>
#include <sys/prctl.h>

enum { MODULE_VERSION = 1, INTERFACE_VERSION = 1, MOST_THREADS = 64 };

static long long get_number(const char *name, void *of) {
    (void)name;
    return *(long long *)of;
}

static int set_number(const char *name, long long value, void *of, RedisModuleString **error) {
    (void)name;
    (void)error;
    *(long long *)of = value;
    return REDISMODULE_OK;
}

static int configure(RedisModuleCtx *ctx) {
    if (RedisModule_RegisterNumericConfig(ctx, "threads", 3, CONFIG_IMMUTABLE, 0, MOST_THREADS, get_number, set_number, NULL,
                                          &reader_threads) != REDISMODULE_OK ||
        RedisModule_RegisterNumericConfig(ctx, "memory-limit", 0, CONFIG_MEMORY, 0, LLONG_MAX, get_number, set_number, NULL,
                                          &memory_limit) != REDISMODULE_OK)
        return REDISMODULE_ERR;
    return RedisModule_LoadConfigs(ctx);
}

static void write_info(RedisModuleInfoCtx *ctx, int for_crash_report) {
    (void)for_crash_report;
    RedisModule_InfoAddSection(ctx, "maps");
    RedisModule_InfoAddFieldULongLong(ctx, "indexes", index_count);
    RedisModule_InfoAddFieldULongLong(ctx, "index_bytes", index_bytes);
    RedisModule_InfoAddFieldULongLong(ctx, "trims", trim_count);
    RedisModule_InfoAddFieldULongLong(ctx, "reads", read_count);
    RedisModule_InfoAddFieldULongLong(ctx, "clients_gone", gone_count);
    RedisModule_InfoAddFieldULongLong(ctx, "most_pairs_at_once", most_at_once);
}

/* An insertion that puts 2 MiB into a huge page would keep the main thread for milliseconds, as would the first change of one beside a
 * child. So the server does this itself where all memory has such pages. */
static void give_up_huge_pages(void) {
    prctl(PR_SET_THP_DISABLE, 1, 0, 0, 0);
}

static int refuse(RedisModuleCtx *ctx, const char *why) {
    RedisModule_Log(ctx, "warning", "ordered_map is not loaded: %s", why);
    return REDISMODULE_ERR;
}

/* Looks whether the processor is new enough for the library. */
static hot_status look_at_processor(void) {
    static const hot_stock least = {1, 0, 0, 0, 0, 1};
    size_t bytes;
    return hot_stock_bytes(&least, 1, &bytes);
}

__attribute__((visibility("default"))) int RedisModule_OnLoad(RedisModuleCtx *ctx, RedisModuleString **argv, int argc);

int RedisModule_OnLoad(RedisModuleCtx *ctx, RedisModuleString **argv, int argc) {
    const char *lacking = server_find_calls(ctx);
    hot_status status;
    (void)argv;
    if (lacking != NULL) {
        if (RedisModule_Log != NULL)
            RedisModule_Log(ctx, "warning", "ordered_map is not loaded: the server lacks %s", lacking);
        return REDISMODULE_ERR;
    }
    if (RedisModule_IsModuleNameBusy("ordered_map"))
        return refuse(ctx, "its name is taken");
    RedisModule_SetModuleAttribs(ctx, "ordered_map", MODULE_VERSION, INTERFACE_VERSION);
    if (argc > 0)
        return refuse(ctx, "it takes no arguments");
    status = look_at_processor();
    if (status != HOT_DONE)
        return refuse(ctx, hot_status_text(status));
    RedisModule_SetModuleOptions(ctx, HANDLE_IO_ERRORS | NO_IMPLICIT_SIGNAL_MODIFIED | HANDLE_REPL_ASYNC_LOAD);
    if (configure(ctx) != REDISMODULE_OK || type_make(ctx) != REDISMODULE_OK || commands_make(ctx) != REDISMODULE_OK ||
        RedisModule_RegisterInfoFunc(ctx, write_info) != REDISMODULE_OK)
        return refuse(ctx, "the server refused a part of it");
    give_up_huge_pages();
    jobs_start();
    return REDISMODULE_OK;
}

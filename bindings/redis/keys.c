/* Keys of commands, and the maps that they lead to. */
#include "keys.h"
#include "trims.h"
#include "type.h"

int refuse(RedisModuleCtx *ctx, const char *why) {
    RedisModule_ReplyWithError(ctx, why);
    return 0;
}

int find_key(opened *it, RedisModuleCtx *ctx, RedisModuleString *name, int mode) {
    it->ctx = ctx;
    it->name = name;
    it->key = RedisModule_OpenKey(ctx, name, mode);
    it->was = it->now = NULL;
    if (it->key == NULL)
        return 1;
    if (RedisModule_ModuleTypeGetType(it->key) == map_type) {
        it->was = it->now = RedisModule_ModuleTypeGetValue(it->key);
        return 1;
    }
    if (RedisModule_KeyType(it->key) == REDISMODULE_KEYTYPE_EMPTY)
        return 1;
    RedisModule_CloseKey(it->key);
    return 0;
}

int open_key(opened *it, RedisModuleCtx *ctx, RedisModuleString *name, int mode) {
    return find_key(it, ctx, name, mode) || refuse(ctx, "WRONGTYPE Operation against a key holding the wrong kind of value");
}

void close_key(opened *it) {
    RedisModule_CloseKey(it->key);
}

void keep(opened *it) {
    void *old;
    if (it->now == it->was)
        return;
    if (it->was == NULL) {
        RedisModule_ModuleTypeSetValue(it->key, map_type, it->now);
    } else {
        it->now->number = it->was->number;
        RedisModule_ModuleTypeReplaceValue(it->key, map_type, it->now, &old);
        map_drop(old);
    }
    it->was = it->now;
}

size_t take_fields(opened *it, const field *fields, size_t count, portion *left, uint64_t *taken) {
    size_t tried = it->now == NULL ? count : map_take(it->was, fields, count, left, taken, &it->now);
    keep(it);
    trim(it);
    return tried;
}

void tell(opened *it, const char *event) {
    RedisModule_SignalModifiedKey(it->ctx, it->name);
    RedisModule_NotifyKeyspaceEvent(it->ctx, NOTIFY_MODULE, event, it->name);
    if (it->now == NULL || map_length(it->now) == 0) {
        RedisModule_DeleteKey(it->key);
        it->was = it->now = NULL;
        RedisModule_NotifyKeyspaceEvent(it->ctx, NOTIFY_GENERIC, "del", it->name);
    }
}

void finish(opened *it, const char *event) {
    RedisModule_ReplicateVerbatim(it->ctx);
    tell(it, event);
}

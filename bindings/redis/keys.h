/* Keys of commands, and the maps that they lead to. */
#ifndef KEYS_H
#define KEYS_H

#include "map.h"
#include "server.h"

/* The key of a command, its map, which is NULL if there is none, and the map that takes its place. */
typedef struct opened {
    RedisModuleCtx *ctx;
    RedisModuleString *name;
    RedisModuleKey *key;
    map *was, *now;
} opened;

/* Replies with an error, and returns 0. */
int refuse(RedisModuleCtx *ctx, const char *why);

/* Opens a key: 0, with a reply, if it has another type. The second one makes no reply. */
int open_key(opened *it, RedisModuleCtx *ctx, RedisModuleString *name, int mode);
int find_key(opened *it, RedisModuleCtx *ctx, RedisModuleString *name, int mode);
void close_key(opened *it);

/* Has the key lead to the map that takes the place of what it had. */
void keep(opened *it);

/* Removes fields as map_take does. */
size_t take_fields(opened *it, const field *fields, size_t count, portion *left, uint64_t *taken);

/* Tells of a change that is replicated already: who watches the key and who listens. A map without pairs goes. */
void tell(opened *it, const char *event);

/* The same of one that is replicated as it was written. */
void finish(opened *it, const char *event);

#endif

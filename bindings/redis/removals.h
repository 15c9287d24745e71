/* Commands that remove pairs: from one end of a range on, or of named fields. One of many pairs goes in portions: from time to time
 * the main thread takes one, which is replicated by itself, and the client waits. It ends once its key has another map. A pop is
 * one portion. */
#ifndef REMOVALS_H
#define REMOVALS_H

#include "keys.h"
#include "server.h"

/* Removes the fields that the words of a command name, and replies with how many there were. */
void take_named(opened *of, RedisModuleString **names, size_t count);

int om_popmin(RedisModuleCtx *ctx, RedisModuleString **argv, int argc);
int om_popmax(RedisModuleCtx *ctx, RedisModuleString **argv, int argc);
int om_delrange(RedisModuleCtx *ctx, RedisModuleString **argv, int argc);

#endif

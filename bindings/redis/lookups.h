/* Replies with the values of fields that a command names. */
#ifndef LOOKUPS_H
#define LOOKUPS_H

#include "map.h"
#include "server.h"

/* Replies with a value or nil for each. A job looks up more than the main thread goes through in one go, where the client may wait,
 * tracks no keys, and doesn't ask for values of one moment. */
int reply_with_values(RedisModuleCtx *ctx, map *of, hot_lookup *lookups, size_t count, int is_atomic);

#endif

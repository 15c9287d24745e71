/* The data type. */
#ifndef TYPE_H
#define TYPE_H

#include "server.h"

/* NULL before it is made. */
extern RedisModuleType *map_type;

/* REDISMODULE_OK, or REDISMODULE_ERR if the server refuses it. */
int type_make(RedisModuleCtx *ctx);

#endif

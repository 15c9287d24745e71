/* The commands. */
#ifndef COMMANDS_H
#define COMMANDS_H

#include "server.h"

/* Makes the commands: REDISMODULE_OK, or REDISMODULE_ERR if the server refuses one. */
int commands_make(RedisModuleCtx *ctx);

#endif

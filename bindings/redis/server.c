/* Finds the calls of the server by their names. */
#include "server.h"
#include <string.h>

#define DEFINE_CALL(type, name, arguments) type(*RedisModule_##name) arguments;
SERVER_CALLS(DEFINE_CALL)
#undef DEFINE_CALL

int (*RedisModule_SetCommandACLCategories)(RedisModuleCommand *of, const char *categories);

const char *server_find_calls(RedisModuleCtx *ctx) {
    int (*find)(const char *name, void *call);
    /* A context begins with the address of the call that finds the others. */
    memcpy(&find, ctx, sizeof find);
#define FIND_CALL(type, name, arguments)                                                                                           \
    if (find("RedisModule_" #name, (void *)&RedisModule_##name) != REDISMODULE_OK)                                                 \
        return "RedisModule_" #name;
    SERVER_CALLS(FIND_CALL)
#undef FIND_CALL
    find("RedisModule_SetCommandACLCategories", (void *)&RedisModule_SetCommandACLCategories);
    return NULL;
}

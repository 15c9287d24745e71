/* What COMMAND DOCS tells of the arguments of each command. */
#include "arguments.h"

/* An argument; one behind a word; and a word alone. */
#define ARGUMENT(name, type, flags)                                                                                                \
    { name, type, -1, NULL, NULL, NULL, flags, NULL, NULL }
#define BEHIND(word, name, type, flags)                                                                                            \
    { name, type, -1, word, NULL, NULL, flags, NULL, NULL }
#define WORD(name, word, flags)                                                                                                    \
    { name, ARG_WORD, -1, word, NULL, NULL, flags, NULL, NULL }
/* Several in a row, or one of several. */
#define ROW(name, of, flags)                                                                                                       \
    { name, ARG_ROW, -1, NULL, NULL, NULL, flags, NULL, of }
#define EITHER(name, of, flags)                                                                                                    \
    { name, ARG_EITHER, -1, NULL, NULL, NULL, flags, NULL, of }
#define KEY                                                                                                                        \
    { "key", ARG_KEY, 0, NULL, NULL, NULL, 0, NULL, NULL }
#define END                                                                                                                        \
    { NULL, ARG_STRING, 0, NULL, NULL, NULL, 0, NULL, NULL }

static RedisModuleCommandArg pair[] = {ARGUMENT("field", ARG_STRING, 0), ARGUMENT("value", ARG_STRING, 0), END};
static RedisModuleCommandArg condition[] = {WORD("absent", "NX", 0), WORD("held", "XX", 0), END};
static RedisModuleCommandArg window[] = {ARGUMENT("offset", ARG_INTEGER, 0), ARGUMENT("count", ARG_INTEGER, 0), END};

/* How a range is listed. */
#define OPTIONS                                                                                                                    \
    WORD("rev", "REV", ARG_OPTIONAL), {"limit", ARG_ROW, -1, "LIMIT", NULL, NULL, ARG_OPTIONAL, NULL, window},                     \
        WORD("withvalues", "WITHVALUES", ARG_OPTIONAL), WORD("atomic", "ATOMIC", ARG_OPTIONAL), END
#define ENDS ARGUMENT("min", ARG_STRING, 0), ARGUMENT("max", ARG_STRING, 0)

RedisModuleCommandArg arguments_of_set[] = {KEY, ROW("data", pair, ARG_REPEATS), EITHER("condition", condition, ARG_OPTIONAL), END};
RedisModuleCommandArg arguments_of_field[] = {KEY, ARGUMENT("field", ARG_STRING, 0), END};
static RedisModuleCommandArg moment[] = {WORD("atomic", "ATOMIC", 0), BEHIND("FIELDS", "numfields", ARG_INTEGER, 0), END};
RedisModuleCommandArg arguments_of_mget[] = {KEY, ROW("moment", moment, ARG_OPTIONAL), ARGUMENT("field", ARG_STRING, ARG_REPEATS),
                                             END};
RedisModuleCommandArg arguments_of_fields[] = {KEY, ARGUMENT("field", ARG_STRING, ARG_REPEATS), END};
RedisModuleCommandArg arguments_of_add[] = {KEY, ARGUMENT("field", ARG_STRING, 0), ARGUMENT("increment", ARG_INTEGER, 0), END};
RedisModuleCommandArg arguments_of_cas[] = {KEY, ARGUMENT("field", ARG_STRING, 0), ARGUMENT("expected", ARG_STRING, 0),
                                            ARGUMENT("value", ARG_STRING, 0), END};
RedisModuleCommandArg arguments_of_key[] = {KEY, END};
RedisModuleCommandArg arguments_of_range[] = {KEY, ENDS, OPTIONS};
RedisModuleCommandArg arguments_of_prefix[] = {KEY, ARGUMENT("prefix", ARG_STRING, 0), OPTIONS};
RedisModuleCommandArg arguments_of_count[] = {KEY, ENDS, WORD("atomic", "ATOMIC", ARG_OPTIONAL), END};
RedisModuleCommandArg arguments_of_scan[] = {KEY, ARGUMENT("cursor", ARG_STRING, 0),
                                             BEHIND("COUNT", "count", ARG_INTEGER, ARG_OPTIONAL),
                                             BEHIND("PREFIX", "prefix", ARG_STRING, ARG_OPTIONAL), END};
RedisModuleCommandArg arguments_of_pop[] = {KEY, ARGUMENT("count", ARG_INTEGER, ARG_OPTIONAL), END};
RedisModuleCommandArg arguments_of_delrange[] = {KEY, ENDS, BEHIND("LIMIT", "count", ARG_INTEGER, ARG_OPTIONAL), END};

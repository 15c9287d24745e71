/* The part of the module interface of Redis 7 and Valkey that the module uses, declared anew, since no package has its header. */
#ifndef SERVER_H
#define SERVER_H

#include <stddef.h>
#include <stdint.h>

typedef struct RedisModuleCtx RedisModuleCtx;
typedef struct RedisModuleString RedisModuleString;
typedef struct RedisModuleKey RedisModuleKey;
typedef struct RedisModuleIO RedisModuleIO;
typedef struct RedisModuleType RedisModuleType;
typedef struct RedisModuleBlockedClient RedisModuleBlockedClient;
typedef struct RedisModuleDigest RedisModuleDigest;
typedef struct RedisModuleCommand RedisModuleCommand;
typedef struct RedisModuleInfoCtx RedisModuleInfoCtx;
typedef struct RedisModuleCallReply RedisModuleCallReply;
typedef struct RedisModuleDefragCtx RedisModuleDefragCtx;

enum { REDISMODULE_OK, REDISMODULE_ERR };
enum { REDISMODULE_READ = 1, REDISMODULE_WRITE = 2, REDISMODULE_KEYTYPE_EMPTY = 0, REDISMODULE_POSTPONED_LEN = -1 };

/* Options of a module: a failing read of a payload is told to it, it tells which keys have changed, and its type may be loaded
 * beside the keys that are there. */
enum { HANDLE_IO_ERRORS = 1 << 0, NO_IMPLICIT_SIGNAL_MODIFIED = 1 << 1, HANDLE_REPL_ASYNC_LOAD = 1 << 2 };

/* Flags of the context of a command. */
enum {
    IN_LUA = 1 << 0,
    IN_MULTI = 1 << 1,
    IS_REPLICA = 1 << 3,
    IS_REPLICATED = 1 << 12,
    IS_LOADING = 1 << 13,
    IS_CHILD = 1 << 20,
    DENIES_BLOCKING = 1 << 21
};

/* What is said of a client, in version 1, and flags of it: it has subscribed to channels; it keeps what it reads, and is told of
 * changes. */
typedef struct RedisModuleClientInfo {
    uint64_t version, flags, id;
    char addr[46];
    uint16_t port, db;
} RedisModuleClientInfo;
enum { CLIENT_SUBSCRIBES = 1 << 1, CLIENT_TRACKS = 1 << 3 };

/* Kinds of events of a keyspace. */
enum { NOTIFY_GENERIC = 1 << 2, NOTIFY_MODULE = 1 << 13 };

/* Flags of a configuration. */
enum { CONFIG_IMMUTABLE = 1 << 0, CONFIG_MEMORY = 1 << 7 };

/* What a command does with its key. */
enum { KEY_RO = 1 << 0, KEY_RW = 1 << 1, KEY_ACCESS = 1 << 4, KEY_UPDATE = 1 << 5, KEY_DELETE = 1 << 7 };

typedef struct RedisModuleCommandInfoVersion {
    int version;
    size_t sizeof_historyentry, sizeof_keyspec, sizeof_arg;
} RedisModuleCommandInfoVersion;

typedef struct RedisModuleCommandHistoryEntry {
    const char *since, *changes;
} RedisModuleCommandHistoryEntry;

typedef struct RedisModuleCommandKeySpec {
    const char *notes;
    uint64_t flags;
    enum { BEGIN_INVALID, BEGIN_UNKNOWN, BEGIN_INDEX, BEGIN_KEYWORD } begin_search_type;
    union {
        struct {
            int pos;
        } index;
        struct {
            const char *keyword;
            int startfrom;
        } keyword;
    } bs;
    enum { FIND_OMITTED, FIND_UNKNOWN, FIND_RANGE, FIND_KEYNUM } find_keys_type;
    union {
        struct {
            int lastkey, keystep, limit;
        } range;
        struct {
            int keynumidx, firstkey, keystep;
        } keynum;
    } fk;
} RedisModuleCommandKeySpec;

/* Types of arguments and their flags. */
enum { ARG_STRING, ARG_INTEGER, ARG_KEY = 3, ARG_WORD = 6, ARG_EITHER, ARG_ROW };
enum { ARG_OPTIONAL = 1 << 0, ARG_REPEATS = 1 << 1 };

typedef struct RedisModuleCommandArg {
    const char *name;
    int type, key_spec_index;
    const char *token, *summary, *since;
    int flags;
    const char *deprecated_since;
    struct RedisModuleCommandArg *subargs;
} RedisModuleCommandArg;

typedef struct RedisModuleCommandInfo {
    const RedisModuleCommandInfoVersion *version;
    const char *summary, *complexity, *since;
    RedisModuleCommandHistoryEntry *history;
    const char *tips;
    int arity;
    RedisModuleCommandKeySpec *key_specs;
    RedisModuleCommandArg *args;
} RedisModuleCommandInfo;

typedef int RedisModuleCmdFunc(RedisModuleCtx *ctx, RedisModuleString **argv, int argc);
typedef void RedisModuleDisconnectFunc(RedisModuleCtx *ctx, RedisModuleBlockedClient *client);
typedef void RedisModuleTimerProc(RedisModuleCtx *ctx, void *of);
typedef void RedisModuleInfoFunc(RedisModuleInfoCtx *ctx, int for_crash_report);
typedef long long RedisModuleConfigGetNumericFunc(const char *name, void *of);
typedef int RedisModuleConfigSetNumericFunc(const char *name, long long value, void *of, RedisModuleString **error);
typedef int RedisModuleConfigApplyFunc(RedisModuleCtx *ctx, void *of, RedisModuleString **error);

/* What a type does, in version 3. */
typedef struct RedisModuleTypeMethods {
    uint64_t version;
    void *(*rdb_load)(RedisModuleIO *io, int version);
    void (*rdb_save)(RedisModuleIO *io, void *value);
    void (*aof_rewrite)(RedisModuleIO *io, RedisModuleString *key, void *value);
    size_t (*mem_usage)(const void *value);
    void (*digest)(RedisModuleDigest *digest, void *value);
    void (*free)(void *value);
    int (*aux_load)(RedisModuleIO *io, int version, int when);
    void (*aux_save)(RedisModuleIO *io, int when);
    int aux_save_triggers;
    size_t (*free_effort)(RedisModuleString *key, const void *value);
    void (*unlink)(RedisModuleString *key, const void *value);
    void *(*copy)(RedisModuleString *from, RedisModuleString *to, const void *value);
    int (*defrag)(RedisModuleDefragCtx *ctx, RedisModuleString *key, void **value);
} RedisModuleTypeMethods;

#define SERVER_CALLS(X)                                                                                                            \
    X(void, Log, (RedisModuleCtx * ctx, const char *level, const char *text, ...))                                                 \
    X(int, SetModuleAttribs, (RedisModuleCtx * ctx, const char *name, int version, int interface))                                 \
    X(int, IsModuleNameBusy, (const char *name))                                                                                   \
    X(void, SetModuleOptions, (RedisModuleCtx * ctx, int options))                                                                 \
    X(int, CreateCommand,                                                                                                          \
      (RedisModuleCtx * ctx, const char *name, RedisModuleCmdFunc *run, const char *flags, int first, int last, int step))         \
    X(RedisModuleCommand *, GetCommand, (RedisModuleCtx * ctx, const char *name))                                                  \
    X(int, SetCommandInfo, (RedisModuleCommand * of, const RedisModuleCommandInfo *info))                                          \
    X(RedisModuleType *, CreateDataType, (RedisModuleCtx * ctx, const char *name, int version, RedisModuleTypeMethods *methods))   \
    X(int, RegisterNumericConfig,                                                                                                  \
      (RedisModuleCtx * ctx, const char *name, long long value, unsigned flags, long long least, long long most,                   \
       RedisModuleConfigGetNumericFunc *get, RedisModuleConfigSetNumericFunc *set, RedisModuleConfigApplyFunc *apply, void *of))   \
    X(int, LoadConfigs, (RedisModuleCtx * ctx))                                                                                    \
    X(int, RegisterInfoFunc, (RedisModuleCtx * ctx, RedisModuleInfoFunc * write))                                                  \
    X(int, InfoAddSection, (RedisModuleInfoCtx * ctx, const char *name))                                                           \
    X(int, InfoAddFieldULongLong, (RedisModuleInfoCtx * ctx, const char *name, unsigned long long value))                          \
    X(void *, Alloc, (size_t bytes))                                                                                               \
    X(void *, TryAlloc, (size_t bytes))                                                                                            \
    X(void, Free, (void *at))                                                                                                      \
    X(size_t, MallocSize, (void *at))                                                                                              \
    X(void *, DefragAlloc, (RedisModuleDefragCtx * ctx, void *at))                                                                 \
    X(const char *, StringPtrLen, (const RedisModuleString *of, size_t *length))                                                   \
    X(int, StringToLongLong, (const RedisModuleString *of, long long *to))                                                         \
    X(RedisModuleString *, CreateString, (RedisModuleCtx * ctx, const char *at, size_t length))                                    \
    X(void, FreeString, (RedisModuleCtx * ctx, RedisModuleString * of))                                                            \
    X(void, RetainString, (RedisModuleCtx * ctx, RedisModuleString * of))                                                          \
    X(RedisModuleKey *, OpenKey, (RedisModuleCtx * ctx, RedisModuleString * name, int mode))                                       \
    X(void, CloseKey, (RedisModuleKey * key))                                                                                      \
    X(int, KeyType, (RedisModuleKey * key))                                                                                        \
    X(int, DeleteKey, (RedisModuleKey * key))                                                                                      \
    X(RedisModuleType *, ModuleTypeGetType, (RedisModuleKey * key))                                                                \
    X(void *, ModuleTypeGetValue, (RedisModuleKey * key))                                                                          \
    X(int, ModuleTypeSetValue, (RedisModuleKey * key, RedisModuleType * type, void *value))                                        \
    X(int, ModuleTypeReplaceValue, (RedisModuleKey * key, RedisModuleType * type, void *value, void **old))                        \
    X(int, SelectDb, (RedisModuleCtx * ctx, int database))                                                                         \
    X(int, GetSelectedDb, (RedisModuleCtx * ctx))                                                                                  \
    X(int, SignalModifiedKey, (RedisModuleCtx * ctx, RedisModuleString * name))                                                    \
    X(int, NotifyKeyspaceEvent, (RedisModuleCtx * ctx, int kind, const char *event, RedisModuleString *name))                      \
    X(int, Replicate, (RedisModuleCtx * ctx, const char *command, const char *form, ...))                                          \
    X(int, ReplicateVerbatim, (RedisModuleCtx * ctx))                                                                              \
    X(int, GetContextFlags, (RedisModuleCtx * ctx))                                                                                \
    X(int, WrongArity, (RedisModuleCtx * ctx))                                                                                     \
    X(int, ReplyWithError, (RedisModuleCtx * ctx, const char *text))                                                               \
    X(int, ReplyWithLongLong, (RedisModuleCtx * ctx, long long value))                                                             \
    X(int, ReplyWithNull, (RedisModuleCtx * ctx))                                                                                  \
    X(int, ReplyWithStringBuffer, (RedisModuleCtx * ctx, const char *at, size_t length))                                           \
    X(int, ReplyWithArray, (RedisModuleCtx * ctx, long length))                                                                    \
    X(void, ReplySetArrayLength, (RedisModuleCtx * ctx, long length))                                                              \
    X(int, ReplyWithMap, (RedisModuleCtx * ctx, long length))                                                                      \
    X(void, ReplySetMapLength, (RedisModuleCtx * ctx, long length))                                                                \
    X(RedisModuleBlockedClient *, BlockClient,                                                                                     \
      (RedisModuleCtx * ctx, RedisModuleCmdFunc * reply, RedisModuleCmdFunc * timeout,                                             \
       void (*free)(RedisModuleCtx * ctx, void *data), long long milliseconds))                                                    \
    X(int, UnblockClient, (RedisModuleBlockedClient * client, void *data))                                                         \
    X(void, SetDisconnectCallback, (RedisModuleBlockedClient * client, RedisModuleDisconnectFunc * call))                          \
    X(uint64_t, CreateTimer, (RedisModuleCtx * ctx, long long milliseconds, RedisModuleTimerProc *call, void *of))                 \
    X(RedisModuleCallReply *, Call, (RedisModuleCtx * ctx, const char *command, const char *form, ...))                            \
    X(void, FreeCallReply, (RedisModuleCallReply * reply))                                                                         \
    X(RedisModuleCallReply *, CallReplyArrayElement, (RedisModuleCallReply * reply, size_t at))                                    \
    X(const char *, CallReplyStringPtr, (RedisModuleCallReply * reply, size_t * length))                                           \
    X(unsigned long long, GetClientId, (RedisModuleCtx * ctx))                                                                     \
    X(int, GetClientInfoById, (RedisModuleClientInfo * to, uint64_t client))                                                       \
    X(int, AvoidReplicaTraffic, (void))                                                                                            \
    X(int, BlockedClientMeasureTimeStart, (RedisModuleBlockedClient * client))                                                     \
    X(int, BlockedClientMeasureTimeEnd, (RedisModuleBlockedClient * client))                                                       \
    X(RedisModuleCtx *, GetThreadSafeContext, (RedisModuleBlockedClient * client))                                                 \
    X(void, FreeThreadSafeContext, (RedisModuleCtx * ctx))                                                                         \
    X(void, SaveUnsigned, (RedisModuleIO * io, uint64_t value))                                                                    \
    X(uint64_t, LoadUnsigned, (RedisModuleIO * io))                                                                                \
    X(void, SaveStringBuffer, (RedisModuleIO * io, const char *at, size_t length))                                                 \
    X(char *, LoadStringBuffer, (RedisModuleIO * io, size_t * length))                                                             \
    X(int, IsIOError, (RedisModuleIO * io))                                                                                        \
    X(void, LogIOError, (RedisModuleIO * io, const char *level, const char *text, ...))                                            \
    X(RedisModuleCtx *, GetContextFromIO, (RedisModuleIO * io))                                                                    \
    X(void, EmitAOF, (RedisModuleIO * io, const char *command, const char *form, ...))                                             \
    X(void, DigestAddStringBuffer, (RedisModuleDigest * digest, const char *at, size_t length))                                    \
    X(void, DigestEndSequence, (RedisModuleDigest * digest))

#define DECLARE_CALL(type, name, arguments) extern type(*RedisModule_##name) arguments;
SERVER_CALLS(DECLARE_CALL)
#undef DECLARE_CALL

/* One that Redis has since 7.2; NULL in an earlier one. */
extern int (*RedisModule_SetCommandACLCategories)(RedisModuleCommand *of, const char *categories);

/* Finds the calls in the server. Returns the name of one that it lacks, or NULL if it has them all. */
const char *server_find_calls(RedisModuleCtx *ctx);

#endif

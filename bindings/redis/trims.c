/* Indexes that have few of their pairs left, whose memory comes back. All is done by the main thread. */
#include "trims.h"
#include "index.h"
#include "keys.h"
#include "ranges.h"

/* It has a use of the map, which is there until the next portion. */
typedef struct trimming {
    struct trimming *next;
    indexed_map *of;
    RedisModuleString *name;
    int database;
} trimming;

unsigned long long trim_count;

/* They have their turns. */
static trimming *first_waiting, **last_waiting = &first_waiting;

static void line_up(trimming *it) {
    it->next = NULL;
    *last_waiting = it;
    last_waiting = &it->next;
}

static void end(trimming *it) {
    index_end_copy(it->of);
    map_drop((map *)it->of);
    RedisModule_FreeString(NULL, it->name);
    RedisModule_Free(it);
}

/* Copies the next pairs: 1 if there are more, and the key still has the map. */
static int copy_on(RedisModuleCtx *ctx, const trimming *it) {
    indexed_map *made = NULL;
    opened key;
    int is_held;
    RedisModule_SelectDb(ctx, it->database);
    if (!find_key(&key, ctx, it->name, REDISMODULE_READ | REDISMODULE_WRITE))
        return 0;
    is_held = key.now == (map *)it->of && it->of->copy != NULL;
    if (is_held)
        made = index_copy_on(it->of, at_once);
    if (made != NULL) {
        key.now = (map *)made;
        keep(&key);
        trim_count++;
    }
    close_key(&key);
    return is_held && it->of->copy != NULL;
}

/* Between two portions clients have their commands run. */
enum { PAUSE_MILLISECONDS = 1 };
static void take_turn(RedisModuleCtx *ctx, void *unused) {
    trimming *it = first_waiting;
    (void)unused;
    first_waiting = it->next;
    if (first_waiting == NULL)
        last_waiting = &first_waiting;
    if (copy_on(ctx, it))
        line_up(it);
    else
        end(it);
    if (first_waiting != NULL)
        RedisModule_CreateTimer(ctx, PAUSE_MILLISECONDS, take_turn, NULL);
}

void trim(opened *of) {
    indexed_map *it = (indexed_map *)of->now;
    field name = field_of(of->name);
    trimming *made;
    if (it == NULL || it->form != INDEXED || !index_has_few(it))
        return;
    made = RedisModule_TryAlloc(sizeof *made);
    if (made == NULL)
        return;
    if (!index_begin_copy(it)) {
        RedisModule_Free(made);
        return;
    }
    atomic_fetch_add(&it->uses, 1);
    made->of = it;
    made->name = RedisModule_CreateString(NULL, (const char *)name.at, name.length);
    made->database = RedisModule_GetSelectedDb(of->ctx);
    if (first_waiting == NULL)
        RedisModule_CreateTimer(of->ctx, PAUSE_MILLISECONDS, take_turn, NULL);
    line_up(made);
}

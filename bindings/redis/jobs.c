/* Work beside the main thread. */
#define _GNU_SOURCE
#include "jobs.h"
#include "index.h"
#include <pthread.h>
#include <signal.h>
#include <stdlib.h>
#include <string.h>
#include <sys/resource.h>

long long reader_threads = 3;
atomic_ullong read_count, gone_count;
unsigned long long most_at_once;

const portion read_portion = {2048, 1 << 20};

static pthread_mutex_t lock = PTHREAD_MUTEX_INITIALIZER;
static pthread_cond_t has_read = PTHREAD_COND_INITIALIZER, has_gone = PTHREAD_COND_INITIALIZER;

/* Reads that wait for a thread, in the order in which they came: those that none has begun, those that go on, those whose rest goes
 * in one portion, and those that will go on once fewer do. */
enum { NEW, GOING, WHOLE, KINDS, LATER = KINDS, LINES };
typedef struct line {
    read_job *first, **last;
} line;

/* Under the lock: */
static line lines[LINES] = {
    {NULL, &lines[NEW].first}, {NULL, &lines[GOING].first}, {NULL, &lines[WHOLE].first}, {NULL, &lines[LATER].first}};
static read_job *running;
static int whole_running, going;
static unsigned turn;

size_t jobs_threads(void) {
    return (size_t)reader_threads;
}

int may_read_whole(void) {
    return reader_threads > 1;
}

int may_wait(RedisModuleCtx *ctx) {
    return (RedisModule_GetContextFlags(ctx) & (IN_LUA | IN_MULTI | IS_REPLICATED | IS_LOADING | DENIES_BLOCKING)) == 0;
}

static uint64_t client_flags(RedisModuleCtx *ctx) {
    RedisModuleClientInfo info = {.version = 1};
    return RedisModule_GetClientInfoById(&info, RedisModule_GetClientId(ctx)) == REDISMODULE_OK ? info.flags : 0;
}

int is_tracking(RedisModuleCtx *ctx) {
    return (client_flags(ctx) & CLIENT_TRACKS) != 0;
}

void note_at_once(uint64_t pairs) {
    if (pairs > most_at_once)
        most_at_once = pairs;
}

/* Has the calling thread get less of a processor than the main thread, where they are short. */
static void come_last(void) {
    enum { NICENESS = 5 };
    setpriority(PRIO_PROCESS, 0, NICENESS);
}

/* ---- Reads ---- */

static void line_up(line *to, read_job *it) {
    it->next = NULL;
    *to->last = it;
    to->last = &it->next;
    pthread_cond_signal(&has_read);
}

/* The line from which reads of a kind come: NULL if none may. Whole rests leave one thread to the others. */
static line *line_of(int kind) {
    if (kind == GOING && lines[LATER].first != NULL && going < 2 * reader_threads)
        return &lines[LATER];
    if (lines[kind].first == NULL || (kind == WHOLE && whole_running >= reader_threads - 1))
        return NULL;
    return &lines[kind];
}

static read_job *take_first(line *from) {
    read_job *it = from->first;
    from->first = it->next;
    if (from->first == NULL)
        from->last = &from->first;
    return it;
}

/* Takes the next read out of its line: NULL if there is none. */
static read_job *take_turn(void) {
    static const uint8_t orders[4][KINDS] = {{NEW, GOING, WHOLE}, {NEW, WHOLE, GOING}, {NEW, GOING, WHOLE}, {GOING, WHOLE, NEW}};
    const uint8_t *order = orders[turn % 4];
    line *from = NULL;
    size_t at;
    for (at = 0; from == NULL && at < KINDS; at++)
        from = line_of(order[at]);
    if (from == NULL)
        return NULL;
    if (from == &lines[LATER]) {
        from->first->is_going = 1;
        going++;
    }
    turn++;
    return take_first(from);
}

static read_job *begin_portion(void) {
    read_job *it;
    pthread_mutex_lock(&lock);
    while ((it = take_turn()) == NULL)
        pthread_cond_wait(&has_read, &lock);
    it->next = running;
    running = it;
    whole_running += it->is_whole;
    pthread_mutex_unlock(&lock);
    return it;
}

static void end_portion(read_job *it, int was_whole, int has_more) {
    read_job **at = &running;
    pthread_mutex_lock(&lock);
    while (*at != it)
        at = &(*at)->next;
    *at = it->next;
    whole_running -= was_whole;
    if (has_more)
        line_up(&lines[it->is_whole ? WHOLE : it->is_going ? GOING : LATER], it);
    else
        going -= it->is_going;
    pthread_mutex_unlock(&lock);
}

/* Reads a portion with a handle that is opened for it, and so one that an earlier read gave back. Returns whether there is more. */
static int do_portion(read_job *it) {
    hot_handle handle = HOT_HANDLE;
    int has_more = 0;
    RedisModule_BlockedClientMeasureTimeStart(it->client);
    if (it->ctx == NULL)
        it->ctx = RedisModule_GetThreadSafeContext(it->client);
    if (hot_open(it->of->index, &handle) == HOT_DONE) {
        has_more = it->read(it, it->ctx, &handle);
        hot_close(&handle);
    } else {
        it->read(it, it->ctx, NULL);
    }
    RedisModule_BlockedClientMeasureTimeEnd(it->client);
    return has_more;
}

static void end_read(read_job *it) {
    RedisModule_FreeThreadSafeContext(it->ctx);
    map_drop((map *)it->of);
    RedisModule_UnblockClient(it->client, NULL);
    RedisModule_Free(it);
    atomic_fetch_add(&read_count, 1);
}

static void *read_all(void *unused) {
    come_last();
    for (;;) {
        read_job *it = begin_portion();
        int was_whole = it->is_whole, has_more = do_portion(it);
        end_portion(it, was_whole, has_more);
        if (!has_more)
            end_read(it);
    }
    return unused;
}

static void note_in(read_job *first, const RedisModuleBlockedClient *client) {
    for (; first != NULL; first = first->next)
        if (first->client == client)
            first->is_gone = 1;
}

/* Notes that a client has left. */
static void note_gone(RedisModuleCtx *ctx, RedisModuleBlockedClient *client) {
    size_t at;
    (void)ctx;
    pthread_mutex_lock(&lock);
    note_in(running, client);
    for (at = 0; at < LINES; at++)
        note_in(lines[at].first, client);
    pthread_mutex_unlock(&lock);
    atomic_fetch_add(&gone_count, 1);
}

/* How many bytes the server lets the replies to a client have: its hard limit, of which CONFIG tells as `normal 0 0 0 slave ..`. */
static uint64_t reply_limit(RedisModuleCtx *ctx) {
    const char *kind = client_flags(ctx) & CLIENT_SUBSCRIBES ? "pubsub " : "normal ", *found;
    RedisModuleCallReply *reply = RedisModule_Call(ctx, "config", "cc", "get", "client-output-buffer-limit"), *value;
    unsigned long long limit = 0;
    char text[200] = "";
    size_t length = 0;
    value = reply == NULL ? NULL : RedisModule_CallReplyArrayElement(reply, 1);
    found = value == NULL ? NULL : RedisModule_CallReplyStringPtr(value, &length);
    if (found != NULL && length < sizeof text)
        memcpy(text, found, length);
    found = strstr(text, kind);
    if (found != NULL)
        limit = strtoull(found + strlen(kind), NULL, 10);
    if (reply != NULL)
        RedisModule_FreeCallReply(reply);
    return limit == 0 ? UINT64_MAX : limit;
}

const char *why_cut(read_job *it, uint64_t bytes) {
    it->bytes_left -= bytes < it->bytes_left ? bytes : it->bytes_left;
    if (it->bytes_left == 0)
        return "ERR the reply is longer than client-output-buffer-limit";
    return it->is_gone ? "ERR the client has left" : NULL;
}

void jobs_read(RedisModuleCtx *ctx, read_job *it, indexed_map *of) {
    atomic_fetch_add(&of->uses, 1);
    it->of = of;
    it->ctx = NULL;
    it->is_whole = it->is_going = it->is_gone = 0;
    it->bytes_left = reply_limit(ctx);
    it->client = RedisModule_BlockClient(ctx, NULL, NULL, NULL, 0);
    RedisModule_SetDisconnectCallback(it->client, note_gone);
    pthread_mutex_lock(&lock);
    line_up(&lines[NEW], it);
    pthread_mutex_unlock(&lock);
}

/* ---- Maps that go ---- */

static int has_freer;
static indexed_map *first_freed; /* under the lock */

static void *free_all(void *unused) {
    come_last();
    for (;;) {
        indexed_map *it;
        pthread_mutex_lock(&lock);
        while (first_freed == NULL)
            pthread_cond_wait(&has_gone, &lock);
        it = first_freed;
        first_freed = it->next_freed;
        pthread_mutex_unlock(&lock);
        index_free(it);
    }
    return unused;
}

void jobs_free(indexed_map *of) {
    index_leave(of);
    if (!has_freer) {
        index_free(of);
        return;
    }
    pthread_mutex_lock(&lock);
    of->next_freed = first_freed;
    first_freed = of;
    pthread_cond_signal(&has_gone);
    pthread_mutex_unlock(&lock);
}

/* ---- Threads ---- */

/* Starts a thread that hears no signal: they are the main thread's. */
static int start(void *(*run)(void *), const char *name) {
    sigset_t all, before;
    pthread_t made;
    int is_started;
    sigfillset(&all);
    pthread_sigmask(SIG_SETMASK, &all, &before);
    is_started = pthread_create(&made, NULL, run, NULL) == 0;
    pthread_sigmask(SIG_SETMASK, &before, NULL);
    if (is_started) {
        pthread_setname_np(made, name);
        pthread_detach(made);
    }
    return is_started;
}

void jobs_start(void) {
    long long at = 0;
    while (at < reader_threads && start(read_all, "map_reader"))
        at++;
    reader_threads = at;
    has_freer = start(free_all, "map_freer");
}

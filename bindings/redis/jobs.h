/* Work beside the main thread: long reads by threads of their own, each with a handle of its own, and a thread that frees what
 * nobody uses any more. */
#ifndef JOBS_H
#define JOBS_H

#include "map.h"
#include "server.h"

/* A read for a client that waits. `read` replies with a portion, and returns whether there is more. The handle is NULL where there
 * is no memory for one. Another thread may read the next portion. */
typedef struct read_job {
    struct read_job *next;
    int (*read)(struct read_job *it, RedisModuleCtx *ctx, hot_handle *handle);
    indexed_map *of;
    RedisModuleBlockedClient *client;
    RedisModuleCtx *ctx; /* of its reply; NULL until a thread begins */
    uint64_t bytes_left; /* of what the server lets a reply to this client have */
    int is_whole;        /* its rest goes in one portion, which may take long */
    int is_going;        /* one of the few whose replies grow at one time */
    atomic_int is_gone;  /* the client has left */
} read_job;

/* Takes bytes of a reply off what it may have. Returns why its rest is left out, or NULL if it goes on. */
const char *why_cut(read_job *it, uint64_t bytes);

/* What a thread reads of a job in one go. */
extern const portion read_portion;

extern atomic_ullong read_count, gone_count;

/* Whether the client of a command may wait: not in MULTI and scripts, nor where the command comes from another server or a file. */
int may_wait(RedisModuleCtx *ctx);

/* Whether the client of a command tracks keys. A job's reply would come behind what it is told of changes meanwhile, and the client
 * would keep that reply for good: so it is read for by the main thread. */
int is_tracking(RedisModuleCtx *ctx);

/* How many pairs a command has had the main thread go through in one go at most, if its client might have waited. */
extern unsigned long long most_at_once;
void note_at_once(uint64_t pairs);

/* How many threads read. It is set before they begin. */
extern long long reader_threads;
size_t jobs_threads(void);

/* Whether a job's rest may go in one portion: other threads are left for other reads. */
int may_read_whole(void);

/* Starts the threads, as far as the system lets it: what no thread does is left to the main one. */
void jobs_start(void);

/* Blocks the client until a read has ended, which is freed then. The map stays until then. Reads that no thread has begun go first.
 * Twice as many as there are threads go on by turns, so that few replies grow at one time. They have one turn of four at least. */
void jobs_read(RedisModuleCtx *ctx, read_job *it, indexed_map *of);

/* Has a map freed. */
void jobs_free(indexed_map *of);

#endif

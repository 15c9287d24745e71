/* Ranges of a map: how commands write them, and replies with their pairs or with their number. */
#ifndef RANGES_H
#define RANGES_H

#include "map.h"
#include "server.h"

/* What a command asks of a range. */
typedef struct range_request {
    key_range range;
    int is_empty; /* no field can be in it */
    int falls, with_values;
    int is_atomic;                      /* it is read at one moment, and so by the main thread */
    enum { LISTS, COUNTS, PAGES } what; /* PAGES are lists behind the cursor of the next one */
    uint64_t skip, limit;
} range_request;

/* A list of all pairs, but for the range. */
extern const range_request all_pairs;

/* Reads both ends, as ZRANGEBYLEX has them, or a prefix: 0 if they are wrong. */
int read_range(RedisModuleString *least, RedisModuleString *most, range_request *to);
int read_prefix(RedisModuleString *prefix, range_request *to);
int refuse_range(RedisModuleCtx *ctx);

/* What the main thread goes through in one go, and what it goes through where the client can't wait. */
extern const portion at_once, everything;

/* Whether the values of a map may have more bytes than the main thread goes through in one go. */
int may_be_heavy(const map *of);

/* Replies with what is asked of a map, or of none if it is NULL. A map with an index that may have more pairs of it than the main
 * thread goes through, or has more bytes, is read by a job, where the client may wait, tracks no keys, and asks for no moment. */
int reply_with_range(RedisModuleCtx *ctx, map *of, const range_request *asked);

/* Begins a reply with fields, or with pairs, which are a map in the protocol's third version. A length that is postponed is set in
 * the end. */
void begin_list(RedisModuleCtx *ctx, int with_values, long length);
void end_list(RedisModuleCtx *ctx, int with_values, uint64_t length);

/* Returns how many bytes the value has. */
size_t reply_with_word(RedisModuleCtx *ctx, word value);

/* A string of a command, and whether it is a word, in whatever case. */
field field_of(const RedisModuleString *of);
int is_word(const RedisModuleString *of, const char *expected);

#endif

/* An ordered map: one block while it is small, then a row of blocks, and else an index whose long values stand in memory of their
 * own.
 */
#ifndef MAP_H
#define MAP_H

#include "block.h"
#include "values.h"
#include <hot.h>
#include <stdatomic.h>

/* A small map has so many pairs and bytes at most: a look-up in it takes up to 1 us. A row becomes small again when it has half as
 * many pairs, which are a page. An index takes some 80 KB at least: see row.h for what has none. */
enum { SMALL_COUNT = 256, SMALL_BYTES = 65535, SMALL_AGAIN = SMALL_COUNT / 2 };

/* A pair of a block has so many bytes at most besides its value's. */
enum { PAIR_MORE = ENTRY_HEAD + HOT_MAX_KEY + PACKED_MORE };

/* A field or a value of a command. */
typedef struct field {
    const uint8_t *at;
    size_t length;
} field;

/* A map is one of three, as its form says: those below, or a row_map. */
enum form { SMALL, ROW, INDEXED };
typedef struct map {
    uint64_t number; /* see map_number; 0 until that is called */
    uint8_t form;
} map;

typedef struct small_map {
    uint64_t number;
    uint8_t form;
    uint16_t count, used;
    uint8_t bytes[];
} small_map;

/* A value that was taken out of an index, and by when. */
typedef struct retired {
    word value;
    hot_retirement moment;
} retired;

typedef struct indexed_map {
    uint64_t number;
    uint8_t form;
    atomic_uint uses; /* the key's, until it is deleted, and that of each job */
    hot_index *index;
    hot_handle handle;                        /* of the main thread, which makes all changes */
    uint64_t count, record_bytes, text_bytes; /* see pair_bytes */
    uint64_t most, most_bytes;                /* the most pairs, and bytes of records, that it has had */
    uint64_t row_at;                          /* with so many pairs it may be a row again */
    uint32_t next_look;                       /* after so many further new pairs the server is told what it takes */
    retired *gone;                            /* values that jobs may still read */
    size_t gone_first, gone_count, gone_room;
    void *told[2]; /* memory of the server that stands for the index's: see index_tell */
    size_t told_bytes;
    struct indexed_map *copy; /* what takes its place, once all pairs are there: see index_begin_copy */
    size_t rest_length;       /* it has all pairs below this field */
    uint8_t rest[HOT_MAX_KEY];
    struct indexed_map *next_freed; /* the next one that a job frees */
} indexed_map;

/* What a command sets: pairs, of all fields, or of those alone that are absent or held. */
typedef struct setting {
    const field *words; /* a field, its value, and so on */
    size_t count;
    enum { ANY_FIELD, ABSENT_FIELD, HELD_FIELD } which;
    uint64_t new_fields, set; /* how many fields were new, and how many got a value */
} setting;

/* These change a map, or make one if there is none yet. They write the map that takes its place: if that is another one, the old
 * one is as it was and is dropped by the caller, and a change that is refused leaves the old one as it was. A map may be left with
 * no pair. */

/* HOT_DONE; or HOT_NO_MEMORY, HOT_FULL_NODES or HOT_FULL_LEAVES, and then nothing is set. */
hot_status map_set(map *of, setting *it, map **made);

/* How many pairs one may go through, and how many bytes of them. The pair with which it comes to these bytes may have more. */
typedef struct portion {
    uint64_t pairs, bytes;
} portion;
void take_off(portion *from, size_t bytes);

/* Removes the first of the fields, as many as the portion has pairs and bytes left, or all from a small map. Adds how many were
 * there to `taken`, and returns how many these fields are. */
size_t map_take(map *of, const field *fields, size_t count, portion *left, uint64_t *taken, map **made);

/* A range of fields, both ends included, and a page of it. */
typedef struct key_range {
    size_t from_length, upto_length;
    uint8_t from[HOT_MAX_KEY], upto[HOT_MAX_KEY];
} key_range;
enum { PAGE = 128 };
typedef struct key_page {
    size_t count;
    uint32_t more;
    hot_head heads[PAGE];
    uint8_t bytes[PAGE * HOT_MAX_KEY];
} key_page;

void range_of_all(key_range *to);

/* The last field of a page that has pairs. */
field page_last(const key_page *page);

/* Leaves the pairs of a page, or their fields alone, that a portion has bytes for, and takes them off it. */
void page_cut(key_page *page, int with_values, portion *left);

/* Lists the first pairs of a range, PAGE or `limit` of them, or the last ones in falling order: HOT_DONE or HOT_NO_MEMORY. The
 * handle is of the map's index; another map needs none. Values that lead elsewhere are there until the map is changed, or for
 * another thread within a section of the handle. */
hot_status map_list(const map *of, hot_handle *handle, const key_range *range, int falls, size_t limit, key_page *page);

/* Counts the pairs of a range, as hot_count does. */
hot_status map_count(const map *of, hot_handle *handle, const key_range *range, size_t *count);

/* What is left of the range behind a page that has more: 0 if nothing. */
int range_go_on(key_range *range, int falls, const key_page *page);

/* The handle of the main thread; NULL of a map without an index. */
hot_handle *map_handle(map *of);

uint64_t map_length(const map *of);

/* The number of a map, which no other map of the server has or has had. A key has the same map as long as its map has the same
 * number: the map keeps it in either form, and a copy has another. */
uint64_t map_number(map *of);

/* Looks a field up: 1 if it is there. */
int map_get(map *of, field key, word *value);

/* The same of many, with a status for each. */
void map_get_many(map *of, hot_lookup *lookups, size_t count);

/* A map with an index of the pairs that `next` gives, in rising order; NULL if there is no memory. Of the words that it gives it
 * takes those that lead to memory of their own. A small one is made of a block. */
map *map_of_pairs(hot_source *next, void *context);
map *map_of_block(const uint8_t *bytes, size_t used, size_t count);

/* A copy, or NULL if there is no memory. */
map *map_copy(const map *of);

/* Drops a use of a map. Who drops the last one frees it, a map with an index by a job. */
void map_drop(map *of);

/* How many bytes of memory it takes. */
size_t map_bytes(const map *of);

/* Moves the blocks that lie where the server would rather have none, and returns the map, which may be moved, too. An index stays
 * where it is: other threads read it, and its long values. */
struct RedisModuleDefragCtx;
map *map_move(map *of, struct RedisModuleDefragCtx *ctx);

#endif

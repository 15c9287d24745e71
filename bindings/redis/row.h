/* Pairs in a row of blocks, in the order of their keys: what has too many for one block, and too few for an index. */
#ifndef ROW_H
#define ROW_H

#include "map.h"

/* A block of a row has so many pairs and bytes at most, or one pair. A value has so many bytes at most. A row has so many pairs and
 * bytes of blocks: the main thread reads them in one go. */
enum { ROW_BLOCK = 128, ROW_BLOCK_BYTES = 8 << 10, ROW_VALUE = 16 << 10, ROW_COUNT = 8192, ROW_BYTES = 1 << 20 };

/* No block is empty, and the first key of each is above all of the one before. */
typedef struct row_map {
    uint64_t number;
    uint8_t form;
    uint32_t count; /* of blocks */
    uint32_t pairs, bytes;
    small_map **blocks;
} row_map;

/* The room in which the main thread changes a block: for one of a small map and one pair more. */
extern uint8_t edited[];

/* A block of so many bytes, or NULL if there is no memory. */
small_map *block_make(const uint8_t *bytes, size_t used, size_t count);

/* A row of the pairs that `next` gives, in rising order; NULL if there is no memory, or these are too many or too long for one. */
row_map *row_new(hot_source *next, void *context);
row_map *row_copy(const row_map *of);
void row_free(row_map *of);

/* Sets pairs: HOT_DONE; or HOT_NO_MEMORY, or HOT_FULL_LEAVES if the row would be too large, and then nothing is set. */
hot_status row_set(row_map *of, setting *it);

/* Removes a field: 1 if it was there. It needs no memory. */
int row_take(row_map *of, field key);

/* Finds a key's packed value, or NULL. */
const uint8_t *row_get(const row_map *of, field key);

size_t row_bytes(const row_map *of);

/* These read a row of blocks, of which a small map is one. Listed are up to `limit` pairs behind those that are skipped. */
size_t blocks_count(small_map *const *blocks, size_t count, const key_range *range);
void blocks_list(small_map *const *blocks, size_t count, const key_range *range, int falls, size_t limit, key_page *to);

/* The pairs of a row of blocks as a source. Begin with the first two fields. */
typedef struct blocks_reader {
    small_map *const *at, *const *end;
    block_reader from;
} blocks_reader;
int next_of_blocks(void *context, const uint8_t **key, size_t *length, uint64_t *value);

#endif

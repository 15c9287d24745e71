/* Maps with an index. */
#ifndef INDEX_H
#define INDEX_H

#include "map.h"

/* What the module was told by its configuration. */
extern long long memory_limit; /* of all indexes, in bytes; 0 is none */

/* What it tells of itself. */
extern atomic_ullong index_count, index_bytes;

/* What a pair with a key of so many bytes takes of the records of an index, and what an index takes whose pairs take so much. */
size_t pair_bytes(size_t length);
size_t bytes_for(size_t record_bytes);

/* Whether so many bytes more would be more than the indexes may have. */
int is_over_limit(size_t more);

/* A map of pairs, as map_of_pairs makes it. */
indexed_map *index_new(hot_source *next, void *context);

/* Gives a field a value, as hot_upsert does, and tells the server from time to time what it takes. The value that it had is not
 * retired. */
hot_status index_put(indexed_map *of, field key, word value, word *had);

/* Removes a field: 1 if it was there. */
int index_take(indexed_map *of, field key, word *had);

/* Frees a value that is out of the index, once no job reads it. */
void index_retire(indexed_map *of, word value);

/* An index keeps its memory when pairs go. So one that has few of its pairs left is copied, page by page. Changes of what is copied
 * are made in the copy, too, which is given up if memory is refused to it, or there are many pairs again. */
int index_has_few(const indexed_map *of);
int index_begin_copy(indexed_map *of);
void index_end_copy(indexed_map *of);

/* Copies a portion. Returns the copy, once it has all, and else NULL. */
indexed_map *index_copy_on(indexed_map *of, portion left);

/* Tells the server how much memory an index takes. No call does that: so the server gives out as much, which is never used and
 * takes address space alone. So it counts in used_memory, keys are evicted for it, and deny-oom commands are refused. */
void index_tell(indexed_map *of);

/* Tells the server that its memory is on its way back: so no further key is evicted for it, and no change is refused. */
void index_leave(indexed_map *of);

/* Frees it at once. No job has it. */
void index_free(indexed_map *of);

size_t index_memory(const indexed_map *of);

#endif

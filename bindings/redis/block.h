/* Pairs packed in one block, in the order of their keys. It has an entry for each pair: how many bytes its key has in common with
 * the key before it, how many more it has, those, and the packed value. A small map is such a block, and a saved map is a row of
 * them. */
#ifndef BLOCK_H
#define BLOCK_H

#include "values.h"
#include <hot.h>

/* An entry has so many bytes besides its key's and its value's. */
enum { ENTRY_HEAD = 2 };

/* Reads the pairs of a block one by one. Begin with zeroed fields but the first two. */
typedef struct block_reader {
    const uint8_t *at, *end;
    size_t length; /* of the key */
    uint8_t key[HOT_MAX_KEY];
} block_reader;

/* Reads the next pair of a block that is known to be right. Returns its packed value, or NULL if there is no further pair. */
const uint8_t *block_next(block_reader *from);

/* The same of a block that may be damaged: 0 if what follows is no pair whose key is above the one before. The first one may have
 * any key if `is_first`. */
int block_check_next(block_reader *from, int is_first);

/* Writes an entry for a pair that follows a key, or that is the first if that has no bytes. Returns how many bytes it has. */
size_t block_write(uint8_t *to, const uint8_t *key, size_t length, const uint8_t *before, size_t before_length, text value);

/* Finds a key's packed value, or NULL. */
const uint8_t *block_get(const uint8_t *bytes, size_t used, const uint8_t *key, size_t length);

/* A block that is changed. Behind the bytes there must be room for one more pair. */
typedef struct block_edit {
    uint8_t *bytes;
    size_t used, count;
} block_edit;

/* Gives a key a value. */
void block_put(block_edit *of, const uint8_t *key, size_t length, text value);

/* Removes a key: 0 if it isn't there. */
int block_take(block_edit *of, const uint8_t *key, size_t length);

/* How many bytes two keys have in common at their beginning. */
size_t common_bytes(const uint8_t *one, size_t one_length, const uint8_t *other, size_t other_length);

#endif

/* A map to the measurements: the index, and what people use in its place. */
#ifndef BENCH_MAP_H
#define BENCH_MAP_H

#include "hot.h"
#include <stddef.h>
#include <stdint.h>

/* The longest key that there may be, and the most hands of one map. */
enum { MAP_LONGEST = 96, MAP_HANDS = 65 };

/* A key; its value is its number. */
typedef struct key {
    const uint8_t *bytes;
    uint32_t length, number;
} key;

/* A hand is what one thread uses a map by: each call returns whether the key had a value, and writes it. */
typedef struct map {
    const char *name;
    /* Makes a map and so many hands. The index is of this stock. */
    void (*make)(const hot_stock *stock, void **hands, int count);
    void (*end)(void **hands, int count);
    /* How many node records are in use; NULL if the map has none. */
    uint32_t (*nodes)(void *hand);
    int (*look_up)(void *hand, const key *key, uint64_t *had);
    int (*insert)(void *hand, const key *key, uint64_t *had);
    int (*upsert)(void *hand, const key *key, uint64_t *had);
    /* NULL if the map removes nothing while others use it. */
    int (*take_out)(void *hand, const key *key, uint64_t *had);
    /* Lists the first pairs from a key on, packed as by hot_scan_packed, and returns how many: `limit` at most. */
    size_t (*list)(void *hand, const key *from, uint8_t *bytes, hot_head *heads, size_t limit);
} map;

/* Those that were built, the index first; behind the last stands NULL. */
extern const map *const maps[];

#endif

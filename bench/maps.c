/* The maps that are measured: the index and, where they are built, a B-tree under a lock (TREE, bench/tree.rs) and the peers of
 * bench/peers (ART, BTREE, JUDY, SKIP_LIST, LMDB). */
#include "keys.h"
#include "map.h"
#include <sched.h>

/* How often a call is made again that found the index full. */
enum { MOST_TRIES = 1000000 };

/* The index: a hand is a handle. */

static void index_make(const hot_stock *stock, void **hands, int count)
{
    static hot_handle handles[MAP_HANDS];
    int place;
    must(hot_create_with(stock, handles, (size_t)count), HOT_DONE);
    for (place = 0; place < count; place++) {
        hands[place] = &handles[place];
    }
}

static void index_end(void **hands, int count)
{
    int place;
    for (place = 0; place < count; place++) {
        must(hot_destroy(hands[place]), HOT_DONE);
    }
}

static uint32_t index_nodes(void *hand)
{
    hot_counts counts;
    must(hot_census(hand, &counts), HOT_DONE);
    return counts.nodes.live;
}

static int index_look_up(void *hand, const key *key, uint64_t *had)
{
    return hot_get(hand, key->bytes, key->length, had) == HOT_FOUND;
}

/* Whether a call is to be made again: other threads' calls hold back the records that it lacks. */
static int is_full(hot_status status, int *tries)
{
    if (status != HOT_FULL_NODES && status != HOT_FULL_LEAVES) {
        return 0;
    }
    if (++*tries > MOST_TRIES) {
        must(status, HOT_DONE);
    }
    sched_yield();
    return 1;
}

static int index_insert(void *hand, const key *key, uint64_t *had)
{
    hot_status status;
    int tries = 0;
    do {
        status = hot_insert(hand, key->bytes, key->length, key->number, had);
    } while (is_full(status, &tries));
    return status == HOT_EXISTS;
}

static int index_upsert(void *hand, const key *key, uint64_t *had)
{
    hot_status status;
    int tries = 0;
    do {
        status = hot_upsert(hand, key->bytes, key->length, key->number, had);
    } while (is_full(status, &tries));
    return status == HOT_WAS;
}

static int index_take_out(void *hand, const key *key, uint64_t *had)
{
    hot_status status;
    int tries = 0;
    do {
        status = hot_remove(hand, key->bytes, key->length, had);
    } while (is_full(status, &tries));
    return status == HOT_REMOVED;
}

static size_t index_list(void *hand, const key *from, uint8_t *bytes, hot_head *heads, size_t limit)
{
    static const uint8_t last[9] = { 255, 255, 255, 255, 255, 255, 255, 255, 255 };
    size_t count;
    uint32_t more;
    must(hot_scan_packed(hand, from->bytes, from->length, last, sizeof last, bytes, limit * MAP_LONGEST, heads, limit, &count, &more),
         HOT_DONE);
    return count;
}

static const map index_map = { "index", index_make, index_end, index_nodes, index_look_up, index_insert, index_upsert, index_take_out,
    index_list };

#ifdef TREE

/* The tree: each hand is the tree. */

void *tree_create(void);
void tree_destroy(void *tree);
int tree_get(void *tree, const uint8_t *key, size_t length, uint64_t *had);
int tree_insert(void *tree, const uint8_t *key, size_t length, uint64_t value, uint64_t *had);
int tree_upsert(void *tree, const uint8_t *key, size_t length, uint64_t value, uint64_t *had);
int tree_remove(void *tree, const uint8_t *key, size_t length, uint64_t *had);
size_t tree_scan(void *tree, const uint8_t *from, size_t length, uint8_t *bytes, hot_head *heads, size_t limit);

static void tree_make(const hot_stock *stock, void **hands, int count)
{
    int place;
    (void)stock;
    hands[0] = tree_create();
    for (place = 1; place < count; place++) {
        hands[place] = hands[0];
    }
}

static void tree_end(void **hands, int count)
{
    (void)count;
    tree_destroy(hands[0]);
}

static int tree_look_up(void *hand, const key *key, uint64_t *had)
{
    return tree_get(hand, key->bytes, key->length, had);
}

static int tree_put_in(void *hand, const key *key, uint64_t *had)
{
    return tree_insert(hand, key->bytes, key->length, key->number, had);
}

static int tree_put(void *hand, const key *key, uint64_t *had)
{
    return tree_upsert(hand, key->bytes, key->length, key->number, had);
}

static int tree_take_out(void *hand, const key *key, uint64_t *had)
{
    return tree_remove(hand, key->bytes, key->length, had);
}

static size_t tree_list(void *hand, const key *from, uint8_t *bytes, hot_head *heads, size_t limit)
{
    return tree_scan(hand, from->bytes, from->length, bytes, heads, limit);
}

static const map tree_map = { "tree", tree_make, tree_end, NULL, tree_look_up, tree_put_in, tree_put, tree_take_out, tree_list };

#endif

extern const map art_map, btree_map, judy_map, skip_list_map, lmdb_map;

const map *const maps[] = {
    &index_map,
#ifdef TREE
    &tree_map,
#endif
#ifdef ART
    &art_map,
#endif
#ifdef BTREE
    &btree_map,
#endif
#ifdef JUDY
    &judy_map,
#endif
#ifdef SKIP_LIST
    &skip_list_map,
#endif
#ifdef LMDB
    &lmdb_map,
#endif
    NULL,
};

/* Shards: several indexes, each with the keys from its first key up to the next one's. A key has one home, so calls for it are as
 * those of one index; a scan goes from shard to shard, in key order. A shard may be an index of another process or machine as well.
 */
#include <hot.h>
#include <stdio.h>
#include <string.h>

enum { SHARDS = 3, ROOM = 16 };

static const char *const firsts[SHARDS] = {"", "g", "q"};
static hot_index *indexes[SHARDS];
static hot_handle handles[SHARDS];

static hot_handle *home(const char *key) {
    int at = SHARDS - 1;
    while (strcmp(key, firsts[at]) < 0)
        at--;
    return &handles[at];
}

/* Prints the first pairs of all shards, ROOM at most. A shard whose list was cut has more of them, so no later one is asked. */
static void show(void) {
    hot_pair pairs[ROOM];
    size_t listed = 0, count, at;
    uint32_t more = 0;
    int shard;
    for (shard = 0; shard < SHARDS && listed < ROOM && !more; shard++, listed += count) {
        if (hot_scan(&handles[shard], (const uint8_t *)"", 0, HOT_TO_END, pairs, ROOM - listed, &count, &more) != HOT_DONE)
            return;
        for (at = 0; at < count; at++)
            printf("%d: %.*s %lu\n", shard, (int)pairs[at].length, (const char *)pairs[at].key, (unsigned long)pairs[at].value);
    }
}

int main(void) {
    static const char *const keys[6] = {"quince", "fig", "pear", "almond", "grape", "plum"};
    int at, wrong = 0;
    for (at = 0; at < SHARDS; at++)
        if (hot_open_growing(NULL, SIZE_MAX, 1, &indexes[at]) != HOT_DONE || hot_open(indexes[at], &handles[at]) != HOT_DONE)
            return 1;
    for (at = 0; at < 6; at++)
        hot_upsert(home(keys[at]), (const uint8_t *)keys[at], strlen(keys[at]), (uint64_t)at, NULL);
    show();
    for (at = 0; at < SHARDS; at++)
        wrong |= hot_close(&handles[at]) || hot_close_index(indexes[at]);
    return wrong;
}

/* Ranks: the rank of a key is how many keys are below it. A count reads few of the keys that it counts, a seventh of what a scan of
 * them takes. Its time grows with their number all the same. */
#include <hot.h>
#include <stdio.h>
#include <string.h>

/* How many keys are below this one, which need not be in the index. */
static size_t rank_of(hot_handle *handle, const uint8_t *key, size_t length) {
    uint8_t last[HOT_MAX_KEY];
    size_t last_length, count;
    if (hot_before(key, length, last, &last_length) != HOT_DONE) /* no key is below the empty one */
        return 0;
    return hot_count(handle, (const uint8_t *)"", 0, last, last_length, &count) == HOT_DONE ? count : 0;
}

/* Scores as keys: eight bytes, the highest first, so that their order is that of the numbers. */
static void key_of(uint64_t score, uint8_t *key) {
    int place;
    for (place = 0; place < 8; place++)
        key[place] = (uint8_t)(score >> 8 * (7 - place));
}

int main(void) {
    static const uint64_t asked[4] = {0, 70, 3500, 9999};
    hot_index *index;
    hot_handle handle = HOT_HANDLE;
    uint8_t key[8];
    uint64_t score;
    size_t at;
    if (hot_open_growing(NULL, SIZE_MAX, 1, &index) != HOT_DONE || hot_open(index, &handle) != HOT_DONE)
        return 1;
    for (score = 0; score < 7000; score += 7) {
        key_of(score, key);
        hot_upsert(&handle, key, sizeof key, score, NULL);
    }
    for (at = 0; at < 4; at++) {
        key_of(asked[at], key);
        printf("%lu scores are below %lu\n", (unsigned long)rank_of(&handle, key, sizeof key), (unsigned long)asked[at]);
    }
    return hot_close(&handle) || hot_close_index(index);
}

/* A map of unknown size, which threads read and change. It begins small, and takes what its keys need. At the end most keys go, and once its
 * handles are closed, the memory with them. */
#define _POSIX_C_SOURCE 199309L
#include <hot.h>
#include <pthread.h>
#include <stdatomic.h>
#include <stdio.h>
#include <time.h>

enum { THREADS = 2, KEYS = 20000 };

static hot_index *map;

/* How many keys each writer has put in, and how many calls went wrong. */
static atomic_uint written[THREADS], wrong;

static void key_of(unsigned number, unsigned writer, uint8_t key[4]) {
    key[0] = (uint8_t)(number >> 16), key[1] = (uint8_t)(number >> 8), key[2] = (uint8_t)number, key[3] = (uint8_t)writer;
}

static void nap(void) {
    struct timespec time = {0, 100000};
    nanosleep(&time, NULL);
}

static void *write_keys(void *given) {
    unsigned writer = *(unsigned *)given, number;
    hot_handle handle = HOT_HANDLE;
    uint8_t key[4];
    wrong += hot_open(map, &handle) != HOT_DONE;
    for (number = 0; number < KEYS; number++) {
        key_of(number, writer, key);
        wrong += hot_upsert(&handle, key, sizeof key, number, NULL) != HOT_NEW;
        written[writer] = number + 1;
    }
    hot_close(&handle);
    return NULL;
}

/* Each key that was put in is there. */
static void *read_keys(void *given) {
    unsigned writer = *(unsigned *)given, turn, count = 0;
    hot_handle handle = HOT_HANDLE;
    uint8_t key[4];
    uint64_t value;
    wrong += hot_open(map, &handle) != HOT_DONE;
    for (turn = 0; count < KEYS; turn++) {
        count = written[writer];
        if (count == 0) {
            nap();
            continue;
        }
        key_of(turn % count, writer, key);
        wrong += hot_get(&handle, key, sizeof key, &value) != HOT_FOUND || value != turn % count;
    }
    hot_close(&handle);
    return NULL;
}

/* The bytes of the records that the map has committed. */
static size_t bytes_of(hot_handle *handle) {
    hot_counts counts;
    wrong += hot_census(handle, &counts) != HOT_DONE;
    return counts.bytes;
}

int main(void) {
    static unsigned numbers[THREADS] = {0, 1};
    pthread_t threads[2 * THREADS];
    hot_handle handle = HOT_HANDLE;
    size_t count, large;
    int at;
    if (hot_open_growing(NULL, SIZE_MAX, 2 * THREADS + 1, &map) != HOT_DONE || hot_open(map, &handle) != HOT_DONE)
        return 1;
    for (at = 0; at < 2 * THREADS; at++)
        if (pthread_create(&threads[at], NULL, at < THREADS ? write_keys : read_keys, &numbers[at % THREADS]) != 0)
            return 1;
    for (at = 0; at < 2 * THREADS; at++)
        pthread_join(threads[at], NULL);
    hot_len(&handle, &count);
    large = bytes_of(&handle);
    wrong += hot_clear_range(&handle, (const uint8_t *)"", 0, (const uint8_t *)"\0\116", 2) != HOT_DONE;
    wrong += hot_close(&handle) != HOT_DONE || hot_trim(map) != HOT_DONE || hot_open(map, &handle) != HOT_DONE;
    printf("%zu keys, and %u calls went wrong; trimmed, it has a %s of its bytes\n", count, (unsigned)wrong,
           bytes_of(&handle) < large / 10 ? "tenth" : "larger part");
    return hot_close(&handle) || hot_close_index(map);
}

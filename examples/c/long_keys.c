/* Keys of any length. One of 240 bytes and more shares the entry of its first 240 with all that begin so: that leads to a bucket, in which the rest of
 * each is sorted. A bucket never changes: a change makes a new one and exchanges it, and the old one goes when no reader is in it (hot_retired). */
#include <hot.h>
#include <stdio.h>
#include <stdlib.h>
#include <string.h>

/* What of a key is behind its first 240 bytes, and its value. */
typedef struct item {
    uint8_t *rest;
    size_t length;
    uint64_t value;
} item;

typedef struct bucket {
    size_t count;
    item items[];
} bucket;

static hot_handle handle = HOT_HANDLE;

static int compare(const item *one, const uint8_t *rest, size_t length) {
    int order = memcmp(one->rest, rest, one->length < length ? one->length : length);
    return order ? order : (one->length > length) - (one->length < length);
}

/* The place of the first item that is not below the rest of a key, and whether that is its own. */
static size_t find(const bucket *in, const uint8_t *rest, size_t length, int *is_there) {
    size_t low = 0, high = in != NULL ? in->count : 0;
    while (low < high) {
        size_t middle = (low + high) / 2;
        if (compare(&in->items[middle], rest, length) < 0)
            low = middle + 1;
        else
            high = middle;
    }
    *is_there = in != NULL && low < in->count && compare(&in->items[low], rest, length) == 0;
    return low;
}

/* Frees a bucket that was exchanged, once no reader has it. A program whose readers stay in sections for long puts it into a list, and looks at
 * it later. */
static void retire(bucket *old) {
    hot_retirement moment;
    if (hot_retired(&handle, &moment) == HOT_DONE)
        while (hot_is_past(&handle, &moment) == HOT_NOT_PAST)
            ;
    free(old);
}

/* A bucket with one item more, or with another value for one that there is; or NULL where memory is refused. */
static bucket *with(const bucket *old, const uint8_t *rest, size_t length, uint64_t value) {
    int is_there;
    size_t place = find(old, rest, length, &is_there), count = old != NULL ? old->count : 0;
    bucket *made = malloc(sizeof *made + (count + 1) * sizeof made->items[0]);
    if (made == NULL)
        return NULL;
    if (count > 0)
        memcpy(made->items, old->items, place * sizeof made->items[0]);
    if (is_there) {
        made->items[place] = old->items[place];
    } else {
        made->items[place].rest = malloc(length + 1);
        made->items[place].length = length;
        if (made->items[place].rest == NULL) {
            free(made);
            return NULL;
        }
        memcpy(made->items[place].rest, rest, length);
    }
    made->items[place].value = value;
    if (count > place)
        memcpy(&made->items[place + 1], &old->items[place + is_there], (count - place - is_there) * sizeof made->items[0]);
    made->count = count + !is_there;
    return made;
}

/* Gives a key its value. One thread at a time does, so that no other exchanges the bucket that it copies. */
static int put(const uint8_t *key, size_t length, uint64_t value) {
    uint64_t old = 0;
    bucket *made;
    if (length < HOT_MAX_KEY)
        return hot_upsert(&handle, key, length, value, NULL) < HOT_BUSY;
    if (hot_get(&handle, key, HOT_MAX_KEY, &old) != HOT_FOUND)
        old = 0;
    made = with((bucket *)(uintptr_t)old, key + HOT_MAX_KEY, length - HOT_MAX_KEY, value);
    if (made == NULL || hot_upsert(&handle, key, HOT_MAX_KEY, (uintptr_t)made, NULL) >= HOT_BUSY)
        return 0; /* the index has what it had */
    if (old != 0)
        retire((bucket *)(uintptr_t)old);
    return 1;
}

/* Looks a key up, inside a section, so that its bucket stays. */
static int get(const uint8_t *key, size_t length, uint64_t *value) {
    uint64_t found;
    int is_there;
    hot_enter(&handle);
    is_there = hot_get(&handle, key, length < HOT_MAX_KEY ? length : HOT_MAX_KEY, &found) == HOT_FOUND;
    if (is_there && length >= HOT_MAX_KEY) {
        const bucket *in = (const bucket *)(uintptr_t)found;
        size_t place = find(in, key + HOT_MAX_KEY, length - HOT_MAX_KEY, &is_there);
        found = is_there ? in->items[place].value : 0;
    }
    hot_leave(&handle);
    *value = found;
    return is_there;
}

/* Prints the values in the order of their keys, and frees the buckets. */
static int show(void *unused, const hot_pair *pair) {
    (void)unused;
    if (pair->length < HOT_MAX_KEY) {
        printf(" %lu", (unsigned long)pair->value);
    } else {
        bucket *in = (bucket *)(uintptr_t)pair->value;
        size_t place;
        for (place = 0; place < in->count; place++) {
            printf(" %lu", (unsigned long)in->items[place].value);
            free(in->items[place].rest);
        }
        free(in);
    }
    return 1;
}

int main(void) {
    static uint8_t key[1000];
    static const size_t lengths[6] = {1000, 240, 239, 500, 241, 1000};
    hot_index *index;
    uint64_t value = 0;
    size_t count = 0, at;
    if (hot_open_growing(NULL, SIZE_MAX, 1, &index) != HOT_DONE || hot_open(index, &handle) != HOT_DONE)
        return 1;
    memset(key, 'x', sizeof key);
    for (at = 0; at < 6; at++)
        if (!put(key, lengths[at], lengths[at] + at))
            return 1;
    key[999] = 'a';
    if (!put(key, 1000, 7) || !get(key, 1000, &value) || value != 7 || get(key, 999, &value))
        return 1;
    hot_len(&handle, &count);
    printf("%lu entries:", (unsigned long)count);
    hot_each(&handle, (const uint8_t *)"", 0, HOT_TO_END, show, NULL);
    putchar('\n');
    return hot_close(&handle) || hot_close_index(index);
}

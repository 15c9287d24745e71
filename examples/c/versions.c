/* Versions: behind each name its key has the time of the change, so that what was is still there. A reader takes a time, and sees all names as they
 * were then: a snapshot. Times are counted backwards, so the first key at or behind a name's time is its version of that time. */
#include <hot.h>
#include <stdio.h>
#include <string.h>

/* A name that is gone has this value. */
#define GONE UINT64_MAX

/* The key of a name with a time: the name, a 0 byte, which no name has, and the time, turned, the highest byte first. */
static size_t key_of(const char *name, uint64_t time, uint8_t *key) {
    size_t length = strlen(name) + 1;
    int place;
    memcpy(key, name, length);
    for (place = 7; place >= 0; place--)
        key[length++] = (uint8_t)(~time >> 8 * place);
    return length;
}

static hot_handle handle = HOT_HANDLE;

/* Who changes names takes a new time for each change. If there are several, each holds a lock from then until the key is in: else a version
 * could come behind a reader of its time. */
static void set(const char *name, uint64_t time, uint64_t value) {
    uint8_t key[HOT_MAX_KEY];
    size_t length = key_of(name, time, key);
    hot_upsert(&handle, key, length, value, NULL);
}

/* The value of a name at a time, or GONE. */
static uint64_t get(const char *name, uint64_t time) {
    uint8_t key[HOT_MAX_KEY];
    size_t length = key_of(name, time, key);
    hot_pair found;
    if (hot_first(&handle, key, length, &found) != HOT_FOUND || found.length != length || memcmp(found.key, key, length - 8) != 0)
        return GONE;
    return found.value;
}

/* Removes the versions of a name that no reader of this time or a later one sees. */
static void forget(const char *name, uint64_t time) {
    uint8_t key[HOT_MAX_KEY], last[HOT_MAX_KEY];
    size_t length = key_of(name, time, key), last_length = key_of(name, 0, last), from_length;
    hot_pair newest;
    if (hot_first(&handle, key, length, &newest) == HOT_FOUND && newest.length == length && memcmp(newest.key, key, length - 8) == 0 &&
        hot_after(newest.key, newest.length, key, &from_length) == HOT_DONE)
        hot_clear_range(&handle, key, from_length, last, last_length);
}

static void show(uint64_t time) {
    static const char *const names[2] = {"fig", "pear"};
    int at;
    printf("at %lu:", (unsigned long)time);
    for (at = 0; at < 2; at++) {
        uint64_t value = get(names[at], time);
        if (value != GONE)
            printf(" %s %lu", names[at], (unsigned long)value);
    }
    putchar('\n');
}

int main(void) {
    hot_index *index;
    uint64_t time;
    size_t count = 0;
    if (hot_open_growing(NULL, SIZE_MAX, 1, &index) != HOT_DONE || hot_open(index, &handle) != HOT_DONE)
        return 1;
    set("pear", 1, 10);
    set("fig", 2, 20);
    set("pear", 3, 11);
    set("fig", 4, GONE);
    for (time = 0; time <= 4; time++)
        show(time);
    forget("pear", 3);
    hot_len(&handle, &count);
    printf("%lu versions are left\n", (unsigned long)count);
    show(3);
    return hot_close(&handle) || hot_close_index(index);
}
